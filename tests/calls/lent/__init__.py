"""What the calls are lent: sound and dirty, or spoilt so that a refusal is due."""
