"""The crates' own texts, held to what the pages say of them."""
