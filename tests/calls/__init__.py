"""Every call of the shared library compared with the reference."""
