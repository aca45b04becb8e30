"""The header, the library's names, the examples in C and Python, and ./run."""
