"""The drawings, table files and network files in examples/ held to each other and to the reference."""
