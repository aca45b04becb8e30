"""The cases, in groups: each a file, the script of calls that it is put through, and the programs that are given it."""
