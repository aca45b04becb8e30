"""Makes what the comparisons are given: tables, networks, the files of both, and damages to them."""
