"""Tests of the package and of the command over it, in folders as the package's own."""
