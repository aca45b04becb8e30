"""What a case of the comparison is, and words for its script."""

from collections import namedtuple

# A file, the script of calls that it is put through, and the programs that are given it.
Case = namedtuple("Case", "file command programs", defaults=((),))

PROGRAMS = ("print", "cells")
LARGEST = 2**32 - 1


def for_all(file, command):
    """A case for the programs too."""
    return Case(file, command, PROGRAMS)


def list_of(rows):
    return ",".join(str(row) for row in rows)
