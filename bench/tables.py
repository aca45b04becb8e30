"""The benchmark's tables: random ones, made from a seed that is their own name.

The same rows are free in all outputs of a table, since the tool that we are
measured against can't say more. Free rows have random values too, which
neither side may heed.
"""

import random
import sys
from collections import namedtuple
from pathlib import Path

sys.path.insert(0, str(Path(__file__).resolve().parent.parent / "tests"))

from making import table_files

# `values` has a list of bits for each output, `cared` the cared row numbers.
Table = namedtuple("Table", "n m percent values cared")


def random_table(n, m, percent):
    source = random.Random(f"{n} inputs, {m} outputs, {percent} % cared")
    rows = 2**n
    values = [[source.getrandbits(1) for _ in range(rows)] for _ in range(m)]
    cared = sorted(source.sample(range(rows), rows * percent // 100))
    return Table(n, m, percent, values, cared)


def care_bits(table):
    """A bit for each row of one output."""
    cared = set(table.cared)
    return [int(row in cared) for row in range(2**table.n)]


def file_of(table):
    values = [bit for output in table.values for bit in output]
    care = care_bits(table) * table.m
    return table_files.table_file(table.n, table.m, range(table.n), values, care)


def drawn_in_full(table, filled):
    """The table with other values and every row cared."""
    return table._replace(percent=100, values=filled, cared=list(range(2**table.n)))
