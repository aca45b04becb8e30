"""Makes sure that `&ttopt` got the same table and solves the same problem."""

import itertools
from unittest import mock

import tables

from making import table_files
from paper import reference

# With this many inputs all orders are tried, in a second or two.
FEW_INPUTS = 6


def check(table, filled):
    """Holds what `&ttopt` filled to the table that it should have got."""
    cared, agreeing = set(table.cared), agreeing_rows(table, filled)
    if not cared <= agreeing:
        raise ValueError("a cared row was changed")
    if len(agreeing - cared) > most_by_chance(table):
        raise ValueError("a free row was not taken as free")
    if table.n <= FEW_INPUTS and not is_our_filling(table, filled):
        raise ValueError("no order gives this filling")


def agreeing_rows(table, filled):
    """The rows that are as drawn in all outputs."""
    drawn, given = zip(*table.values, strict=True), zip(*filled, strict=True)
    pairs = enumerate(zip(drawn, given, strict=True))
    return {row for row, (wanted, bits) in pairs if wanted == bits}


def most_by_chance(table):
    """How many free rows may agree: their values were drawn at random."""
    free = 2**table.n - len(table.cared)
    return 1 + 3 * free / 2**table.m


def is_our_filling(table, filled):
    """Whether some order fills the table just so, by the paper's section 3.

    `&ttopt` fills as section 3 did before document 02's 2.6.
    """
    values = table_files.packed([bit for output in table.values for bit in output])
    care = table_files.packed(tables.care_bits(table) * table.m)
    drawn = reference.Table(table.n, table.m, values, care)
    orders = itertools.permutations(range(table.n))
    with mock.patch.object(reference, "HALVES_FIRST", False):
        return any(reference.filled(drawn, order) == under(order, filled) for order in orders)


def under(order, outputs):
    """Outputs with their rows by the order's places."""
    rows = [reference.row_in_file(row, order) for row in range(2 ** len(order))]
    return [[output[row] for row in rows] for output in outputs]
