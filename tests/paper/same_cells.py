"""Document 02's 2.10, same ribbon, same cells, written once more beside reference.py.

As there, it is made from the papers alone. It has no call of its own: each sentence is a
function of what the other calls leave, be they the library's or the reference's.
"""

import copy
from collections import namedtuple
from functools import lru_cache

from paper import reference
from paper.reference import WORK_BYTES

# What Stores knows a head by: 'their cells, count and roots'.
Network = namedtuple("Network", "count cells roots")
# A filled table, and the network of it.
Head = namedtuple("Head", "table network")


# 'Stores wants to recognise heads by their cell list.'


@lru_cache(maxsize=64)
def filled_table(table, order):
    """Every output's bits when the table is filled under the order.

    Remembered, since each table is asked for by several calls.
    """
    return tuple(tuple(output) for output in reference.filled(table, order))


def network_held(state, roots, cells):
    """Section 4's network given: 'the cells numbered 1 to the state's count', and 'the
    first m roots'."""
    return Network(state.count, tuple(cells[: 3 * state.count]), tuple(roots[: state.m]))


def recognised(one, other):
    """'For the same n, m and order, two filled tables are equal if and only if their cells,
    count and roots are equal.'"""
    return (one.table == other.table) == (one.network == other.network)


# 'A pass with a larger limit never ends with more cells than the same pass with a smaller one.'


def end_of_pass(state, limit, values, care):
    """The cells of the order that a pass under the limit leaves; the state stays."""
    left, work = copy.deepcopy(state), bytearray(WORK_BYTES)
    reference.sift_pass(left, limit, values, care, work)
    return reference.count(left, values, care, work)[1]


def end_of_sift(state, sifted_input, values, care):
    """The same of a single sift."""
    left, work = copy.deepcopy(state), bytearray(WORK_BYTES)
    reference.sift(left, sifted_input, values, care, work)
    return reference.count(left, values, care, work)[1]


def never_more(ends):
    """Of pairs (limit, cells), the order found at the limit 0: no larger limit has more
    cells, and the same limit as many. So it is with turns in the place of limits."""
    by_limit = sorted(ends)
    return all(after[1] <= before[1] for before, after in zip(by_limit, by_limit[1:]))
