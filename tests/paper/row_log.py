"""Document 02's 2.4, free rows from the floor's record, written once more beside
reference.py.

As there, it is made from the papers alone. Rows hold 16-bit numbers, counts
32-bit ones and care bytes; `least` is the paper's r.
"""

from paper import reference
from paper.network_file import packed
from paper.reference import NOTHING, TABLE_BYTES

MOST_RECORDS = 4294967295


def records(state, counts):
    """'Records read so far means their sum', that of the 2^n counts."""
    return sum(counts[: 2**state.n])


def count_rows(rows, counts):
    """Each count rises by exactly the times its row is in the list."""
    for row in rows:
        counts[row] += 1


def care_by(state, least, counts):
    """'A row is cared for all outputs if seen at least r times, else free.'"""
    by_row = [1 if counts[row] >= least else 0 for row in range(2**state.n)]
    return by_row * state.m


def log_rows(state, rows, least, counts, care):
    if len(care) < TABLE_BYTES:
        return 10, 0
    if reference.stage_of(state) == NOTHING:
        return 21, 0
    if len(counts) < 2**state.n:
        return 10, 0
    if any(row >= 2**state.n for row in rows):
        return 8, 0
    if records(state, counts) + len(rows) > MOST_RECORDS:
        return 33, 0
    count_rows(rows, counts)
    reference.write_stream(care, packed(care_by(state, least, counts)))
    reference.leave_table(state, reference.used_order(state))
    return 0, 0
