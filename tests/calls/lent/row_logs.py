"""Makes what a log of rows is lent, document 02's 2.4: the rows, the counts, and a
least that goes by them.

As in lending.py all is random and dirty, and mostly not refused; the functions
named `spoil_..` make a refusal due.
"""

from calls import library
from calls.lent import lending
from calls.lent.lending import inputs_of
from calls.library import Call
from paper.row_log import MOST_RECORDS

# A least that asks for nothing, for little, or for more than is ever seen.
LEASTS = (0, 1, 1, 2, 3, 2**16, 2**31, MOST_RECORDS - 1, MOST_RECORDS)


# Counts.


def counts_of(rng, total, size):
    """So many counts of that sum: alike at first, then some of them poured together."""
    counts = [total // size + (row < total % size) for row in range(size)]
    for _ in range(rng.choice((0, 1, 4, 40))):
        source, target = rng.randrange(size), rng.randrange(size)
        most = min(counts[source], MOST_RECORDS - counts[target])
        moved = rng.choice((most, most, rng.randint(0, most)))
        counts[source] -= moved
        counts[target] += moved
    return counts


def total_near(rng, size, length):
    """A sum that such a list brings to the limit or beyond; some are small in 32 bits."""
    room = MOST_RECORDS - length
    totals = (room, room, room - 1, room + 1, room + 1, MOST_RECORDS, MOST_RECORDS + 1)
    further = (2**32 + rng.randrange(9), 2**33, size * MOST_RECORDS)
    return min(rng.choice(totals + further), size * MOST_RECORDS)


def counts_near(rng, size, length):
    """None seen, few, as many as fit, or a sum near the limit."""
    choice = rng.random()
    if choice < 0.25:
        return [0] * size
    if choice < 0.6:
        return [rng.randrange(4) for _ in range(size)]
    if choice < 0.75:
        return [rng.randrange(2**32 // size - length) for _ in range(size)]
    return counts_of(rng, total_near(rng, size, length), size)


def lend_counts(rng, lent, counts, more=0):
    """The counts, and dirt behind them: so many more are lent, or with -1 one fewer."""
    behind = lending.dirty(rng, "counts", max(more, 0) + lending.SPARE)
    lent.put("counts", library.new_buffer("counts", counts) + behind, len(counts) + more)


def lend_counts_near(rng, lent):
    counts = counts_near(rng, 2 ** inputs_of(lent), lent.lengths["rows"])
    lend_counts(rng, lent, counts, rng.choice((0, 0, 1, rng.randrange(lending.SPARE))))


def keep_counts(rng, lent):
    """Mostly the counts that the last log left, where they are enough."""
    size = 2 ** inputs_of(lent)
    held = len(lent.contents.get("counts", ()))
    if held <= size or rng.random() < 0.2:
        lend_counts_near(rng, lent)
    else:
        lent.lengths["counts"] = min(size + rng.choice((0, 0, 1)), held - 1)


# Numbers and calls.


def reached(lent, row):
    """The row's count after the log."""
    return lent.contents["counts"][row] + list(lent.part("rows")).count(row)


def least_near(rng, lent):
    """At or beside a count that the log reaches, or one at an end."""
    if rng.random() < 0.4:
        return rng.choice(LEASTS)
    size = 2 ** inputs_of(lent)
    listed = [row for row in lent.part("rows") if row < size]
    row = rng.choice(listed + [rng.randrange(size)])
    return min(max(reached(lent, row) + rng.choice((-1, 0, 0, 1)), 0), MOST_RECORDS)


def call_near(rng, lent, note):
    """A log on what is lent; counts of an earlier one are mostly kept."""
    lending.lend_rows_near(rng, lent, inputs_of(lent))
    keep_counts(rng, lent)
    return Call("log_rows", {"least": least_near(rng, lent)}, lent, note)


# Refusals.


def spoil_counts(rng, lent):
    """Fewer than 2^n of them, mostly by one."""
    lent.lengths["counts"] = lending.short_length(rng, 2 ** inputs_of(lent))


def spoil_records(rng, lent):
    """Too many records: by one, by a list alone, or by so many that 32 bits hide it."""
    size, length = 2 ** inputs_of(lent), lent.lengths["rows"]
    first = MOST_RECORDS - length + 1
    further = (first, MOST_RECORDS, MOST_RECORDS + 1, 2**32 + rng.randrange(9), 2**34)
    total = min(max(first, rng.choice(further)), size * MOST_RECORDS)
    counts = library.new_buffer("counts", counts_of(rng, total, size))
    lent.contents["counts"][:size] = counts
