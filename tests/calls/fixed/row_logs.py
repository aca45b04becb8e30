"""Fixed logs of rows, document 02's 2.4: lengths, sums of counts at and around the
limit, the least at and around each count, every n and m, rows out of range wherever
they stand, empty and long lists, logs in turn, and the sequence of the checks."""

import itertools

from calls.fixed.diagrams import changed
from calls.fixed.start import NONE, WHOLE, Held, lent_with
from calls.lent import lending, row_logs
from calls.lent.lending import HUGE
from calls.library import Call
from paper.row_log import MOST_RECORDS

TABLE_HELD = Held(stage=1, count=0)
WILD = Held(m=3, order=(3, 1, 0, 2, 0, 3, 99, HUGE, 3, 3), count=HUGE)
# Around what 8, 16, 24 and 31 bits hold, and so much that the sum is near the limit.
STEPS = [0, 1, 2, 3, 254, 255, 256, 257, 65534, 65535, 65536, 65537, 2**24 - 1, 2**24]
STEPS += [2**31 - 1, 2**31 - 2**25 - 2**19]


def asked(rng, lent, rows, counts, least, note, more=0):
    """The list and the counts, of which so many more are lent, or with -1 one fewer."""
    lending.lend_rows(rng, lent, rows)
    row_logs.lend_counts(rng, lent, counts, more)
    return Call("log_rows", {"least": least}, lent, note)


def lengths(rng):
    """Counts as many as rows, fewer and more; care around its 2,048 bytes."""
    for n, held in itertools.product((0, 1, 2, 4, 9, 10), (Held(), TABLE_HELD, Held(stage=0))):
        for length in {0, 1, 2**n // 2, 2**n - 1, 2**n, 2**n + 1, 2**n + 9, 1024, 1025}:
            lent = lent_with(rng, held._replace(n=n))
            note = f"n {n}, {length} counts"
            yield asked(rng, lent, [0, 0], [row % 4 for row in range(2**n)], 2, note, length - 2**n)
    for length, held in itertools.product((0, 2, 2047, 2048, 2049, 2057), (Held(), WILD, Held(n=11))):
        lent = lent_with(rng, held, WHOLE._replace(care=length))
        yield asked(rng, lent, [3, 14], [0] * 16, 1, f"care of {length}")


# Sums.


def loaded(total, size):
    """Counts of that sum: alike, in one row as far as one holds it, in two, in the last ones."""
    alike = [total // size + (row < total % size) for row in range(size)]
    filled = [min(MOST_RECORDS, max(0, total - MOST_RECORDS * row)) for row in range(size)]
    two = [(total + 1) // 2, total // 2] + [0] * (size - 2)
    made = [alike, filled, filled[::-1]]
    return made + [two] if size > 1 and max(two) <= MOST_RECORDS else made


def sums(rng):
    """At the limit, one below and one above, by the counts, by the list and by both."""
    lists = ([], [0], [1, 0], [1, 1, 1], [0, 1] * 8)
    for n, rows, more in itertools.product((0, 1, 2, 4), lists, (-1, 0, 1)):
        rows = [row % 2**n for row in rows]
        total = min(MOST_RECORDS - len(rows) + more, MOST_RECORDS * 2**n)
        for counts in loaded(total, 2**n):
            for least in (1, MOST_RECORDS):
                note = f"{total} records and {len(rows)} rows"
                yield asked(rng, lent_with(rng, Held(n=n)), rows, counts, least, note)


def large_sums(rng):
    """Sums that 32 bits don't hold, most of them small when cut to 32."""
    totals = [2**32, 2**32 + 1, 2**32 + 5, 2**33 - 2, 2**33 - 1, 2**33, 2**33 + 7, 2**34]
    for n, rows, total in itertools.product((1, 2, 4, 10), ([], [1], [0, 1, 1]), totals):
        if total <= MOST_RECORDS * 2**n:
            for counts in loaded(total, 2**n):
                note = f"n {n}, {total} records"
                yield asked(rng, lent_with(rng, Held(n=n)), rows, counts, 1, note)
    for n in range(11):
        counts = [MOST_RECORDS] * 2**n
        yield asked(rng, lent_with(rng, Held(n=n)), [], counts, 1, f"n {n}, all counts full")


def past(rng):
    """Counts past 2^n are lent and full, and neither summed nor changed."""
    for n, rows, full in itertools.product((0, 1, 3), ([], [0], [0, 0, 0]), (1, 2, 9)):
        for room in (MOST_RECORDS, len(rows), len(rows) - 1):
            counts = [MOST_RECORDS - max(room, 0)] + [0] * (2**n - 1) + [MOST_RECORDS] * full
            note = f"n {n}, {full} full counts behind"
            yield asked(rng, lent_with(rng, Held(n=n)), rows, counts, 1, note)


def by_one_row(rng):
    """One count full and the others zero: no row more, not even another one."""
    for full, rows in itertools.product(range(4), ([], [0], [1], [2], [3], [3, 2, 1, 0])):
        counts = changed([0] * 4, full, MOST_RECORDS)
        for least in (0, 1, MOST_RECORDS):
            note = f"row {full} full, rows {rows}"
            yield asked(rng, lent_with(rng, Held(n=2)), rows, counts, least, note)


# The least, and care.


def leasts(rng):
    """At each count, one above and one below, and the same with rows that add one or two."""
    lists = ([], list(range(16)), [4, 4, 7, 11, 11, 15])
    near = {min(max(step + more, 0), MOST_RECORDS) for step in STEPS for more in range(-1, 4)}
    for rows, least in itertools.product(lists, sorted(near | {MOST_RECORDS - 1, MOST_RECORDS})):
        yield asked(rng, lent_with(rng, WILD), rows, STEPS, least, f"least {least}")


def sizes(rng):
    """Every n and m: where each output's rows lie in care, and the rest of it zero."""
    for n, m in itertools.product(range(11), range(1, 17)):
        counts = [rng.randrange(3) for _ in range(2**n)]
        rows = [rng.randrange(2**n) for _ in range(n)]
        held = Held(n=n, m=m, stage=rng.choice((1, 2)))
        yield asked(rng, lent_with(rng, held), rows, counts, rng.choice((1, 2)), f"n {n}, m {m}")


def old_care(rng):
    """The new care replaces the old: all ones, all zeros, and the same log again."""
    for byte, least in itertools.product((0, 0xFF), (0, 1, 2, 3, MOST_RECORDS)):
        lent = lent_with(rng, WILD)
        lent.contents["care"][:] = bytes([byte]) * len(lent.contents["care"])
        yield asked(rng, lent, [5, 9, 9], [1] + [0] * 15, least, f"old care {byte}")
        yield Call("log_rows", {"least": least}, lent, f"old care {byte}, once more")


# Lists.


def beyond(rng):
    """A row out of range at each place of a list, and nothing but such rows."""
    for length, wrong in itertools.product((1, 2, 5), (16, 17, 256, 2**15 + 3, NONE)):
        for at in range(length):
            rows = changed([14, 3, 14, 0, 15][:length], at, wrong)
            note = f"row {at} is {wrong}"
            yield asked(rng, lent_with(rng, Held()), rows, [0] * 16, 1, note, more=5)
    for n, rows in ((0, [1]), (0, [0, 1]), (0, [0, 0]), (1, [1, 2]), (10, [1023, 1024, 0])):
        yield asked(rng, lent_with(rng, Held(n=n)), rows, [1] * 2**n, 2, f"n {n}, rows {rows}")


def states(rng):
    """Empty lists and others, whatever stage, count and order are held."""
    helds = [Held(), TABLE_HELD, WILD, Held(stage=1, count=7), Held(n=0, count=HUGE), Held(m=16)]
    helds += [Held(stage=0), Held(stage=3), Held(n=11), Held(m=0), Held(m=17), Held(order=(0,) * 10)]
    for held, rows, least in itertools.product(helds, ([], [0], [0, 0, 0]), (0, 1, 2)):
        size = 2 ** min(held.n, 10)
        lent = lent_with(rng, held)
        yield asked(rng, lent, rows, [row % 3 for row in range(size)], least, f"{rows} to {held}")


def long_lists(rng):
    """More rows than there are, and more than 16 bits count; at the limit and one beyond."""
    for length in (5, 300, 2**16 - 1, 2**16, 2**16 + 1, 3 * 2**16):
        rows = [rng.choice((0, 1, 1, 3)) for _ in range(length)]
        for first in (0, MOST_RECORDS - length, MOST_RECORDS - length + 1):
            counts, least = [0, 0, first, 0], rows.count(1)
            for each in (least, least + 1):
                note = f"{length} rows, {first} before"
                yield asked(rng, lent_with(rng, Held(n=2)), rows, counts, each, note)
        lent = lent_with(rng, Held(n=2))
        yield asked(rng, lent, rows[:-1] + [4], [0] * 4, 1, f"{length} rows, the last one beyond")


def all_rows(rng):
    """Ten inputs: all rows up, down, twice over, and with one beyond."""
    rows = list(range(1024))
    mixed = rng.sample(rows, len(rows))
    for each in (rows, rows[::-1], mixed + rows, mixed + [1024], rows[-1:] * 300):
        lent = lent_with(rng, Held(n=10, m=16))
        yield asked(rng, lent, each, [0] * 1024, 2, f"{len(each)} rows of ten inputs")


# Several refusals, and several logs.


def sequences(rng):
    """Every choice of refusals: the state's length, care, 21, counts, 8 and 33."""
    for due in itertools.product((0, 1), repeat=6):
        state, care, words, few, out, many = due
        lent_lengths = WHOLE._replace(state=40 - state, care=2048 - care)
        counts = [MOST_RECORDS - 2 + many] + [0] * 15
        broken = (Held(stage=0), Held(m=0), Held(order=(1, 1, 0, 2) + (0,) * 6))
        for held, at in itertools.product(broken if words else (Held(), TABLE_HELD), range(2)):
            rows = changed([3, 15], at, 16) if out else [3, 15]
            lent = lent_with(rng, held, lent_lengths)
            note = f"10, 10, 21, 10, 8, 33 due: {due}"
            yield asked(rng, lent, rows, counts, 1, note, more=-few)


def same_logs(rng):
    """Two logs in either sequence and one of both lists, from the same counts."""
    pairs = [([], [0, 5]), ([0, 5], [5, 0]), ([1, 1, 2], [2, 3, 3, 3]), ([15] * 9, [0] * 4)]
    for (first, second), least in itertools.product(pairs, (0, 1, 2, 3, 9)):
        lent = lent_with(rng, WILD)
        row_logs.lend_counts(rng, lent, [row % 2 for row in range(16)])
        for lists in ((first, second), (second, first), (first + second,), (first, second, [])):
            copied = lent.copy(lent.contents)
            for rows in lists:
                lending.lend_rows(rng, copied, rows)
                yield Call("log_rows", {"least": least}, copied, f"{rows} of {lists}")


def in_turn(rng):
    """Logs and what goes by their care, on section 9's table, its counts zero at first."""
    lent = lent_with(rng, WILD._replace(m=1))
    row_logs.lend_counts(rng, lent, [0] * 16)
    between = ("cared", "count", "build", "evaluate", "write_cells", "sift", "pass", "swap")
    numbers = {"evaluate": {"row": 3}, "sift": {"input": 1}, "pass": {"limit": 8}, "swap": {"place": 0}}
    lists = [([], 1), ([3, 12, 15], 1), ([3, 3], 2), ([], 1), ([], 4), ([0, 16], 1), ([], 0)]
    for rows, least in lists + [(list(range(16)), 2), ([7] * 40, 41), ([], 3)]:
        lending.lend_rows(rng, lent, rows)
        yield Call("log_rows", {"least": least}, lent, f"in turn, {rows}, least {least}")
        lending.lend_file_space(rng, lent)
        for name in between:
            yield Call(name, numbers.get(name, {}), lent, f"after {rows}, least {least}")
        yield Call("build", {}, lent, f"after {rows}, least {least}")


def after_a_file(rng):
    """Counts that a log of a larger table left, after a file with fewer rows."""
    lent = lent_with(rng, Held(n=10, m=2))
    yield asked(rng, lent, [0, 15, 16, 1023], [0] * 1024, 1, "n 10")
    yield Call("load", {}, lent, "between logs")
    for rows, least in (([], 1), ([15, 15], 3), ([16], 0)):
        lending.lend_rows(rng, lent, rows)
        yield Call("log_rows", {"least": least}, lent, "n 4, on the counts of n 10")
        yield Call("count", {}, lent, "n 4, on the counts of n 10")


def limits(rng):
    for calls in (lengths, sums, large_sums, past, by_one_row):
        yield from calls(rng)


def others(rng):
    for calls in (leasts, sizes, old_care, beyond, states, long_lists, all_rows):
        yield from calls(rng)


def several(rng):
    for calls in (sequences, same_logs, in_turn, after_a_file):
        yield from calls(rng)


CHUNKS = [limits, others, several]
