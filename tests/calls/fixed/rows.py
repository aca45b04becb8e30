"""Fixed evaluations of lists of rows, document 02's 2.1: lengths, rows out of range
wherever they stand, empty lists, repeated rows, and the sequence of the checks."""

import itertools

from calls import library
from calls.fixed.diagrams import SIXTEEN_ROOTS, changed, diagram, sound_diagrams
from calls.fixed.start import FOUR_CELLS_NUMBERS, NONE, WHOLE, Held
from calls.lent import lending
from calls.library import Call

BREACH = changed(FOUR_CELLS_NUMBERS, 0, NONE)
SHORT_ROOTS = WHOLE._replace(roots=15)


def asked(rng, rows, lent, note, more=0):
    """The list, with so many answers more than rows."""
    lending.lend_rows(rng, lent, rows, more)
    return Call("evaluate_rows", {}, lent, note)


def lengths(rng):
    """Answers as many as the rows, fewer and more."""
    for length in (0, 1, 2, 3, 16):
        for more in (-16, -15, -2, -1, 0, 1, 2, 100):
            if length + more >= 0:
                lent = diagram(rng, Held(m=16), roots=SIXTEEN_ROOTS)
                note = f"{length} rows, {length + more} answers"
                yield asked(rng, range(length), lent, note, more)


def beyond(rng):
    """A row out of range at each place of a list, and nothing but such rows."""
    for length, wrong in itertools.product((1, 2, 5), (16, 17, 256, 2**15 + 3, NONE)):
        for at in range(length):
            rows = changed([14, 3, 14, 0, 15][:length], at, wrong)
            yield asked(rng, rows, diagram(rng, Held()), f"row {at} is {wrong}", more=1)
        yield asked(rng, [wrong] * length, diagram(rng, Held()), f"rows {wrong}")
    for n, rows in ((0, [1]), (0, [0, 1]), (0, [0, 0]), (1, [1, 2]), (10, [1023, 1024, 0])):
        lent = diagram(rng, Held(n=n, count=0), roots=(1,))
        yield asked(rng, rows, lent, f"n {n}, rows {rows}")


def empty(rng):
    """An empty list is refused like any other, but for 8 and 31."""
    helds = [Held(), Held(stage=1), Held(stage=0), Held(stage=3), Held(n=11), Held(m=0)]
    helds += [Held(count=5), Held(count=0), Held(n=0, count=0)]
    lent_lengths = (WHOLE, WHOLE._replace(cells=11), SHORT_ROOTS)
    starts = itertools.product(helds, (FOUR_CELLS_NUMBERS, BREACH), lent_lengths, (0, 3))
    for held, numbers, lengths_lent, more in starts:
        lent = diagram(rng, held, numbers, lengths=lengths_lent)
        yield asked(rng, [], lent, f"no rows, {more} answers", more)


def sequences(rng):
    """Every choice of the five refusals, and which of the rows is out of range."""
    for at, due in itertools.product(range(3), itertools.product((0, 1), repeat=5)):
        short, few, table, out, breach = due
        held = Held(stage=1 if table else 2)
        numbers = BREACH if breach else FOUR_CELLS_NUMBERS
        lent = diagram(rng, held, numbers, lengths=SHORT_ROOTS if short else WHOLE)
        rows = changed([3, 2, 15], at, 16) if out else [3, 2, 15]
        note = f"10, 31, 22, 8, 24 due: {due}"
        yield asked(rng, rows, lent, note, more=-1 if few else 1)


def all_of(rng, lent, n, note):
    """All rows up, down and mixed, then twice over, and with one row beyond."""
    rows = list(range(2**n))
    mixed = rng.sample(rows, len(rows))
    for each in (rows, rows[::-1], mixed, mixed + rows):
        yield asked(rng, each, lent, f"{note}, all rows", more=rng.choice((0, 1)))
    yield asked(rng, mixed + [2**n], lent, f"{note}, the last row beyond")
    yield asked(rng, rows[-1:] * 300, lent, f"{note}, the last row 300 times", more=1)


def all_rows(rng):
    for note, lent in sound_diagrams(rng):
        yield from all_of(rng, lent, lent.contents["state"][library.N], note)


def longest(rng):
    """More rows than 16 bits count; cut to them, the answers would be enough."""
    for length, more in ((2**16, -(2**16)), (2**16 + 1, -(2**16)), (2**16 + 1, -1), (2**16 + 1, 0)):
        rows = [rng.randrange(4) for _ in range(length)]
        lent = diagram(rng, Held(n=2, count=1), [1, 0, 1])
        yield asked(rng, rows, lent, f"{length} rows, {length + more} answers", more)
        rows[-1] = 4
        yield asked(rng, rows, lent, f"{length} rows, the last one beyond", more)


def all_calls(rng):
    for calls in (lengths, beyond, empty, sequences, all_rows, longest):
        yield from calls(rng)
