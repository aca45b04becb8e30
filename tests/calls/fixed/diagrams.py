"""Fixed evaluations: diagrams that break a rule of number 24, or that no build makes."""

from calls import library
from calls.fixed.start import FOUR_CELLS_NUMBERS, NATURAL, NONE, WHOLE, Held, lent_with
from calls.lent.lending import HUGE
from calls.library import Call

# Of the four cells, one number changed: of cell 1 it is 0, 1 or 2, of cell 4 it is 9, 10 or 11.
CELL_BREACHES = [
    ("first place n", 0, 4), ("last place n", 9, 4), ("last place 65535", 9, NONE),
    ("first 0-arrow 9", 1, 9), ("first 0-arrow 10", 1, 10), ("first 1-arrow 10", 2, 10),
    ("last 0-arrow 10", 10, 10), ("last 1-arrow 10", 11, 10),
    ("last 1-arrow 65535", 11, NONE), ("first 0-arrow to itself", 1, 2),
    ("first 1-arrow to itself inverted", 2, 3), ("last 0-arrow to itself", 10, 8),
    ("last 1-arrow to itself inverted", 11, 9),
    ("first 1-arrow to a cell of its place", 3, 0),
    ("last 0-arrow to the place before", 10, 6), ("last 1-arrow to the first place", 11, 2),
]
# The same four cells, numbered from the last place.
TURNED = [3, 0, 1, 2, 0, 2, 1, 4, 1, 0, 4, 6]
MORE_CELLS = [3, 0, 1, 2, 11, 16, 0, 13, 6, 3, 1, 1]
SIXTEEN_ROOTS = [2, 3, 0, 1, 4, 5, 6, 7, 8, 9, 9, 1, 0, 3, 6, 8]


def changed(numbers, at, number):
    return numbers[:at] + [number] + numbers[at + 1 :]


def diagram(rng, held, numbers=FOUR_CELLS_NUMBERS, roots=(2,), lengths=WHOLE):
    """The cells' numbers and the first roots; behind them, as elsewhere, dirt."""
    lent = lent_with(rng, held, lengths)
    lent.contents["cells"][: len(numbers)] = library.new_buffer("cells", numbers)
    lent.contents["roots"][: len(roots)] = library.new_buffer("roots", roots)
    return lent


def asked(row, lent, note):
    return Call("evaluate", {"row": row}, lent, note)


def cell_breaches(rng):
    for note, at, number in CELL_BREACHES:
        yield asked(15, diagram(rng, Held(), changed(FOUR_CELLS_NUMBERS, at, number)), note)
    for note, at, number in (("to the place before", 1, 4), ("to the first place", 2, 9)):
        numbers = changed(TURNED, at, number)
        yield asked(15, diagram(rng, Held(), numbers, (8,)), f"turned, an arrow {note}")


def root_breaches(rng):
    for root in (9, 10, NONE):
        yield asked(15, diagram(rng, Held(), roots=(root,)), f"root {root}")
    for at in (0, 15):
        roots = changed(SIXTEEN_ROOTS, at, 10)
        yield asked(15, diagram(rng, Held(m=16), roots=roots), f"root {at} of sixteen 10")


def count_breaches(rng):
    counts = [
        (4, 12), (4, 11), (4, 0), (5, 14), (5, 15), (3, 24), (0, 24),
        (2**63, 24), ((2**64 + 2) // 3, 24), (HUGE, 24), (2**32 + 4, 24),
    ]
    for counted, numbers in counts:
        lent = diagram(rng, Held(count=counted), lengths=WHOLE._replace(cells=numbers))
        yield asked(15, lent, f"{counted} counted, {numbers} numbers")
    yield asked(0, diagram(rng, Held(n=0, count=1), [0, 0, 1]), "n 0, one cell")


def sequences(rng):
    """A cell with a breach, and of the refusals before it one or more."""
    no_cells, short = WHOLE._replace(cells=0), WHOLE._replace(roots=15)
    refused = [
        ("row 15", Held(), 15, WHOLE), ("row 16", Held(), 16, WHOLE),
        ("row 16, no cells", Held(), 16, no_cells),
        ("row 15, roots short", Held(), 15, short), ("row huge", Held(), HUGE, WHOLE),
        ("row huge, table", Held(stage=1), HUGE, WHOLE),
        ("row huge, nothing", Held(stage=0), HUGE, WHOLE),
        ("row huge, n 11", Held(n=11), HUGE, WHOLE),
        ("row huge, n 11, roots short", Held(n=11), HUGE, short),
    ]
    for note, held, row, lengths in refused:
        lent = diagram(rng, held, changed(FOUR_CELLS_NUMBERS, 0, NONE), lengths=lengths)
        yield asked(row, lent, f"a breach, {note}")


def sound_diagrams(rng):
    """Most of them are such that no build makes them."""
    no_cells = WHOLE._replace(cells=0)
    other_order = Held(order=[2, 0, 3, 1, HUGE, 0, 0, 1, 1, 7])
    eight = FOUR_CELLS_NUMBERS + MORE_CELLS
    return [
        ("as built", diagram(rng, Held())),
        ("order 2 0 3 1", diagram(rng, other_order)),
        ("turned", diagram(rng, Held(), TURNED, (8,))),
        ("sixteen outputs", diagram(rng, Held(m=16), roots=SIXTEEN_ROOTS)),
        ("an odd 0-arrow", diagram(rng, Held(), changed(FOUR_CELLS_NUMBERS, 1, 7))),
        ("arrows alike", diagram(rng, Held(), changed(FOUR_CELLS_NUMBERS, 1, 4))),
        ("eight cells", diagram(rng, Held(m=2, count=8), eight, (2, 15))),
        ("no cells", diagram(rng, Held(m=2, count=0), roots=(1, 0), lengths=no_cells)),
        ("n 0", diagram(rng, Held(n=0, m=2, count=0), roots=(1, 0))),
    ]


def wasteful(rng):
    """Each at every row and the one behind."""
    for note, lent in sound_diagrams(rng):
        for row in range(17):
            yield asked(row, lent, note)


def longest(rng):
    """More cells than a 16-bit reference can name, and the last that it can."""
    for count in (32766, 32767, 32768, 40000):
        held = Held(n=2, m=2, order=NATURAL, count=count)
        numbers = [1, 1, 0] * count
        numbers[:3] = [0, NONE, 1]
        lengths = WHOLE._replace(cells=3 * count)
        for roots in ((2, NONE), (NONE - 1, 3)):
            yield asked(1, diagram(rng, held, numbers, roots, lengths), f"{count} cells")


def all_calls(rng):
    for calls in (cell_breaches, root_breaches, count_breaches, sequences, wasteful, longest):
        yield from calls(rng)
