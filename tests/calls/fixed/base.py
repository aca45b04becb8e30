"""The fixed calls of document 01: states, lengths, sizes, numbers at their limits, table
files and their damages; and of every call each choice of refusals at once."""

import functools
import itertools

from calls import library
from calls.fixed import rows
from calls.fixed.start import (
    CONSTANTS, FREE_ROWS, INSIDE, OUTSIDE, PARITY, TWO_ANDS, WHOLE, Held, Lengths, every,
    lent_with, one, sound_file,
)
from calls.lent import lending, refusals
from calls.lent.lending import HUGE, MOST_ORDERS
from calls.library import Call
from making import table_files, tables


def lengths_at_limits(rng):
    """Number 10 before all else; what is too long is not used or changed."""
    lengths = [WHOLE, WHOLE._replace(cells=11), WHOLE._replace(state=41), WHOLE._replace(state=48)]
    lengths += [WHOLE._replace(**{name: size - 1}) for name, size in lending.SIZES.items()]
    lengths += [WHOLE._replace(**{name: 0}) for name in lending.SIZES]
    lengths += [Lengths(44, 2060, 2060, 32780, 20, 40), Lengths(40, 0, 0, 0, 0, 0)]
    for lent in lengths:
        yield from every(rng, f"lent {lent}", Held(), lent)
        yield from every(rng, f"n 11, lent {lent}", Held(n=11), lent, OUTSIDE)


def broken_states():
    """States that break the heading's rules, or that hold nothing."""
    tail = (5, 6, 7, 8, 9)
    orders = [
        (0, 0, 1, 2, 3), (0, 1, 2, 2, 3), (4, 1, 2, 3, 0), (0, 1, 2, 4, 3), (0, 1, HUGE, 3, 2),
    ]
    broken = [Held(n=wrong) for wrong in (11, 2**32 + 4, HUGE)]
    broken += [Held(m=wrong) for wrong in (0, 17, 2**32 + 1, HUGE)]
    broken += [Held(order=order + tail) for order in orders]
    return broken + [Held(stage=wrong) for wrong in (0, 3, 2**32 + 2, HUGE)]


def headings(rng):
    for held in broken_states():
        yield from every(rng, "a state at nothing", held)
        yield from every(rng, "a state at nothing, asked too much", held, WHOLE, OUTSIDE)
    for held in (Held(stage=1, count=0), Held()):
        yield from every(rng, "asked too much", held, WHOLE, OUTSIDE)
    yield from every(rng, "wild past n", Held(order=(3, 1, 0, 2, 0, 3, 99, HUGE, 3, 3)))
    yield from every(rng, "table with a count", Held(stage=1, count=7))
    for count in (0, 4, 5, 2**63, (2**64 + 2) // 3, HUGE):
        yield from every(rng, "network with any count", Held(count=count))


def shapes(rng):
    """The same sixteen bits in every shape, and planes that are all table."""
    yield from every(rng, "n 0, m 1", Held(n=0))
    for n in range(5):
        held = Held(n=n, m=16 >> n)
        yield from every(rng, f"n {n}", held)
        yield from every(rng, f"n {n}, free rows", held, table=FREE_ROWS)
    wide, narrow = Held(n=10, m=16), Held(n=10)
    for name in ("cared", "count", "build", "swap"):
        yield one(rng, name, "n 10, m 16", wide, asked=INSIDE._replace(place=8))
    yield one(rng, "sift", "n 10, input 9", narrow, asked=INSIDE._replace(input=9))
    for limit in (9, 10, 100):
        yield one(rng, "pass", f"n 10, limit {limit}", narrow, asked=INSIDE._replace(limit=limit))


def files_and_states(rng):
    """Load takes any state; its refusals of buffers come before those of files."""
    spoilt = table_files.with_stored_check(sound_file(), 0, 79)
    wild = Held(n=HUGE, m=0, order=(HUGE,) + (9,) * 9, stage=HUGE)
    short = WHOLE._replace(care=2047)
    for file in (b"", spoilt, sound_file(), sound_file() + bytes(65536), spoilt + bytes(65536)):
        for held in (wild, wild._replace(stage=2), Held(), Held(stage=0), Held(n=10, m=16)):
            for lengths in (WHOLE, short):
                lent = lent_with(rng, held, lengths)
                lending.lend_file(rng, lent, file)
                yield Call("load", {}, lent, "any state")


def sizes_of_files(rng):
    """Every m at both ends of n and where the blocks grow in number."""
    for n in (0, 1, 8, 10):
        for m in range(1, 17):
            lent = lent_with(rng, Held())
            values, care = (tables.coin_bits(rng, n, m) for _ in range(2))
            lending.lend_file(rng, lent, table_files.table_file(n, m, range(n), values, care))
            yield Call("load", {}, lent, f"a file of n {n}, m {m}")


def damages(rng, base):
    """Every damage to a file, and pairs of them: all pairs to the smallest."""
    sound = tables.DAMAGE_BASES[base]()
    singles = table_files.all_damages(sound)
    pairs = table_files.pairs_of(singles)
    if base != "tiny":
        pairs = rng.sample(pairs, 200)
    lent = lent_with(rng, Held())
    for chosen in [[damage] for damage in singles] + pairs:
        lending.lend_file(rng, lent, table_files.damaged(sound, chosen))
        yield Call("load", {}, lent, "; ".join(damage.name for damage in chosen))


def boards(rng):
    """Section 9's table wants four cells, twelve numbers."""
    for held in (Held(stage=1, count=0), Held()):
        for numbers in (0, 1, 9, 11, 12, 13, 14, 15):
            yield one(rng, "build", f"{numbers} numbers", held, WHOLE._replace(cells=numbers))
    none = WHOLE._replace(cells=0)
    yield one(rng, "count", "no cells", Held(), none)
    yield one(rng, "build", "constants, no cells", Held(n=3, m=2), none, table=CONSTANTS)


def widest(rng):
    """A table that needs all 2,159 cells: a board of one too few, and enough."""
    lent = lending.lent_for(rng, 10, 16, lending.LARGEST_BOARD)
    lending.lend_file(rng, lent, tables.widest_table(rng))
    lending.lengthen(rng, lent)
    yield Call("load", {}, lent, "the widest table")
    for numbers in (lending.LARGEST_BOARD - 1, lending.LARGEST_BOARD):
        lent.lengths["cells"] = numbers
        yield Call("build", {}, lent, "the widest table")
    for row in (0, 777, 1023, 1024):
        yield Call("evaluate", {"row": row}, lent, "the widest table")
    yield from rows.all_of(rng, lent, 10, "the widest table")


def orders_changed(rng):
    """Swaps, sifts and passes at the ends of what they take, from section 9's
    order of six cells, with entries past n that are wild."""
    mixed = Held(order=(0, 2, 1, 3, 9, 2, HUGE, 0, 4, 1))
    asked = [("swap", "place", number) for number in (0, 1, 2, 3, 4, HUGE - 1, HUGE)]
    asked += [("sift", "input", number) for number in (0, 1, 2, 3, 4, HUGE)]
    asked += [("pass", "limit", limit) for limit in range(19)]
    asked += [("pass", "limit", limit) for limit in (MOST_ORDERS - 3, MOST_ORDERS)]
    for held in (mixed, mixed._replace(stage=1, count=0)):
        for name, argument, number in asked:
            changed = INSIDE._replace(**{argument: number})
            yield one(rng, name, f"{argument} {number}", held, asked=changed)


def ties(rng):
    """Every input sifted from every order of four, and passes from each, of
    tables where places tie: all of them, or the best two, or the present one."""
    for note, table in (("parity", PARITY), ("two ands", TWO_ANDS), ("free rows", FREE_ROWS)):
        for order in itertools.permutations(range(4)):
            held = Held(order=order + (9, 2, HUGE, 0, 4, 1))
            asked = [("sift", INSIDE._replace(input=sifted)) for sifted in range(4)]
            asked += [("pass", INSIDE._replace(limit=limit)) for limit in (4, 8, 12, 16)]
            for name, numbers in asked:
                yield one(rng, name, f"{note}, order {order}", held, asked=numbers, table=table)


def sizes(rng):
    """The same calls where n is at an end."""
    asked = [("swap", 0, 0), ("swap", 0, HUGE), ("swap", 1, 0), ("swap", 2, 0), ("swap", 10, 8)]
    asked += [("swap", 10, 9), ("sift", 0, 0), ("sift", 1, 0), ("sift", 1, 1)]
    asked += [("pass", n, limit) for n in (0, 1) for limit in (0, 1, 2, MOST_ORDERS)]
    for name, n, number in asked:
        numbers = {library.arguments_of(name)[1]: number}
        for m in (1, 16):
            yield Call(name, numbers, lent_with(rng, Held(n=n, m=m)), f"n {n}")


def refused(rng, name):
    """All choices of refusals at once, twice over with other dirt and numbers."""
    for _ in range(2):
        yield from refusals.refused_at_once(rng, name)


FIRST = [
    widest, shapes, lengths_at_limits, headings, files_and_states, sizes_of_files, boards,
    orders_changed, ties, sizes,
]
LAST = [functools.partial(damages, base=base) for base in tables.DAMAGE_BASES]
LAST += [functools.partial(refused, name=name) for name in library.CALLS]
