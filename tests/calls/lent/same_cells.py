"""The laws of document 02's 2.10, and the calls that they are asked after: heads of one n, m
and order have equal cells exactly if they have equal tables, and no pass or sift ends with
more cells.

As in lending.py all that is lent is random and dirty. The laws go by paper/same_cells.py, and
each notes the kinds of what it was asked of.
"""

from collections import namedtuple

from calls import library
from calls.lent import lending
from calls.library import Call
from making import network_files, table_files
from paper import network_file, reference, same_cells

# A head as a call left it; `drawn` is the table as it was lent, after a build.
Seen = namedtuple("Seen", same_cells.Head._fields + ("drawn",), defaults=(None,))
# A network as it is in a file.
Filed = namedtuple("Filed", "bytes")

# Of a network that a law tells of so many characters are shown.
MOST_SHOWN = 200

# What the laws of each call are asked of; all of it should come up.
SAME, DRAWN_UNLIKE = "same network", "same network drawn otherwise"
HELD = (SAME, "other count", "other cells", "other roots")
FILED = (SAME, "other bytes")
FEWER, AS_MANY = "ends with fewer cells", "ends with as many cells"
KINDS = {
    "build": (*HELD, DRAWN_UNLIKE), "evaluate_rows": HELD, "swap_cells": HELD,
    "write_cells": FILED, "read_cells": FILED, "sift": (FEWER, AS_MANY), "count": (FEWER, AS_MANY),
}


class Law:
    """A law that notes the kinds of what it was asked of, once it is: `ask` takes the value
    of a success, and gives them and what does not hold."""

    def __init__(self, ask):
        self.ask = ask
        self.kinds = set()

    def __call__(self, answer):
        if answer[0] != 0:
            return None
        self.kinds, broken = self.ask(answer[1])
        return broken


# Heads as they are lent, and as calls leave them.


def lent_table(rng, drawn, cells=lending.SMALL_BOARD):
    """A drawn table at a start of its own; bits behind its last row are any."""
    lent, first = lending.lent_for(rng, drawn.n, drawn.m, cells), library.ORDER.start
    lent.contents["state"][first : first + drawn.n] = library.new_buffer("state", drawn.order)
    behind = [rng.randint(0, 1) for _ in range(-len(drawn.values) % 8)]
    planes = (table_files.packed(bits + behind) for bits in (drawn.values, drawn.care))
    lending.put_planes(lent, *planes)
    return lent


def table_and_order(lent):
    state = library.state_from(lent.contents["state"])
    table = reference.lent_table(state, lent.contents["values"], lent.contents["care"])
    return table, tuple(reference.used_order(state))


def filled_of(lent):
    return same_cells.filled_table(*table_and_order(lent))


def drawn_of(lent):
    """The cared values and the care, row by row."""
    table, order = table_and_order(lent)
    outputs = reference.reordered(table, order)
    return [(value and cared, cared) for output in outputs for value, cared in output]


def held_in(lent):
    contents = lent.contents
    state = library.state_from(contents["state"])
    return same_cells.network_held(state, contents["roots"], contents["cells"])


def as_built(lent):
    return Seen(filled_of(lent), held_in(lent), drawn_of(lent))


def as_evaluated(lent):
    """The table is what the rows gave."""
    return Seen(tuple(lent.part("answers")), held_in(lent))


def as_swapped(lent, table):
    """The table is the filled one from before the swaps."""
    return Seen(table, held_in(lent))


def file_in(lent):
    """Of the file buffer what a network was written to."""
    file = lent.contents["file"]
    blocks = network_file.blocks_for(network_files.count_in(file))
    return bytes(file[: network_files.BLOCK * blocks])


def as_written(lent, table):
    return Seen(table, Filed(file_in(lent)))


def as_read(lent):
    """The table is the one that was read, values and care."""
    planes = [bytes(lent.contents[name][: reference.TABLE_BYTES]) for name in ("values", "care")]
    return Seen(planes, Filed(bytes(lent.part("file"))))


# The law of heads.


def kinds_between(one, other):
    """What first tells two networks apart; of equal ones also whether the tables were drawn
    unlike."""
    for name, mine, its in zip(one.network._fields, one.network, other.network):
        if mine != its:
            return {f"other {name}"}
    return {SAME} if one.drawn == other.drawn else {SAME, DRAWN_UNLIKE}


def broken_by(one, other):
    if same_cells.recognised(one, other):
        return None
    alike = "equal tables have other" if one.table == other.table else "unlike tables have equal"
    networks = " and ".join(str(head.network)[:MOST_SHOWN] for head in (one, other))
    return f"{alike} cells: {networks}"


class Heads:
    """Heads of one n, m and order, each of them held against all before it."""

    def __init__(self):
        self.known = []

    def law(self, seen, *arguments):
        """That the head which a call leaves is recognised; `seen` looks at it then."""

        def ask(_value):
            head = seen(*arguments)
            kinds = {kind for other in self.known for kind in kinds_between(head, other)}
            told = [broken_by(head, other) for other in self.known]
            self.known.append(head)
            return kinds, next(filter(None, told), None)

        return Law(ask)


# Calls on several heads, one after the other.


def built(lents, note):
    heads = Heads()
    for lent in lents:
        yield Call("build", {}, lent, f"{note}, built", heads.law(as_built, lent))


def dirty_unused(rng, lent):
    """What is no part of the network, as a caller may leave it: roots past m, cells past the
    count."""
    m, count = lent.contents["state"][library.M], lent.contents["state"][library.COUNT]
    for name, used in (("roots", m), ("cells", 3 * count)):
        content = lent.contents[name]
        content[used:] = lending.dirty(rng, name, len(content) - used)


def evaluated(rng, lents, note):
    """Every row, in the same sequence for each."""
    heads, size = Heads(), 2 ** lending.inputs_of(lents[0])
    rows = rng.sample(range(size), size)
    for lent in lents:
        dirty_unused(rng, lent)
        lending.lend_rows(rng, lent, rows)
        law = heads.law(as_evaluated, lent)
        yield Call("evaluate_rows", {}, lent, f"{note}, evaluated", law)


def swapped(lents, note, places):
    """All are swapped in the cells at one place, and then at the next."""
    tables = [filled_of(lent) for lent in lents]
    for place in places:
        heads = Heads()
        for lent, table in zip(lents, tables):
            law = heads.law(as_swapped, lent, table)
            yield Call("swap_cells", {"place": place}, lent, f"{note}, swapped", law)


def written(rng, lents, note):
    heads = Heads()
    for lent in lents:
        dirty_unused(rng, lent)
        lending.lend_file_space(rng, lent)
        law = heads.law(as_written, lent, filled_of(lent))
        yield Call("write_cells", {}, lent, f"{note}, written", law)


def read(rng, files, note, cells=lending.SMALL_BOARD):
    """Each file into a state and buffers of its own, which held something else."""
    heads = Heads()
    for file in files:
        size = rng.choice((0, 1, 3)), rng.choice((1, 2, 16))
        lent = lending.lent_for(rng, *size, cells)
        lending.lend_file(rng, lent, file)
        yield Call("read_cells", {}, lent, f"{note}, read", heads.law(as_read, lent))


def all_calls(rng, lents, note):
    """Each call that leaves cells, or tells what they compute, on every head."""
    yield from built(lents, note)
    yield from evaluated(rng, lents, note)
    yield from written(rng, lents, note)
    files = [file_in(lent) for lent in lents]
    yield from read(rng, files, note, max(lent.lengths["cells"] for lent in lents))
    n = lending.inputs_of(lents[0])
    yield from swapped(lents, note, rng.sample(range(n - 1), min(n - 1, 2)) if n > 1 else [])


# The law of passes and sifts.


def change(before, after):
    return {FEWER} if after < before else {AS_MANY} if after == before else set()


class Ends:
    """With how many cells passes from one start end, by their limits, or calls in turn, by
    their turns; at 0 it is the order found."""

    def __init__(self):
        self.known = []

    def law(self, limit):
        """That what a call answers, the cells under such a limit, is never more."""

        def ask(cells):
            kinds = set()
            for other, known in self.known:
                kinds |= change(known, cells) if other < limit else change(cells, known)
            self.known.append((limit, cells))
            holds = same_cells.never_more(self.known)
            return kinds, None if holds else f"more cells in the end: {sorted(self.known)}"

        return Law(ask)


def with_passes(lent, note, limits):
    """A count, and from the same start a pass under each limit and a count again."""
    ends = Ends()
    yield Call("count", {}, lent, f"{note}, before passes", ends.law(0))
    for limit in limits:
        copied, told = lent.copy(lent.contents), f"{note}, limit {limit}"
        yield Call("pass", {"limit": limit}, copied, told)
        yield Call("count", {}, copied, f"{told}, after the pass", ends.law(limit))


def with_sifts(lent, note, inputs):
    """A count, and each input sifted from where the last one was left, and counted again."""
    ends = Ends()
    yield Call("count", {}, lent, f"{note}, before sifts", ends.law(0))
    for turn, variable in enumerate(inputs, 1):
        yield Call("sift", {"input": variable}, lent, note, ends.law(turn))
        yield Call("count", {}, lent, f"{note}, after a sift", ends.law(turn))
