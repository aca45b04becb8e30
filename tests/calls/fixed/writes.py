"""Fixed calls of the writer, document 02's 2.2: lengths, states and counts, networks
of every kind and near ones, the sequence of the checks, and files read again."""

import itertools

from calls import library
from calls.fixed.diagrams import changed, diagram, sound_diagrams
from calls.fixed.start import FOUR_CELLS_NETWORK, FOUR_CELLS_NUMBERS, NATURAL, NONE, WHOLE, Held
from calls.lent import lending
from calls.lent.lending import HUGE
from calls.library import Call
from making import networks, table_files, tables
from paper.network_file import FILE_BYTES

# Their near ones are told by the numbering, the classes, the roots or nothing but the count.
SOURCES = [
    ["1"], ["0", "1"], ["0 1"], ["0 1 1 0"], ["0 0 0 1", "1 1 1 0"], ["0 1 0 1"],
    ["0 0 0 0 0 1 1 0", "0 0 0 1 0 0 0 0"], ["0 1 1 0 1 0 0 1", "0 0 0 1 0 1 1 1"],
]
# Around a block's cells, around what one byte counts, and further blocks.
COUNTS = {1: 5, 83: 7, 84: 7, 85: 7, 168: 7, 169: 7, 255: 8, 256: 8, 257: 8, 512: 9}


def source_networks():
    drawn = [table_files.table_from_rows(rows) for rows in SOURCES]
    return [networks.of_table(table) for table in drawn] + [FOUR_CELLS_NETWORK]


def lent_network(rng, network, lengths=None):
    """A network that the state holds, on a board just large enough if none is named."""
    order = list(network.order) + [rng.choice((0, 3, 99, HUGE))] * (10 - network.n)
    held = Held(network.n, network.m, order, len(network.cells))
    numbers = [number for cell in network.cells for number in cell]
    lengths = lengths or WHOLE._replace(cells=len(numbers))
    return diagram(rng, held, numbers, network.roots[: network.m], lengths)


def asked(rng, lent, note, space=FILE_BYTES):
    lending.lend_file_space(rng, lent, space)
    return Call("write_cells", {}, lent, note)


def lengths(rng):
    """A file buffer and the others around their limits; 10 before all else."""
    for space in (0, 1, 512, 1024, 13312, 13823, 13824, 13825, 14336, 27648):
        for network in source_networks()[::4]:
            yield asked(rng, lent_network(rng, network), f"a file buffer of {space}", space)
    for name, size in (("roots", 16), ("work", 32768)):
        for length in (0, size - 1, size, size + 1, size + 9):
            for held in (Held(), Held(stage=1), Held(count=9)):
                lent = diagram(rng, held, lengths=WHOLE._replace(**{name: length}))
                yield asked(rng, lent, f"{name} of {length}")


def counts(rng):
    """Forged counts: more than is lent, fewer than there are, and huge ones."""
    forged = [
        (4, 12), (4, 11), (4, 0), (5, 14), (5, 15), (3, 24), (0, 24), (0, 0), (1, 24), (2160, 24),
        (2**63, 24), ((2**64 + 2) // 3, 24), (HUGE, 24), (2**32 + 4, 24), (2**16 + 4, 24),
    ]
    for (count, numbers), root in itertools.product(forged, (0, 1, 2, 3, 8, 9, 10)):
        lent = diagram(rng, Held(count=count), roots=(root,), lengths=WHOLE._replace(cells=numbers))
        yield asked(rng, lent, f"{count} counted, {numbers} numbers, root {root}")


def longest(rng):
    """Far more cells than any network needs: 32, or 24 by the last of them."""
    for count in (2159, 2160, 32767, 32768, 40000, 65536):
        for last in ([0, 0, 1], [1, 0, 1]):
            numbers = [0, 0, 1] * (count - 1) + last
            lent = diagram(
                rng, Held(n=1, order=NATURAL, count=count), numbers,
                lengths=WHOLE._replace(cells=3 * count),
            )
            yield asked(rng, lent, f"{count} cells")


def diagrams_held(rng):
    """Near networks of several, and diagrams that no build makes."""
    for network in source_networks():
        yield asked(rng, lent_network(rng, network), "sound")
        yield asked(rng, lent_network(rng, network, WHOLE), "sound, on a larger board")
        for note, near in networks.near_networks(network):
            yield asked(rng, lent_network(rng, near), note)
    for note, lent in sound_diagrams(rng):
        yield asked(rng, lent, note)


def each_number(rng):
    """Of the four cells and the root, every number replaced by every small one."""
    for at, number in itertools.product(range(12), range(11)):
        lent = diagram(rng, Held(), changed(FOUR_CELLS_NUMBERS, at, number))
        yield asked(rng, lent, f"number {at} of the cells is {number}")
    for root in (*range(11), 256 + 2, NONE):
        yield asked(rng, diagram(rng, Held(), roots=(root,)), f"root {root}")


def orders(rng):
    """The same cells in every order: they are the network of another table."""
    for order in itertools.permutations(range(4)):
        network = FOUR_CELLS_NETWORK._replace(order=order)
        yield asked(rng, lent_network(rng, network), f"order {order}")


def sequences(rng):
    """Every choice of refusals: roots, work and file for 10, then 22, 24 and 32."""
    breach = changed(FOUR_CELLS_NUMBERS, 11, 10)
    near = changed(FOUR_CELLS_NUMBERS, 10, 1)
    for due in itertools.product((0, 1), repeat=6):
        roots, work, file, no_network, unsound, unlike = due
        numbers = near if unlike else FOUR_CELLS_NUMBERS
        numbers = numbers[:11] + breach[11:] if unsound else numbers
        lent_lengths = WHOLE._replace(roots=16 - roots, work=32768 - work)
        for stage in (0, 1, 3) if no_network else (2,):
            lent = diagram(rng, Held(stage=stage), numbers, lengths=lent_lengths)
            yield asked(rng, lent, f"10, 10, 10, 22, 24, 32 due: {due}", FILE_BYTES - file)


def there_and_back(rng, lent, note):
    """Written, read over a dirty state and buffers, and written again."""
    yield asked(rng, lent, note)
    words = lent.contents["state"]
    lending.lend_written(lent)
    words[library.N], words[library.STAGE], words[library.COUNT] = HUGE, 1, 5
    words[library.ORDER] = library.new_buffer("state", [HUGE] * 10)
    for name in ("values", "care", "work", "roots", "cells"):
        lent.contents[name] = lending.dirty(rng, name, len(lent.contents[name]))
    yield Call("read_cells", {}, lent, f"{note}, read")
    lent.contents["work"] = lending.dirty(rng, "work", len(lent.contents["work"]))
    yield asked(rng, lent, f"{note}, written again")
    yield Call("build", {}, lent, f"{note}, built of the table as read")


def round_trips(rng):
    for network in source_networks():
        yield from there_and_back(rng, lent_network(rng, network), "there and back")
    for count, n in COUNTS.items():
        network = networks.with_cells(n, count)
        yield from there_and_back(rng, lent_network(rng, network), f"{count} cells")


def widest(rng):
    """All 2,159 cells, in 27 blocks; then one of the last cells turned over."""
    network = networks.of_table(tables.widest_table(rng))
    yield from there_and_back(rng, lent_network(rng, network), "the widest network")
    last = len(network.cells)
    near = networks.with_cell(network, last, (1, 1), (2, 0))
    yield asked(rng, lent_network(rng, near), "the widest network, the last cell turned over")
    near = networks.exchanged(network, last - 2, last - 1)
    yield asked(rng, lent_network(rng, near), "the widest network, two cells exchanged")


def small_calls(rng):
    for calls in (lengths, counts, diagrams_held, each_number, orders, sequences):
        yield from calls(rng)


CHUNKS = [small_calls, longest, round_trips, widest]
