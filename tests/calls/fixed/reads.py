"""Fixed calls of the reader, document 02's 2.2: lengths, states, boards, every byte of
a file changed, damages and near networks, counts of every size, and the sequence of
the checks."""

import functools
import itertools

from calls.fixed.start import FOUR_CELLS_NETWORK, WHOLE, Held, lent_with, sound_file
from calls.fixed.writes import COUNTS, source_networks
from calls.lent import lending
from calls.lent.lending import HUGE
from calls.library import Call
from making import network_files, networks, table_files
from making.network_files import Network, network_file


def asked(rng, file, note, held=Held(), lengths=WHOLE):
    lent = lent_with(rng, held, lengths)
    lending.lend_file(rng, lent, file)
    return Call("read_cells", {}, lent, note)


def four_cells():
    return network_file(FOUR_CELLS_NETWORK)


def board_of(cells, more=0):
    return WHOLE._replace(cells=max(0, 3 * cells + more))


def lengths(rng):
    """Number 10 before all else; what is too long is not used or changed."""
    spoilt = table_files.with_stored_check(four_cells(), 0, 79)
    for name, size in (("values", 2048), ("care", 2048), ("work", 32768), ("roots", 16)):
        for length in (0, size - 1, size, size + 1, size + 9):
            lent_lengths = WHOLE._replace(**{name: length})
            for file in (four_cells(), b"", spoilt):
                yield asked(rng, file, f"{name} of {length}", lengths=lent_lengths)


def states(rng):
    """It takes any state; a table is no network file, however long either is."""
    wild = Held(n=HUGE, m=0, order=(HUGE,) + (9,) * 9, stage=HUGE)
    spoilt = table_files.with_stored_check(four_cells(), 0, 79)
    long = four_cells() + bytes(65536)
    for file in (b"", spoilt, four_cells(), long, spoilt + bytes(65536), sound_file()):
        for held in (wild, wild._replace(stage=2), Held(), Held(stage=0), Held(n=10, m=16)):
            yield asked(rng, file, "any state", held)
    for network in source_networks():
        yield asked(rng, network_file(network), "to load")._replace(name="load")


def boards(rng):
    """23 goes by the file's count, right or wrong."""
    for numbers in (0, 1, 9, 11, 12, 13, 14, 15):
        yield asked(rng, four_cells(), f"{numbers} numbers", lengths=WHOLE._replace(cells=numbers))
    counts_tried = (0, 3, 5, 6, 83, 84, 85, 260, 65535)
    for count, board in itertools.product(counts_tried, (0, 3, 4, 5, 83, 84)):
        file = network_files.with_count(four_cells(), count)
        yield asked(rng, file, f"4 cells counted as {count}", lengths=board_of(board))


def each_byte(rng):
    """Every byte of a file changed, the checks right again."""
    sound = four_cells()
    for block, at in itertools.product(range(2), range(510)):
        byte = sound[512 * block + at]
        for wrong in ((byte + 1) % 256, byte ^ 0x80):
            file = table_files.with_byte(sound, block, at, wrong)
            yield asked(rng, file, f"block {block} byte {at} is {wrong}")


def near(rng):
    """On a board just enough, and on one too small by a cell."""
    for network in source_networks():
        cells = len(network.cells)
        yield asked(rng, network_file(network), "sound", lengths=board_of(cells))
        for note, each in networks.near_networks(network):
            cells = len(each.cells)
            yield asked(rng, network_file(each), note, lengths=board_of(cells))
            yield asked(rng, network_file(each), f"{note}, no board", lengths=board_of(cells, -1))


def orders(rng):
    for order in itertools.permutations(range(4)):
        file = network_file(FOUR_CELLS_NETWORK._replace(order=order))
        yield asked(rng, file, f"order {order}")
    natural = [0, 1, 2, 3]
    for at, wrong in itertools.product(range(4), (*range(6), 255)):
        order = natural[:at] + [wrong] + natural[at + 1 :]
        file = network_file(FOUR_CELLS_NETWORK._replace(order=order))
        yield asked(rng, file, f"order {order}")


def no_inputs(rng):
    """No cells and up to sixteen constants; a cell or a reference to one is 24."""
    for m in range(1, 17):
        roots = [j % 2 for j in range(m)]
        constants = Network(0, m, [], [], networks.sixteen(roots))
        yield asked(rng, network_file(constants), f"n 0, m {m}", lengths=board_of(0))
        for root in (2, 3, 256, 65535):
            file = network_file(networks.with_root(constants, m - 1, root))
            yield asked(rng, file, f"n 0, m {m}, root {root}")
        unlit = networks.with_root(constants, m % 16, 1)
        yield asked(rng, network_file(unlit), f"n 0, m {m}, root {m % 16} is 1")
    file = network_file(Network(0, 1, [], [(0, 0, 1)], networks.sixteen([2])))
    yield asked(rng, file, "n 0, one cell")


def counts(rng):
    """Around a block's cells and what one byte counts: enough board, and a cell fewer."""
    for count, n in COUNTS.items():
        file = network_file(networks.with_cells(n, count))
        for more in (0, 1, -1, -3):
            yield asked(rng, file, f"{count} cells, {more}", lengths=board_of(count, more))
        for wrong in (count + 1, count - 1, count % 256, count + 256):
            file_wrong = network_files.with_count(file, wrong)
            yield asked(rng, file_wrong, f"{count} cells as {wrong}", lengths=board_of(600))


def many(rng):
    """More cells than any network needs: 32, or 24 by the last cell or root."""
    for count in (2159, 2160, 2184, 2185, 3000, 32767, 32768, 65535):
        roots = networks.sixteen([2, 2 * min(count, 32767)])
        alike = Network(1, 2, [0], [(0, 0, 1)] * count, roots)
        file = network_file(alike)
        board = board_of(count)
        yield asked(rng, file, f"{count} cells alike", lengths=board)
        yield asked(rng, file, f"{count} cells alike, no board", lengths=board_of(count, -1))
        last = network_files.cell_at(count - 1)
        file = network_files.with_number(file, *last, 1)
        yield asked(rng, file, f"{count} cells, the last place 1", lengths=board)
        if count < 32767:
            file = network_file(networks.with_root(alike, 1, 2 * count + 2))
            yield asked(rng, file, f"{count} cells, a root beyond", lengths=board)


def over_held(rng):
    """One after the other over what the last one left, larger and smaller."""
    lent = lent_with(rng, Held(), WHOLE._replace(cells=24))
    for network in source_networks() + source_networks()[::-1]:
        lending.lend_file(rng, lent, network_file(network))
        yield Call("read_cells", {}, lent, "over what is held")


def sequences(rng):
    """Up to three damages at once, one for each turn of the checks, with and without
    10 and 23."""
    sound = four_cells()
    by_rank = {damage.rank: damage for damage in reversed(network_files.all_damages(sound))}
    damages = [by_rank[rank] for rank in sorted(by_rank)]
    chosen = [each for size in range(4) for each in itertools.combinations(damages, size)]
    for each, short, small in itertools.product(chosen, (0, 1), (0, 1)):
        note = "; ".join(damage.name for damage in each) + f"; 10, 23 due: {short, small}"
        lent_lengths = WHOLE._replace(roots=16 - short, cells=12 - small)
        yield asked(rng, table_files.damaged(sound, each), note, lengths=lent_lengths)


def damages(rng, base):
    """Every damage to a file, and pairs of them: all pairs to the smallest."""
    sound = network_file(networks.DAMAGE_BASES[base]())
    singles = network_files.all_damages(sound)
    pairs = table_files.pairs_of(singles)
    if base != "bare":
        pairs = rng.sample(pairs, 400)
    lent = lent_with(rng, Held(), board_of(100))
    for chosen in [[damage] for damage in singles] + pairs:
        lending.lend_file(rng, lent, table_files.damaged(sound, chosen))
        yield Call("read_cells", {}, lent, "; ".join(damage.name for damage in chosen))


def small_calls(rng):
    for calls in (lengths, states, boards, near, orders, no_inputs, over_held):
        yield from calls(rng)


CHUNKS = [small_calls, each_byte, counts, many, sequences]
CHUNKS += [functools.partial(damages, base=base) for base in networks.DAMAGE_BASES]
