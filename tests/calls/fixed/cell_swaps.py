"""Fixed swaps in the cells, document 02's 2.7: lengths and boards at and around their
limits, places, breaches and near networks, the sequence of the checks, all small tables,
every n and m at every place, swaps in turn and back, and beside them a swap and a build."""

import functools
import itertools

from calls import library
from calls.fixed.diagrams import (
    CELL_BREACHES, SIXTEEN_ROOTS, TURNED, changed, diagram, sound_diagrams,
)
from calls.fixed.start import FOUR_CELLS_NUMBERS, NONE, WHOLE, Held
from calls.fixed.writes import lent_network, source_networks
from calls.lent import cell_swaps, lending
from calls.lent.lending import HUGE
from calls.library import Call
from making import networks, table_files, tables
from paper import reference

NOTE = "a swap in the cells"
# Section 9's table of four cells; exchanging places 1 and 2 makes six of them, and back.
TWO_ANDS_BITS = tables.bits_of(0xF888, 16)
# A board for the four cells alone.
SMALL_BOARD = WHOLE._replace(cells=12)


def asked(lent, place, note=NOTE):
    return Call("swap_cells", {"place": place}, lent, note)


def drawn(*outputs):
    return networks.of_table(table_files.table_from_rows(list(outputs)))


def board_networks():
    """Networks that swaps make larger, make smaller, or leave as they are."""
    orders = ([0, 1, 2, 3], [0, 2, 1, 3], [2, 0, 3, 1])
    found = [networks.of_bits(4, 1, order, TWO_ANDS_BITS) for order in orders]
    found += [drawn("0 1 1 0"), drawn("0 0 0 1", "1 1 1 0")]
    found += [drawn("0 1 0 1"), drawn("0 0 0 0", "1 1 1 1")]
    found += [drawn("0 0 1 1 0 1 0 1"), drawn("0 1 1 0 1 0 0 1", "0 0 0 1 0 1 1 1")]
    return found + [drawn("0 0 0 0 0 1 1 0", "0 0 0 1 0 0 0 0", "1 1 0 0 1 0 1 0")]


def some_network(rng, n, m):
    """Of a table with free rows or none, in any order."""
    return networks.of_table(tables.random_table(rng, n, m))


# Lengths, boards and places.


def lengths(rng):
    """Roots, work and state around their limits, on a board enough and one too small;
    10 before all else."""
    around = [(name, lending.SIZES[name]) for name in ("state", "roots", "work")]
    around = [(name, size + more) for name, size in around for more in (-size, -1, 0, 1, 9)]
    breach = changed(FOUR_CELLS_NUMBERS, 0, NONE)
    for (name, length), board in itertools.product(around, (18, 12)):
        lent_lengths = WHOLE._replace(**{name: length}, cells=board)
        note = f"{name} of {length}, a board of {board // 3}"
        for held in (Held(), Held(stage=1), Held(count=9)):
            yield asked(diagram(rng, held, lengths=lent_lengths), 1, note)
            lent = diagram(rng, held, breach, lengths=lent_lengths)
            yield asked(lent, 3, f"{note}, 9 and 24 due")


def lengths_around(count, wanted):
    """What is counted and what is wanted, just enough, too few, and with ragged ends."""
    near = {0, 1, 3 * wanted - 3, 3 * wanted - 1, 3 * wanted + 9, 3 * count - 3, 3 * count - 1}
    near |= {3 * each + more for each in (count, wanted) for more in range(3)}
    return sorted(length for length in near if length >= 0)


def boards(rng):
    """At every place, each board around the cells counted and the cells wanted."""
    for network, place in itertools.product(board_networks(), range(3)):
        if place + 1 < network.n:
            count = len(network.cells)
            wanted = cell_swaps.wanted_at(lent_network(rng, network), place)
            for length in lengths_around(count, wanted):
                note = f"{count} cells, {wanted} wanted, {length} numbers"
                lent = lent_network(rng, network, WHOLE._replace(cells=length))
                yield asked(lent, place, note)


def places_near(n):
    """Around the last one, and huge ones, some of them inside in fewer bits."""
    last = max(n - 2, 0)
    near = {0, last, n - 1, n, n + 1, 2**31, 2**32 - 1, 2**32, 2**63, HUGE - 1, HUGE}
    near |= {bits + last for bits in (2**8, 2**16, 2**32, 2**63)}
    return sorted(place for place in near if place >= 0)


def places(rng):
    """Every n; 9 comes before 24 and 32, and with no place at all it is all there is."""
    for n in range(11):
        network = some_network(rng, n, 2)
        for place in places_near(n):
            note = f"n {n}, place {place}"
            whole = WHOLE._replace(cells=3 * len(network.cells) + 60)
            yield asked(lent_network(rng, network, whole), place, note)
            if n < 6:
                root = networks.with_root(network, 1, NONE)
                yield asked(lent_network(rng, root, whole), place, f"{note}, a root beyond")
                near = networks.some_near(rng, network) or network
                yield asked(lent_network(rng, near, whole), place, f"{note}, a near network")


# Number 24, number 32, and all refusals in their sequence.


def breaches(rng):
    """Each breach of number 24, at every place and beyond, on a board too small as well."""
    broken = [("turned, an arrow up", changed(TURNED, 1, 4), (8,))]
    for note, at, number in CELL_BREACHES:
        broken.append((note, changed(FOUR_CELLS_NUMBERS, at, number), (2,)))
    broken += [(f"root {root}", FOUR_CELLS_NUMBERS, (root,)) for root in (9, 10, NONE)]
    for (note, numbers, roots), place in itertools.product(broken, range(4)):
        for lent_lengths in (WHOLE, SMALL_BOARD):
            yield asked(diagram(rng, Held(), numbers, roots, lent_lengths), place, note)
    for at, place in itertools.product((0, 15), range(3)):
        roots = changed(SIXTEEN_ROOTS, at, 10)
        yield asked(diagram(rng, Held(m=16), roots=roots), place, f"root {at} of sixteen 10")


def counts(rng):
    """Forged counts: more than is lent, fewer than there are, and huge ones."""
    forged = [
        (4, 12), (4, 11), (4, 9), (4, 0), (5, 14), (5, 15), (3, 24), (0, 24), (0, 0), (2160, 24),
        (2**63, 24), ((2**64 + 2) // 3, 24), (HUGE, 24), (2**32 + 4, 24), (2**16 + 4, 24),
    ]
    for (count, numbers), root in itertools.product(forged, (0, 1, 2, 3, 8, 9, 10)):
        lent_lengths = WHOLE._replace(cells=numbers)
        lent = diagram(rng, Held(count=count), roots=(root,), lengths=lent_lengths)
        yield asked(lent, 1, f"{count} counted, {numbers} numbers, root {root}")


def near(rng):
    """Near networks at every place, on a board of just their cells and on a larger one;
    beside them diagrams that no build makes."""
    for network in source_networks() + board_networks():
        for place in range(network.n):
            for note, each in networks.near_networks(network):
                yield asked(lent_network(rng, each), place, note)
                yield asked(lent_network(rng, each, WHOLE._replace(cells=60)), place, note)
    for place in range(4):
        for note, lent in sound_diagrams(rng):
            yield asked(lent, place, note)


def each_number(rng):
    """Of the four cells and the root, every number replaced by every small one."""
    for at, number in itertools.product(range(12), range(11)):
        lent = diagram(rng, Held(), changed(FOUR_CELLS_NUMBERS, at, number))
        yield asked(lent, at % 3, f"number {at} of the cells is {number}")
    for root, place in itertools.product((*range(11), 256 + 2, NONE), range(3)):
        yield asked(diagram(rng, Held(), roots=(root,)), place, f"root {root}")


# Near ones of as many cells and of one more; all compute the table that wants six.
UNLIKE = (
    networks.turned_over, networks.exchanged_between_places, networks.repeated, networks.unreached,
)
# Words that say that no network is held.
NO_NETWORK = [(library.STAGE, 1), (library.STAGE, 0), (library.M, 0)]


def sequences(rng):
    """Every choice of refusals: state, roots, work for 10, then 22, 9, 24, 32 and 23."""
    four = networks.of_bits(4, 1, [0, 1, 2, 3], TWO_ANDS_BITS)
    for due in itertools.product((0, 1), repeat=8):
        state, roots, work, no_network, beyond, unsound, unlike, small = due
        short = WHOLE._replace(state=40 - state, roots=16 - roots, work=32768 - work)
        for network in [made(four)[0] for made in UNLIKE] if unlike else [four]:
            count = len(network.cells)
            if unsound:
                network = networks.with_cell(network, count, (2, 2 * count + 2))
            lent = lent_network(rng, network, short._replace(cells=3 * count if small else 18))
            for at, word in NO_NETWORK if no_network else [(library.STAGE, 2)]:
                copied = lent.copy(lent.contents)
                copied.contents["state"][at] = word
                note = f"10, 10, 10, 22, 9, 24, 32, 23 due: {due}"
                yield asked(copied, 3 if beyond else 1, note)


def states(rng):
    """States that hold no network: 22, also where more is due."""
    broken = [(library.N, each) for each in (11, 256 + 4, 2**32 + 4, HUGE)]
    broken += [(library.M, each) for each in (0, 17, 256 + 1, 2**32 + 1, HUGE)]
    broken += [(library.STAGE, each) for each in (0, 1, 3, 256 + 2, 2**32 + 2, HUGE)]
    first = library.ORDER.start
    broken += [(first + at, each) for at in (0, 3) for each in (1, 4, 256, 2**32 + at, HUGE)]
    network = networks.of_bits(4, 1, [0, 2, 1, 3], TWO_ANDS_BITS)
    odd = networks.turned_over(network)[0]
    for (at, word), place, each in itertools.product(broken, (1, 3, HUGE), (network, odd)):
        lent = lent_network(rng, each)
        lent.contents["state"][at] = word
        yield asked(lent, place, f"word {at} is {word}")


def longest(rng):
    """Far more cells than any network needs: 32, or 24 by the last of them."""
    for count in (2159, 2160, 32767, 32768, 40000, 65536):
        for last in ([1, 0, 1], [2, 0, 1]):
            numbers = [1, 0, 1] * (count - 1) + last
            held = Held(n=2, count=count)
            lent = diagram(rng, held, numbers, lengths=WHOLE._replace(cells=3 * count))
            yield asked(lent, 0, f"{count} cells")


# Sound networks: all small ones, every n and m, swaps in turn.


def there_and_back(lent, place, note):
    law = cell_swaps.back_again(lent)
    yield asked(lent, place, note)
    yield Call("swap_cells", {"place": place}, lent, f"{note}, back", law)


def all_small(rng):
    """All tables of two inputs and up to two outputs, and of three inputs and one; many
    of three inputs and two, each there and back at every place."""
    sizes = [(2, 1, number) for number in range(16)] + [(2, 2, number) for number in range(256)]
    sizes += [(3, 1, number) for number in range(256)]
    sizes += [(3, 2, rng.randrange(2**16)) for _ in range(300)]
    for n, m, number in sizes:
        order = tables.random_order(rng, n)
        network = networks.of_bits(n, m, order, tables.bits_of(number, m << n))
        lent = lent_network(rng, network, WHOLE._replace(cells=60))
        for place in range(n - 1):
            yield from there_and_back(lent, place, f"n {n}, m {m}, table {number}")


def random_bits(rng, n, m):
    return rng.choice((tables.coin_bits, tables.pooled_bits, tables.formula_bits))(rng, n, m)


def any_network(rng, n, m):
    """What is lent with a network of any filled table in any order, and dirt."""
    lent = lending.lent_for(rng, n, m, lending.LARGEST_BOARD)
    state = library.state_from(lent.contents["state"])
    values = table_files.packed(random_bits(rng, n, m))
    table = reference.Table(n, m, values, table_files.packed([1] * (m << n)))
    cells, roots = reference.whole_network(table, tuple(reference.used_order(state)))
    lending.lend_diagram(lent, cells, roots)
    return lent


def just_enough(rng, lent, place, note):
    """A swap on a board just enough, and first, if that still has the counted cells, on
    one with a number fewer; the work is dirty each time."""
    count, wanted = lent.contents["state"][library.COUNT], cell_swaps.wanted_at(lent, place)
    for length in [3 * wanted - 1] * (wanted > count) + [3 * max(count, wanted)]:
        lent.contents["work"] = lending.dirty(rng, "work", len(lent.contents["work"]))
        lent.lengths["cells"] = length
        yield asked(lent, place, f"{note}, {wanted} wanted")
    lent.lengths["cells"] = lending.LARGEST_BOARD


def sizes(rng, inputs, outputs):
    """Every place of every size: there and back, and then in turn down all places; the
    place behind is 9."""
    for n, m in itertools.product(inputs, outputs):
        lent, note = any_network(rng, n, m), f"n {n}, m {m}"
        for place in range(n - 1):
            yield from there_and_back(lent, place, note)
        yield asked(lent, max(n - 1, 0), note)
        for place in range(n - 1):
            yield from just_enough(rng, lent, place, f"{note}, in turn")


def free_rows(rng):
    """The state's own network of a table with free rows, swapped in turn without a build
    between; what it gives, and what a count and a build of the table give."""
    for n, m in itertools.product(range(2, 7), (1, 2, 3, 5)):
        for share in (0.3, 0.7, 0.9):
            lent = lending.lent_for(rng, n, m)
            care = [int(rng.random() < share) for _ in range(m << n)]
            values = table_files.packed(random_bits(rng, n, m))
            lending.put_planes(lent, values, table_files.packed(care))
            note = f"free rows, n {n}, m {m}"
            yield Call("build", {}, lent, note)
            for _ in range(n):
                yield asked(lent, rng.randrange(n - 1), note)
            lending.lend_rows(rng, lent, range(2**n))
            yield Call("evaluate_rows", {}, lent, note)
            yield Call("count", {}, lent, note)
            yield from there_and_back(lent, rng.randrange(n - 1), note)
            yield Call("build", {}, lent, note)


def with_a_build(rng):
    """Fully cared tables: at every place the swap in the cells, and a swap and a build."""
    for n, m in itertools.product(range(2, 8), (1, 2, 3, 16)):
        lent = lending.lent_for(rng, n, m, lending.LARGEST_BOARD)
        cell_swaps.care_for_all(lent)
        note = f"fully cared, n {n}, m {m}"
        yield Call("build", {}, lent, note)
        for place in range(n - 1):
            copied = lent.copy(lent.contents)
            yield asked(lent, place, note)
            yield Call("swap", {"place": place}, copied, note)
            yield Call("build", {}, copied, note, cell_swaps.as_swapped(lent, copied))


def widest(rng):
    """All 2,159 cells, on a board just enough and on one with a number fewer."""
    network = networks.of_table(tables.widest_table(rng))
    for place in (0, 4, 7, 8):
        lent = lent_network(rng, network, WHOLE._replace(cells=lending.LARGEST_BOARD))
        wanted = cell_swaps.wanted_at(lent, place)
        for length in {3 * len(network.cells), 3 * wanted - 1, 3 * wanted}:
            copied = lent.copy(lent.contents)
            copied.lengths["cells"] = min(length, lending.LARGEST_BOARD)
            yield asked(copied, place, f"the widest network, {wanted} wanted")


def small_calls(rng):
    for calls in (lengths, boards, places, breaches, counts, each_number, states):
        yield from calls(rng)


def due_at_once(rng):
    for calls in (near, sequences, longest):
        yield from calls(rng)


def several(rng):
    for calls in (free_rows, with_a_build):
        yield from calls(rng)


SIZES = [(range(7), range(1, 17)), ((7,), range(1, 17)), ((8,), range(1, 17))]
SIZES += [((9,), range(1, 13)), ((9,), range(13, 17)), ((10,), range(1, 7))]
SIZES += [((10,), range(7, 11)), ((10,), range(11, 13)), ((10,), range(13, 15)), ((10,), (15, 16))]

CHUNKS = [small_calls, due_at_once, all_small, several, widest]
CHUNKS += [functools.partial(sizes, inputs=n, outputs=m) for n, m in SIZES]
