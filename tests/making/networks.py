"""Section 4's networks, to be written and read, and near ones that are not.

A near network passes number 24 but is not section 4's network of what it
computes, so it is turned away with 32. Most of them compute the same table.
"""

import random

from making import table_files
from making.network_files import Network
from paper import reference

MOST_OUTPUTS = 16


def sixteen(roots):
    return list(roots) + [0] * (MOST_OUTPUTS - len(roots))


def of_bits(n, m, order, values, care=None):
    """The network of a table's bits, filled under the order."""
    care = [1] * len(values) if care is None else care
    table = reference.Table(n, m, table_files.packed(values), table_files.packed(care))
    cells, roots = reference.network(table, tuple(order))
    return Network(n, m, list(order), list(cells), sixteen(roots))


def of_table(file):
    """The network of a sound table file, in its own order."""
    n, m = file[4], file[5]
    values, care = bytearray(2048), bytearray(2048)
    assert reference.load(reference.State(), file, values, care) == (0, 0)
    length = m * 2**n
    planes = [reference.stream_bits(plane, length) for plane in (values, care)]
    return of_bits(n, m, file[6 : 6 + n], *planes)


def grown(rng, n, count):
    """A network of at most so many cells, mostly nearly as many.

    Outputs are added that use all inputs, then fewer and fewer of the last
    ones, as long as the cells don't come to too many.
    """
    bits, found = [], None
    for used in [n] * MOST_OUTPUTS + list(range(n - 1, 0, -1)) * 3:
        added = [rng.randint(0, 1) for _ in range(2**used)] * 2 ** (n - used)
        m = (len(bits) + len(added)) // 2**n
        if m > MOST_OUTPUTS:
            break
        tried = of_bits(n, m, range(n), bits + added)
        if len(tried.cells) <= count:
            bits, found = bits + added, tried
        if found and len(found.cells) == count:
            break
    return found


def with_cells(n, count):
    """A network of exactly so many cells, always the same, in the natural order."""
    rng = random.Random(f"{count} cells")
    while True:
        found = grown(rng, n, count)
        if found and len(found.cells) == count:
            return found


# Renumbering.


def renamed(network, name):
    """Every reference to a cell by its new name; the cells stay where they are."""
    def new(number):
        return number if number < 2 else name(number)

    cells = [(place, new(zero), new(one)) for place, zero, one in network.cells]
    roots = [new(root) for root in network.roots[: network.m]]
    return network._replace(cells=cells, roots=sixteen(roots))


def resequenced(network, sequence):
    """The cells in another sequence, each reference still to the same cell."""
    numbers = {old: new for new, old in enumerate(sequence, 1)}
    moved = network._replace(cells=[network.cells[old - 1] for old in sequence])
    return renamed(moved, lambda number: 2 * numbers[number // 2] + number % 2)


def exchanged(network, first, second):
    sequence = list(range(1, len(network.cells) + 1))
    sequence[first - 1], sequence[second - 1] = second, first
    return resequenced(network, sequence)


def inserted(network, number, cell):
    """A cell of its own with that number; those from there on get the next one."""
    shifted = renamed(network, lambda old: old + 2 if old // 2 >= number else old)
    new = (cell[0],) + tuple(old + 2 if old // 2 >= number else old for old in cell[1:])
    cells = shifted.cells[: number - 1] + [new] + shifted.cells[number - 1 :]
    return shifted._replace(cells=cells)


def behind_place(network, place):
    """The number that a last cell of this place would have."""
    return 1 + sum(cell[0] <= place for cell in network.cells)


def with_cell(network, number, *changes):
    """Of one cell the numbers named as (position, new number) changed."""
    cells = list(network.cells)
    cell = list(cells[number - 1])
    for position, new in changes:
        cell[position] = new
    cells[number - 1] = tuple(cell)
    return network._replace(cells=cells)


def with_root(network, output, reference_):
    roots = list(network.roots)
    roots[output] = reference_
    return network._replace(roots=roots)


# Near networks. Each gives a list, empty where the network has none.


def exchanged_in_place(network):
    """Two neighbours of one place, references renamed: the numbering is wrong."""
    cells = network.cells
    pairs = [i for i in range(1, len(cells)) if cells[i - 1][0] == cells[i][0]]
    return [exchanged(network, i, i + 1) for i in pairs]


def exchanged_between_places(network):
    cells = network.cells
    pairs = [i for i in range(1, len(cells)) if cells[i - 1][0] != cells[i][0]]
    return [exchanged(network, i, i + 1) for i in pairs]


def turned_over(network):
    """A cell and every reference to it inverted: its 0-arrow is odd."""
    turned = []
    for number, (_, zero, one) in enumerate(network.cells, 1):
        changed = with_cell(network, number, (1, zero ^ 1), (2, one ^ 1))
        turned.append(renamed(changed, lambda old: old ^ 1 if old // 2 == number else old))
    return turned


def redirected(network, old, new):
    """The last of the roots and arrows that refers to a cell refers to another."""
    for output in reversed(range(network.m)):
        if network.roots[output] // 2 == old:
            return with_root(network, output, 2 * new + network.roots[output] % 2)
    for number in range(len(network.cells), 0, -1):
        for position in (2, 1):
            arrow = network.cells[number - 1][position]
            if arrow // 2 == old:
                return with_cell(network, number, (position, 2 * new + arrow % 2))
    raise ValueError(f"cell {old} is not reached")


def repeated(network):
    """A cell twice, the second behind the last of its place, each of them used if
    there is more than one reference."""
    made = []
    for number, cell in enumerate(network.cells, 1):
        copy = behind_place(network, cell[0])
        made.append(redirected(inserted(network, copy, cell), number, copy))
    return made


def unreached(network):
    """One cell more that nothing refers to, at each place; it is sound itself."""
    made = []
    for place in range(network.n):
        number = behind_place(network, place)
        later = [2 * i for i in range(number, len(network.cells) + 1)]
        ones = [one + odd for one in [0] + later for odd in (0, 1)]
        new = [(place, zero, one) for zero in [0] + later for one in ones if zero != one]
        new = [cell for cell in new if cell not in network.cells]
        made += [inserted(network, number, cell) for cell in new[:1]]
    return made


def equal_arrows(network):
    """A root goes through a cell whose arrows are the same."""
    made = []
    for output in range(network.m):
        root = network.roots[output]
        top = network.cells[root // 2 - 1][0] if root > 1 else network.n
        for place in range(top):
            number = behind_place(network, place)
            through = inserted(network, number, (place, root, root))
            made.append(with_root(through, output, 2 * number))
    return made


def odd_zero_arrow(network):
    return [
        with_cell(network, number, (1, cell[1] ^ 1))
        for number, cell in enumerate(network.cells, 1)
    ]


def crossed_roots(network):
    """The outputs of two cells of one place exchanged: the numbering is wrong."""
    found = []
    for first, second in ((0, j) for j in range(1, network.m)):
        one, other = network.roots[first], network.roots[second]
        tops = [network.cells[root // 2 - 1][0] if root > 1 else None for root in (one, other)]
        if None not in tops and tops[0] == tops[1] and one // 2 != other // 2:
            found.append(with_root(with_root(network, first, other), second, one))
    return found


def root_inside(network):
    """The only root to another cell than the first, which nothing reaches then."""
    if network.m != 1:
        return []
    return [with_root(network, 0, 2 * number) for number in range(2, len(network.cells) + 1)]


def by_walk(network, outputs, positions):
    """The cells' numbers by place, then as they are first met from these outputs on,
    each cell's arrows in the sequence of these positions."""
    met, waiting = {}, [network.roots[output] // 2 for output in reversed(outputs)]
    while waiting:
        number = waiting.pop()
        if number and number not in met:
            met[number] = network.cells[number - 1]
            waiting += [met[number][position] // 2 for position in reversed(positions)]
    return sorted(met, key=lambda number: met[number][0])


def numbered_otherwise(network):
    """The last output's cells first; or those behind the 1-arrows first."""
    outputs = range(network.m)
    walks = (outputs[::-1], (1, 2)), (outputs, (2, 1))
    sequences = [by_walk(network, *walk) for walk in walks]
    return [resequenced(network, each) for each in sequences if each != sorted(each)]


def zero_cell_more(network):
    if network.n == 0:
        return []
    return [network._replace(cells=network.cells + [(0, 0, 0)])]


NEAR = {
    "two cells of a place exchanged": exchanged_in_place,
    "two cells of two places exchanged": exchanged_between_places,
    "a cell turned over": turned_over,
    "a cell repeated": repeated,
    "a cell unreached": unreached,
    "a cell with equal arrows": equal_arrows,
    "an odd 0-arrow": odd_zero_arrow,
    "two roots crossed": crossed_roots,
    "the root to a cell inside": root_inside,
    "numbered by another sequence": numbered_otherwise,
    "a cell of zeros more": zero_cell_more,
}


def near_networks(network):
    """Every near one of a network, each with its name."""
    return [(name, near) for name, made in NEAR.items() for near in made(network)]


def some_near(rng, network):
    """Any near one; None where there is none at all."""
    kinds = [made for made in NEAR.values() if made(network)]
    return rng.choice(rng.choice(kinds)(network)) if kinds else None


# For damages.

# Every size that the damages differ by: no cells, few, n 10, m 16, a full block, one more.
DAMAGE_BASES = {
    "bare": lambda: Network(0, 1, [], [], sixteen([1])),
    "few": lambda: of_table(table_files.table_from_rows(["0 1 1 0 1 0 0 0"], [2, 0, 1])),
    "ten": lambda: of_bits(10, 1, range(9, -1, -1), [row % 3 % 2 for row in range(1024)]),
    "wide": lambda: of_bits(2, 16, [1, 0], [row * row // 3 % 2 for row in range(64)]),
    "full": lambda: with_cells(7, 84),
    "more": lambda: with_cells(7, 85),
}
