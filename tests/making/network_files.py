"""Makes network files, document 02's 2.2, and damages them.

As in table_files.py the layout is written here a second time, apart from the
reference, and checks are right unless the damage is to a check.
"""

from collections import namedtuple

from making import table_files
from making.table_files import BLOCK, BYTE_TURN, COUNT_RANK, SIZE_TURN, Damage, byte_damage

HEADING_KIND, CELLS_KIND = 4, 5
COUNT_AT, FIRST_ROOT_AT, LAST_ROOT_AT = 16, 18, 48
BLOCK_CELLS = 84
# Every block is checked before what the cells say.
CONTENT_RANK = 1000

# Cells are triples; there are sixteen roots, those past m zero.
Network = namedtuple("Network", "n m order cells roots")


def cells_content(cells):
    return b"".join(number.to_bytes(2, "little") for cell in cells for number in cell)


def heading_content(network, count):
    sizes = bytes([network.n, network.m]) + bytes(network.order)
    numbers = [count] + list(network.roots)
    return sizes.ljust(12, b"\0") + b"".join(number.to_bytes(2, "little") for number in numbers)


def network_file(network):
    cells = network.cells
    blocks = [table_files.make_block(HEADING_KIND, 0, heading_content(network, len(cells)))]
    for first in range(0, len(cells), BLOCK_CELLS):
        content = cells_content(cells[first : first + BLOCK_CELLS])
        blocks.append(table_files.make_block(CELLS_KIND, len(blocks), content))
    return b"".join(blocks)


def number_in(file, block, at):
    return int.from_bytes(file[block * BLOCK + at : block * BLOCK + at + 2], "little")


def with_number(file, block, at, number):
    """A number of two bytes replaced, and the block's check made right."""
    low, high = number.to_bytes(2, "little")
    return table_files.with_byte(table_files.with_byte(file, block, at, low), block, at + 1, high)


def with_count(file, count):
    return with_number(file, 0, COUNT_AT, count)


def cell_at(index):
    """The block and the first byte of a cell, counted from 0."""
    return 1 + index // BLOCK_CELLS, 4 + 6 * (index % BLOCK_CELLS)


def count_in(file):
    return number_in(file, 0, COUNT_AT)


def network_in(file):
    """What a sound file holds."""
    n, m = file[4], file[5]
    cells = []
    for index in range(count_in(file)):
        block, at = cell_at(index)
        cells.append(tuple(number_in(file, block, at + more) for more in (0, 2, 4)))
    roots = [number_in(file, 0, FIRST_ROOT_AT + 2 * j) for j in range(16)]
    return Network(n, m, list(file[6 : 6 + n]), cells, roots)


# Damages, with ranks as in table_files.py. After the blocks come 24 and 32; what 23
# goes by is lent, so it is no damage of the file.


def number_damage(name, number, block, at, wrong):
    return Damage(
        f"{name} is {wrong}", number, CONTENT_RANK + number, BYTE_TURN,
        lambda file: with_number(file, block, at, wrong),
    )


def count_damages(file):
    """A count that wants other blocks."""
    count = count_in(file)
    others = {0, count + BLOCK_CELLS, count + 256, 65535}
    return [
        Damage(
            f"the count is {other}, for other blocks", 1, COUNT_RANK, SIZE_TURN,
            lambda file, other=other: with_count(file, other),
        )
        for other in sorted(others)
        if -(-other // BLOCK_CELLS) != -(-count // BLOCK_CELLS)
    ]


def heading_damages(file):
    """Sizes and order as in a table; unused bytes behind order, roots and all."""
    n, m = file[4], file[5]
    unused = [50, 509]
    if n < 10:
        unused += [6 + n, 15]
    if m < 16:
        unused += [FIRST_ROOT_AT + 2 * m, FIRST_ROOT_AT + 2 * m + 1, LAST_ROOT_AT, LAST_ROOT_AT + 1]
    damages = [byte_damage(0, 7, at, byte) for at in sorted(set(unused)) for byte in (1, 128)]
    return table_files.size_damages(file) + damages


def unused_damages(file, block):
    """The two bytes behind the cells, and what is behind the last cell in use."""
    unused = {508, 509}
    used = count_in(file) - BLOCK_CELLS * (block - 1)
    if used < BLOCK_CELLS:
        first = 4 + 6 * used
        unused |= {first, first + 1, first + 5, 507}
    return [byte_damage(block, 7, at, 1) for at in sorted(unused)]


def content_damages(file):
    """Number 24 at the ends of cells and roots, and an odd 0-arrow for 32."""
    n, m, count = file[4], file[5], count_in(file)
    beyond = 2 * count + 2
    damages = [number_damage("root 0", 24, 0, FIRST_ROOT_AT, beyond)]
    damages.append(number_damage("the last root", 24, 0, FIRST_ROOT_AT + 2 * m - 2, 65535))
    if count == 0:
        return damages
    first, last = cell_at(0), cell_at(count - 1)
    damages.append(number_damage("the first place", 24, *first, n))
    damages.append(number_damage("the last place", 24, *last, 256))
    for wrong in (beyond, 2 * count):
        damages.append(number_damage("the last 1-arrow", 24, last[0], last[1] + 4, wrong))
    if count > 1:
        damages.append(number_damage("the first 0-arrow", 24, first[0], first[1] + 2, 2))
    # The last cell's 0-arrow is constant 0, since no cell has a later place.
    damages.append(number_damage("the last 0-arrow", 32, last[0], last[1] + 2, 1))
    return damages


def all_damages(file):
    """Every damage worth a try to a sound network file."""
    damages = table_files.length_damages(file) + count_damages(file) + heading_damages(file)
    for block in range(len(file) // BLOCK):
        damages += table_files.check_damages(file, block) + table_files.frame_damages(file, block)
        if block > 0:
            damages += unused_damages(file, block)
    return damages + content_damages(file)
