"""Document 02's 2.2, the network file, written once more beside reference.py.

As there, it is made from the papers alone. Number 32 is by its definition: the
table that the cells compute is made, every row cared, and section 4's network
of it is built and compared.
"""

from paper import reference
from paper.reference import BLOCK_BYTES, ROOTS, WORK_BYTES

HEADING_KIND, CELLS_KIND = 4, 5
COUNT_AT, ROOTS_AT, ROOTS_END = 16, 18, 50
BLOCK_CELLS = 84
CELL_BYTES = 6
# The writer's file buffer: a heading, and blocks for 2,159 cells.
FILE_BYTES = 13824


def number_at(file, at):
    return file[at] + 256 * file[at + 1]


def blocks_for(count):
    return 1 + (count + BLOCK_CELLS - 1) // BLOCK_CELLS


# The checks of the file, as load does them.


def unused_in_heading(block):
    """Behind the order, behind the m roots, and behind all sixteen."""
    n, m = block[4], block[5]
    return block[6 + n : COUNT_AT] + block[ROOTS_AT + 2 * m : ROOTS_END] + block[ROOTS_END:510]


def heading_refusal(block):
    return reference.heading_refusal(block, HEADING_KIND, unused_in_heading)


def cell_block_refusal(block, number, count):
    """Numbers 2, 3 and 7 for a block of cells."""
    refusal = reference.frame_refusal(block, CELLS_KIND, number)
    if refusal:
        return refusal
    used_here = min(BLOCK_CELLS, count - BLOCK_CELLS * (number - 1))
    if any(block[4 + CELL_BYTES * used_here : 510]):
        return 7
    return 0


def file_refusal(file):
    if len(file) == 0 or len(file) % BLOCK_BYTES != 0:
        return 1
    blocks = [file[at : at + BLOCK_BYTES] for at in range(0, len(file), BLOCK_BYTES)]
    refusal = heading_refusal(blocks[0])
    if refusal:
        return refusal
    count = number_at(blocks[0], COUNT_AT)
    if len(blocks) != blocks_for(count):
        return 1
    for number in range(1, len(blocks)):
        refusal = cell_block_refusal(blocks[number], number, count)
        if refusal:
            return refusal
    return 0


# What a file holds.


def state_in(file):
    state = reference.State()
    state.n, state.m = file[4], file[5]
    state.order[: state.n] = file[6 : 6 + state.n]
    state.count = number_at(file, COUNT_AT)
    state.stage = reference.NETWORK
    return state


def roots_in(file):
    return [number_at(file, ROOTS_AT + 2 * j) for j in range(ROOTS)]


def cells_in(file):
    """The counted cells' numbers, three a cell."""
    numbers = []
    for i in range(number_at(file, COUNT_AT)):
        block, cell = 1 + i // BLOCK_CELLS, i % BLOCK_CELLS
        at = BLOCK_BYTES * block + 4 + CELL_BYTES * cell
        numbers += [number_at(file, at), number_at(file, at + 2), number_at(file, at + 4)]
    return numbers


# Number 32.


def packed(bits):
    """A stream's bytes, lowest bit of each byte first."""
    content = bytearray((len(bits) + 7) // 8)
    for i, bit in enumerate(bits):
        content[i // 8] += bit * 2 ** (i % 8)
    return bytes(content)


def computed_table(state, roots, cells):
    """The table that sound cells compute under the state's order, every row cared."""
    values = [
        reference.followed(state, row, roots[j], cells)
        for j in range(state.m)
        for row in range(2**state.n)
    ]
    return reference.Table(state.n, state.m, packed(values), packed([1] * len(values)))


def is_network(state, roots, cells):
    """Whether cells and roots are section 4's network of what they compute."""
    table = computed_table(state, roots, cells)
    order = tuple(reference.used_order(state))
    wanted_cells, wanted_roots = reference.whole_network(table, order)
    counted = [tuple(cells[3 * i : 3 * i + 3]) for i in range(state.count)]
    return counted == wanted_cells and list(roots[: state.m]) == wanted_roots


# The calls.


def put_state(state, found):
    state.n, state.m, state.order = found.n, found.m, found.order
    state.count, state.stage = found.count, found.stage


def read_cells(state, file, values, care, work, roots, cells):
    if reference.table_buffers_short(values, care, work) or len(roots) < ROOTS:
        return 10, 0
    refusal = file_refusal(file)
    if refusal:
        return refusal, 0
    found, new_roots, new_cells = state_in(file), roots_in(file), cells_in(file)
    if found.count > len(cells) // 3:
        reference.clear_work(work)
        return 23, found.count
    if not reference.network_is_sound(found, new_roots, new_cells):
        return 24, 0
    reference.clear_work(work)
    if not is_network(found, new_roots, new_cells):
        return 32, 0
    table = computed_table(found, new_roots, new_cells)
    reference.write_stream(values, table.values)
    reference.write_stream(care, table.care)
    for j in range(ROOTS):
        roots[j] = new_roots[j]
    for at, number in enumerate(new_cells):
        cells[at] = number
    put_state(state, found)
    return 0, 0


def low_byte_first(numbers):
    return bytes(byte for number in numbers for byte in (number % 256, number // 256))


def whole_block(kind, number, content):
    """Four bytes of frame, the content with zeros behind it, and the check."""
    block = bytes([kind, 0]) + low_byte_first([number]) + content.ljust(506, b"\0")
    return block + low_byte_first([reference.check_of(block)])


def heading_content(state, roots):
    """Unused roots are written as zero, whatever the caller's hold."""
    used_roots = list(roots[: state.m]) + [0] * (ROOTS - state.m)
    sizes = bytes([state.n, state.m] + reference.used_order(state))
    return sizes.ljust(COUNT_AT - 4, b"\0") + low_byte_first([state.count] + used_roots)


def file_of(state, roots, cells):
    blocks = [whole_block(HEADING_KIND, 0, heading_content(state, roots))]
    for first in range(0, state.count, BLOCK_CELLS):
        last = min(first + BLOCK_CELLS, state.count)
        content = low_byte_first(cells[3 * first : 3 * last])
        blocks.append(whole_block(CELLS_KIND, len(blocks), content))
    return b"".join(blocks)


def write_cells(state, roots, cells, work, file):
    if len(roots) < ROOTS or len(work) < WORK_BYTES or len(file) < FILE_BYTES:
        return 10, 0
    if reference.stage_of(state) != reference.NETWORK:
        return 22, 0
    if not reference.network_is_sound(state, roots, cells):
        return 24, 0
    reference.clear_work(work)
    if not is_network(state, roots, cells):
        return 32, 0
    written = file_of(state, roots, cells)
    file[: len(written)] = written
    return 0, 0
