"""Deliberate slips of document 02's 2.2, as in reference.py, but of paper/network_file.py."""

READ_SHORT = """\
    if reference.table_buffers_short(values, care, work) or len(roots) < ROOTS:
        return 10, 0
"""
READ_REFUSED = "    refusal = file_refusal(file)\n    if refusal:\n        return refusal, 0\n"
READ_FOUND = "    found, new_roots, new_cells = state_in(file), roots_in(file), cells_in(file)\n"
READ_BOARD = """\
    if found.count > len(cells) // 3:
        reference.clear_work(work)
        return 23, found.count
"""
READ_UNSOUND = """\
    if not reference.network_is_sound(found, new_roots, new_cells):
        return 24, 0
"""
CLEARED = "    reference.clear_work(work)\n"
READ_UNLIKE = "    if not is_network(found, new_roots, new_cells):\n        return 32, 0\n"
HEADING = "    return reference.heading_refusal(block, HEADING_KIND, unused_in_heading)\n"
SEVEN_FIRST = """\
    if reference.frame_refusal(block, HEADING_KIND, 0) == 0:
        if block[4] <= 10 and 0 < block[5] <= 16 and any(unused_in_heading(block)):
            return 7
"""
BLOCK_ZERO = """\
    refusal = heading_refusal(blocks[0])
    if refusal:
        return refusal
"""
COUNT = "    count = number_at(blocks[0], COUNT_AT)\n"
BLOCK_TOTAL = "    if len(blocks) != blocks_for(count):\n        return 1\n"
FURTHER_BLOCKS = """\
    for number in range(1, len(blocks)):
        refusal = cell_block_refusal(blocks[number], number, count)
        if refusal:
            return refusal
"""
FRAME = """\
    refusal = reference.frame_refusal(block, CELLS_KIND, number)
    if refusal:
        return refusal
"""
USED = "    used_here = min(BLOCK_CELLS, count - BLOCK_CELLS * (number - 1))\n"
NOT_ZERO = "    if any(block[4 + CELL_BYTES * used_here : 510]):\n        return 7\n"
UNUSED_ORDER = "block[6 + n : COUNT_AT]"
UNUSED_ROOTS = "block[ROOTS_AT + 2 * m : ROOTS_END]"
ALIKE = "counted == wanted_cells and list(roots[: state.m]) == wanted_roots"
WRITE_SHORT = """\
    if len(roots) < ROOTS or len(work) < WORK_BYTES or len(file) < FILE_BYTES:
        return 10, 0
"""
WRITE_NO_NETWORK = "    if reference.stage_of(state) != reference.NETWORK:\n        return 22, 0\n"
WRITE_UNSOUND = """\
    if not reference.network_is_sound(state, roots, cells):
        return 24, 0
"""
WRITE_UNLIKE = "    if not is_network(state, roots, cells):\n        return 32, 0\n"
WRITTEN = "    file[: len(written)] = written\n    return 0, 0\n"
NUMBER = "    return file[at] + 256 * file[at + 1]\n"
READ_CELLS = "    for at, number in enumerate(new_cells):\n        cells[at] = number\n"
USED_ROOTS = "    used_roots = list(roots[: state.m]) + [0] * (ROOTS - state.m)\n"

READ_SLIPS = [
    ("read: 1 before 10", READ_SHORT + READ_REFUSED, READ_REFUSED + READ_SHORT),
    ("read: 7 before 6", HEADING, SEVEN_FIRST + HEADING),
    (
        "read: the block total before block 0", BLOCK_ZERO + COUNT + BLOCK_TOTAL,
        COUNT + BLOCK_TOTAL + BLOCK_ZERO,
    ),
    (
        "read: the further blocks before the block total", BLOCK_TOTAL + FURTHER_BLOCKS,
        FURTHER_BLOCKS + BLOCK_TOTAL,
    ),
    ("read: 7 before 3 in a block of cells", FRAME + USED + NOT_ZERO, USED + NOT_ZERO + FRAME),
    (
        "read: 23 before the further blocks", READ_REFUSED,
        READ_REFUSED.replace(
            "return refusal, 0",
            "late = len(file) and len(file) % 512 == 0 and heading_refusal(file[:512]) == 0\n"
            "        if late and number_at(file, COUNT_AT) > len(cells) // 3:\n"
            "            return 23, number_at(file, COUNT_AT)\n"
            "        return refusal, 0",
        ),
    ),
    ("read: 24 before 23", READ_BOARD + READ_UNSOUND, READ_UNSOUND + READ_BOARD),
    (
        "read: 32 before 24", READ_UNSOUND,
        READ_UNSOUND.replace(
            "return 24, 0",
            "numbered = new_cells[0::3] == sorted(new_cells[0::3])\n"
            "        return 24 if numbered else 32, 0",
        ),
    ),
    ("read: 32 before 23", READ_BOARD, READ_BOARD.replace(
        "        reference.clear_work(work)\n        return 23",
        "        reference.clear_work(work)\n"
        "        if reference.network_is_sound(found, new_roots, new_cells):\n"
        "            if not is_network(found, new_roots, new_cells):\n"
        "                return 32, 0\n"
        "        return 23",
    )),
    ("read: 23 adds nothing", "return 23, found.count", "return 23, 0"),
    (
        "read: 23 goes by the cells that are there", READ_BOARD,
        READ_BOARD.replace(
            "found.count >",
            "sum(any(new_cells[at : at + 3]) for at in range(0, len(new_cells), 3)) >",
        ),
    ),
    (
        "read: a ragged end is a cell of the board", READ_BOARD,
        READ_BOARD.replace("len(cells) // 3", "(len(cells) + 2) // 3"),
    ),
    (
        "read: 23 leaves the work buffer", READ_BOARD,
        READ_BOARD.replace("        reference.clear_work(work)\n", ""),
    ),
    (
        "read: 24 clears the work buffer", READ_UNSOUND + CLEARED + READ_UNLIKE,
        CLEARED + READ_UNSOUND + READ_UNLIKE,
    ),
    ("read: 32 leaves the work buffer", CLEARED + READ_UNLIKE, READ_UNLIKE + CLEARED),
    ("read: 24 is not tested", READ_UNSOUND, ""),
    ("read: 32 is not tested", READ_UNLIKE, ""),
]

CONTENT_SLIPS = [
    ("read: unused roots are not tested", f" + {UNUSED_ROOTS}", ""),
    ("read: of unused roots the low byte is tested", UNUSED_ROOTS, UNUSED_ROOTS[:-1] + ":2]"),
    ("read: the first unused root is not tested", "ROOTS_AT + 2 * m :", "ROOTS_AT + 2 * m + 2 :"),
    ("read: bytes behind the order are not tested", f"{UNUSED_ORDER} + ", ""),
    ("read: bytes behind the roots are not tested", " + block[ROOTS_END:510]", ""),
    ("read: bytes 508 and 509 are not tested", "* used_here : 510]", "* used_here : 508]"),
    ("read: cells past the count are not tested", "CELL_BYTES * used_here", "CELL_BYTES * 84"),
    (
        "read: the count's high byte is ignored", NUMBER,
        NUMBER.replace("return", "return file[at] if at == COUNT_AT else"),
    ),
    ("an empty block behind 84 cells", "(count + BLOCK_CELLS - 1) //", "(count + BLOCK_CELLS) //"),
    ("83 cells a block", "BLOCK_CELLS = 84", "BLOCK_CELLS = 83"),
    ("read: the values' rest stays", "reference.write_stream(values, table.values)",
     "values[: len(table.values)] = table.values"),
    ("read: the care's rest stays", "reference.write_stream(care, table.care)",
     "care[: len(table.care)] = table.care"),
    ("read: the last byte is cared whole", "write_stream(care, table.care)",
     'write_stream(care, b"\\xff" * len(table.care))'),
    ("read: the care stays", "    reference.write_stream(care, table.care)\n", ""),
    (
        "read: the rows are by places", "    reference.write_stream(values, table.values)\n",
        "    order, found.order = found.order, list(range(10))\n"
        "    by_places = computed_table(found, new_roots, new_cells).values\n"
        "    reference.write_stream(values, by_places)\n"
        "    found.order = order\n",
    ),
    ("read: unused roots stay", "    for j in range(ROOTS):\n", "    for j in range(found.m):\n"),
    (
        "read: cells past the count are zeroed", READ_CELLS,
        READ_CELLS + "    for at in range(len(new_cells), len(cells)):\n        cells[at] = 0\n",
    ),
    (
        "read: the order past n stays", "state.order = found.n, found.m, found.order\n",
        "state.order[: found.n] = found.n, found.m, found.order[: found.n]\n",
    ),
    (
        "read: the stage is table", "    state.stage = reference.NETWORK\n",
        "    state.stage = reference.TABLE\n",
    ),
    ("read: a success answers the count", "    put_state(state, found)\n    return 0, 0\n",
     "    put_state(state, found)\n    return 0, found.count\n"),
]

NETWORK_SLIPS = [
    ("32: the numbering is not compared", ALIKE, "sorted(counted) == sorted(wanted_cells)"),
    ("32: cells are counted only", ALIKE, "len(counted) == len(wanted_cells)"),
    ("32: an unreached cell is accepted", ALIKE, "counted[: len(wanted_cells)] == wanted_cells"),
    (
        "32: unreached cells are accepted anywhere", ALIKE,
        "set(wanted_cells) <= set(counted) or len(counted) > len(wanted_cells)",
    ),
    (
        "32: a cell turned over is accepted", ALIKE,
        "[cell[0] for cell in counted] == [cell[0] for cell in wanted_cells]",
    ),
    (
        "32: the last cell is not compared", ALIKE,
        "counted[:-1] == wanted_cells[:-1] and len(counted) == len(wanted_cells)",
    ),
    (
        "32: arrows alike are accepted", ALIKE,
        ALIKE + " or any(cell[1] == cell[2] for cell in counted)",
    ),
    (
        "32: in the natural order", "tuple(reference.used_order(state))",
        "tuple(range(state.n))",
    ),
]

WRITE_SLIPS = [
    ("write: 22 before 10", WRITE_SHORT + WRITE_NO_NETWORK, WRITE_NO_NETWORK + WRITE_SHORT),
    (
        # The cells are tested by a state's n and m that are no table's, if they can be.
        "write: 24 before 22", WRITE_NO_NETWORK + WRITE_UNSOUND,
        WRITE_UNSOUND.replace("if not", "if state.stage != reference.NETWORK and not")
        + WRITE_NO_NETWORK + WRITE_UNSOUND,
    ),
    (
        "write: the file buffer is tested after 22", WRITE_SHORT + WRITE_NO_NETWORK,
        WRITE_SHORT.replace(" or len(file) < FILE_BYTES", "") + WRITE_NO_NETWORK
        + "    if len(file) < FILE_BYTES:\n        return 10, 0\n",
    ),
    ("write: a byte fewer is enough", "len(file) < FILE_BYTES", "len(file) < FILE_BYTES - 1"),
    (
        "write: a buffer for the file at hand is enough", "len(file) < FILE_BYTES",
        "len(file) < 512 * blocks_for(state.count)",
    ),
    (
        "write: the work buffer may be shorter", "len(work) < WORK_BYTES",
        "len(work) < WORK_BYTES - 1",
    ),
    ("write: 32 is not tested", WRITE_UNLIKE, ""),
    ("write: 32 leaves the work buffer", CLEARED + WRITE_UNLIKE, WRITE_UNLIKE + CLEARED),
    ("write: a success leaves the work buffer", CLEARED + WRITE_UNLIKE, WRITE_UNLIKE),
    (
        "write: 24 clears the work buffer", WRITE_UNSOUND + CLEARED + WRITE_UNLIKE,
        CLEARED + WRITE_UNSOUND + WRITE_UNLIKE,
    ),
    ("write: unused roots as found", USED_ROOTS, "    used_roots = list(roots[:ROOTS])\n"),
    ("write: the order past n as found", "+ reference.used_order(state))",
     "+ [entry % 256 for entry in state.order])"),
    ("write: the count's high byte is 0", "low_byte_first([state.count] +",
     "low_byte_first([state.count % 256] +"),
    (
        "write: bytes past the file are zeroed", WRITTEN,
        "    file[:] = bytes(len(file))\n" + WRITTEN,
    ),
    ("write: bytes to the buffer's size are zeroed", WRITTEN,
     '    written = written.ljust(FILE_BYTES, b"\\0")\n' + WRITTEN),
    ("write: an empty block behind the last", "range(0, state.count, BLOCK_CELLS)",
     "range(0, state.count + 1, BLOCK_CELLS)"),
    ("write: a success answers the length", WRITTEN, WRITTEN.replace("0, 0", "0, len(written)")),
    ("write: blocks of cells are numbered from 0", "whole_block(CELLS_KIND, len(blocks), content)",
     "whole_block(CELLS_KIND, len(blocks) - 1, content)"),
]

SLIPS = READ_SLIPS + CONTENT_SLIPS + NETWORK_SLIPS + WRITE_SLIPS
