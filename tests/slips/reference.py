"""Deliberate slips: edits of paper/reference.py that the comparison must notice.

A slip is a name, a text that stands in that file exactly once, and the text
to put in its place.
"""

SHORT_ROOTS = "    if len(roots) < ROOTS:\n        return 10, 0\n"
NO_NETWORK = "    if stage_of(state) != NETWORK:\n        return 22, 0\n"
ROW_BEYOND = "    if row >= 2**state.n:\n        return 8, 0\n"
UNSOUND = "    if not network_is_sound(state, roots, cells):\n        return 24, 0\n"
FEW_ANSWERS = "    if len(answers) < len(rows):\n        return 31, 0\n"
ROWS_BEYOND = "    if any(row >= 2**state.n for row in rows):\n        return 8, 0\n"
EACH_ROW = """\
    for i, row in enumerate(rows):
        answers[i] = answer_at(state, row, roots, cells)
"""
SHORT_TABLE = "    if table_buffers_short(values, care, work):\n        return 10, 0\n"
NO_TABLE = "    if stage_of(state) == NOTHING:\n        return 21, 0\n"
PLACE_BEYOND = "    if place + 1 >= state.n:\n        return 9, 0\n"
INPUT_BEYOND = "    if sifted_input >= state.n:\n        return 9, 0\n"
FRAME = "    refusal = frame_refusal(block, kind, 0)\n    if refusal:\n        return refusal\n"
SIZES = "    n, m = block[4], block[5]\n"
N_BEYOND = "    if n > 10:\n        return 4\n"
M_BEYOND = "    if m == 0 or m > 16:\n        return 5\n"
BAD_ORDER = "    if not is_order(list(block[6 : 6 + n]), n):\n        return 6\n"
NOT_ZERO = "    if any(unused(block)):\n        return 7\n"
HEADING = """\
    refusal = heading_refusal(blocks[0], 1, unused_in_heading)
    if refusal:
        return refusal
"""
HEADING_SIZES = "    n, m = blocks[0][4], blocks[0][5]\n"
BLOCK_COUNT = "    if len(blocks) != 1 + 2 * blocks_per_stream(n, m):\n        return 1\n"
FURTHER_BLOCKS = """\
    for number in range(1, len(blocks)):
        refusal = stream_block_refusal(blocks[number], number, n, m)
        if refusal:
            return refusal
"""
LOAD_SHORT = "    if len(values) < TABLE_BYTES or len(care) < TABLE_BYTES:\n        return 10, 0\n"
LOAD_REFUSED = "    refusal = file_refusal(file)\n    if refusal:\n        return refusal, 0\n"
CARED_SHORT = "    if len(care) < TABLE_BYTES:\n        return 10, 0\n"
CHECK_DIFFERS = "    if check_of(block) != stored_check(block):\n        return 2\n"
WRONG_KIND = "    if block[0] != kind or block[1] != 0:\n        return 3\n"
WANTED = "    if len(new_cells) > len(cells) // 3:\n        return 23, len(new_cells)\n"
BUILD_START = """\
    if table_buffers_short(values, care, work) or len(roots) < ROOTS:
        return 10, 0
"""
SIFT_START = "def sift(state, sifted_input, values, care, work):\n"
PASS_START = "def sift_pass(state, limit, values, care, work):\n"
COUNT_START = "def count(state, values, care, work):\n"
PASS_END = "    leave_table(state, order)\n    clear_work(work)\n    return 0, tried\n"
SWAP_END = "    leave_table(state, order)\n    return 0, 0\n"
BUILD_END = "    state.count = len(new_cells)\n    state.stage = NETWORK\n"
TRIED = "    tried = trials(order, sifted_input)\n"
TAKEN = "present if present in fewest else fewest[0]"
TURN = "        order, _ = best_trial(table, order, chosen)\n"
FIRST_PRESENT = """\
        first = used_order(state).index(chosen)
        each = trials(order, chosen)
        cells = [cost(table, trial) for trial in each]
        order = each[first if cells[first] == min(cells) else cells.index(min(cells))]
"""
FILLED_ONCE = """\
    rows = [row_in_file(row, order) for row in range(2**table.n)]
    found = filled(table, order)
    bits = [output[rows.index(row)] for output in found for row in range(2**table.n)]
    pads = [bits[at : at + 8] for at in range(0, len(bits), 8)]
    values = bytes(sum(bit << i for i, bit in enumerate(pad)) for pad in pads)
    table = Table(table.n, table.m, values, b"\\xff" * TABLE_BYTES)
"""
BUILD_ROOTS = "    for j in range(ROOTS):\n        roots[j] ="

SEQUENCE_SLIPS = [
    ("evaluate: 22 before 10", SHORT_ROOTS + NO_NETWORK, NO_NETWORK + SHORT_ROOTS),
    (
        # Without the limit of ten a huge n would want a number of huge length.
        "evaluate: 8 before 22", NO_NETWORK + ROW_BEYOND,
        ROW_BEYOND.replace("state.n", "min(state.n, 10)") + NO_NETWORK,
    ),
    (
        "evaluate: 8 before 10", SHORT_ROOTS + NO_NETWORK,
        SHORT_ROOTS.replace(
            "10, 0", "8 if stage_of(state) == NETWORK and row >= 2**state.n else 10, 0"
        ) + NO_NETWORK,
    ),
    ("evaluate: 24 before 8", ROW_BEYOND + UNSOUND, UNSOUND + ROW_BEYOND),
    ("swap: 9 before 21", NO_TABLE + PLACE_BEYOND, PLACE_BEYOND + NO_TABLE),
    ("sift: 9 before 21", NO_TABLE + INPUT_BEYOND, INPUT_BEYOND + NO_TABLE),
    (
        "sift: 9 before 10", SIFT_START + SHORT_TABLE,
        SIFT_START + SHORT_TABLE.replace(
            "10, 0", "9 if stage_of(state) != NOTHING and sifted_input >= state.n else 10, 0"
        ),
    ),
    (
        "sift: 21 before 10", SIFT_START + SHORT_TABLE + NO_TABLE,
        SIFT_START + NO_TABLE + SHORT_TABLE,
    ),
    (
        "pass: 21 before 10", PASS_START + SHORT_TABLE + NO_TABLE,
        PASS_START + NO_TABLE + SHORT_TABLE,
    ),
    (
        "count: 21 before 10", COUNT_START + SHORT_TABLE + NO_TABLE,
        COUNT_START + NO_TABLE + SHORT_TABLE,
    ),
    ("cared: 21 before 10", CARED_SHORT + NO_TABLE, NO_TABLE + CARED_SHORT),
    ("build: 21 before 10", BUILD_START + NO_TABLE, NO_TABLE + BUILD_START),
    ("load: 1 before 10", LOAD_SHORT + LOAD_REFUSED, LOAD_REFUSED + LOAD_SHORT),
    ("load: 3 before 2", CHECK_DIFFERS + WRONG_KIND, WRONG_KIND + CHECK_DIFFERS),
    (
        "load: 4 before 3", FRAME + SIZES + N_BEYOND,
        FRAME.replace("if refusal:", "if refusal == 2 or refusal and block[4] <= 10:")
        + SIZES + N_BEYOND,
    ),
    ("load: 5 before 4", N_BEYOND + M_BEYOND, M_BEYOND + N_BEYOND),
    ("load: 6 before 5", M_BEYOND + BAD_ORDER, BAD_ORDER + M_BEYOND),
    ("load: 7 before 6", BAD_ORDER + NOT_ZERO, NOT_ZERO + BAD_ORDER),
    (
        "load: the block count before block 0", HEADING + HEADING_SIZES + BLOCK_COUNT,
        HEADING_SIZES + BLOCK_COUNT + HEADING,
    ),
    (
        "load: the further blocks before the block count", BLOCK_COUNT + FURTHER_BLOCKS,
        FURTHER_BLOCKS + BLOCK_COUNT,
    ),
]

STATE_SLIPS = [
    (
        "m 17 is taken", "if state.n > 10 or state.m < 1 or state.m > 16:",
        "if state.n > 10 or state.m < 1 or state.m > 17:",
    ),
    (
        "an entry n is an input", "return sorted(order) == list(range(n))",
        "return len(set(order)) == n and all(entry <= n for entry in order)",
    ),
    (
        "swap zeroes the order past n", SWAP_END,
        SWAP_END.replace("return", "state.order[state.n :] = [0] * (10 - state.n)\n    return"),
    ),
    (
        "swap keeps the count", SWAP_END,
        "    held = state.count\n" + SWAP_END.replace("return", "state.count = held\n    return"),
    ),
    (
        "load keeps the order past n", "+ [0] * (ORDER_ENTRIES - state.n)\n",
        "+ state.order[state.n :]\n",
    ),
    (
        "load keeps the count", "    state.count = 0\n    state.stage = TABLE\n    contents =",
        "    state.stage = TABLE\n    contents =",
    ),
    (
        "count drops the network", "    clear_work(work)\n    return 0, cost(",
        "    clear_work(work)\n    state.stage = TABLE\n    return 0, cost(",
    ),
    (
        "a refused build drops the network", WANTED,
        WANTED.replace("        return", "        state.stage = TABLE\n        return"),
    ),
    (
        "a pass without a trial keeps the network", PASS_END,
        PASS_END.replace("leave_table", "tried and leave_table"),
    ),
]

BUFFER_SLIPS = [
    (
        "23 leaves the work buffer", "    clear_work(work)\n" + WANTED,
        WANTED + "    clear_work(work)\n",
    ),
    ("23 adds nothing", "return 23, len(new_cells)", "return 23, 0"),
    (
        "the last byte of work is not cleared", "work[:WORK_BYTES] = bytes(WORK_BYTES)",
        "work[: WORK_BYTES - 1] = bytes(WORK_BYTES - 1)",
    ),
    (
        "a byte of work too many is cleared", "work[:WORK_BYTES] = bytes(WORK_BYTES)",
        "work[: WORK_BYTES + 1] = bytes(min(len(work), WORK_BYTES + 1))",
    ),
    (
        "a pass without a trial leaves the work buffer", PASS_END,
        PASS_END.replace("clear_work", "tried and clear_work"),
    ),
    ("unused roots are not cleared", BUILD_ROOTS, BUILD_ROOTS.replace("ROOTS", "state.m")),
    (
        "cells past the count are cleared", BUILD_END,
        "    for at in range(3 * len(new_cells), len(cells)):\n        cells[at] = 0\n" + BUILD_END,
    ),
    (
        "load leaves the last byte of the rest",
        'buffer[:TABLE_BYTES] = content.ljust(TABLE_BYTES, b"\\0")',
        'buffer[: TABLE_BYTES - 1] = content.ljust(TABLE_BYTES - 1, b"\\0")',
    ),
    (
        "load takes unused bits of a last byte", "    if any(bits[used_here:]):\n",
        "    if any(bits[(used_here + 7) // 8 * 8 :]):\n",
    ),
]

NETWORK_SLIPS = [
    (
        "a ragged end is a cell", "    if len(cells) // 3 < state.count:\n",
        "    if (len(cells) + 2) // 3 < state.count:\n",
    ),
    ("a ragged end is no board", "> len(cells) // 3:", "> (len(cells) - 1) // 3:"),
    ("the last cell has no inverse", "<= 2 * state.count + 1", "< 2 * state.count + 1"),
    (
        "cells past the count are tested", "cells[3 * i] for i in range(state.count)]",
        "cells[3 * i] for i in range(len(cells) // 3)]",
    ),
    ("unused roots are tested", "in roots[: state.m])", "in roots)"),
    ("arrows within a place", "[arrow // 2 - 1] <= place:", "[arrow // 2 - 1] < place:"),
    (
        "evaluation by the natural order", "(state.n - 1 - state.order[place]) & 1",
        "(state.n - 1 - place) & 1",
    ),
    (
        "cared counts the whole last byte", "sum(stream_bits(care, state.m * 2**state.n))",
        "sum(stream_bits(care, (state.m * 2**state.n + 7) // 8 * 8))",
    ),
    (
        "matches before constants", "        if is_constant(candidate, constant):\n",
        "        matched = any(agree(candidate, entry) for entry in entries)\n"
        "        if is_constant(candidate, constant) and not matched:\n",
    ),
    ("never inverted", "((0, candidate), (1, inverse))", "((0, candidate),)"),
    ("inverted before plain", "((0, candidate), (1, inverse))", "((1, inverse), (0, candidate))"),
    (
        "an entry's care from before its merges", "entries[index] = merged(compared, entry)",
        "entries[index] = [(f, d) for (f, _), (_, d) in zip(merged(compared, entry), entry)]",
    ),
    ("constant 1 before constant 0", "for constant in (0, 1):", "for constant in (1, 0):"),
]

SIFT_SLIPS = [
    ("sift: the smallest place although the present one is as good", TAKEN, "fewest[0]"),
    ("sift: the largest place on ties", TAKEN, "fewest[-1]"),
    (
        "sift: the largest place where the input does not stay", TAKEN,
        TAKEN.replace("fewest[0]", "fewest[-1]"),
    ),
    (
        "sift: the nearest place where the input does not stay", TAKEN,
        TAKEN.replace("fewest[0]", "min(fewest, key=lambda place: abs(place - present))"),
    ),
    (
        "sift: the present place although another has a cell less", TAKEN,
        TAKEN.replace("present in fewest", "cells[present] <= min(cells) + 1"),
    ),
    (
        "sift: the input's number for its place", "present = order.index(sifted_input)",
        "present = sifted_input",
    ),
    ("pass: the present place is that of the first order", TURN, FIRST_PRESENT),
    ("pass: the limit itself is too many", "tried + state.n <= limit:", "tried + state.n < limit:"),
    ("pass: the highest number on ties", "or held > most:", "or held >= most:"),
    (
        "pass: the cells of the first order", "chosen = next_input(table, order, unsifted)",
        "chosen = next_input(table, used_order(state), unsifted)",
    ),
    (
        # Where the input stands at the last place, that one is tried as the present one.
        "sift: the last place is not tried", TRIED,
        TRIED + "    if order[-1] != sifted_input:\n        tried.pop()\n",
    ),
    ("sift: the table is filled once", TRIED, FILLED_ONCE + TRIED),
]

# Document 02's 2.1.
ROW_BY_ROW = """\
    sound = network_is_sound(state, roots, cells)
    for i, row in enumerate(rows):
        if row >= 2**state.n:
            return 8, 0
        if sound:
            answers[i] = answer_at(state, row, roots, cells)
"""
ROW_ONCE = """\
    for row in set(rows):
        answers[list(rows).index(row)] = answer_at(state, row, roots, cells)
"""
NEXT_ANSWER = "    if len(answers) > len(rows):\n        answers[len(rows)] = 0\n"

LIST_SLIPS = [
    ("rows: 31 before 10", SHORT_ROOTS + FEW_ANSWERS, FEW_ANSWERS + SHORT_ROOTS),
    ("rows: 22 before 31", FEW_ANSWERS + NO_NETWORK, NO_NETWORK + FEW_ANSWERS),
    (
        "rows: 8 before 22", NO_NETWORK + ROWS_BEYOND,
        ROWS_BEYOND.replace("state.n", "min(state.n, 10)") + NO_NETWORK,
    ),
    ("rows: 24 before 8", ROWS_BEYOND + UNSOUND, UNSOUND + ROWS_BEYOND),
    ("rows: tested one by one as they are evaluated", ROWS_BEYOND, ROW_BY_ROW),
    ("rows: the last one is not tested", "for row in rows):", "for row in rows[:-1]):"),
    ("rows: the first alone is tested", "for row in rows):", "for row in rows[:1]):"),
    ("rows: an answer past the last is zeroed", EACH_ROW, EACH_ROW + NEXT_ANSWER),
    (
        "rows: of an empty list the cells are not tested", ROWS_BEYOND + UNSOUND,
        ROWS_BEYOND + UNSOUND.replace("if not", "if len(rows) and not"),
    ),
    (
        "rows: for an empty list no network is needed", FEW_ANSWERS + NO_NETWORK,
        FEW_ANSWERS + NO_NETWORK.replace("if stage", "if len(rows) and stage"),
    ),
    (
        "rows: 31 only when there are no answers", FEW_ANSWERS + NO_NETWORK,
        FEW_ANSWERS.replace("len(answers) < len(rows)", "len(answers) == 0 < len(rows)")
        + NO_NETWORK,
    ),
    ("rows: 31 when the answers are just enough", FEW_ANSWERS, FEW_ANSWERS.replace("<", "<=")),
    ("rows: a repeated row is answered once", EACH_ROW, ROW_ONCE),
    (
        "rows: a success answers their number", EACH_ROW + "    return 0, 0\n",
        EACH_ROW + "    return 0, len(rows)\n",
    ),
]

SLIPS = LIST_SLIPS + SEQUENCE_SLIPS + STATE_SLIPS + BUFFER_SLIPS + NETWORK_SLIPS + SIFT_SLIPS
