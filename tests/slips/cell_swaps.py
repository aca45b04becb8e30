"""Deliberate slips of document 02's 2.7, as in reference.py, but of paper/cell_swap.py.

Those of what is done on the cells take the network from by_cells.py.
"""

from slips import by_cells

SHORT = "    if len(roots) < ROOTS or len(work) < WORK_BYTES:\n        return 10, 0\n"
NO_NETWORK = "    if reference.stage_of(state) != NETWORK:\n        return 22, 0\n"
BEYOND = "    if place + 1 >= state.n:\n        return 9, 0\n"
UNSOUND = "    if not reference.network_is_sound(state, roots, cells):\n        return 24, 0\n"
CLEARED = "    reference.clear_work(work)\n"
UNLIKE = "    if not network_file.is_network(state, roots, cells):\n        return 32, 0\n"
TABLE = "    table = network_file.computed_table(state, roots, cells)\n"
ORDER = "    order = exchanged(reference.used_order(state), place)\n"
MADE = "    new_cells, new_roots = reference.whole_network(table, tuple(order))\n"
BOARD = "    if len(new_cells) > len(cells) // 3:\n        return 23, len(new_cells)\n"
WRITTEN = "    write_network(state, new_cells, new_roots, roots, cells)\n"
PUT_ORDER = "    state.order[: state.n] = order\n"
PUT_COUNT = "    state.count = len(new_cells)\n"
END = PUT_COUNT + "    return 0, 0\n"
EXCHANGED = "order[:place] + [below, above] + order[place + 2 :]"
EACH_ROOT = "    for j in range(ROOTS):\n"
EACH_CELL = "    for i, cell in enumerate(new_cells):\n"

HELD = "reference.stage_of(state) == NETWORK"
# With a huge n or m the cells could not be tested.
BOUNDED = "state.n <= 10 and state.m <= 16"


def clearing(refused):
    """The refusal with the work buffer cleared by itself."""
    return refused.replace("        return", "        reference.clear_work(work)\n        return")


def on_the_cells(slip):
    """The network as left by a swap with a slip in it."""
    return (
        f"swap_cells: {slip}", MADE,
        "    from slips import by_cells\n"
        "    new_cells, new_roots = by_cells.swapped(\n"
        f"        state, roots, cells, place, {slip!r}\n"
        "    )\n",
    )


CELL_SLIPS = [
    on_the_cells(slip)
    for slip in (
        by_cells.STRAIGHT, by_cells.PLAIN, by_cells.UPRIGHT, by_cells.EQUAL, by_cells.TWICE,
        by_cells.UNREACHED, by_cells.BELOW, by_cells.UPPER,
    )
]

SEQUENCE_SLIPS = [
    ("swap_cells: 22 before 10", SHORT + NO_NETWORK, NO_NETWORK + SHORT),
    ("swap_cells: 9 before 22", NO_NETWORK + BEYOND, BEYOND + NO_NETWORK),
    (
        "swap_cells: 9 before 10", SHORT,
        SHORT.replace("10,", f"9 if {HELD} and place + 1 >= state.n else 10,"),
    ),
    ("swap_cells: 9 after 24", BEYOND + UNSOUND, UNSOUND + BEYOND),
    (
        "swap_cells: 9 after 32", BEYOND + UNSOUND + CLEARED + UNLIKE,
        UNSOUND + clearing(UNLIKE) + BEYOND + CLEARED,
    ),
    (
        "swap_cells: 24 before 22", NO_NETWORK,
        f"    if {BOUNDED} and state.stage != NETWORK:\n"
        "        if not reference.network_is_sound(state, roots, cells):\n"
        "            return 24, 0\n" + NO_NETWORK,
    ),
    (
        "swap_cells: 32 before 24", UNSOUND,
        UNSOUND.replace(
            "return 24, 0",
            "counted = list(cells[: 3 * min(state.count, len(cells) // 3) : 3])\n"
            "        return 24 if counted == sorted(counted) else 32, 0",
        ),
    ),
    (
        "swap_cells: 23 before 32", UNLIKE + TABLE + ORDER + MADE + BOARD,
        TABLE + ORDER + MADE + BOARD + UNLIKE,
    ),
    (
        "swap_cells: 23 before 24", UNSOUND,
        UNSOUND.replace(
            "return 24, 0",
            "return (23, state.count) if state.count > len(cells) // 3 else (24, 0)",
        ),
    ),
    ("swap_cells: 24 is told as 32", UNSOUND, UNSOUND.replace("24, 0", "32, 0")),
    ("swap_cells: 32 is not tested", UNLIKE, ""),
    ("swap_cells: 23 is not tested", BOARD, ""),
    ("swap_cells: a table is enough", "state) != NETWORK", "state) == reference.NOTHING"),
    ("swap_cells: the stage alone is looked at", "reference.stage_of(state) !=", "state.stage !="),
]

LIMIT_SLIPS = [
    ("swap_cells: a root fewer is enough", "len(roots) < ROOTS", "len(roots) < ROOTS - 1"),
    ("swap_cells: m roots are enough", "len(roots) < ROOTS", "len(roots) < min(state.m, ROOTS)"),
    ("swap_cells: a byte of work fewer is enough", "work) < WORK_BYTES", "work) < WORK_BYTES - 1"),
    ("swap_cells: the work is not asked for", " or len(work) < WORK_BYTES", ""),
    ("swap_cells: place n - 1 is taken", "place + 1 >= state.n:", "place + 1 > state.n:"),
    ("swap_cells: place n - 2 is not taken", "place + 1 >= state.n:", "place + 2 >= state.n:"),
    ("swap_cells: places in 32 bits", BEYOND, "    place = place % 2**32\n" + BEYOND),
    (
        "swap_cells: the last place wraps", "place + 1 >= state.n:",
        "(place + 1) % 2**64 >= state.n:",
    ),
    ("swap_cells: a ragged end is a cell", "> len(cells) // 3:", "> (len(cells) + 2) // 3:"),
    ("swap_cells: a board just enough is too small", "> len(cells) // 3:", ">= len(cells) // 3:"),
    (
        "swap_cells: a board for the old cells is enough", BOARD,
        BOARD.replace("len(new_cells) >", "state.count >"),
    ),
    (
        "swap_cells: a board for cells old and new is wanted", BOARD,
        BOARD.replace("len(new_cells) >", "max(len(new_cells), state.count + 1) >"),
    ),
    ("swap_cells: 23 adds nothing", "return 23, len(new_cells)", "return 23, 0"),
    ("swap_cells: 23 adds the old count", "return 23, len(new_cells)", "return 23, state.count"),
    ("swap_cells: 32 adds the count", "return 32, 0", "return 32, state.count"),
]

STATE_SLIPS = [
    ("swap_cells: the stage is table", END, "    state.stage = reference.TABLE\n" + END),
    ("swap_cells: the count stays", PUT_COUNT, ""),
    ("swap_cells: the order stays", PUT_ORDER, ""),
    (
        "swap_cells: order entries past n are zeroed", PUT_ORDER,
        PUT_ORDER + "    state.order[state.n :] = [0] * (10 - state.n)\n",
    ),
    (
        "swap_cells: order entries past n are turned round", PUT_ORDER,
        PUT_ORDER + "    state.order[state.n :] = state.order[state.n :][::-1]\n",
    ),
    (
        "swap_cells: the two inputs go to the top", EXCHANGED,
        "[below, above] + order[:place] + order[place + 2 :]",
    ),
    (
        "swap_cells: the lower input goes to the top", EXCHANGED,
        "[below] + order[:place] + [above] + order[place + 2 :]",
    ),
    (
        "swap_cells: the network of the old order", MADE,
        MADE.replace("tuple(order)", "tuple(reference.used_order(state))"),
    ),
    (
        "swap_cells: the order is taken as the natural one", MADE,
        MADE.replace("tuple(order)", "tuple(exchanged(list(range(state.n)), place))"),
    ),
    ("swap_cells: a success answers the cells", END, END.replace("0, 0", "0, len(new_cells)")),
    (
        "swap_cells: 23 exchanges the order", BOARD,
        BOARD.replace("        return", "    " + PUT_ORDER + "        return"),
    ),
    (
        "swap_cells: 23 drops the network", BOARD,
        BOARD.replace("        return", "        state.stage = reference.TABLE\n        return"),
    ),
    (
        "swap_cells: 32 drops the network", UNLIKE,
        UNLIKE.replace("        return", "        state.stage = reference.TABLE\n        return"),
    ),
]

BUFFER_SLIPS = [
    ("swap_cells: 32 leaves the work buffer", CLEARED + UNLIKE, UNLIKE + CLEARED),
    ("swap_cells: 24 clears the work buffer", UNSOUND + CLEARED, CLEARED + UNSOUND),
    (
        "swap_cells: 9 clears the work buffer", BEYOND + UNSOUND + CLEARED,
        CLEARED + BEYOND + UNSOUND,
    ),
    (
        "swap_cells: 23 leaves the work buffer", CLEARED + UNLIKE + TABLE + ORDER + MADE + BOARD,
        clearing(UNLIKE) + TABLE + ORDER + MADE + BOARD + CLEARED,
    ),
    (
        "swap_cells: a success leaves the work buffer",
        CLEARED + UNLIKE + TABLE + ORDER + MADE + BOARD,
        clearing(UNLIKE) + TABLE + ORDER + MADE + clearing(BOARD),
    ),
    (
        "swap_cells: all of the work buffer is cleared", CLEARED,
        CLEARED + "    work[:] = bytes(len(work))\n",
    ),
    ("swap_cells: unused roots stay", EACH_ROOT, "    for j in range(state.m):\n"),
    (
        "swap_cells: roots past 16 are zeroed", EACH_ROOT,
        "    for j in range(ROOTS, len(roots)):\n        roots[j] = 0\n" + EACH_ROOT,
    ),
    (
        "swap_cells: the roots stay", "new_roots[j] if j < state.m else 0",
        "roots[j] if j < state.m else 0",
    ),
    (
        "swap_cells: cells past the new count are zeroed", WRITTEN,
        WRITTEN + "    for at in range(3 * len(new_cells), len(cells)):\n        cells[at] = 0\n",
    ),
    (
        "swap_cells: cells between the new count and the old are zeroed", WRITTEN,
        WRITTEN
        + "    for at in range(3 * len(new_cells), 3 * state.count):\n        cells[at] = 0\n",
    ),
    (
        "swap_cells: 23 writes what fits", BOARD,
        BOARD.replace(
            "        return",
            "        fitting = new_cells[: len(cells) // 3]\n"
            "        write_network(state, fitting, new_roots, roots, cells)\n"
            "        return",
        ),
    ),
    (
        "swap_cells: 23 zeroes unused roots", BOARD,
        BOARD.replace(
            "        return",
            "        for j in range(state.m, ROOTS):\n            roots[j] = 0\n        return",
        ),
    ),
    (
        "swap_cells: cells of the first place stay as they were", EACH_CELL,
        EACH_CELL + "        if i < state.count and cell[0] == cells[3 * i] == 0:\n"
        "            continue\n",
    ),
]

SLIPS = CELL_SLIPS + SEQUENCE_SLIPS + LIMIT_SLIPS + STATE_SLIPS + BUFFER_SLIPS
