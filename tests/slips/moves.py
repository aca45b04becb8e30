"""Deliberate slips of document 02's 2.8, as in reference.py, but of paper/moves.py."""

import re

from slips.reference import FILLED_ONCE

SHORT = "    if reference.table_buffers_short(values, care, work):\n        return 10, 0\n"
NO_TABLE = "    if reference.stage_of(state) == NOTHING:\n        return 21, 0\n"
FEW = "    if len(gains) < state.n * state.n:\n        return 34, 0\n"
TABLE = "    table = reference.lent_table(state, values, care)\n"
ORDER = "    order = reference.used_order(state)\n"
QUOTED = "    # 'Cells now means a fresh count under the present order.'\n"
NOW = "    now = reference.cost(table, order)\n"
EACH_VARIABLE = "    for variable in range(state.n):\n"
TRIALS = "reference.trials(order, variable)"
EACH_PLACE = f"        for place, trial in enumerate({TRIALS}):\n"
ENTRY = "gains[state.n * variable + place]"
GAIN = "reference.cost(table, trial) - now"
WRITTEN = f"            {ENTRY} = {GAIN}\n"
LOOP = EACH_VARIABLE + EACH_PLACE + WRITTEN
CLEARED = "    reference.clear_work(work)\n"
ANSWERED = "    return 0, 0\n"
END = CLEARED + ANSWERED

SOUND = "reference.stage_of(state) != NOTHING"
PRESENT = "order.index(variable)"


def writing_first(refusal, done):
    """The refusal with something done before it is answered."""
    return refusal.replace("        return", f"        {done}\n        return")


def passed_over(condition):
    """Entries that are not written at all."""
    return EACH_PLACE + f"            if {condition}:\n                continue\n"


# Of slips/reference.py, where they are lines for paper/reference.py.
ONCE = re.sub(r"\b(row_in_file|filled|Table|TABLE_BYTES)\b", r"reference.\1", FILLED_ONCE)

SEQUENCE_SLIPS = [
    ("moves: 21 before 10", SHORT + NO_TABLE, NO_TABLE + SHORT),
    ("moves: 34 before 21", NO_TABLE + FEW, FEW + NO_TABLE),
    ("moves: 34 before 10", SHORT + NO_TABLE + FEW, FEW + SHORT + NO_TABLE),
    (
        "moves: 34 before 10, with a table held", SHORT,
        SHORT.replace("10,", f"34 if {SOUND} and len(gains) < state.n * state.n else 10,"),
    ),
    ("moves: 10 last of all", SHORT + NO_TABLE + FEW, NO_TABLE + FEW + SHORT),
    ("moves: a short list is 10", FEW, FEW.replace("34", "10")),
    ("moves: a short list is 31", FEW, FEW.replace("34", "31")),
    ("moves: 34 adds the entries wanted", "return 34, 0", "return 34, state.n * state.n"),
    ("moves: a network is wanted", "state) == NOTHING", "state) != reference.NETWORK"),
    ("moves: a network is turned away", "state) == NOTHING", "state) != reference.TABLE"),
    ("moves: the stage alone is looked at", "reference.stage_of(state) ==", "state.stage =="),
    ("moves: without inputs it is 21", "== NOTHING:", "== NOTHING or state.n == 0:"),
]

LENGTH_SLIPS = [
    ("moves: a list just enough is too short", "len(gains) <", "len(gains) <="),
    ("moves: an entry fewer is enough", "len(gains) < state", "len(gains) + 1 < state"),
    ("moves: n entries are enough", "< state.n * state.n:", "< state.n:"),
    ("moves: n entries fewer are enough", "< state.n * state.n:", "< state.n * (state.n - 1):"),
    ("moves: 100 entries are wanted", "< state.n * state.n:", "< 100:"),
    ("moves: one more entry is wanted", "< state.n * state.n:", "< state.n * state.n + 1:"),
    (
        "moves: without inputs an entry is wanted", "< state.n * state.n:",
        "< max(state.n * state.n, 1):",
    ),
    ("moves: the work is not asked for", "(values, care, work):", "(values, care, bytes(32768)):"),
    ("moves: the care is not asked for", "(values, care, work):", "(values, values, work):"),
    ("moves: the values are not asked for", "(values, care, work):", "(care, care, work):"),
    (
        "moves: a byte of work fewer is enough", "(values, care, work):",
        "(values, care, bytes(len(work) + 1)):",
    ),
    (
        "moves: a byte of values fewer is enough", "(values, care, work):",
        "(bytes(len(values) + 1), care, work):",
    ),
    (
        "moves: a byte of care fewer is enough", "(values, care, work):",
        "(values, bytes(len(care) + 1), work):",
    ),
    ("moves: values just enough are too short", SHORT, SHORT.replace(
        "work):", "work) or len(values) <= reference.TABLE_BYTES:"
    )),
    ("moves: work just enough is too short", SHORT, SHORT.replace(
        "work):", "work) or len(work) <= reference.WORK_BYTES:"
    )),
]

GAIN_SLIPS = [
    ("moves: the difference the other way round", GAIN, "now - reference.cost(table, trial)"),
    ("moves: the difference without its sign", GAIN, f"abs({GAIN})"),
    ("moves: never below zero", GAIN, f"max({GAIN}, 0)"),
    ("moves: never above zero", GAIN, f"min({GAIN}, 0)"),
    ("moves: its sign alone", GAIN, f"({GAIN} > 0) - ({GAIN} < 0)"),
    ("moves: the cells themselves", GAIN, "reference.cost(table, trial)"),
    ("moves: the difference in 8 bits", GAIN, f"({GAIN} + 128) % 256 - 128"),
    ("moves: fewer cells in 8 bits", GAIN, f"max({GAIN}, -128)"),
    ("moves: more cells in 8 bits", GAIN, f"min({GAIN}, 255)"),
    ("moves: the state's count is the cells now", NOW, "    now = state.count\n"),
    (
        "moves: the count of a network held is the cells now", NOW,
        NOW + "    if state.stage == reference.NETWORK and state.count <= 2159:\n"
        "        now = state.count\n",
    ),
    (
        "moves: the cells now are those of the natural order", NOW,
        NOW.replace("order)", "list(range(state.n)))"),
    ),
    (
        "moves: the cells now are those of the best place", EACH_PLACE,
        f"        now = min(reference.cost(table, trial) for trial in {TRIALS})\n" + EACH_PLACE,
    ),
    (
        "moves: the cells now are those of the place before", WRITTEN,
        WRITTEN + "            now = reference.cost(table, trial)\n",
    ),
    (
        "moves: the cells now are of the table with every row cared", NOW,
        "    now = len(reference.whole_network(table, tuple(order))[0])\n",
    ),
    (
        "moves: the cells now with the constant", NOW,
        NOW.replace("order)\n", "order) + 1\n"),
    ),
    (
        "moves: the cells under a move with the constant, where there are any", GAIN,
        "reference.cost(table, trial) + (reference.cost(table, trial) > 0) - now",
    ),
    ("moves: every row is cared", TABLE, TABLE.replace(", care)", ', b"\\xff" * 2048)')),
    ("moves: the table is filled once", NOW, NOW + ONCE),
    (
        "moves: the table filled once is moved, the cells now counted of it too", NOW,
        ONCE + NOW,
    ),
    (
        "moves: staying counts the values as they are", GAIN,
        f"({GAIN} if trial != order else "
        "len(reference.whole_network(table, tuple(order))[0]) - now)",
    ),
]

MOVE_SLIPS = [
    (
        "moves: exchanged with the input at that place", EACH_PLACE,
        "        for place in range(state.n):\n"
        "            trial = list(order)\n"
        f"            trial[place], trial[{PRESENT}] = variable, trial[place]\n",
    ),
    (
        "moves: put before the input at that place", EACH_PLACE,
        EACH_PLACE.replace(
            f"enumerate({TRIALS})",
            f"enumerate([{TRIALS}[max(0, p - (p > {PRESENT}))] for p in range(state.n)])",
        ),
    ),
    (
        "moves: the last place is not tried", EACH_PLACE,
        EACH_PLACE.replace(
            f"enumerate({TRIALS})",
            f"enumerate({TRIALS}[:-1] + {TRIALS}[-2:-1] if state.n > 1 else {TRIALS})",
        ),
    ),
    ("moves: from the natural order", TRIALS, "reference.trials(list(range(state.n)), variable)"),
    ("moves: the last move stays", WRITTEN, WRITTEN + "        order = trial\n"),
    (
        "moves: each input stays at its best place", WRITTEN,
        WRITTEN + "        order, _ = reference.best_trial(table, order, variable)\n",
    ),
    (
        "moves: each input stays at its best place, and is counted from there", WRITTEN,
        WRITTEN + "        order, now = reference.best_trial(table, order, variable)\n",
    ),
    ("moves: the row of the place's input", TRIALS, "reference.trials(order, order[variable])"),
    (
        "moves: the row of the input's place", ENTRY,
        "gains[state.n * order.index(variable) + place]",
    ),
    ("moves: places from the bottom", TRIALS, f"{TRIALS}[::-1]"),
    ("moves: places as steps from the present one", ENTRY, (
        f"gains[state.n * variable + (place - {PRESENT}) % state.n]"
    )),
]

LIST_SLIPS = [
    ("moves: entry n x place + input", ENTRY, "gains[state.n * place + variable]"),
    ("moves: rows of ten entries", ENTRY, "gains[min(10 * variable + place, len(gains) - 1)]"),
    (
        "moves: a row of its own place left out", ENTRY,
        f"gains[max(state.n * variable + place - (place > {PRESENT}), 0)]",
    ),
    ("moves: staying is not written", EACH_PLACE, passed_over(f"place == {PRESENT}")),
    ("moves: only places above the present one", EACH_PLACE, passed_over(f"place > {PRESENT}")),
    ("moves: only places below the present one", EACH_PLACE, passed_over(f"place < {PRESENT}")),
    (
        "moves: what brings nothing is not written", EACH_PLACE,
        passed_over("reference.cost(table, trial) == now"),
    ),
    ("moves: the last input is not written", EACH_VARIABLE, EACH_VARIABLE.replace("n)", "n - 1)")),
    ("moves: the last place is not written", EACH_PLACE, passed_over("place == state.n - 1 > 0")),
    (
        "moves: the last entry is not written", EACH_PLACE,
        passed_over("state.n * variable + place + 1 == state.n * state.n"),
    ),
    (
        "moves: an entry too many is zeroed", END,
        "    if len(gains) > state.n * state.n:\n        gains[state.n * state.n] = 0\n" + END,
    ),
    (
        "moves: the rest of the list is zeroed", END,
        "    for at in range(state.n * state.n, len(gains)):\n        gains[at] = 0\n" + END,
    ),
    (
        "moves: the last entries are filled", ENTRY,
        "gains[len(gains) - state.n * state.n + state.n * variable + place]",
    ),
    ("moves: gains are added up", f"{ENTRY} =", f"{ENTRY} +="),
    (
        "moves: 34 writes what fits", FEW + TABLE + ORDER + QUOTED + NOW + LOOP,
        TABLE + ORDER + QUOTED + NOW + EACH_VARIABLE
        + passed_over("state.n * variable + place >= len(gains)") + WRITTEN + FEW,
    ),
    (
        "moves: 34 zeroes the list", FEW,
        writing_first(FEW, "gains[:] = type(gains)(gains.typecode, [0] * len(gains))"),
    ),
]

STATE_SLIPS = [
    ("moves: the stage is table", END, "    state.stage = reference.TABLE\n" + END),
    ("moves: the count is zero", END, "    state.count = 0\n" + END),
    ("moves: the count is that of the cells now", END, "    state.count = now\n" + END),
    (
        "moves: the count of a network held is counted afresh", END,
        "    if state.stage == reference.NETWORK:\n        state.count = now\n" + END,
    ),
    (
        "moves: a table is left as after a sift", END,
        "    reference.leave_table(state, order)\n" + END,
    ),
    (
        "moves: the last move's order is left", END,
        "    if state.n:\n        state.order[: state.n] = trial\n" + END,
    ),
    (
        "moves: order entries past n are zeroed", END,
        "    state.order[state.n :] = [0] * (10 - state.n)\n" + END,
    ),
    ("moves: 34 leaves stage table", FEW, writing_first(FEW, "state.stage = reference.TABLE")),
    ("moves: a success answers the cells now", END, END.replace("0, 0", "0, now")),
    ("moves: a success answers the entries", END, END.replace("0, 0", "0, state.n * state.n")),
]

WORK_SLIPS = [
    ("moves: the work buffer is left", CLEARED, ""),
    (
        "moves: the last byte of work is left", CLEARED,
        "    last = work[32767]\n" + CLEARED + "    work[32767] = last\n",
    ),
    (
        "moves: the first byte of work is left", CLEARED,
        "    first = work[0]\n" + CLEARED + "    work[0] = first\n",
    ),
    ("moves: without inputs the work buffer is left", CLEARED, "    if state.n:\n    " + CLEARED),
    (
        "moves: the half of work is cleared", CLEARED,
        "    work[:16384] = bytes(16384)\n",
    ),
    (
        "moves: all of the work buffer is cleared", CLEARED,
        CLEARED + "    work[:] = bytes(len(work))\n",
    ),
    ("moves: 34 clears the work buffer", FEW, writing_first(FEW, "reference.clear_work(work)")),
    (
        "moves: 21 clears the work buffer", NO_TABLE,
        writing_first(NO_TABLE, "reference.clear_work(work)"),
    ),
    (
        "moves: 10 clears the work buffer", SHORT,
        writing_first(SHORT, "work[:] = bytes(len(work))"),
    ),
]

SLIPS = SEQUENCE_SLIPS + LENGTH_SLIPS + GAIN_SLIPS + MOVE_SLIPS + LIST_SLIPS + STATE_SLIPS
SLIPS += WORK_SLIPS
