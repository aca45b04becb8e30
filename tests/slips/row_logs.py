"""Deliberate slips of document 02's 2.4, as in reference.py, but of paper/row_log.py."""

SHORT_CARE = "    if len(care) < TABLE_BYTES:\n        return 10, 0\n"
NO_TABLE = "    if reference.stage_of(state) == NOTHING:\n        return 21, 0\n"
FEW_COUNTS = "    if len(counts) < 2**state.n:\n        return 10, 0\n"
ROWS_BEYOND = "    if any(row >= 2**state.n for row in rows):\n        return 8, 0\n"
SUM = "records(state, counts) + len(rows)"
TOO_MANY = f"    if {SUM} > MOST_RECORDS:\n        return 33, 0\n"
COUNTED = "    count_rows(rows, counts)\n"
RISEN = "    for row in rows:\n        counts[row] += 1\n"
WRITTEN = "    reference.write_stream(care, packed(care_by(state, least, counts)))\n"
LEFT = "    reference.leave_table(state, reference.used_order(state))\n"
END = LEFT + "    return 0, 0\n"
SEEN = "counts[row] >= least"
SUM_FIRST = "33 if sum(counts[: 2 ** min(state.n, 10)]) + len(rows) > MOST_RECORDS else "
OUTPUTS = "    return by_row * state.m\n"


def bounded(text):
    """Without the limit of ten a huge n would want a number of huge length."""
    return text.replace("state.n", "min(state.n, 10)")


SEQUENCE_SLIPS = [
    ("log: 10 of care after 21", SHORT_CARE + NO_TABLE, NO_TABLE + SHORT_CARE),
    (
        "log: 10 of care after 8", SHORT_CARE + NO_TABLE + FEW_COUNTS + ROWS_BEYOND,
        NO_TABLE + FEW_COUNTS + ROWS_BEYOND + SHORT_CARE,
    ),
    (
        "log: 10 of care last", SHORT_CARE + NO_TABLE + FEW_COUNTS + ROWS_BEYOND + TOO_MANY,
        NO_TABLE + FEW_COUNTS + ROWS_BEYOND + TOO_MANY + SHORT_CARE,
    ),
    ("log: 10 of the counts before 21", NO_TABLE + FEW_COUNTS, bounded(FEW_COUNTS) + NO_TABLE),
    ("log: 8 before 10 of the counts", FEW_COUNTS + ROWS_BEYOND, ROWS_BEYOND + FEW_COUNTS),
    (
        "log: 8 before 21", NO_TABLE + FEW_COUNTS + ROWS_BEYOND,
        bounded(ROWS_BEYOND) + NO_TABLE + FEW_COUNTS,
    ),
    ("log: 8 after 33", ROWS_BEYOND + TOO_MANY, TOO_MANY + ROWS_BEYOND),
    ("log: 33 before 10 of the counts", FEW_COUNTS, FEW_COUNTS.replace("10,", SUM_FIRST + "10,")),
    ("log: 33 before 21", NO_TABLE, NO_TABLE.replace("21,", SUM_FIRST + "21,")),
    ("log: 33 before 10 of care", SHORT_CARE, SHORT_CARE.replace("10,", SUM_FIRST + "10,")),
    ("log: a network is wanted", "state) == NOTHING", "state) != reference.NETWORK"),
    ("log: a network is turned away", "state) == NOTHING", "state) != reference.TABLE"),
    ("log: the stage alone is looked at", "reference.stage_of(state) ==", "state.stage =="),
]

LENGTH_SLIPS = [
    ("log: a byte of care fewer is enough", "care) < TABLE_BYTES", "care) < TABLE_BYTES - 1"),
    (
        "log: care for the table at hand is enough", SHORT_CARE,
        "    if len(care) < (state.m * 2 ** min(state.n, 10) + 7) // 8:\n        return 10, 0\n",
    ),
    ("log: a count fewer is enough", "len(counts) < 2**state.n", "len(counts) < 2**state.n - 1"),
    ("log: counts just enough are too few", "len(counts) < 2**", "len(counts) <= 2**"),
    ("log: 1,024 counts are wanted", "len(counts) < 2**state.n", "len(counts) < 1024"),
    ("log: 10 of the counts is not tested", FEW_COUNTS, ""),
    (
        "log: for an empty list no count is wanted", FEW_COUNTS,
        FEW_COUNTS.replace("if len(counts)", "if len(rows) and len(counts)"),
    ),
]

SUM_SLIPS = [
    ("log: 33 in 32 bits", SUM, f"({SUM}) % 2**32"),
    ("log: the counts' sum in 32 bits", SUM, "records(state, counts) % 2**32 + len(rows)"),
    (
        "log: 33 by a sum that wrapped once", f"{SUM} > MOST_RECORDS",
        f"({SUM}) % 2**32 < len(rows)",
    ),
    ("log: 33 at the limit", f"{SUM} >", f"{SUM} >="),
    ("log: 33 one above the limit is let pass", f"{SUM} >", f"{SUM} - 1 >"),
    ("log: counts past 2^n are summed", "sum(counts[: 2**state.n])", "sum(counts)"),
    ("log: the last count is not summed", "counts[: 2**state.n])", "counts[: 2**state.n - 1])"),
    ("log: the first count is not summed", "counts[: 2**state.n])", "counts[1 : 2**state.n])"),
    (
        "log: 33 is not tested for an empty list", TOO_MANY,
        TOO_MANY.replace(f"if {SUM}", f"if len(rows) and {SUM}"),
    ),
    ("log: 33 by the counts alone", SUM, "records(state, counts)"),
    ("log: the list's length in 16 bits", SUM, "records(state, counts) + len(rows) % 2**16"),
    ("log: 33 by the largest count", "sum(counts[: 2**state.n])", "max(counts[: 2**state.n])"),
    (
        "log: 33 by what each count reaches", f"{SUM} >",
        "max(counts[row] + list(rows).count(row) for row in range(2**state.n)) >",
    ),
    ("log: 33 by 31 bits", f"{SUM} > MOST_RECORDS", f"{SUM} > MOST_RECORDS // 2"),
    (
        "log: 33 adds the records", "return 33, 0",
        "return 33, (records(state, counts) + len(rows)) % 2**32",
    ),
]

COUNT_SLIPS = [
    (
        "log: rows before a bad one are counted", ROWS_BEYOND,
        ROWS_BEYOND.replace(
            "        return",
            "        first = [row >= 2**state.n for row in rows].index(True)\n"
            "        count_rows(rows[:first], counts)\n"
            "        return",
        ),
    ),
    (
        "log: 33 counts as many as fit", TOO_MANY,
        TOO_MANY.replace(
            "        return 33",
            "        count_rows(rows[: max(0, MOST_RECORDS - records(state, counts))], counts)\n"
            "        return 33",
        ),
    ),
    ("log: the first row alone is tested", "for row in rows):", "for row in rows[:1]):"),
    ("log: the last row is not tested", "for row in rows):", "for row in rows[:-1]):"),
    (
        "log: a bad row is passed over", ROWS_BEYOND,
        "    rows = [row for row in rows if row < 2**state.n]\n",
    ),
    ("log: a row 2^n is let pass", "any(row >= 2**state.n for", "any(row > 2**state.n for"),
    ("log: a repeated row is counted once", RISEN, RISEN.replace("in rows", "in set(rows)")),
    ("log: the last row is not counted", RISEN, RISEN.replace("in rows", "in rows[:-1]")),
    (
        "log: no more rows are counted than there are", RISEN,
        RISEN.replace("in rows", "in rows[: len(counts)]"),
    ),
    (
        "log: the counts start anew", COUNTED,
        "    for row in range(2**state.n):\n        counts[row] = 0\n" + COUNTED,
    ),
    (
        "log: counts past 2^n are zeroed", COUNTED,
        COUNTED + "    for row in range(2**state.n, len(counts)):\n        counts[row] = 0\n",
    ),
    (
        "log: rows are counted by places", COUNTED,
        "    order = reference.used_order(state)\n"
        "    count_rows([reference.row_in_file(row, order) for row in rows], counts)\n",
    ),
    (
        "log: an empty list changes nothing", COUNTED,
        "    if len(rows) == 0:\n        return 0, 0\n" + COUNTED,
    ),
]

CARE_SLIPS = [
    ("log: care by the counts before the log", COUNTED + WRITTEN, WRITTEN + COUNTED),
    (
        "log: care by the times in this list", WRITTEN,
        WRITTEN.replace("counts", "[list(rows).count(row) for row in range(2**state.n)]"),
    ),
    ("log: more than the least", SEEN, "counts[row] > least"),
    ("log: least 0 means never", SEEN, f"least > 0 and {SEEN}"),
    ("log: least 0 means 1", SEEN, "counts[row] >= max(least, 1)"),
    ("log: counts are compared in 16 bits", SEEN, "counts[row] % 2**16 >= least"),
    ("log: the least is cut to 16 bits", SEEN, "counts[row] >= least % 2**16"),
    (
        "log: counts are compared as signed numbers", SEEN,
        "counts[row] - 2**32 * (counts[row] >> 31) >= least",
    ),
    ("log: the largest least is never reached", SEEN, f"{SEEN} and least < MOST_RECORDS"),
    ("log: cared and free exchanged", SEEN, "counts[row] < least"),
    ("log: output 0 alone is cared", OUTPUTS, "    return by_row\n"),
    ("log: the last output is not cared", OUTPUTS, OUTPUTS.replace("state.m", "(state.m - 1)")),
    (
        "log: care is laid out row by row", OUTPUTS,
        "    return [bit for bit in by_row for _ in range(state.m)]\n",
    ),
    (
        "log: care is laid out in whole bytes", OUTPUTS,
        "    return (by_row + [0] * (-len(by_row) % 8)) * state.m\n",
    ),
    (
        "log: care is by places", OUTPUTS,
        "    order = reference.used_order(state)\n"
        "    by_row = [by_row[reference.row_in_file(row, order)] for row in range(2**state.n)]\n"
        + OUTPUTS,
    ),
    ("log: the rest of care stays", WRITTEN, (
        "    made = packed(care_by(state, least, counts))\n"
        "    care[: len(made)] = made\n"
    )),
    ("log: the last bits of care's last byte stay", WRITTEN, (
        "    spare = -state.m * 2**state.n % 8\n"
        "    last = (state.m * 2**state.n + 7) // 8 - 1\n"
        "    kept = care[last] >> (8 - spare) << (8 - spare)\n"
        + WRITTEN + "    care[last] |= kept\n"
    )),
    ("log: care past 2,048 bytes is zeroed", WRITTEN, WRITTEN + (
        "    care[TABLE_BYTES:] = bytes(len(care) - TABLE_BYTES)\n"
    )),
    ("log: what was free stays free", WRITTEN, (
        "    old = reference.stream_bits(care, state.m * 2**state.n)\n"
        + WRITTEN.replace("care_by(state, least, counts)",
                          "[a & b for a, b in zip(old, care_by(state, least, counts))]")
    )),
    ("log: what was cared stays cared", WRITTEN, (
        "    old = reference.stream_bits(care, state.m * 2**state.n)\n"
        + WRITTEN.replace("care_by(state, least, counts)",
                          "[a | b for a, b in zip(old, care_by(state, least, counts))]")
    )),
    ("log: care is left as found", WRITTEN, ""),
]

STATE_SLIPS = [
    (
        "log: the stage stays", END,
        "    held = state.stage\n" + LEFT + "    state.stage = held\n    return 0, 0\n",
    ),
    (
        "log: the count stays", END,
        "    held = state.count\n" + LEFT + "    state.count = held\n    return 0, 0\n",
    ),
    (
        "log: the order past n is zeroed", LEFT,
        LEFT + "    state.order[state.n :] = [0] * (10 - state.n)\n",
    ),
    ("log: the order is the natural one", "reference.used_order(state))", "list(range(state.n)))"),
    ("log: a success answers the rows", END, END.replace("0, 0", "0, len(rows)")),
    ("log: a success answers the records", END, END.replace("0, 0", "0, records(state, counts)")),
    (
        "log: a success answers the cared bits", END,
        END.replace("0, 0", "0, reference.cared(state, care)[1]"),
    ),
    (
        "log: 8 leaves stage table", ROWS_BEYOND,
        ROWS_BEYOND.replace("        return", "        state.stage = reference.TABLE\n        return"),
    ),
    (
        "log: 33 leaves stage table", TOO_MANY,
        TOO_MANY.replace("        return", "        state.stage = reference.TABLE\n        return"),
    ),
    (
        "log: 33 makes the care anew", TOO_MANY,
        TOO_MANY.replace("        return", "    " + WRITTEN + "        return"),
    ),
]

SLIPS = SEQUENCE_SLIPS + LENGTH_SLIPS + SUM_SLIPS + COUNT_SLIPS + CARE_SLIPS + STATE_SLIPS
