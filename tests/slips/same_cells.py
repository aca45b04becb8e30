"""Deliberate slips of document 02's 2.10, as in reference.py, but of paper/same_cells.py.

They are of the laws, so that a law does not hold of a sound library. A law that asks for less
would hold all the same: no such slip is here. Nor is one that leaves out the count, which the
counted cells and the roots tell already.
"""

FILLED = "reference.filled(table, order)"
ROW_BY_ROW = "reference.reordered(table, order)"
TABLE = f"tuple(tuple(output) for output in {FILLED})"
CELLS = "tuple(cells[: 3 * state.count])"
ROOTS = "tuple(roots[: state.m])"
NETWORK = f"Network(state.count, {CELLS}, {ROOTS})"
SENTENCE = "(one.table == other.table) == (one.network == other.network)"
NEVER_MORE = "after[1] <= before[1]"
BY_LIMIT = "    by_limit = sorted(ends)\n"


def rows(each, condition="True"):
    """Instead of the filled table something of the lent one, row by row."""
    listed = f"{each} for value, care in output if {condition}"
    return TABLE, f"tuple(tuple({listed}) for output in {ROW_BY_ROW})"


def outputs(each):
    """Of each filled output something else than its bits."""
    return TABLE, f"tuple({each} for output in {FILLED})"


def numbers(kept):
    """Of the counted cells some numbers alone, by their place among the three."""
    listed = "number for at, number in enumerate(cells[: 3 * state.count])"
    return CELLS, f"tuple({listed} if {kept})"


def by(key):
    """The limits in another sequence."""
    return BY_LIMIT, BY_LIMIT.replace("ends)", f"ends, key=lambda end: {key})")


ALONE = "reference.links_by_level([output], table.n)"

TABLE_SLIPS = [
    ("same_cells: tables as they are drawn", *rows("(value and care, care)")),
    ("same_cells: tables as they are lent", *rows("(value, care)")),
    ("same_cells: the values alone", *rows("value")),
    ("same_cells: free rows as zero", *rows("value and care")),
    ("same_cells: cared rows alone", *rows("value", "care")),
    ("same_cells: the care alone", *rows("care")),
    (
        "same_cells: filled in the natural order", FILLED,
        "reference.filled(table, range(table.n))",
    ),
    ("same_cells: filled the other way round", FILLED, "reference.filled(table, order[::-1])"),
    (
        "same_cells: each output filled alone", TABLE,
        f"tuple(tuple(reference.read_back({ALONE}, 0, {ALONE}[0][0]))\n"
        f"                 for output in {ROW_BY_ROW})",
    ),
    ("same_cells: the first output alone", FILLED, f"{FILLED}[:1]"),
    ("same_cells: the last output is not compared", FILLED, f"{FILLED}[:-1]"),
    ("same_cells: outputs in any sequence", FILLED, f"sorted({FILLED})"),
    ("same_cells: the first row is not compared", *outputs("tuple(output[1:])")),
    ("same_cells: the last row is not compared", *outputs("tuple(output[:-1])")),
    ("same_cells: an inverse is the same table", *outputs("reference.class_member(output)")),
    ("same_cells: as many ones are the same table", *outputs("sum(output)")),
]

NETWORK_SLIPS = [
    ("same_cells: the roots are not compared", ROOTS, "()"),
    ("same_cells: the first root alone", ROOTS, "tuple(roots[:1])"),
    ("same_cells: the last root is not compared", ROOTS, "tuple(roots[: state.m - 1])"),
    ("same_cells: roots past m are compared", ROOTS, "tuple(roots[: reference.ROOTS])"),
    ("same_cells: inverted roots are alike", ROOTS, f"tuple(root // 2 for root in {ROOTS})"),
    ("same_cells: roots in any sequence", ROOTS, f"tuple(sorted({ROOTS}))"),
    ("same_cells: the cells are not compared", CELLS, "()"),
    ("same_cells: the cells alone", NETWORK, f"Network(0, {CELLS}, ())"),
    ("same_cells: the count alone", NETWORK, "Network(state.count, (), ())"),
    ("same_cells: the roots alone", NETWORK, f"Network(0, (), {ROOTS})"),
    ("same_cells: a cell past the count is compared", CELLS, "tuple(cells[: 3 * state.count + 3])"),
    ("same_cells: all cells of the board are compared", CELLS, "tuple(cells)"),
    (
        "same_cells: the last cell is not compared", CELLS,
        "tuple(cells[: max(3 * state.count - 3, 0)])",
    ),
    ("same_cells: the first cell is not compared", CELLS, "tuple(cells[3 : 3 * state.count])"),
    ("same_cells: places are not compared", *numbers("at % 3 != 0")),
    ("same_cells: 0-arrows are not compared", *numbers("at % 3 != 1")),
    ("same_cells: 1-arrows are not compared", *numbers("at % 3 != 2")),
    (
        "same_cells: inverted arrows are alike", CELLS,
        "tuple(number // (2 if at % 3 else 1)\n"
        "                  for at, number in enumerate(cells[: 3 * state.count]))",
    ),
    (
        "same_cells: cells in any sequence", CELLS,
        "tuple(sorted(tuple(cells[3 * i : 3 * i + 3]) for i in range(state.count)))",
    ),
]

SENTENCE_SLIPS = [
    ("same_cells: all are equal", SENTENCE, SENTENCE.replace(") == (", ") and (")),
    ("same_cells: one of the two is equal", SENTENCE, SENTENCE.replace(") == (", ") or (")),
    ("same_cells: no two are equal", SENTENCE, SENTENCE.replace(") == (", ") < (")),
    ("same_cells: equal cells of unlike tables", SENTENCE, SENTENCE.replace(") == (", ") != (")),
]

LIMIT_SLIPS = [
    ("same_cells: a larger limit never ends with fewer", NEVER_MORE, "after[1] >= before[1]"),
    ("same_cells: a larger limit ends with fewer", NEVER_MORE, "after[1] < before[1]"),
    ("same_cells: every limit ends with as many", NEVER_MORE, "after[1] == before[1]"),
    (
        "same_cells: a limit above 0 ends with fewer", NEVER_MORE,
        f"{NEVER_MORE} and (after[1] < before[1] or before[0] > 0 or after[0] == 0)",
    ),
    ("same_cells: the limits as they come", BY_LIMIT, "    by_limit = list(ends)\n"),
    ("same_cells: the limits from the largest on", *by("-end[0]")),
    ("same_cells: the cells in sequence", *by("end[1]")),
    ("same_cells: limits in 16 bits", *by("end[0] % 2**16")),
    ("same_cells: limits as signed numbers", *by("end[0] - 2**32 * (end[0] >> 31)")),
]

SLIPS = TABLE_SLIPS + NETWORK_SLIPS + SENTENCE_SLIPS + LIMIT_SLIPS
