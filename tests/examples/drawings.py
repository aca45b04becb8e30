"""Reads the drawings of examples/ once more, by itself: the table file and the network file
that the command has to make of each.

Of a drawing only indented lines count. Those with a bar are the table: first the
names of the inputs, a bar and those of the outputs, then every row from row 0,
with `-` for a free value. A line `places` names the inputs from the top place
down; without one they stand as in the columns. The rest is for the reader.
"""

from pathlib import Path

from making import table_files
from programs import expected

EXAMPLES = Path(__file__).resolve().parent.parent.parent / "examples"
INDENT = "    "


def indented(text):
    lines = text.splitlines()
    return [line for line in lines if line.startswith(INDENT) and line.strip()]


def marks(line):
    """The words left and right of a line's bar."""
    left, right = line.split("|")
    return left.split(), right.split()


def check_rows(rows, inputs, outputs):
    """Every row once, in sequence, with a mark for each output."""
    n = len(inputs)
    wanted = [list(format(row, f"0{n}b")) for row in range(2**n)]
    if [left for left, _ in rows] != wanted:
        raise ValueError("the rows are not every row from row 0")
    for left, right in rows:
        if len(right) != len(outputs) or not set(right) <= set("01-"):
            raise ValueError(f"row {' '.join(left)} is drawn wrong")


def drawn_rows(text):
    """The names of the inputs and outputs, and each row's output marks."""
    heading, *rows = [marks(line) for line in indented(text) if "|" in line]
    check_rows(rows, *heading)
    return heading[0], heading[1], [right for _, right in rows]


def drawn_order(text, inputs):
    for line in indented(text):
        word, *names = line.split()
        if word == "places":
            return [inputs.index(name) for name in names]
    return list(range(len(inputs)))


def table_of(text):
    """The table file of a drawing."""
    inputs, outputs, rows = drawn_rows(text)
    drawn = [row[j] for j in range(len(outputs)) for row in rows]
    values = [int(mark == "1") for mark in drawn]
    care = [int(mark != "-") for mark in drawn]
    order = drawn_order(text, inputs)
    return table_files.table_file(len(inputs), len(outputs), order, values, care)


def network_file_of(text):
    """The network file of a drawing, built in the drawing's order."""
    return expected.cells_output(table_of(text))


def drawings():
    return sorted(EXAMPLES.glob("*.txt"))
