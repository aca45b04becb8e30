"""A diagram as text for a terminal: a line for each output, then one or more for each place with its input's name and its cells."""

from __future__ import annotations

import textwrap

from . import shown
from ..diagram import Diagram, cell_of, is_constant, is_inverted
from ..display import columns, padded

NOTATION = (
    "i: 0 -> j, 1 -> k  is cell i: on to cell j if its line's input is 0, to k if 1.",
    "~j is cell j inverted; const 0 and const 1 are the constants.",
)
BETWEEN = 3
# Words are never broken into lines of fewer columns.
NARROWEST = 20


def write(diagram: Diagram, width: int = 80) -> str:
    """The picture, in lines of that width as far as a name and a cell fit into it."""
    diagram = shown(diagram)
    label = max(map(columns, (*diagram.outputs, *diagram.inputs)), default=0)
    lines = [f"{padded(name, label)} -> {_target(root)}" for name, root in zip(diagram.outputs, diagram.roots)]
    if diagram.inputs:
        lines.append("")
    digits = max((len(str(cell.number)) for cell in diagram.cells), default=0)
    cells = {cell.number: f"{cell.number:{digits}}: 0 -> {_target(cell.low)}, 1 -> {_target(cell.high)}" for cell in diagram.cells}
    column = max(map(len, cells.values()), default=0)
    for place in range(len(diagram.inputs)):
        entries = [cells[cell.number].ljust(column) for cell in diagram.cells_at(place)]
        lines += _level(padded(diagram.input_at(place), label), entries or ["(never asked)"], width)
    return "\n".join([*lines, "", *_below(diagram, width)]) + "\n"


def _level(label: str, entries: list[str], width: int) -> list[str]:
    """A place's line, and further ones where its cells don't fit into one."""
    indent = columns(label) + BETWEEN
    per_line = max(1, (width - indent + BETWEEN) // (len(entries[0]) + BETWEEN))
    chunks = [entries[at : at + per_line] for at in range(0, len(entries), per_line)]
    starts = [label] + [" " * columns(label)] * (len(chunks) - 1)
    space = " " * BETWEEN
    return [(start + space + space.join(chunk)).rstrip() for start, chunk in zip(starts, chunks)]


def _below(diagram: Diagram, width: int) -> list[str]:
    """How to read it, and of a part of a network that it is one."""
    said = NOTATION if diagram.whole is None else (*NOTATION, f"These are {diagram.size}.")
    return [line for words in said for line in wrapped(words, width)]


def wrapped(words: str, width: int) -> list[str]:
    """Words in lines of a width, if that is not all too small; the first line stands out."""
    return textwrap.wrap(words, max(width, NARROWEST), subsequent_indent="  ")


def _target(reference: int) -> str:
    if is_constant(reference):
        return f"const {reference}"
    return f"{'~' if is_inverted(reference) else ''}{cell_of(reference)}"
