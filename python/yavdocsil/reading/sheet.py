"""Spreadsheets: a truth table as CSV, with a heading of names and a row for each line, as docs/FORMATS.md has it."""

from __future__ import annotations

import re
from collections.abc import Iterator, Sequence
from typing import TYPE_CHECKING, Optional

from . import Content
from ..errors import Faults, Malformed
from .drawn import Drawn
from .separated import QUOTE, SEPARATORS, Separated, guessed, used
from .words import BAR, BYTE_ORDER_MARK, COMMENT, PLACES, Word, check_names, places_words, row_digits, shortened

if TYPE_CHECKING:
    from ..table import Table

COMMA, LINE_ENDING, FREE = ",", "\r\n", "-"
# A name is no mark and no bar, and has no blanks around it; a byte order mark before it would be taken for the text's.
NAME = re.compile(r"(?![01|-]\Z|\ufeff)\S(?:.*\S)?", re.DOTALL)
# Signs that a cell can only have in quotes, whatever separates the cells.
QUOTED = re.compile(rf"[\r\n{QUOTE}{SEPARATORS}]")


# Reading.


def read(text: str, faults: Optional[Faults] = None) -> Content:
    """The content of a spreadsheet. Rows that aren't listed are free, and so are output cells that are empty."""
    faults = Faults() if faults is None else faults
    sheet = Separated(text)
    with faults:
        sheet.take_told()
        separator, drawn = _heading(sheet)
    faults.end()
    sheet.separator = separator
    width = len(drawn.inputs) + 1 + len(drawn.outputs)
    for row in sheet.rows():
        with faults:
            _take(drawn, sheet.cells(row, separator, width))
    faults.end()
    return drawn.content()


def _heading(sheet: Separated) -> tuple[str, Drawn]:
    """The separator and the names, from the first row that says something."""
    for row in sheet.rows():
        separator = sheet.separator or guessed(sheet.text, row)
        cells = sheet.cells(row, separator)
        if _says_something(cells):
            return separator, Drawn(*_names(used(cells)))
    raise Malformed("there is no heading: every row is empty or a comment", 1)


def _says_something(cells: Sequence[Word]) -> bool:
    """Whether a row is not empty and no comment."""
    return bool(used(cells)) and not cells[0].text.startswith(COMMENT)


def _names(cells: Sequence[Word]) -> tuple[Sequence[Word], Word, Sequence[Word]]:
    """The inputs, the heading of the column between, and the outputs."""
    at = _between(cells)
    inputs, outputs = cells[:at], cells[at + 1 :]
    for kind, names in (("input", inputs), ("output", outputs)):
        unnamed = next((name for name in names if not name.text), None)
        if unnamed is not None:
            raise unnamed.wrong(f"an {kind} has no name: no column before the last output's is left empty but the one between")
    return inputs, cells[at], outputs


def _between(cells: Sequence[Word]) -> int:
    """Which column stands between the inputs and the outputs: the one headed with a bar, or else the first that is left empty."""
    texts = [cell.text for cell in cells]
    if texts.count(BAR) > 1:
        second = texts.index(BAR, texts.index(BAR) + 1)
        raise cells[second].wrong("a second bar: one column has it, between the inputs and the outputs")
    if BAR in texts or "" in texts:
        return texts.index(BAR if BAR in texts else "")
    above = f"; a row of {PLACES} stands below the heading" if texts[0] == PLACES else ""
    raise cells[0].wrong(f"the heading has no column with {BAR}, or left empty, between the inputs and the outputs{above}")


def _take(drawn: Drawn, cells: Sequence[Word]) -> None:
    """Takes a row below the heading."""
    if not _says_something(cells):
        return
    if cells[0].text == PLACES:
        drawn.name_places([cell for cell in cells if cell.text])
    else:
        drawn.add(*_marks(cells, len(drawn.inputs), len(drawn.outputs)))


def _marks(cells: Sequence[Word], n: int, m: int) -> tuple[Sequence[Word], Word, Sequence[Word]]:
    """A row's input marks, the cell between, and its output marks."""
    left, bar, right, beyond = cells[:n], cells[n], cells[n + 1 : n + 1 + m], used(cells[n + 1 + m :])
    missing = next((cell for cell in left if not cell.text), None)
    if missing is not None:
        raise missing.wrong("an input's mark is missing, which is 0, 1 or -")
    if bar.text not in ("", BAR):
        raise bar.wrong(f"{shortened(bar.text)} stands between the inputs and the outputs, where a cell is {BAR} or empty")
    if beyond:
        raise beyond[-1].wrong(f"{shortened(beyond[-1].text)} stands right of the outputs, where the heading is empty")
    return left, bar, [cell if cell.text else cell._replace(text=FREE) for cell in right]


# Writing.


def write(table: Table) -> str:
    """The spreadsheet of a table, with every row that is not wholly free.

    A name in it has no blanks around it and is no mark and no bar, and the first doesn't begin a comment, else ValueError is raised.
    """
    check_names(table, NAME, "a spreadsheet")
    for name in table.inputs[:1]:
        if name.startswith(COMMENT):
            raise ValueError(f"the name {name!r} can't stand first in a spreadsheet")
    lines = "".join(COMMA.join(map(_cell, row)) + LINE_ENDING for row in _rows(table))
    # Without the mark Excel takes a text for one in the encoding of the country.
    return lines if lines.isascii() else BYTE_ORDER_MARK + lines


def _rows(table: Table) -> Iterator[Sequence[str]]:
    """The cells of each row to be written."""
    yield *table.inputs, BAR, *table.outputs
    places = places_words(table)
    if places:
        yield places
    for row, marks in enumerate(table.rows):
        if set(marks) != {FREE}:
            yield *row_digits(row, len(table.inputs)), BAR, *marks


def _cell(text: str) -> str:
    """A cell, in quotes where it has to be."""
    return f"{QUOTE}{text.replace(QUOTE, QUOTE * 2)}{QUOTE}" if QUOTED.search(text) else text
