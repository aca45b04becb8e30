"""Separated values: a text as spreadsheet programs write it, cut into rows of cells, each with its place and its spreadsheet's name."""

from __future__ import annotations

import re
from collections.abc import Iterator, Sequence
from typing import NamedTuple, Optional

from ..errors import Malformed
from .words import BAR, BYTE_ORDER_MARK, COMMENT, LINE_END, Word

SEPARATORS = ",;\t"
QUOTE = '"'
# The first line that tells the separator, as Excel has it. It is no row of the spreadsheet.
TOLD = re.compile(r"sep=([^\r\n]?)[ ]*(?=[\r\n]|\Z)", re.IGNORECASE)
# By separator: blanks around a cell, and what ends a cell.
BLANKS = {separator: re.compile(rf"[^\S\r\n{separator}]*") for separator in SEPARATORS}
ENDS = {separator: re.compile(rf"[\r\n{separator}]|\Z") for separator in SEPARATORS}


class Row(NamedTuple):
    """Where a row begins: its number in the spreadsheet, its line, and the index in the text."""

    number: int
    line: int
    begin: int


class Cut(NamedTuple):
    """A row that is cut: its cells without the blanks around them, the index behind it, and the line that it ends in."""

    cells: list[Word]
    end: int
    line: int


class Piece(NamedTuple):
    """A cell's content, where that begins, and the index behind the cell: of a separator, of the line's end or the text's."""

    content: str
    begin: int
    end: int


class Separated:
    """The rows of a text, one by one. `separator` is none until the heading tells it, or a line above that does."""

    def __init__(self, text: str) -> None:
        self.text = text
        self.separator: Optional[str] = None
        # Where the next line begins, its number, and the number of the row that begins there.
        self._next, self._line, self._row = int(text.startswith(BYTE_ORDER_MARK)), 1, 1

    def take_told(self) -> None:
        """Takes the separator from the first line, if that tells it."""
        told = TOLD.match(self.text, self._next)
        if told is None:
            return
        if not told[1] or told[1] not in SEPARATORS:
            raise Malformed("sep= tells the separator, which is a comma, a semicolon or a tab", 1, 1)
        self.separator = told[1]
        self._go_on()
        self._row = 1

    def rows(self) -> Iterator[Row]:
        """The rows but for comments and empty ones, as far as that is seen before they are cut. The next begins behind one that was cut."""
        empty = f" \t{self.separator or ''}"
        while self._next <= len(self.text):
            number, line, begin = self._row, self._line, self._next
            content = self._go_on()
            if content.strip(empty) and not content.lstrip(" ").startswith(COMMENT):
                yield Row(number, line, begin)

    def cells(self, row: Row, separator: str, width: int = 0) -> list[Word]:
        """The cells of a row, which may go on over lines. Up to a width, those that aren't there are empty."""
        try:
            cells, end, line = cut(self.text, row, separator)
        except Malformed as error:
            self._go_behind(error.line)
            self._row = row.number + 1
            raise
        if line != row.line:
            self._next, self._line, self._row = end, line, row.number
            self._go_on()
        last = cells[-1]
        missing = [Word("", last.line, last.column, cell_name(column, row.number)) for column in range(len(cells), width)]
        return cells + missing

    def _go_on(self) -> str:
        """Goes to the next line and row, and gives the line that is left, from the index on."""
        begin, end = self._next, LINE_END.search(self.text, self._next)
        self._line, self._row = self._line + 1, self._row + 1
        if end is None:
            self._next = len(self.text) + 1
            return self.text[begin:]
        self._next = end.end()
        return self.text[begin : end.start()]

    def _go_behind(self, line: int) -> None:
        """Goes to the line behind one that can't be cut."""
        while self._line <= line:
            self._go_on()


# Rows.


def cut(text: str, row: Row, separator: str) -> Cut:
    """Cuts a row. Quotes are as RFC 4180 has them."""
    cells: list[Word] = []
    line, line_begin, end = row.line, row.begin, row.begin - 1
    more = True
    while more:
        at, name = end + 1, cell_name(len(cells), row.number)
        content, begin, end = _piece(text, at, separator, Word("", line, at - line_begin + 1, name))
        more = text.startswith(separator, end)
        # An empty cell at a line's end has no sign of its own; its place is that of the one before it.
        column = begin - line_begin + (1 if begin < end or more else 0)
        cells.append(Word(content.strip(), line, max(column, 1), name))
        inside = list(LINE_END.finditer(text, at, end))
        if inside:
            line, line_begin = line + len(inside), inside[-1].end()
    return Cut(cells, end, line)


def guessed(text: str, row: Row) -> str:
    """The separator that makes the best heading of a row."""
    return max(SEPARATORS, key=lambda separator: _likelihood(text, row, separator))


def _likelihood(text: str, row: Row, separator: str) -> tuple[bool, bool, int]:
    """How much a separator makes a heading of a row: whether a cell is a bar, whether one between others is empty, how many there are."""
    try:
        cells = cut(text, row, separator).cells
    except Malformed:
        return False, False, 0
    texts = [cell.text for cell in used(cells)]
    return BAR in texts, "" in texts, len(cells)


def used(cells: Sequence[Word]) -> Sequence[Word]:
    """The cells up to the last that isn't empty."""
    last = max((at for at, cell in enumerate(cells) if cell.text), default=-1)
    return cells[: last + 1]


# Cells.


def _piece(text: str, at: int, separator: str, cell: Word) -> Piece:
    """The cell that begins at an index; `cell` has its place, for errors."""
    begin = _behind_blanks(text, at, separator)
    if text.startswith(QUOTE, begin):
        return _quoted_piece(text, begin, separator, cell)
    end = _cell_end(text, begin, separator)
    if QUOTE in text[begin:end]:
        raise cell.wrong("a quote stands inside a cell that doesn't begin with one: put the cell in quotes, and write each in it twice")
    return Piece(text[begin:end], begin, end)


def _quoted_piece(text: str, begin: int, separator: str, cell: Word) -> Piece:
    closing = _closing_quote(text, begin + 1)
    if closing < 0:
        raise cell.wrong("a quote is opened and never closed")
    end = _behind_blanks(text, closing + 1, separator)
    if end != _cell_end(text, end, separator):
        raise cell.wrong("there is text behind the closing quote: write each quote inside a cell twice")
    return Piece(text[begin + 1 : closing].replace(QUOTE * 2, QUOTE), begin, end)


def _closing_quote(text: str, begin: int) -> int:
    """The index of the quote that closes a cell; two are one of its content. It is below 0 where there is none."""
    end = text.find(QUOTE, begin)
    while end >= 0 and text.startswith(QUOTE, end + 1):
        end = text.find(QUOTE, end + 2)
    return end


def _behind_blanks(text: str, at: int, separator: str) -> int:
    found = BLANKS[separator].match(text, at)
    return at if found is None else found.end()


def _cell_end(text: str, at: int, separator: str) -> int:
    found = ENDS[separator].search(text, at)
    return len(text) if found is None else found.start()


def cell_name(column: int, row: int) -> str:
    """A cell as a spreadsheet names it: A1 is column 0 of row 1, and AA1 its column 26."""
    letters = ""
    while column >= 0:
        column, letter = divmod(column, 26)
        letters, column = chr(ord("A") + letter) + letters, column - 1
    return f"{letters}{row}"
