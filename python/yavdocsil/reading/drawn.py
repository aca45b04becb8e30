"""Rows as drawings and spreadsheets have them, a line for each: the names of the heading, the marks below it, and no row drawn twice."""

from __future__ import annotations

from collections.abc import Sequence

from . import MARKS, MOST_INPUTS, MOST_OUTPUTS, Content, Mark
from .row_sets import each_row, first_row
from .words import BYTE_ORDER_MARK, Word, check_distinct, order_of, row_named, second_places, shortened


class Drawn:
    """A table that is drawn line by line, under a heading. Rows that no line draws are free."""

    def __init__(self, inputs: Sequence[Word], bar: Word, outputs: Sequence[Word]) -> None:
        _check_heading("input", inputs, MOST_INPUTS)
        _check_heading("output", outputs, MOST_OUTPUTS)
        if not outputs:
            raise bar.wrong("there are no outputs")
        self.inputs = tuple(word.text for word in inputs)
        self.outputs = tuple(word.text for word in outputs)
        self._places: Sequence[Word] = ()
        self._order = tuple(range(len(inputs)))
        # The set of the rows that are drawn, and the line and the marks of each.
        self._taken = 0
        self._rows: dict[int, tuple[int, list[Mark]]] = {}

    def add(self, left: Sequence[Word], bar: Word, right: Sequence[Word]) -> None:
        """Draws a row, or with - among its inputs every row that it stands for."""
        self._check_marks(left, bar, right)
        rows, first = _rows_of(left), (*left, bar)[0]
        twice = rows & self._taken
        if twice:
            row = first_row(twice)
            raise first.wrong(f"{row_named(row, len(self.inputs))} is drawn twice, in lines {self._rows[row][0]} and {first.line}")
        self._taken |= rows
        drawn = first.line, [MARKS[word.text] for word in right]
        self._rows.update((row, drawn) for row in each_row(rows))

    def _check_marks(self, left: Sequence[Word], bar: Word, right: Sequence[Word]) -> None:
        """Raises where a row's marks are wrong, or too few or too many."""
        _check_are_marks("input", left)
        _check_are_marks("output", right)
        for kind, words, count in (("input", left, len(self.inputs)), ("output", right, len(self.outputs))):
            if len(words) != count:
                at = words[count] if len(words) > count else bar
                raise at.wrong(f"the number of {kind} marks is {len(words)}, not {count}")

    def name_places(self, places: Sequence[Word]) -> None:
        """Takes the order from the word `places` and the names after it."""
        if self._places:
            raise second_places(places, self._places)
        self._places = places
        self._order = order_of(places, self.inputs)

    def content(self) -> Content:
        free: tuple[int, list[Mark]] = 0, [None] * len(self.outputs)
        marks = [self._rows.get(row, free)[1] for row in range(2 ** len(self.inputs))]
        return Content(tuple(zip(*marks)), self.inputs, self.outputs, self._order)


def _check_heading(kind: str, names: Sequence[Word], most: int) -> None:
    """Raises where the names of inputs or outputs are too many, marks, or alike."""
    if len(names) > most:
        raise names[most].wrong(f"there are more than {most} {kind}s")
    for name in names:
        if name.text in MARKS:
            raise name.wrong(f"{name.text} is a mark and no name: a heading stands above the rows")
        if name.text.startswith(BYTE_ORDER_MARK):
            raise name.wrong(f"a byte order mark stands before the name of an {kind}; it may stand at the text's start alone")
    check_distinct(kind, names)


def _rows_of(marks: Sequence[Word]) -> int:
    """The set of rows that input marks stand for."""
    rows, size = 1, 1
    for mark in reversed(marks):
        rows = {"0": rows, "1": rows << size, "-": rows | rows << size}[mark.text]
        size *= 2
    return rows


def _check_are_marks(kind: str, words: Sequence[Word]) -> None:
    for word in words:
        if word.text not in MARKS:
            raise word.wrong(f"{shortened(word.text)} is not an {kind}'s mark, which is 0, 1 or -")
