"""Drawings: a truth table as text, with a heading of names and a line for each row, as docs/FORMATS.md has it."""

from __future__ import annotations

import heapq
import re
from collections.abc import Iterable, Iterator, Sequence
from typing import TYPE_CHECKING, NamedTuple, Optional

from . import MARKS, Content
from ..display import centred, columns
from ..errors import Faults, Malformed
from .drawn import Drawn
from .words import BAR, BARRED, COMMENT, PLACES, Word, check_names, places_line, row_digits, split_lines, words_of

if TYPE_CHECKING:
    from ..table import Table

# A name is a word that no mark is; a byte order mark before it would be taken for the text's.
NAME = re.compile(r"(?![01-]$|\ufeff)[^\s|#]+")
MARKS_ALONE = re.compile(r"[\s01-]*")


class Line(NamedTuple):
    """A line that has more than blanks, its comment left out. Its words are cut where they are asked for."""

    number: int
    content: str

    @property
    def has_bar(self) -> bool:
        return BAR in self.content

    @property
    def indent(self) -> str:
        """The blanks before its words."""
        return self.content[: len(self.content) - len(self.content.lstrip())]

    @property
    def first(self) -> Word:
        """The first word of a line with no bar."""
        return Word(self.content.split(None, 1)[0], self.number, len(self.indent) + 1)

    @property
    def words(self) -> list[Word]:
        return words_of(self.content, self.number, BARRED)


class Parts(NamedTuple):
    """A line's words left and right of its bar."""

    left: list[Word]
    bar: Word
    right: list[Word]


# Reading.


def read(text: str, faults: Optional[Faults] = None) -> Content:
    """The content of a drawing. Rows that aren't listed are free."""
    faults = Faults() if faults is None else faults
    with faults:
        page = _Page(_heading(text), faults)
    faults.end()
    for line in _lines(text):
        with faults:
            page.take(line)
    page.end()
    faults.end()
    return page.drawn.content()


def _lines(text: str) -> Iterator[Line]:
    """The lines that have more than blanks and a comment."""
    for number, line in enumerate(split_lines(text), 1):
        content = line.partition(COMMENT)[0]
        if content and not content.isspace():
            yield Line(number, content)


def _heading(text: str) -> Line:
    """The first line with a bar."""
    heading = next((line for line in _lines(text) if line.has_bar), None)
    if heading is None:
        raise Malformed("there is no heading: no line has a bar", 1)
    return heading


def _parts(line: Line) -> Parts:
    words = line.words
    bars = [at for at, word in enumerate(words) if word.text == BAR]
    if len(bars) > 1:
        raise words[bars[1]].wrong("a second bar: a line has one, between the inputs and the outputs")
    at = bars[0]
    return Parts(words[:at], words[at], words[at + 1 :])


class _Page:
    """A drawing and the text around it, line by line, once the heading is known."""

    def __init__(self, heading: Line, faults: Faults) -> None:
        self.heading, self.indent, self.faults = heading.number, heading.indent, faults
        self.drawn = Drawn(*_parts(heading))
        # Text that stands among the rows if one more row comes, and what is wrong behind it, which is told after it.
        self.among: list[Word] = []
        self.behind: list[Malformed] = []

    def take(self, line: Line) -> None:
        """Takes any line but the heading, which is known."""
        if line.number == self.heading:
            return
        if line.has_bar:
            self._tell_among()
            self.drawn.add(*_parts(line))
            return
        try:
            self._take_other(line)
        except Malformed as error:
            if not self.among:
                raise
            self.behind.append(error)

    def end(self) -> None:
        """No more rows come, so text behind the last one is for the reader."""
        self._tell(self.behind)

    def _take_other(self, line: Line) -> None:
        """Takes a line with no bar. One that may be a row is an error, since it would be lost, and so is text that isn't on a page."""
        if self._is_places(line):
            self.drawn.name_places(line.words)
        elif MARKS_ALONE.fullmatch(line.content) or self._begins_as_row(line):
            raise line.first.wrong("a row without a bar")
        elif not self.indent:
            reason = "this is no row, no line of places and no comment; other text may stand beside an indented drawing only"
            raise line.first.wrong(reason)
        elif line.number > self.heading and line.indent == self.indent:
            self.among.append(line.first)

    def _is_places(self, line: Line) -> bool:
        """Whether a line names the places: on a page it is indented as the heading is, or has names of inputs alone behind the word."""
        if PLACES not in line.content:
            return False
        word, *names = line.words
        alike = self.indent in ("", line.indent)
        return word.text == PLACES and (alike or (bool(names) and all(name.text in self.drawn.inputs for name in names)))

    def _begins_as_row(self, line: Line) -> bool:
        """Whether a line has a mark for each input, as a row has whose bar is mistyped. One mark alone may begin any text."""
        n = len(self.drawn.inputs)
        return n > 1 and line.content.lstrip()[:1] in MARKS and sum(word in MARKS for word in line.content.split()[:n]) == n

    def _tell_among(self) -> None:
        """A row comes, so the text that was kept stands among the rows."""
        among = (word.wrong("this is no row, and stands among the rows") for word in self.among)
        self._tell(heapq.merge(among, self.behind, key=lambda error: error.line))
        self.among, self.behind = [], []

    def _tell(self, errors: Iterable[Malformed]) -> None:
        """Tells errors in sequence, each of them made only when it is its turn."""
        for error in errors:
            with self.faults:
                raise error


# Writing.


def write(table: Table) -> str:
    """The drawing of a table, with every row that is not wholly free.

    A name in it is a word without | and # that is no mark, else ValueError is raised.
    """
    check_names(table, NAME, "a drawing")
    places = places_line(table)
    lines = [] if places is None else [places]
    lines.append(_aligned(table, table.inputs, table.outputs))
    for row, marks in enumerate(table.rows):
        if set(marks) != {"-"}:
            lines.append(_aligned(table, row_digits(row, len(table.inputs)), marks))
    return "".join(f"{line}\n" for line in lines)


def _aligned(table: Table, left: Sequence[str], right: Sequence[str]) -> str:
    """A line of the drawing, each word centred under its name."""
    return " ".join([*_under(table.inputs, left), BAR, *_under(table.outputs, right)]).rstrip()


def _under(names: Sequence[str], words: Sequence[str]) -> list[str]:
    return [centred(word, columns(name)) for name, word in zip(names, words)]
