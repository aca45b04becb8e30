"""Words of a text with their places, for the formats that are text: names, the order, rows and numbers as a person speaks of them."""

from __future__ import annotations

import re
from collections.abc import Iterator, Sequence
from typing import TYPE_CHECKING, NamedTuple, Optional

from ..display import harmless
from ..errors import Malformed

if TYPE_CHECKING:
    from ..table import Table

BAR, COMMENT, PLACES = "|", "#", "places"
BYTE_ORDER_MARK = "\ufeff"
LINE_END = re.compile(r"\r\n|\r|\n")
BLANKED = re.compile(r"\S+")
# A bar is a word of its own, with or without blanks around it.
BARRED = re.compile(r"\||[^\s|]+")
# What an error quotes of a word, at most.
MOST_QUOTED = 40


class Word(NamedTuple):
    """A word and where it begins; line and column count from 1. `cell` is its name in a spreadsheet, if it stands in one."""

    text: str
    line: int
    column: int
    cell: str = ""

    def wrong(self, reason: str) -> Malformed:
        """The error that names this word's place, on one line whatever the word has in it."""
        return Malformed(harmless(f"cell {self.cell}: {reason}" if self.cell else reason), self.line, self.column)


def split_lines(text: str) -> Iterator[str]:
    """The lines of a text, as an editor counts them, each cut when it is asked for; a byte order mark at the start is left out."""
    begin = len(BYTE_ORDER_MARK) if text.startswith(BYTE_ORDER_MARK) else 0
    for end in LINE_END.finditer(text, begin):
        yield text[begin : end.start()]
        begin = end.end()
    yield text[begin:]


def words_of(line: str, number: int, pattern: re.Pattern[str], begin: int = 0) -> list[Word]:
    """The words of a line, from an index on."""
    return [Word(found[0], number, found.start() + 1) for found in pattern.finditer(line, begin)]


def check_distinct(kind: str, names: Sequence[Word]) -> None:
    """Raises where a name stands twice."""
    seen = set()
    for name in names:
        if name.text in seen:
            raise name.wrong(f"the {kind} {name.text} is named twice")
        seen.add(name.text)


def order_of(places: Sequence[Word], inputs: Sequence[str]) -> tuple[int, ...]:
    """The order that the word `places` and the names after it give."""
    heading, *names = places
    for name in names:
        if name.text not in inputs:
            raise name.wrong(f"there is no input {name.text}")
    check_distinct("input", names)
    missing = [name for name in inputs if name not in {word.text for word in names}]
    if missing:
        raise heading.wrong(f"not every input has a place: {' '.join(missing)} missing")
    return tuple(inputs.index(name.text) for name in names)


def second_places(places: Sequence[Word], first: Sequence[Word]) -> Malformed:
    """The error of two lines that name the places."""
    return places[0].wrong(f"the places are named twice, in lines {first[0].line} and {places[0].line}")


def places_words(table: Table) -> list[str]:
    """The word `places` and the names that follow it; no word where the order is that of the inputs."""
    if list(table.order) == sorted(table.order):
        return []
    return [PLACES, *(table.inputs[number] for number in table.order)]


def places_line(table: Table) -> Optional[str]:
    """The line that names the places; none where the order is that of the inputs."""
    return " ".join(places_words(table)) or None


def check_names(table: Table, pattern: re.Pattern[str], kind: str) -> None:
    """Raises where a name can't stand in a text of a kind."""
    for name in (*table.inputs, *table.outputs):
        if not pattern.fullmatch(name):
            raise ValueError(f"the name {name!r} can't stand in {kind}")


def row_digits(row: int, n: int) -> str:
    """The inputs' values in a row."""
    return format(2**n + row, "b")[1:]


def row_named(row: int, n: int) -> str:
    """A row, as an error speaks of it."""
    return f"row {row_digits(row, n)}" if n else "the only row"


def shortened(text: str) -> str:
    """A word as an error quotes it: its beginning alone, if it is long."""
    return text if len(text) <= MOST_QUOTED else f"{text[:MOST_QUOTED]}.."
