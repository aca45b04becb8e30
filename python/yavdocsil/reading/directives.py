"""What PLA and BLIF have in common: directives, which are lines that begin with a point, and the comment that names the places."""

from __future__ import annotations

from collections.abc import Iterator
from contextlib import contextmanager

from ..errors import Faults
from .words import BLANKED, COMMENT, PLACES, Word, words_of


def content_of(line: str) -> str:
    """A line without its comment."""
    return line.split(COMMENT, 1)[0]


def noted_places(line: str, number: int) -> list[Word]:
    """The word `places` and the names after it, if a line is a comment that has them; else nothing."""
    blank, _, comment = line.partition(COMMENT)
    if blank.strip() or comment.split(None, 1)[:1] != [PLACES]:
        return []
    return words_of(line, number, BLANKED, len(blank) + 1)


def argument(words: list[Word]) -> Word:
    """The one word that a directive takes."""
    if len(words) == 1:
        raise words[0].wrong(f"{words[0].text} takes a word")
    if len(words) > 2:
        raise words[2].wrong(f"{words[0].text} takes one word")
    return words[1]


@contextmanager
def in_sequence(faults: Faults) -> Iterator[None]:
    """A reading whose errors are told in the sequence of the text, though some of them are known only when all is read."""
    try:
        yield
    finally:
        faults.found.sort(key=lambda fault: (fault.line, fault.column))
    faults.end()
