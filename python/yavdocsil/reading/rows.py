"""Rows by their bits, input 0 first: words of a command line, and files with a row a line, as docs/FORMATS.md has them."""

from __future__ import annotations

from collections.abc import Sequence
from typing import Optional

from ..display import harmless, many
from ..errors import Error, Malformed
from .words import COMMENT, shortened, split_lines


class BadRow(Error, ValueError):
    """Bits that are no row of a table."""


def row_of(text: str, inputs: Sequence[str]) -> int:
    """A row's number from its bits, one for each input in sequence; blanks may stand between them."""
    bits = "".join(text.split())
    # What is left without the bits at both ends is empty where there is nothing but bits.
    if len(bits) != len(inputs) or bits.strip("01"):
        named = f", for {' '.join(inputs)}" if inputs else ""
        given = shortened(text.strip()) or repr(text)
        raise BadRow(harmless(f"{given} is no row: it takes {many(len(inputs), 'bit')}{named}"))
    return int(bits or "0", 2)


def bits_of(row: int, n: int) -> tuple[int, ...]:
    """The bits of a row, input 0 first."""
    return tuple(row >> n - 1 - i & 1 for i in range(n))


def read(text: str, inputs: Sequence[str]) -> list[int]:
    """The rows of a file's lines, in sequence; blank lines and comments are none."""
    rows: list[int] = []
    # Lines of bits alone that were met before: a log has few rows, each of them often.
    known: dict[str, int] = {}
    for number, line in enumerate(split_lines(text), 1):
        row = known.get(line)
        if row is None:
            row = _row_in(line, number, inputs)
        if row is not None:
            rows.append(row)
            if len(line) == len(inputs):
                known[line] = row
    return rows


def _row_in(line: str, number: int, inputs: Sequence[str]) -> Optional[int]:
    """A line's row; none where it is blank or a comment."""
    content = line.partition(COMMENT)[0].rstrip()
    if not content:
        return None
    try:
        return row_of(content, inputs)
    except BadRow as error:
        raise Malformed(str(error), number, len(content) - len(content.lstrip()) + 1) from error
