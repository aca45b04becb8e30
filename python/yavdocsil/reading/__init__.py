"""Where tables are read, and all but BLIF written: drawings, PLAs, spreadsheets, BLIF and table files. Here is what a table consists of,
for all of them, and the limits of it."""

from __future__ import annotations

from typing import NamedTuple, Optional

# 0, 1, or None for a row that is free.
Mark = Optional[int]

MARKS = {"0": 0, "1": 1, "-": None}

MOST_INPUTS, MOST_OUTPUTS = 10, 16


class Content(NamedTuple):
    """`columns[j][r]` is output j's mark in row r, in which input 0 is the most significant bit; `order` has each place's input."""

    columns: tuple[tuple[Mark, ...], ...]
    inputs: tuple[str, ...]
    outputs: tuple[str, ...]
    order: tuple[int, ...]


def names_from(letter: str, count: int) -> tuple[str, ...]:
    """Names for inputs or outputs that have none of their own."""
    return tuple(f"{letter}{number}" for number in range(count))
