"""Sets of rows as integers, bit r for row r: PLA and BLIF speak of many rows at once, and here they are joined and cut as a whole."""

from __future__ import annotations

from collections.abc import Iterable, Iterator

from . import Mark


def all_rows(n: int) -> int:
    """Every row of n inputs."""
    return (1 << (1 << n)) - 1


def rows_where(number: int, n: int) -> int:
    """The rows in which an input is 1; input 0 is the most significant bit of a row's number."""
    run = 1 << (n - 1 - number)
    # The quotient has runs of ones and zeros in turn, ones first.
    return all_rows(n) // ((1 << run) + 1) << run


def product(marks: str, columns: Iterable[int], every: int) -> int:
    """The rows that agree with marks, each of a column that is given by the rows in which it is 1; all marks but 0 and 1 take both."""
    rows = every
    for mark, ones in zip(marks, columns):
        if mark == "1":
            rows &= ones
        elif mark == "0":
            rows &= ~ones
    return rows


def first_row(rows: int) -> int:
    """The lowest row of a set that has some."""
    return (rows & -rows).bit_length() - 1


def each_row(rows: int) -> Iterator[int]:
    """The rows of a set, from the lowest on."""
    while rows:
        yield first_row(rows)
        rows &= rows - 1


def marks_of(ones: int, free: int, n: int) -> tuple[Mark, ...]:
    """The mark of every row: none where it is free, else 1 or 0."""
    return tuple(None if dash == "1" else int(one) for one, dash in zip(_digits(ones, n), _digits(free, n)))


def _digits(rows: int, n: int) -> str:
    """A digit for each row, row 0's first."""
    return format(rows, f"0{1 << n}b")[::-1]
