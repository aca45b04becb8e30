"""The cubes of a PLA: the forms of a line, the rows that it stands for, what all of them say together, and where two contradict each other.

There may be millions, so a line is taken by a pattern, and its words and places are looked for only where an error is told.
"""

from __future__ import annotations

import re
from collections import defaultdict
from collections.abc import Mapping, Sequence
from itertools import chain, islice
from typing import NamedTuple, NoReturn, Optional

from . import Mark
from .directives import content_of
from .row_sets import all_rows, each_row, first_row, marks_of, product, rows_where
from .words import BAR, BARRED, Word, row_named, words_of

INPUT_MARKS, OUTPUT_MARKS = "01-2", "01-~234"
OTHER_MARKS = str.maketrans("234", "-01")
A_MARK = re.compile(r"[^\s|]")
# What stands before the output part where there are no inputs, behind the blanks that begin a line.
NO_INPUTS = r"(?:\|\s*)?"
# Rows are collected by pieces of the output part, of so many marks: there are few pieces, and there may be as many parts as cubes.
PIECE = 4


class Type(NamedTuple):
    """What a PLA's type says: the output marks that have a meaning, and what the rest is."""

    meant: str
    rest: Mark


TYPES = {"f": Type("1", 0), "fd": Type("1-", 0), "fr": Type("10", None), "fdr": Type("10-", None)}


class _Half(dict[str, int]):
    """The rows that agree with half of a cube's input marks, from an input on. There are few halves, so each is worked out once."""

    def __init__(self, first: int, n: int) -> None:
        super().__init__()
        self.every = all_rows(n)
        self.ones = [rows_where(number, n) for number in range(first, n)]

    def __missing__(self, marks: str) -> int:
        self[marks] = rows = product(marks, self.ones, self.every)
        return rows


class Cubes:
    """The cubes of a PLA with n inputs and m outputs, as far as they are read; `count` is how many, with those that are wrong."""

    def __init__(self, n: int, m: int) -> None:
        self.n, self.m, self.count = n, m, 0
        sizes = [min(PIECE, m - first) for first in range(0, m, PIECE)]
        self._plain, self._spread = _plain_form(n, sizes), _spread_form(n, m)
        self._upper, self._lower = _Half(0, n), _Half(n // 2, n)
        self._said: list[defaultdict[str, int]] = [defaultdict(int) for _ in sizes]

    def take(self, line: str) -> bool:
        """Takes a line that is a cube without fault, and says whether it is."""
        found = self._plain.fullmatch(line) or self._found_spread(line)
        if found is None:
            return False
        upper, lower, *pieces = found.groups()
        rows = self._upper[upper] & self._lower[lower]
        for said, piece in zip(self._said, pieces):
            said[piece] |= rows
        self.count += 1
        return True

    def marked(self, line: str) -> tuple[int, str]:
        """The rows of a line that can be taken, and its mark for each output; no rows for any other."""
        found = self._plain.fullmatch(line) or self._found_spread(line)
        if found is None:
            return 0, ""
        upper, lower, *pieces = found.groups()
        return self._upper[upper] & self._lower[lower], "".join(pieces).translate(OTHER_MARKS)

    def _found_spread(self, line: str) -> Optional[re.Match[str]]:
        """What the plain form finds in a line that has blanks within its parts, once they are left out."""
        spread = self._spread.fullmatch(line)
        return spread and self._plain.fullmatch("".join(A_MARK.findall(spread[1])))

    def said(self, meant: str) -> list[Mapping[str, int]]:
        """For each output the rows of which cubes say each mark that has a meaning."""
        columns = chain.from_iterable(_by_output(said) for said in self._said)
        return [{mark: column[mark] for mark in meant} for column, _ in zip(columns, range(self.m))]

    def tell_wrong(self, line: str, number: int) -> NoReturn:
        """Raises what is wrong with a cube that isn't taken."""
        self.count += 1
        content = content_of(line)
        marks = words_of(content, number, A_MARK)
        for mark in marks:
            if mark.text not in OUTPUT_MARKS:
                raise mark.wrong(f"{mark.text} is not a mark of a cube")
        _check_lengths(words_of(content, number, BARRED), self.n, self.m)
        mark = next(mark for mark in marks[: self.n] if mark.text not in INPUT_MARKS)
        raise mark.wrong(f"{mark.text} is not an input's mark, which is 0, 1 or -")


def _by_output(said: Mapping[str, int]) -> list[defaultdict[str, int]]:
    """The rows of the marks of each output, from those of pieces of a few outputs."""
    columns: list[defaultdict[str, int]] = [defaultdict(int) for _ in range(PIECE)]
    marks = ((output, mark, rows) for piece, rows in said.items() for output, mark in enumerate(piece.translate(OTHER_MARKS)))
    for output, mark, rows in marks:
        columns[output][mark] |= rows
    return columns


# Forms.


def _plain_form(n: int, sizes: Sequence[int]) -> re.Pattern[str]:
    """Lines whose parts have no blanks within, which are nearly all: both halves of the input part, and the pieces of the output part."""
    mark = f"[{re.escape(INPUT_MARKS)}]"
    pieces = "".join(f"([{re.escape(OUTPUT_MARKS)}]{{{size}}})" for size in sizes)
    between = r"(?:\s*\|\s*|\s*)" if n else NO_INPUTS
    return re.compile(rf"\s*({mark}{{{n // 2}}})({mark}{{{n - n // 2}}}){between}{pieces}\s*(?:#.*)?")


def _spread_form(n: int, m: int) -> re.Pattern[str]:
    """Lines whose parts may have blanks within, and have some or a bar between them."""
    between = r"(?:\s*\|\s*|\s+)" if n else NO_INPUTS
    return re.compile(rf"\s*({_spread(INPUT_MARKS, n)}{between}{_spread(OUTPUT_MARKS, m)})\s*(?:#.*)?")


def _spread(marks: str, count: int) -> str:
    """So many marks, with or without blanks between them."""
    mark = f"[{re.escape(marks)}]"
    return rf"(?:{mark}\s*){{{count - 1}}}{mark}" if count else ""


def _check_lengths(words: Sequence[Word], n: int, m: int) -> None:
    """Raises where a part has too few or too many marks. Blanks may stand within a part too, but a bar only between the two."""
    reason = f"the marks of a cube are {n} for the inputs and {m} for the outputs"
    bars = [at for at, word in enumerate(words) if word.text == BAR]
    if len(bars) > 1:
        raise words[bars[1]].wrong("a second bar: a cube has at most one, between its two parts")
    if len(words) == 1 and not bars:
        parts = [(words, n + m)]
    elif bars:
        parts = [(words[: bars[0]], n), (words[bars[0] + 1 :], m)]
    else:
        reached = next((at for at in range(len(words)) if _length(words[:at]) >= n), len(words))
        parts = [(words[:reached], n), (words[reached:], m)]
    for part, length in parts:
        if _length(part) != length:
            raise (part or words)[0].wrong(reason)


def _length(words: Sequence[Word]) -> int:
    return sum(len(word.text) for word in words)


# What cubes say.


def column(said: Mapping[str, int], kind: Type, n: int) -> tuple[Mark, ...]:
    """An output's mark in every row. In a type whose rest is 0, what is both 1 and - is free."""
    ones, zeros, dashes = (said.get(mark, 0) for mark in "10-")
    free = dashes if kind.rest is not None else all_rows(n) & ~(ones | zeros)
    return marks_of(ones, free, n)


def contradicted(said: Mapping[str, int], kind: Type) -> int:
    """The rows of which cubes say different things, in a type that lists each set by itself, so that this is an error."""
    ones, zeros, dashes = (said.get(mark, 0) for mark in "10-")
    return 0 if kind.rest is not None else ones & zeros | (ones | zeros) & dashes


class Contradictions:
    """A second walk over the cubes, that finds the lines to be named. `rows` has the contradicted ones of each output.

    A cube that contradicts earlier ones is told, and else left out: those after it are compared with the earlier ones alone.
    """

    def __init__(self, cubes: Cubes, rows: Mapping[int, int], meant: str, names: Sequence[str]) -> None:
        self.cubes, self.meant, self.names = cubes, meant, names
        self.rows = {output: contradicted for output, contradicted in rows.items() if contradicted}
        # The rows of which something was said, by output, and of which another mark was said, by output and mark.
        self._seen = dict.fromkeys(self.rows, 0)
        self._against = {(output, mark): 0 for output in self.rows for mark in meant}
        # The first line that says something of an output and row, and its mark.
        self._first: dict[tuple[int, int], tuple[int, str]] = {}

    def compare(self, line: str, number: int) -> None:
        """Raises where a line contradicts those before it."""
        rows, marks = self.cubes.marked(line)
        said = [(output, marks[output]) for output in self.rows if rows and marks[output] in self.meant]
        wrong = next((output for output, mark in said if rows & self._against[output, mark]), None)
        if wrong is not None:
            place = next(islice(A_MARK.finditer(line), self.cubes.n + wrong, None))
            raise Word(place[0], number, place.start() + 1).wrong(self._reason(wrong, marks[wrong], rows, number))
        for output, mark in said:
            self._keep(output, mark, rows & self.rows[output] & ~self._seen[output], number)

    def _reason(self, output: int, mark: str, rows: int, number: int) -> str:
        row = first_row(rows & self._against[output, mark])
        line, before = self._first[output, row]
        where = f"in {row_named(row, self.cubes.n)} output {self.names[output]} is {before} and {mark}"
        return f"lines {line} and {number} contradict each other: {where}"

    def _keep(self, output: int, mark: str, rows: int, number: int) -> None:
        """Keeps what a line says of rows of which nothing was said before."""
        self._seen[output] |= rows
        for other in self.meant.replace(mark, ""):
            self._against[output, other] |= rows
        self._first.update(((output, row), (number, mark)) for row in each_row(rows))
