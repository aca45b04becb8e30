"""What can go wrong: a call that is refused, a text that can't be read, a library that isn't there."""

from __future__ import annotations

import sys
import warnings
from types import FrameType, TracebackType
from typing import Any, Optional

# The refusals of the calls, by the papers' numbers.
REFUSALS = {
    1: "the file is empty, not of whole blocks, or not of as many as its heading asks for",
    2: "a block's check differs",
    3: "a block's kind, its second byte or its number is wrong",
    4: "there are more than 10 inputs",
    5: "there is no output, or more than 16",
    6: "the order doesn't have each input once",
    7: "unused content is not zero",
    8: "there is no such row",
    9: "there is no such input, or no two places to swap there",
    10: "a buffer is too short",
    21: "no table is held",
    22: "no network is held",
    23: "the board has too few cells",
    24: "the cells and roots are no diagram",
    31: "there are fewer answers than rows",
    32: "the cells and roots are not what a build leaves",
    33: "there are more records than 32 bits count",
    34: "the report needs more entries",
}
NO_ROW, TOO_SMALL = 8, 23
# A reading that gathers its errors ends at so many.
MOST_GATHERED = 100


class Error(Exception):
    """The base of every error of this package."""


class Refused(Error):
    """A call was refused: `number` is the papers', `value` what it adds (the cells wanted, with 23), `board` the cells that were lent."""

    def __init__(self, number: int, value: int = 0, board: Optional[int] = None) -> None:
        self.number, self.value, self.board = number, value, board
        wanted = f": {value} {'is' if value == 1 else 'are'} wanted" if number == TOO_SMALL else ""
        has = f", it has {board}" if wanted and board is not None else ""
        super().__init__(f"refused {number}: {REFUSALS.get(number, 'for a reason unknown here')}{wanted}{has}")

    def __reduce__(self) -> tuple[Any, ...]:
        # Else a pickle would be made anew from the text alone.
        return type(self), (self.number, self.value, self.board)


class Malformed(Error):
    """A text can't be read. Lines and columns count from 1; column 0 stands for the whole line. `file` is its name, if it is a file's."""

    def __init__(self, reason: str, line: int, column: int = 0, file: str = "") -> None:
        self.reason, self.line, self.column, self.file = reason, line, column, file
        place = f"line {line}, column {column}" if column else f"line {line}"
        super().__init__(": ".join([*filter(None, [file]), place, reason]))

    def __reduce__(self) -> tuple[Any, ...]:
        return type(self), (self.reason, self.line, self.column, self.file)

    def of(self, file: str) -> Malformed:
        """The same, told with its file."""
        return Malformed(self.reason, self.line, self.column, file)


class Faults:
    """Where a reader tells what is wrong with a text.

    A reader treats each line `with faults:`. The first error ends the reading, unless all are wanted: then a line's error is kept in
    `found`, and the reading goes on with the next, up to MOST_GATHERED. `notes` has what is taken though it isn't as it should be.
    """

    def __init__(self, gathers: bool = False) -> None:
        self.gathers = gathers
        self.found: list[Malformed] = []
        self.notes: list[Malformed] = []

    def __enter__(self) -> Faults:
        return self

    def __exit__(self, kind: Optional[type[BaseException]], error: Optional[BaseException], trace: Optional[TracebackType]) -> bool:
        if not self.gathers or not isinstance(error, Malformed):
            return False
        # The last one goes on through every `with` around it, and is kept once.
        if self.found[-1:] != [error]:
            self.found.append(error)
        return len(self.found) < MOST_GATHERED

    def note(self, what: Malformed) -> None:
        self.notes.append(what)

    def warn(self, file: str = "") -> None:
        """Gives each note as a Python warning, of the line outside this package that asked for the reading."""
        level = _level_outside(sys._getframe(1))
        for note in self.notes:
            warnings.warn(str(note.of(file)), stacklevel=level)

    def end(self) -> None:
        """The end of a reading: what was found is raised, the first of it, since there is no table then."""
        if self.found:
            raise self.found[0]


def _level_outside(frame: FrameType) -> int:
    """How far above its callee the first frame outside this package is, as warnings count it."""
    level = 2
    while frame.f_back is not None and str(frame.f_globals.get("__name__")).partition(".")[0] == __package__:
        frame, level = frame.f_back, level + 1
    return level


class NotBuilt(Error):
    """The shared library isn't where it should be, or what is there isn't it."""
