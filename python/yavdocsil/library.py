"""The shared library: where it is, its calls, and the buffers that it is lent.

A slice passes as a pointer and a length. An answer is its number times 2³² plus its value; one that is not a success is raised.
"""

from __future__ import annotations

import ctypes
import functools
import operator
import os
import pathlib
import platform
import threading
from collections.abc import Callable, Sequence
from typing import Any, SupportsIndex, Union

from . import bits
from .errors import NotBuilt, Refused
from .reading import MOST_INPUTS, Mark

VARIABLE = "YAVDOCSIL_LIBRARY"
FILE = "libyavdocsil.so"
PACKAGE = pathlib.Path(__file__).resolve().parent
# In the package itself, where an installed one has it, and in a checkout.
INSTALLED, BUILT = PACKAGE / FILE, PACKAGE.parent.parent / "target" / "lib" / FILE
NOT_THERE = "cannot open shared object file: No such file or directory"

STATE_WORDS, TABLE_BYTES, WORK_BYTES, ROOTS, MOST_CELLS = 40, 2048, 32768, 16, 2159
FILE_BYTES, BLOCK_BYTES, BLOCK_CELLS = 13824, 512, 84
# No network takes more than the most cells, but a board may have them: as many as references of 16 bits can name.
MOST_BOARD = 2**15 - 1
# Where the state's words stand, and the number of a stage.
INPUTS, OUTPUTS, COUNT, STAGE, ORDER = 0, 1, 2, 3, 8
TABLE, NETWORK = 1, 2

# The elements of the slices that a call takes, and the numbers beside them.
SLICES: dict[str, Any] = {
    "state": ctypes.c_uint64,
    "file": ctypes.c_uint8, "values": ctypes.c_uint8, "care": ctypes.c_uint8, "work": ctypes.c_uint8,
    "roots": ctypes.c_uint16, "cells": ctypes.c_uint16, "rows": ctypes.c_uint16, "answers": ctypes.c_uint16,
    "counts": ctypes.c_uint32, "gains": ctypes.c_int32,
}
NUMBERS: dict[str, Any] = {
    "place": ctypes.c_uint64, "input": ctypes.c_uint64, "limit": ctypes.c_uint32, "least": ctypes.c_uint32,
}
# The calls with their arguments, in sequence.
CALLS = {
    "load": "state file values care",
    "cared": "state care",
    "count": "state values care work",
    "build": "state values care work roots cells",
    "evaluate_rows": "state rows answers roots cells",
    "write_cells": "state roots cells work file",
    "read_cells": "state file values care work roots cells",
    "log_rows": "state rows least counts care",
    "swap": "state place",
    "swap_cells": "state place work roots cells",
    "sift": "state input values care work",
    "pass": "state limit values care work",
    "moves": "state gains values care work",
}


# The file.


def path() -> pathlib.Path:
    """The library's file: the one that the environment names, or else the one in this package, or else the one that ./build leaves."""
    named = os.environ.get(VARIABLE)
    places = [pathlib.Path(named)] if named else [INSTALLED, BUILT]
    found = next((place for place in places if place.is_file()), None)
    if found is None:
        where = f"{VARIABLE} names {named}" if named else f"it should be {INSTALLED} or {BUILT}"
        raise NotBuilt(f"the library isn't there: {where}; ./build makes it, or {VARIABLE} says where it is")
    # A bare name would be looked for elsewhere.
    return pathlib.Path(os.path.abspath(found))


@functools.lru_cache(maxsize=None)
def opened() -> dict[str, Callable[..., int]]:
    """The library's calls. It is opened once."""
    return calls_of(path())


def calls_of(file: pathlib.Path) -> dict[str, Callable[..., int]]:
    """The calls of a library's file, by name. Whatever has not all of them is another library, or an older one."""
    remedy = f"./build makes it anew, or {VARIABLE} says where it is"
    try:
        library = ctypes.CDLL(str(file))
    except OSError as error:
        raise NotBuilt(f"the library {file} can't be loaded: {why_not(file, error)}; {remedy}") from error
    missing = [f"yav_{name}" for name in CALLS if not hasattr(library, f"yav_{name}")]
    if missing:
        raise NotBuilt(f"the library {file} is another one, or older: it has no {missing[0]}; {remedy}")
    return {name: typed(getattr(library, f"yav_{name}"), arguments.split()) for name, arguments in CALLS.items()}


def why_not(file: pathlib.Path, error: OSError) -> str:
    """Why a file that is there can't be loaded. Of one for another processor the loader says that it isn't there."""
    said = str(error).removeprefix(f"{file}: ")
    return f"it is for another machine than this, {platform.machine()}" if said == NOT_THERE else said


def typed(function: Any, arguments: Sequence[str]) -> Callable[..., int]:
    """A function of the library that takes these arguments, and nothing of another kind."""
    kinds = [[NUMBERS[name]] if name in NUMBERS else [ctypes.POINTER(SLICES[name]), ctypes.c_size_t] for name in arguments]
    function.argtypes = [kind for each in kinds for kind in each]
    function.restype = ctypes.c_uint64
    call: Callable[..., int] = function
    return call


# Calls.


def buffer(argument: str, content: Union[int, bytes, Sequence[int]]) -> ctypes.Array[Any]:
    """A buffer to be lent: so many zeros, or the bytes or numbers that are given."""
    kind = SLICES[argument]
    made: ctypes.Array[Any]
    if isinstance(content, int):
        made = (kind * content)()
    elif isinstance(content, bytes):
        made = (kind * (len(content) // ctypes.sizeof(kind))).from_buffer_copy(content)
    else:
        made = (kind * len(content))(*content)
    return made


def fitted(argument: str, given: SupportsIndex) -> int:
    """A number as its argument takes it. One that doesn't fit would be taken for another."""
    number = operator.index(given)
    if NUMBERS[argument](number).value != number:
        raise ValueError(f"{argument}: {number} is out of range")
    return number


def call(name: str, **arguments: Any) -> int:
    """Makes a call and gives its value."""
    passed: list[Any] = []
    for argument in CALLS[name].split():
        given = arguments[argument]
        passed += [fitted(argument, given)] if argument in NUMBERS else [given, len(given)]
    number, value = divmod(opened()[name](*passed), 2**32)
    if number:
        raise Refused(number, value, len(arguments["cells"]) // 3 if "cells" in arguments else None)
    return value


class Buffers:
    """A state and what is lent with it, all zero at first. Copied or pickled, each buffer is its bytes, so none is shared.

    Python's threads run while the library works, so whoever calls it holds `lock`.
    """

    def __init__(self, board: SupportsIndex = MOST_CELLS) -> None:
        self.state = buffer("state", STATE_WORDS)
        self.values, self.care = buffer("values", TABLE_BYTES), buffer("care", TABLE_BYTES)
        self.work = buffer("work", WORK_BYTES)
        self.roots, self.counts = buffer("roots", ROOTS), buffer("counts", 2**MOST_INPUTS)
        self.take_board(board)
        self.lock = threading.RLock()

    def take_board(self, board: SupportsIndex) -> None:
        """Lends other cells, so many and all zero; a network that is held is not in them."""
        cells = operator.index(board)
        if not 0 <= cells <= MOST_BOARD:
            raise ValueError(f"a board has 0 to {MOST_BOARD} cells, not {cells}")
        self.cells = buffer("cells", 3 * cells)

    @property
    def board(self) -> int:
        return len(self.cells) // 3

    def __getstate__(self) -> dict[str, bytes]:
        with self.lock:
            return {name: bytes(lent) for name, lent in vars(self).items() if name in SLICES}

    def __setstate__(self, saved: dict[str, bytes]) -> None:
        vars(self).update((name, buffer(name, content)) for name, content in saved.items())
        self.lock = threading.RLock()

    @property
    def columns(self) -> tuple[tuple[Mark, ...], ...]:
        """Each output's marks in the values and care, by the state's inputs and outputs."""
        rows, m = 2 ** self.state[INPUTS], self.state[OUTPUTS]
        values, care = (bits.unpacked(bytes(plane), m * rows) for plane in (self.values, self.care))
        marks = [value if cared else None for value, cared in zip(values, care)]
        return tuple(tuple(marks[rows * j : rows * (j + 1)]) for j in range(m))

    def call(self, name: str, **others: Any) -> int:
        """A call on these buffers, and on what is given beside them."""
        with self.lock:
            return call(name, **{**vars(self), **others})

    def built_apart(self) -> Buffers:
        """The network of the table held here, in buffers of its own: what is held stays, and so does the board."""
        own = Buffers()
        own.state[:] = self.state[:]
        own.call("build", values=self.values, care=self.care)
        return own
