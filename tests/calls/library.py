"""The library's calls, bound with ctypes, and the layout that they share.

A slice passes as a pointer and a length in elements. The state is a slice of
64-bit words. An answer is the paper's number * 2^32 + the value. A new call is
one line of CALLS, and one of SLICES or NUMBERS for an argument not known yet.
"""

import array
import ctypes
from collections import namedtuple

from paper import reference

# Each type's form for ctypes and for `array`.
TYPES = {
    "u8": (ctypes.c_uint8, "B"),
    "u16": (ctypes.c_uint16, "H"),
    "u32": (ctypes.c_uint32, "I"),
    "u64": (ctypes.c_uint64, "Q"),
    "i32": (ctypes.c_int32, "i"),
}

# The type of a slice's elements, and of a number, by the argument's name.
SLICES = {
    "state": "u64", "file": "u8", "values": "u8", "care": "u8", "work": "u8",
    "roots": "u16", "cells": "u16", "rows": "u16", "answers": "u16",
    "counts": "u32", "gains": "i32",
}
NUMBERS = {"row": "u64", "place": "u64", "input": "u64", "limit": "u32", "least": "u32"}

# The arguments of each call, in their sequence.
CALLS = {
    "load": "state file values care",
    "cared": "state care",
    "count": "state values care work",
    "build": "state values care work roots cells",
    "evaluate": "state row roots cells",
    "evaluate_rows": "state rows answers roots cells",
    "swap": "state place",
    "sift": "state input values care work",
    "pass": "state limit values care work",
    "write_cells": "state roots cells work file",
    "read_cells": "state file values care work roots cells",
    "log_rows": "state rows least counts care",
    "swap_cells": "state place work roots cells",
    "moves": "state gains values care work",
}

# The state's words. Those not named here are never read or changed.
STATE_WORDS = 40
N, M, COUNT, STAGE = 0, 1, 2, 3
ORDER = slice(8, 18)
STAGES = (reference.NOTHING, reference.TABLE, reference.NETWORK)


def arguments_of(name):
    return CALLS[name].split()


def slices_of(name):
    return [argument for argument in arguments_of(name) if argument in SLICES]


def new_buffer(name, elements):
    """The elements as a buffer of the argument's type; bytes as the reference likes them."""
    code = TYPES[SLICES[name]][1]
    return bytearray(elements) if code == "B" else array.array(code, elements)


def stage_in(words):
    return STAGES[words[STAGE]] if words[STAGE] < len(STAGES) else reference.NOTHING


def state_from(words):
    state = reference.State()
    state.n, state.m, state.count = words[N], words[M], words[COUNT]
    state.order = list(words[ORDER])
    state.stage = stage_in(words)
    return state


def write_state(words, state):
    """A stage word that says the same already stays: 7 says nothing as 0 does."""
    words[N], words[M], words[COUNT] = state.n, state.m, state.count
    words[ORDER] = array.array(words.typecode, state.order)
    if stage_in(words) != state.stage:
        words[STAGE] = STAGES.index(state.stage)


# A call to be made: `numbers` are by the argument's name, `lent` is a Lent, and
# `note` tells a person where it is from. `law` is asked, with the answer, when the call is
# done and no difference was found: it tells what else should hold and does not, or None. Its
# `kinds`, if it has any, are words for what it was asked of.
Call = namedtuple("Call", "name numbers lent note law", defaults=(lambda answer: None,))


class Lent:
    """The state's words and the buffers, by name, and how much of each is lent.

    Each holds more elements than are lent, so that the rest can be watched.
    """

    def __init__(self):
        self.contents = {}
        self.lengths = {}

    def put(self, name, elements, length):
        self.contents[name] = new_buffer(name, elements)
        self.lengths[name] = length

    def part(self, name):
        return self.contents[name][: self.lengths[name]]

    def write_part(self, name, part):
        self.contents[name][: len(part)] = part

    def copy(self, names):
        copied = Lent()
        copied.contents = {name: self.contents[name][:] for name in names}
        copied.lengths = dict(self.lengths)
        return copied


class MissingCalls(Exception):
    """The library at a path lacks calls; the text names them."""


class Library:
    """The calls of the shared library at a path."""

    def __init__(self, path):
        opened = ctypes.CDLL(path)
        missing = [f"yav_{name}" for name in CALLS if not hasattr(opened, f"yav_{name}")]
        if missing:
            raise MissingCalls(f"the library at {path} has no {', '.join(missing)}")
        self.functions = {name: bound(opened, name) for name in CALLS}

    def call(self, name, numbers, lent):
        """The answer as (number, value); what is lent may be changed."""
        passed = []
        for argument in arguments_of(name):
            if argument in NUMBERS:
                passed.append(numbers[argument])
            else:
                passed += slice_of(lent, argument)
        answer = self.functions[name](*passed)
        return answer >> 32, answer % 2**32


def bound(opened, name):
    function = getattr(opened, f"yav_{name}")
    function.restype = ctypes.c_uint64
    function.argtypes = []
    for argument in arguments_of(name):
        if argument in NUMBERS:
            function.argtypes += [TYPES[NUMBERS[argument]][0]]
        else:
            element = TYPES[SLICES[argument]][0]
            function.argtypes += [ctypes.POINTER(element), ctypes.c_size_t]
    return function


def slice_of(lent, name):
    """A pointer to the buffer itself, no copy, and the length that is lent."""
    content, length = lent.contents[name], lent.lengths[name]
    if length >= len(content):
        raise ValueError(f"{name}: {length} of {len(content)} lent, and none left to watch")
    element = TYPES[SLICES[name]][0]
    return [(element * len(content)).from_buffer(content), length]
