"""Calls and scripts made on the reference alone: the same state words and buffers as the
library is lent, changed as the papers say."""

import random

from calls import library, scripts
from calls.lent import lending
from calls.library import Call
from paper import cell_swap, moves, network_file, reference, row_log

# The calls that have a file of their own beside the reference.
MODULES = {
    "write_cells": network_file, "read_cells": network_file, "log_rows": row_log,
    "swap_cells": cell_swap, "moves": moves,
}


def function_of(name):
    """The reference has the same names, but `pass` is a word of Python."""
    return getattr(MODULES.get(name, reference), "sift_pass" if name == "pass" else name)


def answer(call, lent):
    """The answer by the papers; `lent` is changed as they say."""
    words = lent.contents["state"]
    if lent.lengths["state"] < library.STATE_WORDS:
        return 10, 0
    state = library.state_from(words)
    buffers = [name for name in library.slices_of(call.name) if name != "state"]
    parts = {name: lent.part(name) for name in buffers}
    given = {**parts, **call.numbers, "state": state}
    arguments = [given[name] for name in library.arguments_of(call.name)]
    found = function_of(call.name)(*arguments)
    for name, part in parts.items():
        lent.write_part(name, part)
    library.write_state(words, state)
    return found


# Scripts.


def played(file, command=""):
    """The answer of each call, and what is lent in the end."""
    answers = []
    for call in scripts.calls_of(random.Random(0), file, command):
        answers.append(answer(call, call.lent))
    return answers, call.lent


def answer_after(file, command):
    """The value that the last call answers."""
    return played(file, command)[0][-1][1]


def held_after(file, command):
    """The cells that the state holds in the end."""
    return played(file, command)[1].contents["state"][library.COUNT]


def written_after(file, command):
    """The network file of what is held in the end."""
    lent = played(file, command + " write")[1]
    lending.lend_written(lent)
    return bytes(lent.part("file"))


# For tests.


def loaded(file, command=""):
    """What is lent after a script in which nothing is refused."""
    answers, lent = played(file, command)
    assert all(number == 0 for number, _ in answers)
    return lent


def called(lent, name, **numbers):
    return answer(Call(name, numbers, lent, ""), lent)


def state_of(lent):
    return library.state_from(lent.contents["state"])


def stage_of(lent):
    state = state_of(lent)
    return state.stage, state.count


def network_in(lent):
    """The counted cells and the roots."""
    state, numbers = state_of(lent), lent.contents["cells"]
    triples = [tuple(numbers[3 * i : 3 * i + 3]) for i in range(state.count)]
    return triples, list(lent.contents["roots"][: state.m])


def network_of(file):
    """Cells and roots as built in the file's order."""
    return network_in(loaded(file, "build"))


def answers_of(file, command):
    """What each word is answered, without the load."""
    return played(file, command)[0][1:]
