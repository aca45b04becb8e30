"""Scripts: calls in turn on one table file or network file, written as words.

A table file is loaded, and a network file read, into a state and buffers that are zero at
first; what lies behind them is dirty. Then each word is done in turn, whatever the others
were answered:

    count, build, cared, moves     the call of that name
    swap P, sift I, pass L         the same with its number
    swapcells P, eval R, write     swap_cells, evaluate, and write_cells into a dirty file
    evals R,R,..  log R,R,..       evaluate_rows and log_rows of a list; `relog` logs no row
    rows                           evaluate, for every row
    board B                        a build and a swap in the cells are lent so many cells
    least R                        the least of the logs; 1 at first

All other calls are lent all 2,159 cells, so that what a small board has left is seen.
"""

from calls import library
from calls.lent import lending, moves
from calls.library import Call
from making.network_files import HEADING_KIND
from programs.expected import MOST_CELLS

NAMES = {
    "swapcells": "swap_cells", "eval": "evaluate", "evals": "evaluate_rows",
    "log": "log_rows", "relog": "log_rows", "write": "write_cells",
}
NUMBER_WORDS = ("swap", "swapcells", "sift", "pass", "eval", "board", "least")
LIST_WORDS = ("evals", "log")
ON_BOARD = ("build", "swapcells")
# Enough for any table.
COUNTS, GAINS = 1024, 100
# So much of a script is told with a difference.
MOST_TOLD = 200


def steps(command):
    """The words in turn, each with its number, its list of rows, or None."""
    words = iter(command.split())
    for word in words:
        if word in LIST_WORDS:
            yield word, [int(row) for row in next(words).split(",")]
        else:
            yield word, int(next(words)) if word in NUMBER_WORDS else None


def lent_zero(rng):
    """A state, buffers and counts as a caller begins with."""
    lent = library.Lent()
    sizes = {**lending.SIZES, "cells": 3 * MOST_CELLS, "counts": COUNTS}
    for name, size in sizes.items():
        zeros = library.new_buffer(name, [0] * size)
        lent.put(name, zeros + lending.dirty(rng, name, lending.SPARE), size)
    return lent


def call_of(rng, lent, word, asked, least, note):
    """The call that a word stands for, with the list or file that it is lent."""
    name = NAMES.get(word, word)
    if name in ("evaluate_rows", "log_rows"):
        lending.lend_rows(rng, lent, asked or [])
    if name == "write_cells":
        lending.lend_file_space(rng, lent)
    if name == "moves":
        moves.lend_gains(rng, lent, GAINS)
        return moves.asked(lent, note)
    given = least if name == "log_rows" else asked
    numbers = {each: given for each in library.arguments_of(name) if each in library.NUMBERS}
    return Call(name, numbers, lent, note)


def calls_of(rng, file, command):
    """The calls of a script; each is to be made before the next is asked for."""
    lent, board, least = lent_zero(rng), MOST_CELLS, 1
    lending.lend_file(rng, lent, file)
    begun = "read_cells" if file[:1] == bytes([HEADING_KIND]) else "load"
    yield Call(begun, {}, lent, f"before: {command[:MOST_TOLD]}")
    for at, (word, asked) in enumerate(steps(command), 1):
        note = f"step {at}, {word}, of: {command[:MOST_TOLD]}"
        lent.lengths["cells"] = 3 * (board if word in ON_BOARD else MOST_CELLS)
        if word == "board":
            board = asked
        elif word == "least":
            least = asked
        elif word == "rows":
            for row in range(2 ** lending.inputs_of(lent)):
                yield Call("evaluate", {"row": row}, lent, note)
        else:
            yield call_of(rng, lent, word, asked, least, note)
