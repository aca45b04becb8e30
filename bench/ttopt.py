"""Gives one of our tables to `&ttopt` of ABC (Debian's package berkeley-abc).

ABC numbers rows as we do, but its input 0 is a row number's lowest bit and ours
the highest, so its inputs are ours from the last to the first.
"""

import shutil
import subprocess

NAMES = ("berkeley-abc", "abc")
TRUTHS, PATTERNS, RESULT = "table.truths", "cared.patterns", "result.truths"
WORD_BITS = 64


def found():
    """The command's path, or None."""
    return next(filter(None, map(shutil.which, NAMES)), None)


def truths(table):
    """For `read_truth`: a line for each output, from the last row to row 0."""
    return "".join("".join(map(str, reversed(output))) + "\n" for output in table.values)


def patterns(table):
    """For `&ttopt`: the cared rows, in whole words, all of ABC's input 0 first.

    A row is cared if it is there at least as often as -R says, which is once;
    so the last one, said again, fills the last word.
    """
    rows = table.cared + table.cared[-1:] * (-len(table.cared) % WORD_BITS)
    bits = [sum((row >> i & 1) << k for k, row in enumerate(rows)) for i in range(table.n)]
    return b"".join(each.to_bytes(len(rows) // 8, "little") for each in bits)


def write(table, folder):
    """The files that a command reads."""
    (folder / TRUTHS).write_text(truths(table))
    (folder / PATTERNS).write_bytes(patterns(table))


def command(abc, table, rounds, plain=False, then=""):
    """The command that loads the table and does 1 + `rounds` passes.

    With `plain` it isn't told of free rows, and uses the faster of its two ways.
    """
    load = f"read_truth -x -f {TRUTHS}; strash; &get"
    free = "" if plain else f" -R 1 {PATTERNS}"
    work = f"&ttopt -I {table.n} -O {table.m} -X {rounds}{free}"
    return [abc, "-s", "-q", f"{load}; {work}{then}"]


def filled(abc, table, folder, plain=False):
    """The table as one pass filled it: a list of bits for each output."""
    words = command(abc, table, 0, plain, f"; &write_truths {RESULT}")
    subprocess.run(words, cwd=folder, check=True, stdout=subprocess.DEVNULL)
    numbers = [int(line, 16) for line in (folder / RESULT).read_text().split()]
    return [[number >> row & 1 for row in range(2**table.n)] for number in numbers]
