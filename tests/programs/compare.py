"""Compares the programs `print` and `cells` with the reference.

    PYTHONPATH=tests python3 -m programs.compare --print PATH --cells PATH [--seed S] [--cases N]

Each run of a program on one file must write what is expected, byte for byte. On
a difference the seed, the program and both texts are shown and the exit status
is 1; a group of cases ends at its first difference. The scripts of the cases
are compared by calls/compare.py.
`--only NAME` runs one group again; `--keep FILE` writes the file of the first
difference there.
"""

import argparse
import multiprocessing
import os
import subprocess
import sys
from collections import namedtuple

from cases import groups
from programs import expected

WORKERS = 2
SECONDS_PER_RUN = 60
MOST_SHOWN = 3
# A long text is shown from a little above its first differing line.
MOST_LINES_SHOWN = 60
# An output that is no text is shown in lines of so many bytes.
BYTES_IN_LINE = 16
LINES_ABOVE = 10
# A Rust program that panics ends with this status.
PANIC_STATUS = 101

Difference = namedtuple("Difference", "group program file wanted printed")


def as_text(output):
    """An output as lines: text as it stands, other bytes as numbers, 16 a line."""
    if output.isascii() and 0 not in output:
        return output.decode()
    starts = range(0, len(output), BYTES_IN_LINE)
    lines = [output[at : at + BYTES_IN_LINE].hex(" ") for at in starts]
    return "".join(f"{at:5}: {line}\n" for at, line in zip(starts, lines))


def printed_text(path, file):
    """What the program prints; a crash is told as a text no file gives.

    The texts don't rule the exit status, so it isn't compared otherwise.
    """
    try:
        run = subprocess.run([path], input=file, capture_output=True, timeout=SECONDS_PER_RUN)
    except subprocess.TimeoutExpired:
        return f"no end within {SECONDS_PER_RUN} seconds\n"
    text = as_text(run.stdout)
    if run.returncode < 0 or run.returncode == PANIC_STATUS:
        complaint = run.stderr.decode("utf-8", "backslashreplace")
        return f"{text}crash, status {run.returncode}: {complaint}\n"
    return text


def run_group(job):
    """In a worker: how many runs were compared, and the first difference."""
    name, seed, random_count, paths = job
    made = groups.groups(seed, random_count)[name]()
    runs = [(program, case.file) for case in made for program in case.programs]
    for done, (program, file) in enumerate(runs, 1):
        wanted = as_text(expected.output_of(program, file))
        printed = printed_text(paths[program], file)
        if printed != wanted:
            return done, Difference(name, program, file, wanted, printed)
    return len(runs), None


def shown(text, differing):
    lines = text.splitlines()
    start = 0
    if len(lines) > MOST_LINES_SHOWN:
        start = max(0, differing - 1 - LINES_ABOVE)
    part = lines[start : start + MOST_LINES_SHOWN]
    heading = f"  lines {start + 1} to {start + len(part)} of {len(lines)}:"
    return "\n".join([heading] + ["    " + line for line in part])


def first_differing_line(wanted, printed):
    wanted_lines, printed_lines = wanted.split("\n"), printed.split("\n")
    for number, (left, right) in enumerate(zip(wanted_lines, printed_lines), 1):
        if left != right:
            return number
    return min(len(wanted_lines), len(printed_lines)) + 1


def show(difference, seed, paths):
    head = " ".join(str(byte) for byte in difference.file[4:16])
    print(f"difference: seed {seed}, group {difference.group!r}")
    print(f"program: {paths[difference.program]}")
    print(f"file: {len(difference.file)} bytes, from byte 4: {head}")
    differing = first_differing_line(difference.wanted, difference.printed)
    print(f"first differing line: {differing}")
    print(f"expected:\n{shown(difference.wanted, differing)}")
    print(f"printed:\n{shown(difference.printed, differing)}")


def compared(jobs):
    """Runs all groups; answers the number of runs and the differences.

    The shortest come first, since they are the easiest to follow.
    """
    total, differences = 0, []
    with multiprocessing.Pool(WORKERS) as pool:
        for done, difference in pool.imap_unordered(run_group, jobs):
            total += done
            if difference:
                differences.append(difference)
    differences.sort(key=lambda each: (len(each.wanted), len(each.file), each.group))
    return total, differences


def arguments():
    parser = argparse.ArgumentParser(description=__doc__.splitlines()[0])
    parser.add_argument("--print", required=True, dest="print_path")
    parser.add_argument("--cells", required=True, dest="cells_path")
    parser.add_argument("--seed", type=int, default=1)
    parser.add_argument("--cases", type=int, default=groups.RANDOM_TABLES, help="random tables")
    parser.add_argument("--only", help="the one group of cases to run")
    parser.add_argument("--keep", help="where to write the first difference's file")
    return parser.parse_args()


def main():
    given = arguments()
    paths = {
        "print": os.path.abspath(given.print_path),
        "cells": os.path.abspath(given.cells_path),
    }
    for path in paths.values():
        if not os.access(path, os.X_OK):
            sys.exit(f"no program at {path}")
    names = list(groups.groups(given.seed, given.cases))
    if given.only is not None:
        if given.only not in names:
            sys.exit(f"no group {given.only!r}")
        names = [given.only]
    total, differences = compared([(name, given.seed, given.cases, paths) for name in names])
    for difference in differences[:MOST_SHOWN]:
        show(difference, given.seed, paths)
    if differences and given.keep:
        with open(given.keep, "wb") as kept:
            kept.write(differences[0].file)
    print(f"compared {total} cases, {len(differences)} differences")
    sys.exit(1 if differences else 0)


if __name__ == "__main__":
    main()
