"""Times the library's `count`, `build` and `pass` beside `&ttopt` of ABC on the same
tables, in one run.

    python3 bench/run.py [--library PATH] [--repeats N]

It prints a Markdown table. README.md says what is measured and how.
"""

import argparse
import os
import random
import resource
import statistics
import subprocess
import sys
import tempfile
from pathlib import Path

import same
import tables
import ttopt

ROOT = Path(__file__).resolve().parent.parent
# Inputs, outputs and how much is cared in percent.
SIZES = [(10, 16, 100), (10, 16, 90), (10, 16, 50), (10, 16, 20), (8, 4, 50), (6, 3, 50)]
# A work is repeated in one process until it takes so many seconds, if it can.
ENOUGH_SECONDS = 0.4
MOST_TIMES = 2**18
# The orders that our passes begin with; after the last comes the first again.
ORDERS = 1024

TABLE, FILLED, ORDER_FILE = "drawn.table", "filled.table", "start.orders"


# The work: for each a function that gives, for k, the seconds for doing it once, from
# doing it k times in one process.


def built_in(folder, library):
    """The program that makes our calls."""
    program = folder / "passes"
    command = ["cc", "-O2", ROOT / "bench/passes.c", f"-I{ROOT}/include", library, "-o", program]
    subprocess.run(command, check=True)
    return program


def said(program, *words):
    """The number that it prints; a refused call is an error."""
    command = [program, *map(str, words)]
    run = subprocess.run(command, cwd=program.parent, stdout=subprocess.PIPE, check=True)
    return int(run.stdout)


def calls(program, word, *more):
    return lambda k: said(program, TABLE, word, k, *more) / 1e9 / k


def random_orders(n):
    source = random.Random(n)
    return b"".join(bytes(source.sample(range(n), n)) for _ in range(ORDERS))


def children_seconds():
    used = resource.getrusage(resource.RUSAGE_CHILDREN)
    return used.ru_utime + used.ru_stime


def process_seconds(command, folder):
    """The processor time of one process, so without its waiting for others."""
    before = children_seconds()
    subprocess.run(command, cwd=folder, stdout=subprocess.DEVNULL, check=True)
    return children_seconds() - before


def rounds(abc, table, plain, folder):
    """The rounds beyond the first, which every process does."""

    def once(k):
        commands = [ttopt.command(abc, table, each, plain) for each in (k, 0)]
        with_rounds, without = [process_seconds(command, folder) for command in commands]
        return (with_rounds - without) / k

    return once


def ways(table):
    """The ways of `&ttopt` that fit a table, and whether each is the plain one."""
    return {"free rows": False, "plain": True} if table.percent == 100 else {"free rows": False}


def works_on(table, program, abc):
    """Ours and theirs, by name, in the sequence in which they take turns."""
    folder = program.parent
    works = {"count": calls(program, "count"), "build": calls(program, "build")}
    works["pass"] = calls(program, "pass", ORDER_FILE)
    for way, plain in ways(table).items():
        works[way] = rounds(abc, table, plain, folder)
    return works


# The times.


def times_for(once):
    k = 1
    while k < MOST_TIMES and k * once(k) < ENOUGH_SECONDS:
        k *= 2
    return k


def measured(works, repeats):
    """For each work its seconds, once for each turn."""
    times = {name: times_for(once) for name, once in works.items()}
    samples = {name: [] for name in works}
    for _ in range(repeats):
        for name, once in works.items():
            samples[name].append(once(times[name]))
    return samples


# The table.


def figure(number):
    return f"{number:.3g}" if number < 1000 else f"{number:.0f}"


def with_range(samples):
    middle, low, high = statistics.median(samples), min(samples), max(samples)
    return f"{figure(middle)} ({figure(low)} to {figure(high)})"


def milliseconds(samples):
    return figure(1000 * statistics.median(samples))


def ratios(ours, theirs):
    """Turn by turn, so that what slows the machine slows both."""
    return [a / b for a, b in zip(ours, theirs, strict=True)]


HEADING = [
    "inputs, outputs", "cared", "`&ttopt`", "count, ms", "build, ms", "pass, ms", "their pass, ms",
    "pass, ours / theirs", "count / one order of theirs", "build / count", "cells, ours / theirs",
]


def line(table, samples, way, cells):
    """The table's line for one way of `&ttopt`."""
    theirs = samples[way]
    their_orders = table.n * (table.n - 1)
    their_order = [each / their_orders for each in theirs]
    return [
        f"{table.n}, {table.m}", f"{table.percent} %", way,
        milliseconds(samples["count"]), milliseconds(samples["build"]),
        milliseconds(samples["pass"]), milliseconds(theirs),
        with_range(ratios(samples["pass"], theirs)),
        with_range(ratios(samples["count"], their_order)),
        with_range(ratios(samples["build"], samples["count"])),
        cells,
    ]


def say(cells):
    print("| " + " | ".join(cells) + " |", flush=True)


def say_noise(samples_by_size):
    """How far the turns of one figure lie apart."""
    turns = [each for samples in samples_by_size for each in samples.values()]
    apart = with_range([max(each) / min(each) for each in turns])
    print(f"slowest turn / fastest turn of a figure: {apart}")


def load():
    return " ".join(f"{each:.2f}" for each in os.getloadavg())


def compared_cells(program, abc, table, way):
    """Those after a pass of ours from the order in the file, and those of the table as
    `&ttopt` filled it, once that is checked."""
    folder = program.parent
    filled = ttopt.filled(abc, table, folder, ways(table)[way])
    same.check(table, filled)
    (folder / FILLED).write_bytes(tables.file_of(tables.drawn_in_full(table, filled)))
    return " / ".join(str(said(program, name, "cells")) for name in (TABLE, FILLED))


def measure_size(size, program, abc, repeats):
    """Says the table's lines for one size, and gives the times."""
    table, folder = tables.random_table(*size), program.parent
    ttopt.write(table, folder)
    (folder / TABLE).write_bytes(tables.file_of(table))
    (folder / ORDER_FILE).write_bytes(random_orders(table.n))
    cells = {way: compared_cells(program, abc, table, way) for way in ways(table)}
    samples = measured(works_on(table, program, abc), repeats)
    for way in ways(table):
        say(line(table, samples, way, cells[way]))
    return samples


def arguments():
    parser = argparse.ArgumentParser(description=__doc__.splitlines()[0])
    parser.add_argument("--library", default=ROOT / "target/lib/libyavdocsil.so", type=Path)
    parser.add_argument("--repeats", default=9, type=int)
    return parser.parse_args()


def main():
    given = arguments()
    abc = ttopt.found()
    if abc is None:
        sys.exit("no ABC here: apt-get install berkeley-abc")
    if not given.library.is_file():
        sys.exit(f"no {given.library}: ./build")
    before = load()
    with tempfile.TemporaryDirectory() as folder:
        program = built_in(Path(folder), given.library.resolve())
        say(HEADING)
        say(["---"] * len(HEADING))
        samples = [measure_size(size, program, abc, given.repeats) for size in SIZES]
    print()
    say_noise(samples)
    print(f"load of the machine before and after: {before}, {load()}")


if __name__ == "__main__":
    main()
