"""The cases of the comparison on halves before constants, document 02's 2.6."""

import itertools
import random

from cases.case import Case, for_all
from making import fill_tables, table_files

LOOK = "cared count build rows write"


def drawn_cases():
    """Tables drawn by hand, in the natural order and the other way round."""
    made = []
    for outputs in fill_tables.BY_HAND:
        places = range(table_files.inputs_in(outputs[0]))
        for order in (places, places[::-1]):
            made.append(for_all(table_files.table_from_rows(outputs, order), LOOK))
    return made


def two_input_cases():
    """Every table of one output, swapped in the cells and back, and to the other order."""
    tables = [" ".join(rows) for rows in itertools.product("01-", repeat=4)]
    command = "build rows swapcells 0 rows count swapcells 0 swap 0 build rows"
    return [Case(table_files.table_from_rows([rows]), command) for rows in tables]


def outputs_at(n):
    """Each number of them, or few where a table takes long."""
    return range(1, 17) if n < 8 else (1, 2, 7, 16)


def size_cases(rng, n):
    """Tables in which many halves agree; the larger they are, the less is asked."""
    made = []
    for m in outputs_at(n):
        sifting = f"sift {rng.randrange(n)} pass {rng.choice((n, 2 * n))} build"
        command = "cared count build"
        if n > 1:
            command += f" swapcells {rng.randrange(n - 1)} count"
            command += f" swap {rng.randrange(n - 1)} build"
        command += f" rows {sifting}" if n < 6 else ""
        make = for_all if n < 8 else Case
        made.append(make(fill_tables.table(rng, n, m), command))
    return made


def groups(seed):
    """All groups as (name, function that makes the cases)."""
    made = {"fill drawn": drawn_cases, "fill two inputs": two_input_cases}

    def seeded(name, make, *arguments):
        made[name] = lambda: make(random.Random(f"{seed} {name}"), *arguments)

    for n in range(1, 11):
        seeded(f"fill {n}", size_cases, n)
    return made
