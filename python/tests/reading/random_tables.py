"""Random tables for the tests of the readers and writers."""

from __future__ import annotations

import random

from yavdocsil import Table

WORDS = ["a", "B2", "left", "held_long", "00", "1-", "-1", "places", ".i", "~", "é", "x[3]", "01", "a,b", "--", "y'"]


def random_table(random: random.Random, n: int, most_outputs: int = 4) -> Table:
    """A table with some wholly free rows, some free marks, a random order, and names that are easily mistaken."""
    m = random.randint(1, most_outputs)
    sparse, free = random.random(), random.random()
    rows = [
        "".join("-" if random.random() < free else random.choice("01") for _ in range(m)) if random.random() >= sparse else "-" * m
        for _ in range(2**n)
    ]
    order = random.sample(range(n), n)
    return Table.from_rows(rows, random.sample(WORDS, n), random.sample(WORDS, m), order)
