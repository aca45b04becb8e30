"""The networks that are put to outside tools, of the examples, of tables drawn here and of random ones, each with a broken one."""

from __future__ import annotations

import pathlib
import random
from collections.abc import Iterator, Sequence
from dataclasses import replace
from typing import NamedTuple, Optional

from yavdocsil import Cell, Diagram, Network, Table

EXAMPLES = pathlib.Path(__file__).resolve().parent.parent.parent / "examples"


class Case(NamedTuple):
    """A network and its table; `rows` is what Network.evaluate gives, and `broken` the network with one edge's polarity flipped."""

    label: str
    table: Table
    diagram: Diagram
    rows: list[tuple[int, ...]]
    broken: Optional[Diagram]


def drawn() -> Iterator[tuple[str, Table]]:
    """The examples, and what random tables seldom have: constants, an input itself, odd names, no inputs, nothing cared."""
    for path in sorted(EXAMPLES.glob("*.txt")):
        yield path.stem, Table.from_drawing(path.read_text(encoding="utf-8"))
    yield "constants", Table.from_rows(["01-", "01-", "01-", "011"])
    yield "inputs", Table.from_rows(["0011", "0110", "1001", "1100"])
    yield "nothing cared", Table.from_rows(["--"] * 4)
    yield "no inputs", Table.from_rows(["01-"])
    odd = random.Random(7)
    rows = ["".join(odd.choice("01-") for _ in range(4)) for _ in range(64)]
    yield "odd names", Table.from_rows(rows, ["wire", "cell1", "a-b", "3x", "c\\d", "CS*"], ["module", "cell_2", "y'", "$z"])
    yield "sixteen outputs", Table.from_rows(["".join(odd.choice("01-") for _ in range(16)) for _ in range(16)])
    yield "signs", Table.from_rows(rows, ["1'b0", "(a)", ",;", "?:", "[0]", "*"], ["1'h1", "~&^", '"=<', "//*"])


def randoms(count: int, seed: int) -> Iterator[tuple[str, Table]]:
    """Random tables under random orders, every n from 0 to 8 in turn, from hardly any free rows to hardly any other."""
    rng = random.Random(seed)
    for number in range(count):
        n, m, free = number % 9, rng.randrange(1, 5), rng.choice((0.05, 0.3, 0.6, 0.9))
        rows = ["".join("-" if rng.random() < free else rng.choice("01") for _ in range(m)) for _ in range(2**n)]
        yield f"random {number}", Table.from_rows(rows, order=rng.sample(range(n), n))


def case_of(label: str, table: Table, rng: random.Random) -> Case:
    network = Network(table)
    network.build()
    rows, diagram = network.evaluate(range(2 ** len(table.inputs))), network.diagram
    if misses(table, rows):
        raise SystemExit(f"{label}: the network itself is not the table's")
    return Case(label, table, diagram, rows, broken(table, diagram, rng))


def misses(table: Table, rows: Sequence[tuple[int, ...]]) -> bool:
    """Whether some row differs from a mark that is cared."""
    return any(mark not in (None, row[j]) for j, column in enumerate(table.columns) for mark, row in zip(column, rows))


def broken(table: Table, diagram: Diagram, rng: random.Random) -> Optional[Diagram]:
    """The diagram with the first of its edges, in any sequence, that misses the table if its polarity is flipped; a root last."""
    edges = [(cell, edge) for cell in diagram.cells for edge in ("low", "high")]
    rng.shuffle(edges)
    tries = [with_cell(diagram, cell._replace(**{edge: getattr(cell, edge) ^ 1})) for cell, edge in edges]
    tries += [replace(diagram, roots=(*diagram.roots[:j], root ^ 1, *diagram.roots[j + 1 :])) for j, root in enumerate(diagram.roots)]
    everywhere = range(2 ** len(table.inputs))
    return next((other for other in tries if misses(table, [other.evaluate(row) for row in everywhere])), None)


def with_cell(diagram: Diagram, cell: Cell) -> Diagram:
    return replace(diagram, cells=tuple(cell if other.number == cell.number else other for other in diagram.cells))
