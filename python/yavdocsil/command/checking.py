"""The word check: every error of a file at once, or what a person would want to know of its table before it is built."""

from __future__ import annotations

import argparse
from typing import Optional

from ..diagram import Diagram
from ..display import many
from ..errors import MOST_GATHERED, Faults
from ..network import Network
from ..table import Table
from .files import InFile, called, tell, told, warn_of
from .networks import order_told
from .options import ordered, sifted


def check(given: argparse.Namespace) -> int:
    """Tells the errors, or else the table; the status is 1 where there is an error, or where the board is too small."""
    faults = Faults(gathers=True)
    try:
        network = ordered(given, faults)
    except InFile as error:
        warn_of_all([told(found, called(given.file, "input")) for found in faults.found], str(error))
        return 1
    network = sifted(network, given)
    tell(*lines_of(network), *board_lines(network, given.board))
    return int(given.board is not None and network.count() > given.board)


def warn_of_all(errors: list[str], last: str) -> None:
    """Tells each error, and the one that ended the reading if it is another."""
    errors = errors if last in errors else [*errors, last]
    for error in errors:
        warn_of(error)
    if len(errors) >= MOST_GATHERED:
        warn_of(f"the reading ended at {len(errors)} errors; there may be more")
    elif len(errors) > 1:
        warn_of(many(len(errors), "error"))


def lines_of(network: Network) -> list[str]:
    """A table's rows, what is odd about it, and its cells."""
    table = network.table
    lines = [
        f"inputs  {len(table.inputs)}",
        f"outputs {len(table.outputs)}",
        f"rows    {rows_told(table)}",
    ]
    free = [name for name, column in zip(table.outputs, table.columns) if set(column) == {None}]
    lines += [f"wholly free: {' '.join(free)}"] if free else []
    asleep = never_asked(network.diagram)
    lines += [f"never asked: {' '.join(asleep)}"] if asleep else []
    return [*lines, f"cells   {network.count()} {order_told(network)}"]


def rows_told(table: Table) -> str:
    """How many rows are cared in every output, in some, and in none."""
    free = [sum(mark is None for mark in marks) for marks in zip(*table.columns)]
    whole, none = free.count(0), free.count(len(table.outputs))
    part = len(free) - whole - none
    return f"{len(free)}: {whole} cared, {none} free" + (f", {part} free in some outputs" if part else "")


def never_asked(diagram: Diagram) -> list[str]:
    """The inputs that no cell asks, in the sequence of the inputs."""
    asked = {diagram.input_at(cell.place) for cell in diagram.cells}
    return [name for name in diagram.inputs if name not in asked]


def board_lines(network: Network, board: Optional[int]) -> list[str]:
    """Whether the network fits a board."""
    if board is None:
        return []
    wanted = network.count()
    return [f"board   {many(board, 'cell')}: {'it fits' if wanted <= board else f'too few, {wanted} are wanted'}"]
