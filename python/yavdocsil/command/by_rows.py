"""The words that take rows: evaluate and log."""

from __future__ import annotations

import argparse
from collections.abc import Sequence

from .. import formats
from ..display import centred, columns, harmless, many
from ..network import Network
from ..reading.rows import bits_of
from ..table import Table
from .files import STANDARD, BadWord, kind_beside, save, tell
from .networks import in_order
from .options import check_read_once, on_board, ordered, prepared, rows_given, sifted
from .telling import marks_of

SEEN = "seen"


def evaluate(given: argparse.Namespace) -> None:
    """Tells the outputs at rows, and which of them were free: there the drawing says nothing, and the filling has chosen."""
    check_read_once(given.file, *given.files)
    network = prepared(given)
    lists = rows_given(given, network.inputs)
    rows = [row for each in lists for row in each] if lists else list(range(2 ** len(network.inputs)))
    if not network.is_built:
        network.build()
    inputs, outputs = shown(network.inputs), shown(network.outputs)
    free = free_of(network.table)
    lines = [" ".join([*inputs, "|", *outputs])]
    for row, bits in zip(rows, network.evaluate(rows)):
        lines.append(row_line(row, inputs, [*under(bits, outputs), free.get(row, "")]))
    tell(*lines)


def free_of(table: Table) -> dict[int, str]:
    """For each row that has free marks, what is said of them."""
    said = {}
    for row, marks in enumerate(zip(*table.columns)):
        names = [name for name, mark in zip(table.outputs, marks) if mark is None]
        if names:
            said[row] = " free" if len(names) == len(marks) else f" free: {' '.join(names)}"
    return said


def shown(names: Sequence[str]) -> list[str]:
    """Names as they are told."""
    return [harmless(name) for name in names]


def under(bits: Sequence[int], names: Sequence[str]) -> list[str]:
    """Bits, each under its name."""
    return [centred(str(bit), columns(name)) for bit, name in zip(bits, names)]


def row_line(row: int, inputs: Sequence[str], said: Sequence[str]) -> str:
    """A row's bits, a bar, and what is said of it."""
    return " ".join([*under(bits_of(row, len(inputs)), inputs), "|", *said]).rstrip()


def log(given: argparse.Namespace) -> None:
    """Logs the rows and tells what that comes to. The order is the one given; what is to be sifted is sifted under the new care."""
    check_read_once(given.file, *given.files)
    kind = kind_beside(given, formats.LOGGED_ENDINGS)
    network = ordered(given)
    logs = rows_given(given, network.inputs)
    if not logs:
        raise BadWord("there are no rows to log: they stand behind the file, or in a file that --rows names")
    drawn, before = network.table, state_line(network)
    for rows in logs:
        network.log(rows, given.least)
    lines = [*seen_lines(network), f"before  {before}"]
    network = on_board(sifted(network, given), given)
    lines += [f"now     {state_line(network)}", *changed_lines(drawn, network.table)]
    if kind is not None:
        save(network, kind, given)
    tell(*lines, beside=given.out == STANDARD)


def seen_lines(network: Network) -> list[str]:
    """A line for each row that was seen: how often, and whether it is cared now."""
    seen = {row: str(count) for row, count in enumerate(network.seen) if count}
    width, marks = max(map(len, [SEEN, *seen.values()])), network.table.columns[0]
    inputs = shown(network.inputs)
    lines = [" ".join([*inputs, "|", SEEN.rjust(width)])]
    for row, count in seen.items():
        lines.append(row_line(row, inputs, [count.rjust(width), "free" if marks[row] is None else "cared"]))
    return lines


def state_line(network: Network) -> str:
    return f"{in_order(network.count(), network)}; {marks_of(network)}"


def changed_lines(before: Table, after: Table) -> list[str]:
    """Marks that were free and are cared now: nothing was drawn there, so they are 0."""
    pairs = [pair for columns in zip(before.columns, after.columns) for pair in zip(*columns)]
    changed = sum(old is None and new is not None for old, new in pairs)
    return [f"free before and cared now, as 0: {many(changed, 'mark')}"] if changed else []
