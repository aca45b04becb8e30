"""The words that tell of tables: info, order and moves."""

from __future__ import annotations

import argparse
from collections.abc import Sequence

from ..display import columns, harmless, many, padded, right
from ..network import Network
from .files import tell
from .networks import in_order
from .options import prepared

# A column of the moves is as wide as its name, and at least so wide.
LEAST_COLUMN = 5


def info(given: argparse.Namespace) -> None:
    network = prepared(given)
    tell(
        " ".join(["inputs ", *network.inputs]),
        " ".join(["outputs", *network.outputs]),
        " ".join(["order  ", *(network.inputs[number] for number in network.order)]),
        f"care    {marks_of(network)}",
        f"cells   {network.count()}",
    )


def order(given: argparse.Namespace) -> None:
    network = prepared(given)
    tell(in_order(network.count(), network))


def moves(given: argparse.Namespace) -> None:
    """A line for each input, in the sequence of the places; a column for each place, named by the input that stands there."""
    network = prepared(given)
    names = [harmless(network.inputs[number]) for number in network.order]
    first, widths = max(map(columns, names), default=0), [max(columns(name), LEAST_COLUMN) for name in names]
    lines = [f"{many(network.count(), 'cell')} now; with an input moved to a place, so many more (+) or fewer (-)"]
    lines.append(" " * first + in_columns(names, widths))
    rows = network.moves()
    for name, number in zip(names, network.order):
        gains = [f"{gain:+d}" if gain else "0" for gain in rows[number]]
        lines.append(padded(name, first) + in_columns(gains, widths))
    tell(*lines)


def in_columns(words: Sequence[str], widths: Sequence[int]) -> str:
    return "".join(f"  {right(word, width)}" for word, width in zip(words, widths))


def marks_of(network: Network) -> str:
    """How many marks are cared, and how many free."""
    cared = network.cared()
    return f"{many(cared, 'mark')} cared, {len(network.outputs) * 2 ** len(network.inputs) - cared} free"
