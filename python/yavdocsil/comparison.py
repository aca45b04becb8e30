"""Two networks compared: whether their cells and roots are the same, and where they first give other bits.

For the same inputs, outputs and order, two filled tables are equal if and only if cells and roots are; that is proved. So the cells alone
tell whether two networks give the same at every row. Inputs and outputs go by position, since cells have no names.
"""

from __future__ import annotations

from collections.abc import Iterator, Sequence
from typing import TYPE_CHECKING, NamedTuple

from .display import many

if TYPE_CHECKING:
    from .network import Network


class Difference(NamedTuple):
    """A row and an output at which two networks give other bits, and these two bits."""

    row: int
    output: int
    bits: tuple[int, int]


def check_comparable(first: Network, second: Network) -> None:
    """Raises where cells tell nothing: with other inputs, other outputs, or another order, in which one function takes other cells."""
    for thing, names, others in (("input", first.inputs, second.inputs), ("output", first.outputs, second.outputs)):
        if len(names) != len(others):
            raise ValueError(f"one network has {many(len(names), thing)}, and the other {many(len(others), thing)}")
    if first.order != second.order:
        orders = f"one network has the order {numbers(first.order)}, and the other {numbers(second.order)}"
        raise ValueError(f"{orders}: cells tell nothing across orders, and reorder gives both the same")


def numbers(order: Sequence[int]) -> str:
    return " ".join(map(str, order))


def are_same(first: Network, second: Network) -> bool:
    """Whether the cells and roots of two networks that are built are the same."""
    return (first.cells, first.roots) == (second.cells, second.roots)


def differences(first: Network, second: Network) -> Iterator[Difference]:
    """Every bit that two networks that are built give otherwise: the rows in sequence, and at each the outputs."""
    rows = range(2 ** len(first.inputs))
    return (
        Difference(row, output, bits)
        for row, (ones, others) in enumerate(zip(first.evaluate(rows), second.evaluate(rows)))
        for output, bits in enumerate(zip(ones, others))
        if bits[0] != bits[1]
    )
