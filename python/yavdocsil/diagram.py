"""A network as pictures and exports see it: cells by place, references, and the names of inputs and outputs.

Reference 0 is the constant 0 and reference 1 the constant 1; cell i, from 1, is referred to as 2i, and inverted as 2i + 1.
"""

from __future__ import annotations

from collections.abc import Iterable, Sequence
from dataclasses import dataclass, replace
from functools import cached_property
from typing import NamedTuple, Optional

from .display import many
from .errors import NO_ROW, Refused


class Cell(NamedTuple):
    """A two-way selector: at its place's input it takes the reference `low` for 0 and `high` for 1."""

    number: int
    place: int
    low: int
    high: int


def is_constant(reference: int) -> bool:
    return reference < 2


def is_inverted(reference: int) -> bool:
    """Whether a reference to a cell inverts it; false for the constants."""
    return reference >= 2 and reference % 2 == 1


def cell_of(reference: int) -> int:
    """The number of the cell that is referred to; 0 for a constant."""
    return reference // 2


@dataclass(frozen=True)
class Diagram:
    """The cells of a network, numbered from 1, the root of each output, and the input at each place.

    A part of a network has fewer of the cells, each with its own number; `whole` is how many the network has then.
    """

    inputs: tuple[str, ...]
    outputs: tuple[str, ...]
    order: tuple[int, ...]
    cells: tuple[Cell, ...]
    roots: tuple[int, ...]
    whole: Optional[int] = None

    def input_at(self, place: int) -> str:
        """The name of the input that the cells of a place ask."""
        return self.inputs[self.order[place]]

    def cells_at(self, place: int) -> list[Cell]:
        """The cells of a place, in sequence."""
        return [cell for cell in self.cells if cell.place == place]

    @cached_property
    def by_number(self) -> dict[int, Cell]:
        """Each cell by its number; in a part of a network the numbers have gaps."""
        return {cell.number: cell for cell in self.cells}

    @property
    def size(self) -> str:
        """How many cells there are, in words."""
        return many(len(self.cells), "cell") if self.whole is None else f"{len(self.cells)} of the network's {many(self.whole, 'cell')}"

    def only(self, outputs: Sequence[str]) -> Diagram:
        """The part that some outputs reach, or the whole if these are all. Cells keep their numbers: they are those of the network file."""
        unknown = [f"there is no output {name}" for name in outputs if name not in self.outputs]
        if unknown or not outputs:
            raise ValueError(f"{unknown[0] if unknown else 'no output is named'}; there are {' '.join(self.outputs)}")
        kept = [number for number, name in enumerate(self.outputs) if name in outputs]
        if len(kept) == len(self.outputs):
            return self
        roots = tuple(self.roots[number] for number in kept)
        reached = self.reached(roots)
        return replace(
            self,
            outputs=tuple(self.outputs[number] for number in kept),
            cells=tuple(cell for cell in self.cells if cell.number in reached),
            roots=roots,
            whole=len(self.cells) if self.whole is None else self.whole,
        )

    def reached(self, roots: Iterable[int]) -> set[int]:
        """The numbers of the cells that references lead to, over all edges."""
        found: set[int] = set()
        waiting = list(roots)
        while waiting:
            number = cell_of(waiting.pop())
            if number and number not in found:
                found.add(number)
                cell = self.by_number[number]
                waiting += (cell.low, cell.high)
        return found

    def evaluate(self, row: int) -> tuple[int, ...]:
        """Each output at a row; in a row number input 0 is the most significant bit."""
        if not 0 <= row < 2 ** len(self.inputs):
            raise Refused(NO_ROW)
        return tuple(self._follow(root, row) for root in self.roots)

    def _follow(self, reference: int, row: int) -> int:
        flipped = 0
        while not is_constant(reference):
            flipped ^= reference % 2
            cell = self.by_number[cell_of(reference)]
            bit = row >> (len(self.inputs) - 1 - self.order[cell.place]) & 1
            reference = cell.high if bit else cell.low
        return reference ^ flipped
