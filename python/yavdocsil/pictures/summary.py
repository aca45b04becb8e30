"""A diagram summed up as text, for networks too large to draw: the cells of each place, with a bar, and those that each output reaches."""

from __future__ import annotations

from collections import Counter
from collections.abc import Sequence

from . import shown
from ..diagram import Diagram
from ..display import columns, padded, right
from .text import wrapped

NOTATION = "Alone are the cells that no other of these outputs reaches."
BETWEEN = "  "
BAR = "#"
# Bars are never shorter than that for want of room.
SHORTEST = 10


def write(diagram: Diagram, width: int = 80) -> str:
    """A line for each place, from the top one down, one for each output, and the total."""
    diagram = shown(diagram)
    label = max(map(columns, ("output", *diagram.outputs, *diagram.inputs)))
    places = [*_places(diagram, label, width), ""] if diagram.inputs else []
    below = [line for words in (f"{diagram.size} in all.", NOTATION) for line in wrapped(words, width)]
    return "\n".join([*places, *_outputs(diagram, label), "", *below]) + "\n"


def _places(diagram: Diagram, label: int, width: int) -> list[str]:
    """Each place's input, its cells and a bar of them."""
    counts = [len(diagram.cells_at(place)) for place in range(len(diagram.inputs))]
    bars = _bars(counts, width - label - len("cells") - 2 * len(BETWEEN))
    entries = [(diagram.input_at(place), str(count), bar) for place, (count, bar) in enumerate(zip(counts, bars))]
    return [f"{_line(label, name, count)}{BETWEEN}{bar}".rstrip() for name, count, bar in [("input", "cells", ""), *entries]]


def _bars(counts: Sequence[int], room: int) -> list[str]:
    """A sign a cell where all bars fit into the room, else in proportion; a cell or more have one sign at least."""
    most = max(counts, default=0)
    longest = min(most, max(room, SHORTEST))
    return [BAR * max(round(count * longest / most), 1) if count else "" for count in counts]


def _outputs(diagram: Diagram, label: int) -> list[str]:
    """Each output, the cells that it reaches, and those of them that no other output does."""
    reached = [diagram.reached([root]) for root in diagram.roots]
    times = Counter(number for numbers in reached for number in numbers)
    alone = [sum(times[number] == 1 for number in numbers) for numbers in reached]
    entries = [(name, str(len(numbers)), str(own)) for name, numbers, own in zip(diagram.outputs, reached, alone)]
    return [_line(label, *entry) for entry in [("output", "cells", "alone"), *entries]]


def _line(label: int, name: str, *numbers: str) -> str:
    """A name, and numbers below their headings."""
    return BETWEEN.join([padded(name, label), *(right(number, len("cells")) for number in numbers)])
