"""The parts of a layout: rows of nodes, and edges in segments from row to row."""

from __future__ import annotations

from collections.abc import Iterator
from dataclasses import dataclass, field
from typing import Union

from ...diagram import is_inverted
from ...display import columns

ROOT, CELL, CONSTANT, BEND = "root", "cell", "constant", "bend"
LOW, HIGH = "low", "high"

# Sizes in pixels.
CHARACTER = 7.9
CELL_WIDTH, NODE_HEIGHT = 32.0, 24.0
PORT_MARGIN, MARGIN = 14.0, 14.0
STUB_DROP, STUB_SIZE = 15.0, 14.0
# The space on either side of a node and of a bend; more where rows are short. An edge may use some of a bend's for its slope.
NODE_SPACE, BEND_SPACE, SLACK = 8.0, 5.0, 5.0

Point = tuple[float, float]
# A straight piece has its end; a cubic Bézier curve has two control points and its end.
Piece = Union[tuple[Point], tuple[Point, Point, Point]]


@dataclass(eq=False)
class Node:
    """A root, cell, constant or bend; `number` is the output's, the cell's or the constant."""

    kind: str
    number: int
    row: int
    width: float
    space: float = NODE_SPACE
    x: float = 0.0
    index: int = 0
    above: list[Segment] = field(default_factory=list)
    below: list[Segment] = field(default_factory=list)


@dataclass(eq=False)
class Segment:
    """The part of an edge between two neighbouring rows, and where it meets their nodes, from the middle of each.

    `goal` is the edge's target; at `track` of the gap's height, from its top, the segment runs across.
    """

    upper: Node
    lower: Node
    goal: Node
    leave: float = 0.0
    enter: float = 0.0
    track: float = 0.5

    @property
    def start(self) -> float:
        return self.upper.x + self.leave

    @property
    def end(self) -> float:
        return self.lower.x + self.enter

    @property
    def across(self) -> float:
        return self.end - self.start

    @property
    def weight(self) -> float:
        """Edges that skip rows are straightened first."""
        bends = (self.upper.kind == BEND) + (self.lower.kind == BEND)
        return (1.0, 2.0, 8.0)[bends]


@dataclass(eq=False)
class Edge:
    """An edge of a cell, LOW or HIGH, or of an output, ROOT."""

    kind: str
    reference: int
    source: Node
    target: Node
    segments: list[Segment]
    path: list[Piece] = field(default_factory=list)
    start: Point = (0.0, 0.0)

    @property
    def inverted(self) -> bool:
        return is_inverted(self.reference)


@dataclass(eq=False)
class Stub:
    """An edge to a constant that has a box of its own, straight below its source."""

    kind: str
    constant: int
    source: Node
    leave: float = 0.0


@dataclass(eq=False)
class Row:
    """The nodes of a row from left to right; its zone reaches from `top` to `bottom`, its nodes have their middle at `middle`."""

    nodes: list[Node] = field(default_factory=list)
    has_stubs: bool = False
    top: float = 0.0
    middle: float = 0.0
    bottom: float = 0.0

    @property
    def is_thin(self) -> bool:
        return all(node.kind == BEND for node in self.nodes)


@dataclass(eq=False)
class Layout:
    """Row 0 has the outputs, row p + 1 the cells of place p, and the last one the constants that are shared.

    The outputs' names are written aslant, by `slant` degrees, if that isn't 0; then they start at the middle of their nodes.
    """

    rows: list[Row]
    edges: list[Edge] = field(default_factory=list)
    stubs: list[Stub] = field(default_factory=list)
    slant: float = 0.0
    width: float = 0.0
    height: float = 0.0

    def nodes(self) -> Iterator[Node]:
        """Every node but the bends, row by row."""
        return (node for row in self.rows for node in row.nodes if node.kind != BEND)


def text_width(text: str) -> float:
    """The width of a name in a monospaced type."""
    return CHARACTER * columns(text)
