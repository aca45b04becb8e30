"""The graph of a diagram: its nodes in rows, and its edges with a bend in every row that they skip."""

from __future__ import annotations

from ...diagram import Diagram, cell_of, is_constant
from .parts import (
    BEND, BEND_SPACE, CELL, CELL_WIDTH, CONSTANT, HIGH, LOW, NODE_SPACE, PORT_MARGIN, ROOT, Edge, Layout, Node, Row, Segment, Stub,
    text_width,
)

PORT = 8.0
SHORT_ROW, SPREAD = 12, 1.75
# Outputs whose names take more room side by side than the cells and so many pixels are written aslant, by so many degrees.
MOST_LEVEL, SLANT, SLANTED_WIDTH = 600.0, 40.0, 20.0
# Up to so many references to constants share one box for each constant.
MOST_SHARED = 12


def _references(diagram: Diagram) -> list[tuple[str, int, str, int]]:
    """Every edge: the kind and number of its source, its own kind, its reference."""
    roots = [(ROOT, output, ROOT, root) for output, root in enumerate(diagram.roots)]
    cells = [(CELL, cell.number, kind, arrow) for cell in diagram.cells for kind, arrow in ((LOW, cell.low), (HIGH, cell.high))]
    return roots + cells


def connected(diagram: Diagram) -> Layout:
    """Nodes and edges in their rows, not yet placed."""
    layout = Layout([Row() for _ in range(len(diagram.inputs) + 2)], slant=_slant(diagram))
    references = _references(diagram)
    constants = [reference for *_, reference in references if is_constant(reference)]
    shares = len(constants) <= MOST_SHARED
    nodes = {}
    for output, name in enumerate(diagram.outputs[: len(diagram.roots)]):
        nodes[ROOT, output] = Node(ROOT, output, 0, SLANTED_WIDTH if layout.slant else max(CELL_WIDTH, text_width(name) + 8))
    for cell in diagram.cells:
        nodes[CELL, cell.number] = Node(CELL, cell.number, cell.place + 1, CELL_WIDTH)
    for constant in sorted(set(constants)) if shares else []:
        nodes[CONSTANT, constant] = Node(CONSTANT, constant, len(layout.rows) - 1, CELL_WIDTH)
    for node in nodes.values():
        layout.rows[node.row].nodes.append(node)
    for source_kind, number, kind, reference in references:
        source = nodes[source_kind, number]
        if is_constant(reference) and not shares:
            layout.stubs.append(Stub(kind, reference, source))
            layout.rows[source.row].has_stubs = True
        else:
            target = nodes[(CONSTANT, reference) if is_constant(reference) else (CELL, cell_of(reference))]
            layout.edges.append(_edge(kind, reference, source, target, layout.rows))
    if not shares:
        layout.rows.pop()
    return layout


def _slant(diagram: Diagram) -> float:
    """How the outputs' names are written."""
    names = sum(text_width(name) + 2 * NODE_SPACE for name in diagram.outputs)
    most = max((len(diagram.cells_at(place)) for place in range(len(diagram.inputs))), default=0)
    return SLANT if names > max(MOST_LEVEL, most * (CELL_WIDTH + 2 * NODE_SPACE)) else 0.0


def _edge(kind: str, reference: int, source: Node, target: Node, rows: list[Row]) -> Edge:
    """An edge with a bend in every row between its ends."""
    bends = [Node(BEND, 0, row, 2.0, BEND_SPACE) for row in range(source.row + 1, target.row)]
    for bend in bends:
        rows[bend.row].nodes.append(bend)
    chain = [source, *bends, target]
    segments = [Segment(upper, lower, target) for upper, lower in zip(chain, chain[1:])]
    for segment in segments:
        segment.upper.below.append(segment)
        segment.lower.above.append(segment)
    return Edge(kind, reference, source, target, segments)


def widen(layout: Layout) -> None:
    """Every edge into a node gets a port of its own, so a node with many is wide; short rows are spread."""
    is_small = max(len(row.nodes) for row in layout.rows) <= SHORT_ROW
    for row in layout.rows:
        for node in row.nodes:
            node.space *= SPREAD if is_small else 1.0
            if node.kind != BEND:
                node.width = max(node.width, PORT * (len(node.above) - 1) + PORT_MARGIN)
