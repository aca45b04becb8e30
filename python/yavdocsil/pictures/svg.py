"""A diagram as an SVG picture, laid out by `layout`: no other program is needed.

Rows are the places from top to bottom, each labelled with its input. A 1-edge is solid, a 0-edge dashed, and a dot near its end inverts.
"""

from __future__ import annotations

from . import DOT_INK, FAINT, INK, LEGEND_INK, SHADE, escaped, layout, shown
from ..diagram import Diagram, cell_of, is_constant, is_inverted
from ..display import harmless
from .layout.parts import (
    CELL, LOW, MARGIN, NODE_HEIGHT, ROOT, STUB_DROP, STUB_SIZE, Edge, Layout, Node, Piece, Point, Row, Stub, text_width,
)

BAND, THIN_BAND = "#f0f1f4", "#f6f6f8"
FONT = "'DejaVu Sans Mono', Menlo, Consolas, monospace"
DOT_RADIUS, DOT_ABOVE = 3.3, 6.0
LEGEND_HEIGHT, LEGEND_WIDTH, TITLE_HEIGHT = 26.0, 330.0, 28.0

# In a browser, the edges that leave a cell stand out while the pointer is on it.
STYLE = ".yavdocsil .cell:hover path, .yavdocsil .output:hover path { stroke-width: 3.2 }"


def write(diagram: Diagram, title: str = "") -> str:
    """The picture as the text of an SVG file."""
    diagram, title = shown(diagram), harmless(title)
    placed = layout.place(diagram)
    labels = max((text_width(diagram.input_at(place)) for place in range(len(diagram.inputs))), default=0.0)
    left = labels + MARGIN if labels else 0.0
    head = TITLE_HEIGHT if title else 0.0
    width = max(left + placed.width, LEGEND_WIDTH, text_width(title) * 1.1 + 2 * MARGIN)
    height = head + placed.height + LEGEND_HEIGHT
    # A picture that is narrower than its legend stands in the middle.
    shift = left + (width - left - placed.width) / 2
    parts = [
        *_opening(diagram, title, width, height),
        *_heading(title),
        f'<g transform="translate(0 {_number(head)})">',
        *_bands(diagram, placed, width),
        f'<g transform="translate({_number(shift)} 0)">',
        *_drawing(diagram, placed),
        "</g>",
        "</g>",
        *_legend(height),
        "</svg>",
    ]
    return "\n".join(parts) + "\n"


def _number(value: float) -> str:
    """A coordinate, to a tenth."""
    # Adding 0 makes -0.0 a plain 0.
    return f"{round(value, 1) + 0.0:.1f}".removesuffix(".0")


def _attribute(text: str) -> str:
    """A text as the value of an attribute, in quotes."""
    return '"' + escaped(text).replace('"', "&quot;") + '"'


# The frame.


def _opening(diagram: Diagram, title: str, width: float, height: float) -> list[str]:
    """The outermost element, its description and the background."""
    size = f'width="{_number(width)}" height="{_number(height)}" viewBox="0 0 {_number(width)} {_number(height)}"'
    summary = f"Binary decision diagram with complement edges: {diagram.size} for {', '.join(diagram.outputs)}"
    return [
        f'<svg xmlns="http://www.w3.org/2000/svg" class="yavdocsil" role="img" aria-label={_attribute(title or summary)} {size} '
        f'font-family="{FONT}" font-size="13" fill="{INK}">',
        f"<title>{escaped(title or summary)}</title>",
        f"<desc>{escaped(summary)}. Order: {escaped(', '.join(map(diagram.input_at, range(len(diagram.inputs)))))}.</desc>",
        f"<style>{STYLE}</style>",
        '<rect class="background" width="100%" height="100%" fill="#ffffff"/>',
    ]


def _heading(title: str) -> list[str]:
    if not title:
        return []
    return [f'<text class="heading" x="{_number(MARGIN)}" y="23" font-size="14" font-weight="bold">{escaped(title)}</text>']


def _bands(diagram: Diagram, placed: Layout, width: float) -> list[str]:
    """A faint band for each place with its input's name; thin and paler where no cell asks it."""
    parts = []
    for place in range(len(diagram.inputs)):
        row = placed.rows[place + 1]
        fill, ink = (THIN_BAND, FAINT) if row.is_thin else (BAND, INK)
        never = ": never asked" if row.is_thin else ""
        name = escaped(diagram.input_at(place))
        parts.append(
            f'<g class="place"><title>{name}{never}</title>'
            f'<rect y="{_number(row.top)}" width="{_number(width)}" height="{_number(row.bottom - row.top)}" fill="{fill}"/>'
            f'<text class="place-label" x="{_number(MARGIN)}" y="{_number(row.middle + 4.5)}" fill="{ink}">{name}</text></g>'
        )
    return parts


def _legend(height: float) -> list[str]:
    y = height - 11
    line = f'y1="{_number(y - 4)}" y2="{_number(y - 4)}" stroke-width="1.5"'
    return [
        f'<g class="legend" font-size="11" fill="{LEGEND_INK}">'
        f'<line x1="14" x2="42" {line} stroke="{INK}"/><text x="48" y="{_number(y)}">1-edge</text>'
        f'<line x1="106" x2="134" {line} stroke="{SHADE}" stroke-dasharray="5 3"/><text x="140" y="{_number(y)}">0-edge</text>'
        f'<line x1="198" x2="226" {line} stroke="{INK}"/><circle cx="219" cy="{_number(y - 4)}" r="{DOT_RADIUS}" fill="{DOT_INK}"/>'
        f'<text x="232" y="{_number(y)}">dot inverts</text></g>'
    ]


# The drawing.


def _drawing(diagram: Diagram, placed: Layout) -> list[str]:
    """Each node with the edges that leave it."""
    edges: dict[Node, list[str]] = {node: [] for node in placed.nodes()}
    for edge in placed.edges:
        edges[edge.source].append(_edge(edge))
    for stub in placed.stubs:
        edges[stub.source].append(_stub(stub, placed.rows[stub.source.row]))
    roots = [_root(diagram, node, placed, edges[node]) for node in placed.nodes() if node.kind == ROOT]
    return roots + [_node(diagram, node, placed.rows[node.row], edges[node]) for node in placed.nodes() if node.kind != ROOT]


def _root(diagram: Diagram, node: Node, placed: Layout, edges: list[str]) -> str:
    """An output's name and edge."""
    x, y = _number(node.x), _number(placed.rows[node.row].middle + 4.5)
    way = f'transform="rotate({_number(-placed.slant)} {x} {y})"' if placed.slant else 'text-anchor="middle"'
    name = diagram.outputs[node.number]
    says = f"{name} -> {_target(diagram.roots[node.number])}"
    label = f'<text class="output-label" x="{x}" y="{y}" {way} font-weight="bold">{escaped(name)}</text>'
    return f'<g class="output"><title>{escaped(says)}</title>{"".join(edges)}{label}</g>'


def _node(diagram: Diagram, node: Node, row: Row, edges: list[str]) -> str:
    """A group for the node: what it says when pointed at, its edges, its shape and its label."""
    x, y = _number(node.x), _number(row.middle + 4.5)
    kind = "cell" if node.kind == CELL else "constant"
    radius = 11 if node.kind == CELL else 0
    shape = (
        f'<rect class="{kind}-shape" x="{_number(node.x - node.width / 2)}" y="{_number(row.middle - NODE_HEIGHT / 2)}" '
        f'width="{_number(node.width)}" height="{_number(NODE_HEIGHT)}" rx="{radius}" fill="#ffffff" stroke="{INK}" stroke-width="1.4"/>'
    )
    label = f'<text class="{kind}-label" x="{x}" y="{y}" text-anchor="middle">{node.number}</text>'
    return f'<g class="{kind}"><title>{escaped(_says(diagram, node))}</title>{"".join(edges)}{shape}{label}</g>'


def _says(diagram: Diagram, node: Node) -> str:
    if node.kind != CELL:
        return f"constant {node.number}"
    cell = diagram.by_number[node.number]
    return f"cell {cell.number} asks {diagram.input_at(cell.place)}: 0 -> {_target(cell.low)}, 1 -> {_target(cell.high)}"


def _target(reference: int) -> str:
    if is_constant(reference):
        return f"constant {reference}"
    return f"cell {cell_of(reference)}{' inverted' if is_inverted(reference) else ''}"


def _line(kind: str, source: Node, reference: int, path: str) -> str:
    """A path in the look of its kind, with the edge that it stands for."""
    dashes = ' stroke-dasharray="5 3"' if kind == LOW else ""
    ink = SHADE if kind == LOW else INK
    stands_for = f'data-from="{source.kind} {source.number}" data-reference="{reference}"'
    return f'<path class="{kind}" {stands_for} d="{path}" fill="none" stroke="{ink}" stroke-width="1.3"{dashes}/>'


def _edge(edge: Edge) -> str:
    """The path of an edge, with a dot near its end where it inverts."""
    path = f"M{_point(edge.start)}" + "".join(map(_piece, edge.path))
    drawn = _line(edge.kind, edge.source, edge.reference, path)
    if edge.inverted:
        x, y = edge.path[-1][-1]
        drawn += f'<circle class="inverted" cx="{_number(x)}" cy="{_number(y - DOT_ABOVE)}" r="{DOT_RADIUS}" fill="{DOT_INK}"/>'
    return drawn


def _point(point: Point) -> str:
    return f"{_number(point[0])},{_number(point[1])}"


def _piece(piece: Piece) -> str:
    return ("L" if len(piece) == 1 else "C") + " ".join(map(_point, piece))


def _stub(stub: Stub, row: Row) -> str:
    """A short edge to a constant's own small box."""
    x, top = stub.source.x + stub.leave, row.middle + NODE_HEIGHT / 2
    box = top + STUB_DROP
    return (
        _line(stub.kind, stub.source, stub.constant, f"M{_point((x, top))}L{_point((x, box))}")
        + f'<rect class="stub" x="{_number(x - STUB_SIZE / 2)}" y="{_number(box)}" width="{_number(STUB_SIZE)}" '
        f'height="{_number(STUB_SIZE)}" fill="#ffffff" stroke="{INK}"/>'
        f'<text class="stub-label" x="{_number(x)}" y="{_number(box + 11.5)}" text-anchor="middle" font-size="11">{stub.constant}</text>'
    )
