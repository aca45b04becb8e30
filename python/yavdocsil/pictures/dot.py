"""A diagram as a DOT file for graphviz, in the look of the SVG picture.

There is a rank for each place; 0-edges are dashed, and edges that invert end in a dot.
"""

from __future__ import annotations

from . import DOT_INK, FAINT, INK, LEGEND_INK, SHADE, escaped, shown
from ..diagram import Diagram, cell_of, is_constant, is_inverted
from ..display import harmless

SETTINGS = (
    "rankdir=TB; ranksep=0.6; nodesep=0.25;",
    'node [fontname="DejaVu Sans Mono", fontsize=12, height=0.3, width=0.4, margin="0.06,0.03"];',
    f'edge [arrowhead=none, color="{INK}"];',
    'fontname="DejaVu Sans Mono"; fontsize=14; labelloc=t; labeljust=l;',
)
CELL_LOOK = 'shape=box, style="rounded,filled", fillcolor=white'
LOW_LOOK = f'style=dashed, color="{SHADE}"'
DOT_LOOK = f'arrowhead=dot, arrowsize=0.6, fillcolor="{DOT_INK}"'
SMALL = f'point-size="9" color="{LEGEND_INK}"'
LEGEND = (
    f'<font {SMALL}><font color="{INK}">\u2500\u2500\u2500</font> 1-edge   '
    f'<font color="{SHADE}">\u254c\u254c\u254c</font> 0-edge   <font color="{DOT_INK}">\u25cf</font> dot inverts</font>'
)
LINE_END = '<br align="left"/>'


def write(diagram: Diagram, title: str = "") -> str:
    """The graph as the text of a DOT file."""
    diagram = shown(diagram)
    parts = (_roots, _places, _constants, _levels, _edges)
    lines = [*SETTINGS, _label(diagram, title), *(line for part in parts for line in part(diagram))]
    return "\n".join(["digraph diagram {", *(f"    {line}" for line in lines), "}"]) + "\n"


def _label(diagram: Diagram, title: str) -> str:
    """The title, below it how to read the edges, and of a part of a network that it is one; Graphviz takes tags in it."""
    heading = [f"<b>{escaped(harmless(title))}</b>"] if title else []
    part = [] if diagram.whole is None else [f"<font {SMALL}>{diagram.size}</font>"]
    return f"label=<{''.join(line + LINE_END for line in (*heading, LEGEND, *part))}>;"


def _quoted(text: str) -> str:
    """A string that graphviz shows as it stands: quotes and backslashes are escaped, and what looks like an HTML entity."""
    return '"' + text.replace("&", "&amp;").replace("\\", "\\\\").replace('"', '\\"') + '"'


def _node_of(reference: int) -> str:
    return f"constant{reference}" if is_constant(reference) else f"cell{cell_of(reference)}"


def _roots(diagram: Diagram) -> list[str]:
    """The outputs' names, all at the top."""
    names = [f"root{output} [label={_quoted(diagram.outputs[output])}, shape=plaintext];" for output in range(len(diagram.roots))]
    return ['{ rank=source; outputs [label="", shape=plaintext];', *(f"    {name}" for name in names), "}"]


def _places(diagram: Diagram) -> list[str]:
    """A rank for each place: its label, then its cells."""
    lines = []
    for place in range(len(diagram.inputs)):
        cells = diagram.cells_at(place)
        ink = "" if cells else f', fontcolor="{FAINT}"'
        lines.append(f"{{ rank=same; place{place} [label={_quoted(diagram.input_at(place))}, shape=plaintext{ink}];")
        lines += [f'    cell{cell.number} [label="{cell.number}", {CELL_LOOK}];' for cell in cells]
        lines.append("}")
    return lines


def _constants(diagram: Diagram) -> list[str]:
    """The constants that are referred to, at the bottom."""
    references = [*diagram.roots, *(arrow for cell in diagram.cells for arrow in (cell.low, cell.high))]
    used = sorted({reference for reference in references if is_constant(reference)})
    boxes = [f'    constant{constant} [label="{constant}", shape=box];' for constant in used]
    return ['{ rank=sink; constants [label="", shape=plaintext];', *boxes, "}"]


def _levels(diagram: Diagram) -> list[str]:
    """Unseen edges that keep the ranks in sequence."""
    chain = ["outputs", *(f"place{place}" for place in range(len(diagram.inputs))), "constants"]
    return [f"{upper} -> {lower} [style=invis, weight=100];" for upper, lower in zip(chain, chain[1:])]


def _edges(diagram: Diagram) -> list[str]:
    """The outputs' edges, and two of each cell."""
    lines = [_edge(f"root{output}", root, "") for output, root in enumerate(diagram.roots)]
    for cell in diagram.cells:
        lines.append(_edge(f"cell{cell.number}", cell.low, LOW_LOOK))
        lines.append(_edge(f"cell{cell.number}", cell.high, "style=solid"))
    return lines


def _edge(source: str, reference: int, look: str) -> str:
    head = DOT_LOOK if is_inverted(reference) else ""
    attributes = ", ".join(part for part in (look, head) if part)
    return f"{source} -> {_node_of(reference)}" + (f" [{attributes}];" if attributes else ";")
