"""Networks drawn: as SVG, as DOT for Graphviz, as text, and summed up. Each is a function of a Diagram, and needs no library."""

from __future__ import annotations

from dataclasses import replace

from ..diagram import Diagram
from ..display import harmless

# Pictures of more cells are thousands of pixels wide, and edges can't be followed in them; the command says what to do then.
MOST_READABLE = 200

# Of lines and names, of 0-edges, of names of inputs that no cell asks, of the legend, and of the dots that invert.
INK, SHADE, FAINT, LEGEND_INK, DOT_INK = "#1b1b1f", "#2f4f86", "#8a8a92", "#55555c", "#b01e1e"


def shown(diagram: Diagram) -> Diagram:
    """The diagram with its names as every picture shows them: nothing is in them that a terminal or a browser would obey."""
    return replace(diagram, inputs=tuple(map(harmless, diagram.inputs)), outputs=tuple(map(harmless, diagram.outputs)))


def escaped(text: str) -> str:
    """A text between tags. The standard library's `xml` would do it, but takes longer to import than a small picture to draw."""
    return text.replace("&", "&amp;").replace("<", "&lt;").replace(">", "&gt;")
