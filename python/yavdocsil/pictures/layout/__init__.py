"""Places a diagram on a plane: a layered layout, one row for the outputs, one for each place and one for the constants.

A long edge has a bend in every row that it skips. The rows' nodes and bends are ordered for few crossings, then moved for short and
straight edges. In the zone of a row, edges run as good as upright, clear of its nodes; they turn only in the gaps between the zones.
So no edge runs through a node. Where many edges lead to constants, each has a box of its own right below its cell instead.
"""

from __future__ import annotations

from ...diagram import Diagram
from .across import place_across
from .down import place_down, rise
from .graph import connected, widen
from .order import reorder
from .parts import Layout
from .paths import draw


def place(diagram: Diagram) -> Layout:
    """The whole layout; coordinates start at 0 on the top left."""
    layout = connected(diagram)
    widen(layout)
    reorder(layout)
    place_across(layout)
    place_down(layout, rise(layout, diagram))
    for edge in layout.edges:
        draw(edge, layout.rows)
    return layout
