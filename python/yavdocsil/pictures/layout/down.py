"""Coordinates down: the zones of the rows, and the gaps between them, which are higher where many edges run across."""

from __future__ import annotations

import math

from ...diagram import Diagram
from .parts import MARGIN, NODE_HEIGHT, STUB_DROP, STUB_SIZE, Layout, Node, Row, Segment, text_width

STEM = 11.0
THIN_ROW = 18.0
GAP, THIN_GAP, HIGH_GAP, HIGHEST_GAP, GAP_SHARE = 34.0, 24.0, 160.0, 400.0, 0.14
# Edges that run further across than FAR get tracks of their own in a gap.
FAR, TRACK, MOST_SPREAD = 120.0, 6.0, 0.35


def place_down(layout: Layout, rise: float) -> None:
    """Rows from the top, with room for names aslant that rise so far; a gap is the higher the further its edges reach across."""
    y = MARGIN + rise
    for number, row in enumerate(layout.rows):
        is_first = number == 0
        stem, below = (0.0 if is_first else STEM), (STUB_DROP + STUB_SIZE + 4 if row.has_stubs else 4.0)
        height = THIN_ROW if row.is_thin else stem + NODE_HEIGHT + below
        row.top, row.bottom = y, y + height
        row.middle = y + (height / 2 if row.is_thin else stem + NODE_HEIGHT / 2)
        y = row.bottom + _gap(row, layout.rows[number + 1] if number + 1 < len(layout.rows) else row)
    last = layout.rows[-1]
    layout.height = last.bottom + MARGIN


def rise(layout: Layout, diagram: Diagram) -> float:
    """How far names written aslant rise above their nodes; makes room for them at the right."""
    if not layout.slant:
        return 0.0
    slant = math.radians(layout.slant)
    ends = (node.x + text_width(diagram.outputs[node.number]) * math.cos(slant) for node in layout.rows[0].nodes)
    layout.width = max(layout.width, max(ends, default=0.0) + MARGIN)
    return max(map(text_width, diagram.outputs)) * math.sin(slant)


def _gap(row: Row, following: Row) -> float:
    """The height between a row and the next, with a track for each edge of a bundle; sets the tracks."""
    bundles = _bundles(row)
    reach = max((abs(segment.across) for bundle in bundles for segment in bundle), default=0.0)
    far = max((sum(abs(segment.across) > FAR for segment in bundle) for bundle in bundles), default=0)
    least = THIN_GAP if row.is_thin or following.is_thin else GAP
    height = max(least, min(GAP_SHARE * reach, HIGH_GAP), min(TRACK * far, HIGHEST_GAP))
    for bundle in bundles:
        _stagger(bundle, height)
    return height


def _bundles(row: Row) -> list[list[Segment]]:
    """The segments below a row that lead to the same target from the same side, the outermost first."""
    bundles: dict[tuple[Node, bool], list[Segment]] = {}
    for node in row.nodes:
        for segment in node.below:
            bundles.setdefault((segment.goal, segment.across > 0), []).append(segment)
    for (_, is_rightward), bundle in bundles.items():
        bundle.sort(key=lambda segment: segment.start, reverse=not is_rightward)
    return list(bundles.values())


def _stagger(bundle: list[Segment], height: float) -> None:
    """Edges side by side that run far across would merge: the outermost runs lowest, each of the others on a track above."""
    flatness = sum(abs(segment.across) for segment in bundle) / len(bundle) / height
    spread = MOST_SPREAD * max(0.0, min(1.0, (flatness - 1) / 2))
    for at, segment in enumerate(bundle):
        segment.track = 0.5 + (spread - 2 * spread * at / (len(bundle) - 1) if len(bundle) > 1 else 0.0)
