"""The paths of the edges: upright in the zones of the rows, and curves in the gaps."""

from __future__ import annotations

from .parts import NODE_HEIGHT, SLACK, Edge, Piece, Point, Row, Segment


def _slope(before: Segment, after: Segment, rows: list[Row]) -> float:
    """How far an edge moves across per pixel down at a bend: along its way, but only as far as the slack beside it allows."""
    row = rows[before.lower.row]
    down = rows[after.lower.row].top - rows[before.upper.row].bottom
    across = after.end - before.start
    if before.across * after.across <= 0:
        return 0.0
    most = SLACK / (row.bottom - row.top) * 2
    return max(-most, min(most, across / down))


def draw(edge: Edge, rows: list[Row]) -> None:
    """Down out of the source's zone, a curve through each gap, straight through the zones between, down into the target."""
    source, target, segments = edge.source, edge.target, edge.segments
    x, slope = segments[0].start, 0.0
    y = rows[source.row].bottom
    edge.start = (x, rows[source.row].middle + NODE_HEIGHT / 2)
    edge.path = [((x, y),)]
    for at, segment in enumerate(segments):
        row = rows[segment.lower.row]
        is_last = at == len(segments) - 1
        after = 0.0 if is_last else _slope(segment, segments[at + 1], rows)
        half = (row.bottom - row.top) / 2
        end = (segment.end - after * half, row.top)
        edge.path.append(_curve((x, y), slope, end, after, segment.track))
        x, y, slope = segment.end + after * half, row.bottom, after
        if not is_last:
            edge.path.append(((x, y),))
    edge.path.append(((segments[-1].end, rows[target.row].middle - NODE_HEIGHT / 2),))


def _curve(start: Point, slope: float, end: Point, end_slope: float, track: float) -> Piece:
    """A curve that leaves and arrives in the given slopes, and stays between the two heights."""
    height = end[1] - start[1]
    first, second = track * height, (1 - track) * height
    return (start[0] + slope * first, start[1] + first), (end[0] - end_slope * second, end[1] - second), end
