"""The order of each row's nodes and bends, for few crossings: sweeps by the neighbours' middle, exchanges, and sifting."""

from __future__ import annotations

from bisect import bisect_right, insort

from .parts import Layout, Node

# Orders are sought with so many sweeps and rounds of sifting; in a large diagram with fewer sweeps alone.
SWEEPS, SIFTS, LARGE, LARGE_SWEEPS = 12, 6, 700, 8


def reorder(layout: Layout) -> None:
    """Seeks from several starts, and keeps the order with the fewest crossings."""
    rows = [row.nodes for row in layout.rows]
    is_large = sum(map(len, rows)) > LARGE
    best, fewest = [], -1
    for start in (_by_number, _by_depth):
        for turns_ties in (False, True):
            start(rows)
            crossings = _reduce(rows, turns_ties, is_large)
            if fewest < 0 or crossings < fewest:
                best, fewest = [list(row) for row in rows], crossings
            if fewest == 0 or is_large:
                break
    _restore(rows, best)


def _reduce(rows: list[list[Node]], turns_ties: bool, is_large: bool) -> int:
    """Sweeps down and up by barycentres, then sifts every node in its row; answers the crossings of the best order met, which it leaves."""
    best, fewest = [list(row) for row in rows], _crossings(rows)
    sweeps = LARGE_SWEEPS if is_large else SWEEPS
    for turn in range(sweeps if is_large else sweeps + SIFTS):
        if turn == sweeps:
            _restore(rows, best)
        if turn < sweeps:
            _sweep(rows, turn % 2 == 0, turns_ties and turn // 2 % 2 == 1)
        else:
            for row in rows if turn % 2 == 0 else rows[::-1]:
                _sift(row)
            # Neighbours that may as well stand the other way open the way for others.
            _exchange(rows, 1, 0)
        _exchange(rows, 4, 1)
        crossings = _crossings(rows)
        if crossings < fewest:
            best, fewest = [list(row) for row in rows], crossings
    _restore(rows, best)
    return fewest


def _restore(rows: list[list[Node]], kept: list[list[Node]]) -> None:
    for row, nodes in zip(rows, kept):
        row[:] = nodes
        _index(row)


def _index(row: list[Node]) -> None:
    for index, node in enumerate(row):
        node.index = index


def _by_number(rows: list[list[Node]]) -> None:
    """The first order to start from: as the cells are numbered."""
    for row in rows:
        _index(row)


def _by_depth(rows: list[list[Node]]) -> None:
    """The other order to start from: as a walk from the outputs meets the nodes, 0-edges first."""
    found: dict[Node, int] = {}
    stack = [node for row in reversed(rows) for node in reversed(row)]
    while stack:
        node = stack.pop()
        if node not in found:
            found[node] = len(found)
            stack.extend(segment.lower for segment in reversed(node.below))
    for row in rows:
        row.sort(key=found.__getitem__)
        _index(row)


def _sweep(rows: list[list[Node]], downward: bool, turns_ties: bool) -> None:
    """Sorts each row by the mean position of the neighbours in the row before it; nodes that tie may be turned around."""
    for row in rows[1:] if downward else rows[-2::-1]:
        keys = {}
        for node in row:
            others = [s.upper for s in node.above] if downward else [s.lower for s in node.below]
            near = others or [node]
            length = len(rows[near[0].row])
            keys[node] = sum(other.index + 0.5 for other in near) / (len(near) * length)
        if turns_ties:
            row.reverse()
        row.sort(key=keys.__getitem__)
        _index(row)


def _crossings(rows: list[list[Node]]) -> int:
    """How many pairs of segments cross."""
    count = 0
    for row in rows:
        seen: list[int] = []
        for node in row:
            ends = sorted(segment.lower.index for segment in node.below)
            count += sum(len(seen) - bisect_right(seen, end) for end in ends)
            for end in ends:
                insort(seen, end)
    return count


def _exchange(rows: list[list[Node]], passes: int, least: int) -> None:
    """Exchanges neighbours in a row wherever that saves so many crossings."""
    for _ in range(passes):
        changed = False
        for row in rows:
            ends = {node: _ends(node) for node in row}
            for at in range(len(row) - 1):
                left, right = row[at], row[at + 1]
                if _gain(ends[left], ends[right]) >= least:
                    row[at], row[at + 1] = right, left
                    left.index, right.index = at + 1, at
                    changed = True
        if not changed:
            return


def _sift(row: list[Node]) -> None:
    """Moves each node, the one with the most edges first, to where it has the fewest crossings."""
    ends = {node: _ends(node) for node in row}
    for node in sorted(row, key=lambda node: -len(node.above) - len(node.below)):
        at = row.index(node)
        best, found = 0, at
        for step, last in ((-1, -1), (1, len(row))):
            total = 0
            for other in range(at + step, last, step):
                pair = (ends[row[other]], ends[node]) if step < 0 else (ends[node], ends[row[other]])
                total += _gain(*pair)
                if total > best:
                    best, found = total, other
        row.insert(found, row.pop(at))
    _index(row)


def _ends(node: Node) -> tuple[list[int], list[int]]:
    """The positions of a node's neighbours above and below."""
    return sorted(s.upper.index for s in node.above), sorted(s.lower.index for s in node.below)


def _gain(left: tuple[list[int], list[int]], right: tuple[list[int], list[int]]) -> int:
    """The crossings saved if two neighbours in a row are exchanged."""
    gain = 0
    for mine, others in zip(left, right):
        for end in mine:
            at = bisect_right(others, end)
            # Those below `end` cross now; those above it would.
            equal = at - bisect_right(others, end - 1)
            gain += (at - equal) - (len(others) - at)
    return gain
