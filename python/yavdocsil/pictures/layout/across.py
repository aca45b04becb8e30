"""Coordinates across: nodes near their neighbours, long edges straight, and a port of its own for every edge at a node."""

from __future__ import annotations

from typing import Union

from .parts import HIGH, MARGIN, PORT_MARGIN, ROOT, Edge, Layout, Node, Row, Segment, Stub

WIDE_PORT, LEAVE = 12.0, 9.0
PLACING_ROUNDS = 30
INFINITE = float("inf")


def place_across(layout: Layout) -> None:
    """Moves the nodes of each row towards their neighbours above and below, as the row's order and spaces allow."""
    rows = layout.rows
    for row in rows:
        _settle(row.nodes, [0.0] * len(row.nodes), [1.0] * len(row.nodes))
    for turn in range(PLACING_ROUNDS):
        if turn % 6 == 0:
            _assign_ports(layout, False)
        one_sided = turn < 6
        for row in rows if turn % 2 == 0 else rows[::-1]:
            _move(row.nodes, not one_sided or turn % 2 == 0, not one_sided or turn % 2 == 1)
    _assign_ports(layout, True)
    for _ in range(3):
        for edge in layout.edges:
            _straighten(edge, rows)
    left = min((node.x - node.width / 2 for row in rows for node in row.nodes), default=0.0)
    for row in rows:
        for node in row.nodes:
            node.x += MARGIN - left
    layout.width = max((node.x + node.width / 2 for row in rows for node in row.nodes), default=0.0) + MARGIN


def _move(nodes: list[Node], by_above: bool, by_below: bool) -> None:
    """Moves each node of a row to the mean of where its edges come from and go to."""
    wanted, weights = [], []
    for node in nodes:
        pulls = [(s.start - s.enter, s.weight) for s in node.above] if by_above else []
        pulls += [(s.end - s.leave, s.weight) for s in node.below] if by_below else []
        weight = sum(w for _, w in pulls)
        wanted.append(sum(x * w for x, w in pulls) / weight if weight else node.x)
        weights.append(weight or 0.01)
    _settle(nodes, wanted, weights)


def _settle(nodes: list[Node], wanted: list[float], weights: list[float]) -> None:
    """The places nearest to the wanted ones, by weighted squares, that keep order and spaces: pools of nodes that touch."""
    offsets, offset = [], 0.0
    for at, node in enumerate(nodes):
        offset += _space(nodes[at - 1], node) if at else 0.0
        offsets.append(offset)
    pools: list[list[float]] = []
    for want, weight, shift in zip(wanted, weights, offsets):
        pools.append([want - shift, weight, 1])
        while len(pools) > 1 and pools[-2][0] > pools[-1][0]:
            mean, weight, count = pools.pop()
            before = pools[-1]
            total = before[1] + weight
            pools[-1] = [(before[0] * before[1] + mean * weight) / total, total, before[2] + count]
    settled = (mean for mean, _, count in pools for _ in range(int(count)))
    for node, mean, shift in zip(nodes, settled, offsets):
        node.x = mean + shift


def _straighten(edge: Edge, rows: list[Row]) -> None:
    """Puts runs of an edge's bends, each as long as the room beside them allows, straight below each other."""
    bends = [segment.lower for segment in edge.segments[:-1]]
    # The edge of an output may start straight, too: nothing else hangs on the output's name.
    run: list[Node] = [edge.source] if edge.kind == ROOT else []
    low, high = _room(edge.source, rows) if run else (-INFINITE, INFINITE)
    for bend in bends:
        least, most = _room(bend, rows)
        if max(low, least) > min(high, most):
            _align(run, low, high)
            run, low, high = [], -INFINITE, INFINITE
        run.append(bend)
        low, high = max(low, least), min(high, most)
    end = edge.segments[-1].end
    if run and low <= end <= high:
        low = high = end
    _align(run, low, high)


def _room(node: Node, rows: list[Row]) -> tuple[float, float]:
    """How far a node can go to both sides, its neighbours staying."""
    nodes, at = rows[node.row].nodes, node.index
    least = nodes[at - 1].x + _space(nodes[at - 1], node) if at else -INFINITE
    most = nodes[at + 1].x - _space(node, nodes[at + 1]) if at + 1 < len(nodes) else INFINITE
    # Where the neighbours leave no room, rounding may put these a trifle the wrong way.
    return min(least, node.x), max(most, node.x)


def _align(run: list[Node], low: float, high: float) -> None:
    if run:
        mean = sum(node.x for node in run) / len(run)
        for node in run:
            node.x = max(low, min(high, mean))


def _space(left: Node, right: Node) -> float:
    """The least distance between the middles of two neighbours in a row."""
    return (left.width + right.width) / 2 + left.space + right.space


def _assign_ports(layout: Layout, shifts: bool) -> None:
    """Where edges leave and enter nodes: sorted by where they lead to and come from, so that none cross at a node."""
    stubs: dict[Node, list[Stub]] = {}
    for stub in layout.stubs:
        stubs.setdefault(stub.source, []).append(stub)
    kinds = {edge.segments[0]: edge.kind for edge in layout.edges}
    for node in layout.nodes():
        _assign_leaving(node, stubs.get(node, []), kinds)
    for node in layout.nodes():
        if node.above:
            _assign_entering(node, shifts)


def _assign_leaving(node: Node, stubs: list[Stub], kinds: dict[Segment, str]) -> None:
    """An edge or stub alone leaves in the middle; of two the one that leads further left, or else the 0-edge, leaves left."""
    leaving: list[tuple[float, int, Union[Segment, Stub]]] = []
    leaving += [(segment.lower.x, kinds[segment] == HIGH, segment) for segment in node.below]
    leaving += [(node.x, stub.kind == HIGH, stub) for stub in stubs]
    leaving.sort(key=lambda entry: entry[:2])
    sides = (0.0,) if len(leaving) == 1 else (-LEAVE, LEAVE)
    for side, (_, _, one) in zip(sides, leaving):
        one.leave = side


def _assign_entering(node: Node, shifts: bool) -> None:
    """Ports side by side in the middle, or shifted together to where the edges come from, as far as the node is wide."""
    last = len(node.above) - 1
    room = node.width - PORT_MARGIN
    step = min(WIDE_PORT, room / last) if last else 0.0
    ports = sorted(node.above, key=lambda segment: (segment.start, segment.leave))
    shift = sum(segment.start - node.x for segment in ports) / len(ports)
    most = (room - step * last) / 2 if shifts else 0.0
    shift = max(-most, min(most, shift))
    for at, segment in enumerate(ports):
        segment.enter = step * (at - last / 2) + shift
