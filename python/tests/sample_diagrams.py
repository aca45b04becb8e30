"""Diagrams for the tests of pictures and of Diagram itself: drawn by hand, networks of functions, and cells as no build leaves them."""

from __future__ import annotations

import random

from yavdocsil.diagram import Cell, Diagram


def made(inputs, outputs, order, cells, roots):
    return Diagram(tuple(inputs), tuple(outputs), tuple(order), tuple(Cell(i, *cell) for i, cell in enumerate(cells, 1)), tuple(roots))


def network(n, columns):
    """The reduced network of filled columns under the order 0, 1, ..."""
    found, cells = {}, []

    def reference(bits):
        if len(set(bits)) == 1:
            return bits[0]
        flipped = bits[0]
        bits = tuple(bit ^ flipped for bit in bits)
        half = len(bits) // 2
        if bits[:half] == bits[half:]:
            return reference(bits[:half]) ^ flipped
        if bits not in found:
            arrows = reference(bits[:half]), reference(bits[half:])
            cells.append((n + 1 - len(bits).bit_length(), *arrows))
            found[bits] = 2 * len(cells)
        return found[bits] ^ flipped

    roots = [reference(tuple(column)) for column in columns]
    return made([f"x{i}" for i in range(n)], [f"y{j}" for j in range(len(columns))], range(n), cells, roots)


def multiplier(width):
    """Every bit of the product of two numbers."""
    rows = range(4**width)
    return network(2 * width, [[(row >> width) * (row % 2**width) >> bit & 1 for row in rows] for bit in range(2 * width)])


def wild(seed, n, count, outputs):
    """Cells as no build leaves them: in any sequence, unreached, 0-edges inverted, both edges alike."""
    rng = random.Random(seed)
    places = [rng.randrange(n) for _ in range(count)]

    def arrow(place):
        later = [i for i, other in enumerate(places, 1) if other > place]
        return 2 * rng.choice(later) + rng.randrange(2) if later and rng.random() < 0.8 else rng.randrange(2)

    cells = []
    for place in places:
        low = arrow(place)
        cells.append((place, low, low if rng.random() < 0.1 else arrow(place)))
    roots = [rng.randrange(2 * count + 2) for _ in range(outputs)]
    return made([f"x{i}" for i in range(n)], [f"y{j}" for j in range(outputs)], range(n), cells, roots)


BOUNCE_GUARD = made(
    ["a", "b", "c", "d", "held"], ["hold", "advance"], (4, 0, 1, 2, 3),
    [(0, 6, 8), (0, 6, 0), (1, 0, 10), (1, 12, 1), (3, 0, 14), (3, 14, 1), (4, 0, 1)], (2, 4),
)
XOR = made(["left", "right"], ["lamp"], (0, 1), [(0, 4, 5), (1, 0, 1)], (2,))
LARGE = multiplier(4)
DIAGRAMS = {
    "no inputs": made([], ["one", "zero"], (), [], (1, 0)),
    "no cells": made("ab", ["always", "never", "too"], (0, 1), [], (1, 0, 1)),
    "one cell": made("a", ["inverse"], (0,), [(0, 0, 1)], (3,)),
    "xor": XOR,
    "and-or": made("abcd", ["stop"], range(4), [(0, 6, 4), (1, 6, 1), (2, 0, 8), (3, 0, 1)], (2,)),
    "crossed": made(
        "abcd", ["stop"], (0, 2, 1, 3), [(0, 4, 6), (1, 0, 12), (1, 8, 10), (2, 0, 1), (2, 12, 1), (3, 0, 1)], (2,),
    ),
    "bounce-guard": BOUNCE_GUARD,
    "multiplier 3": multiplier(3),
    "multiplier 4": LARGE,
    "wild, small": wild(1, 4, 9, 3),
    "wild": wild(2, 8, 100, 5),
    "long names": made(
        [f"input_of_some_length{i}" for i in range(3)], [f"output_of_some_len_{j:02}" for j in range(16)], (2, 0, 1),
        [(0, 4, 5), (1, 6, 1), (2, 0, 1)], [2, 3, 4, 5, 6, 7, 0, 1] * 2,
    ),
}
NASTY = "a<b>&\"c'\\"


def edges_of(diagram):
    """Every edge as (source, kind, reference)."""
    roots = [(f"root {output}", "root", root) for output, root in enumerate(diagram.roots)]
    cells = [(f"cell {cell.number}", kind, arrow) for cell in diagram.cells for kind, arrow in (("low", cell.low), ("high", cell.high))]
    return roots + cells
