"""Makes diagrams: any cells that number 24 lets pass, and breaches of its rules.

No build makes most of these: cells stand in any sequence, are repeated or
unreached, have odd 0-arrows or both arrows alike.
"""

MOST = 65535


def random_reference(rng, cells):
    """A constant, or any of the cells, plain or inverted."""
    return rng.randrange(2 * len(cells) + 2)


def random_arrow(rng, place, places):
    """A constant or, mostly, a later cell, plain or inverted."""
    later = [i for i, other in enumerate(places, 1) if other > place]
    if not later or rng.random() < 0.25:
        return rng.randrange(2)
    return 2 * rng.choice(later) + rng.randrange(2)


def random_cells(rng, n, count):
    places = [rng.randrange(n) for _ in range(count)]
    if rng.random() < 0.5:
        places.sort()
    cells = []
    for place in places:
        zero_arrow = random_arrow(rng, place, places)
        alike = rng.random() < 0.1
        one_arrow = zero_arrow if alike else random_arrow(rng, place, places)
        cells.append((place, zero_arrow, one_arrow))
    return cells


def random_diagram(rng, n, m):
    """Sound cells and 16 roots; the roots past m may be anything."""
    count = rng.choice((0, 1, 2, 4, 8, rng.randrange(40))) if n else 0
    cells = random_cells(rng, n, count)
    roots = [random_reference(rng, cells) for _ in range(m)]
    return cells, roots + [rng.randrange(MOST + 1) for _ in range(16 - m)]


# Breaches. Each changes the lists of cells and roots.


def break_place(rng, n, m, cells, roots):
    at = rng.randrange(len(cells))
    cells[at] = (rng.choice((n, n + 1, 256 + cells[at][0], MOST)),) + cells[at][1:]


def change_arrow(rng, cells, at, arrow):
    cell = list(cells[at])
    cell[rng.choice((1, 2))] = arrow
    cells[at] = tuple(cell)


def too_large(rng, cells):
    return min(MOST, 2 * len(cells) + rng.choice((2, 3, 4, MOST)))


def break_arrow(rng, n, m, cells, roots):
    change_arrow(rng, cells, rng.randrange(len(cells)), too_large(rng, cells))


def break_sequence(rng, n, m, cells, roots):
    """An arrow to a cell of the same or an earlier place, or to itself."""
    at = rng.randrange(len(cells))
    not_later = [i for i, cell in enumerate(cells, 1) if cell[0] <= cells[at][0]]
    target = rng.choice((at + 1, rng.choice(not_later)))
    change_arrow(rng, cells, at, 2 * target + rng.randrange(2))


def break_root(rng, n, m, cells, roots):
    roots[rng.choice((0, m - 1, rng.randrange(m)))] = too_large(rng, cells)


def break_diagram(rng, n, m, cells, roots):
    """One breach of number 24's rules for places, references and arrows."""
    breaches = [break_root]
    if cells:
        breaches += [break_place, break_arrow, break_sequence, break_sequence]
    rng.choice(breaches)(rng, n, m, cells, roots)
