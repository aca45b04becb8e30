"""A swap of two neighbouring places done cell by cell, as 000 describes, with a slip in
it or none.

The reference goes by the table; these slips are of what is done on the cells, so a slip
of paper/cell_swap.py takes its network from here. With no slip it is the reference's.
"""

from making import networks
from making.network_files import Network

# What can go wrong, by name.
STRAIGHT = "the inner two of the four arrows are not crossed"
PLAIN = "an inverted arrow's own arrows are taken plain"
UPRIGHT = "a new cell that stands for an inverse is not turned"
EQUAL = "a cell whose arrows have become equal stays"
TWICE = "cells of the lower place are not shared"
UNREACHED = "cells that nothing reaches any more stay"
BELOW = "cells below the two places keep their sequence"
UPPER = "cells of the upper place stand as their old ones did"


class Made:
    """The new cells, each once, and for each old cell the reference that it has become."""

    def __init__(self, network, place, slip):
        self.network, self.place, self.slip = network, place, slip
        self.cells, self.references = [], {0: 0}

    def of(self, reference):
        return self.references[reference // 2] ^ reference % 2

    def cell(self, place, zero, one):
        """The reference of a cell with these arrows; its 0-arrow is made even."""
        if zero == one and self.slip != EQUAL:
            return zero
        odd = 0 if self.slip == UPRIGHT else zero % 2
        found = (place, zero ^ odd, one ^ odd)
        if found not in self.cells or self.slip == TWICE and place == self.place + 1:
            self.cells.append(found)
        return 2 * (len(self.cells) - self.cells[::-1].index(found)) + odd

    def arrows_below(self, reference):
        """What a reference is where the lower place's input is 0, and where it is 1."""
        number = reference // 2
        if number == 0 or self.network.cells[number - 1][0] != self.place + 1:
            return self.of(reference), self.of(reference)
        _, zero, one = self.network.cells[number - 1]
        odd = 0 if self.slip == PLAIN else reference % 2
        return self.of(zero ^ odd), self.of(one ^ odd)

    def upper(self, zero, one):
        """A cell of the upper place, from its four arrows two places down."""
        first, second = self.arrows_below(zero)
        third, fourth = self.arrows_below(one)
        if self.slip == STRAIGHT:
            second, third = third, second
        zero = self.cell(self.place + 1, first, third)
        one = self.cell(self.place + 1, second, fourth)
        return self.cell(self.place, zero, one)

    def one(self, place, zero, one):
        if place == self.place:
            return self.upper(zero, one)
        moved = self.place if place == self.place + 1 else place
        return self.cell(moved, self.of(zero), self.of(one))

    def all(self):
        """Every old cell in its turn, those of later places first."""
        numbers = range(1, len(self.network.cells) + 1)
        for number in sorted(numbers, key=lambda each: -self.network.cells[each - 1][0]):
            self.references[number] = self.one(*self.network.cells[number - 1])


def sequence_of(made, new):
    """The new cells by place, then as first met; or otherwise, by the slip."""
    met = networks.by_walk(new, range(new.m), (1, 2))
    if made.slip == UNREACHED:
        met += [number for number in range(1, len(new.cells) + 1) if number not in met]
    old = {made.references[number] // 2: number for number in made.references}
    kept = {
        BELOW: lambda place, number: old.get(number, number) if place > made.place + 1 else 0,
        UPPER: lambda place, number: old.get(number, number) if place == made.place else 0,
    }.get(made.slip, lambda place, number: 0)
    places = [cell[0] for cell in new.cells]
    return sorted(met, key=lambda each: (places[each - 1], kept(places[each - 1], each)))


def swapped(state, roots, cells, place, slip=None):
    """The cells and the roots that a swap leaves, of section 4's network."""
    triples = [tuple(cells[3 * i : 3 * i + 3]) for i in range(state.count)]
    held = Network(state.n, state.m, state.order, triples, list(roots))
    made = Made(held, place, slip)
    made.all()
    new = held._replace(cells=made.cells, roots=[made.of(root) for root in roots[: state.m]])
    numbered = networks.resequenced(new, sequence_of(made, new))
    return numbered.cells, numbered.roots[: state.m]
