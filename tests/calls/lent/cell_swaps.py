"""Makes what a swap in the cells is lent, document 02's 2.7, and has the laws that are
asked after some of them.

As in lending.py all is random and dirty, and mostly not refused; `spoil_board` makes 23
due, which wants a swap that leaves more cells.
"""

from calls import library
from calls.lent import lending
from paper import cell_swap, network_file, reference


def wanted_at(lent, place):
    """The cells that a swap at a place wants, where the state and the cells are sound."""
    state = library.state_from(lent.contents["state"])
    table = network_file.computed_table(state, lent.contents["roots"], lent.contents["cells"])
    order = cell_swap.exchanged(reference.used_order(state), place)
    return len(reference.whole_network(table, tuple(order))[0])


def growing_places(lent):
    """The places at which a swap leaves more cells."""
    words = lent.contents["state"]
    places = range(max(words[library.N] - 1, 0))
    return [place for place in places if wanted_at(lent, place) > words[library.COUNT]]


# Networks.


def lend_network(rng, lent):
    """The network of the lent table; mostly of one that some swap makes larger."""
    n, m = lent.contents["state"][: library.M + 1]
    for _ in range(8):
        lending.lend_diagram(lent, *lending.network_of(lent))
        if n < 2 or growing_places(lent) or rng.random() < 0.2:
            break
        lending.write_planes(rng, lent, n, m)


def care_for_all(lent):
    """Every row of the lent table is cared."""
    lent.contents["care"][: reference.TABLE_BYTES] = b"\xff" * reference.TABLE_BYTES


# Boards.


def lend_board(rng, call):
    """A board around what the swap wants, where it wants anything."""
    words, place = call.lent.contents["state"], call.numbers["place"]
    if place + 1 < words[library.N]:
        near = 3 * wanted_at(call.lent, place) + rng.choice((-3, -1, 0, 0, 1, 2))
        call.lent.lengths["cells"] = max(near, 0)


def spoil_board(rng, call):
    """The counted cells fit and the new ones do not, at a place where there are more."""
    lent, places = call.lent, growing_places(call.lent)
    if not places:
        return
    if call.numbers["place"] not in places:
        call.numbers["place"] = rng.choice(places)
    least = 3 * lent.contents["state"][library.COUNT]
    wanted = 3 * wanted_at(lent, call.numbers["place"])
    lengths = (least, wanted - 1, wanted - 3, rng.randrange(least, wanted))
    lent.lengths["cells"] = rng.choice(lengths)


# Laws.


def held(lent, roots):
    """All words of the state, so many roots, and the counted cells."""
    words = lent.contents["state"]
    counted = lent.contents["cells"][: 3 * words[library.COUNT]]
    return list(words), list(lent.contents["roots"][:roots]), list(counted)


def told(before, after):
    """Of two that should be the same, what is not."""
    names = ("words of the state", "roots", "counted cells")
    unlike = [name for name, one, other in zip(names, before, after) if one != other]
    return ", ".join(unlike)


def back_again(lent):
    """The law that after two swaps at one place all is held that is held now."""
    m = lent.contents["state"][library.M]
    before = held(lent, m)

    def law(_answer):
        unlike = told(before, held(lent, m))
        return f"two swaps at one place don't give back: {unlike}" if unlike else None

    return law


def as_swapped(swapped, lent):
    """The law that a swap and a build leave what the swap in the cells has left."""

    def law(_answer):
        unlike = told(held(swapped, reference.ROOTS), held(lent, reference.ROOTS))
        return f"a swap and a build differ from the swap in the cells: {unlike}" if unlike else None

    return law
