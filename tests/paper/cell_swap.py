"""Document 02's 2.7, the swap in the cells, written once more beside reference.py.

As there, it is made from the papers alone. The cells are not touched one by one:
the table that they compute is made by evaluating every row, and section 4's network
of that table is made under the new order.
"""

from paper import network_file, reference
from paper.reference import NETWORK, ROOTS, WORK_BYTES


def exchanged(order, place):
    """The order with the inputs of two neighbouring places exchanged."""
    above, below = order[place], order[place + 1]
    return order[:place] + [below, above] + order[place + 2 :]


def write_network(state, new_cells, new_roots, roots, cells):
    """All 16 roots, 'unused ones zero'; cells past the new count stay."""
    for i, cell in enumerate(new_cells):
        cells[3 * i], cells[3 * i + 1], cells[3 * i + 2] = cell
    for j in range(ROOTS):
        roots[j] = new_roots[j] if j < state.m else 0


def swap_cells(state, place, work, roots, cells):
    if len(roots) < ROOTS or len(work) < WORK_BYTES:
        return 10, 0
    if reference.stage_of(state) != NETWORK:
        return 22, 0
    if place + 1 >= state.n:
        return 9, 0
    if not reference.network_is_sound(state, roots, cells):
        return 24, 0
    reference.clear_work(work)
    if not network_file.is_network(state, roots, cells):
        return 32, 0
    table = network_file.computed_table(state, roots, cells)
    order = exchanged(reference.used_order(state), place)
    new_cells, new_roots = reference.whole_network(table, tuple(order))
    if len(new_cells) > len(cells) // 3:
        return 23, len(new_cells)
    write_network(state, new_cells, new_roots, roots, cells)
    state.order[: state.n] = order
    state.count = len(new_cells)
    return 0, 0
