"""Document 02's 2.8, what each move would bring, written once more beside reference.py.

As there, it is made from the papers alone. Gains hold signed 32-bit numbers: for every
variable and place the cost under that move minus the cost of the present order.
"""

from paper import reference
from paper.reference import NOTHING


def moves(state, gains, values, care, work):
    if reference.table_buffers_short(values, care, work):
        return 10, 0
    if reference.stage_of(state) == NOTHING:
        return 21, 0
    if len(gains) < state.n * state.n:
        return 34, 0
    table = reference.lent_table(state, values, care)
    order = reference.used_order(state)
    # 'Cells now means a fresh count under the present order.'
    now = reference.cost(table, order)
    for variable in range(state.n):
        for place, trial in enumerate(reference.trials(order, variable)):
            gains[state.n * variable + place] = reference.cost(table, trial) - now
    reference.clear_work(work)
    return 0, 0
