"""Scenes of any diagram, and of breaches of it: evaluated, written and swapped."""

from calls.lent import lending, refusals
from calls.library import Call
from calls.scenes.start import lend_counted, small_size
from making import diagrams


def diagram_calls(rng):
    """Evaluations of one diagram: rows and lists of them, then breaches of it."""
    n, m = small_size(rng)
    lent = lending.lent_for(rng, n, m)
    cells, roots = diagrams.random_diagram(rng, n, m)
    lending.lend_diagram(lent, cells, roots)
    for _ in range(4):
        lend_counted(rng, lent)
        yield Call("evaluate", lending.numbers_near(rng, "evaluate", n), lent, "any diagram")
        lending.lend_rows_near(rng, lent, n)
        yield Call("evaluate_rows", {}, lent, "any diagram")
    lending.lend_file_space(rng, lent)
    yield Call("write_cells", {}, lent, "any diagram")
    yield Call("swap_cells", lending.numbers_near(rng, "swap_cells", n), lent, "any diagram")
    for _ in range(4):
        lending.lend_diagram(lent, cells, roots)
        rng.choice((refusals.break_lent_diagram, refusals.lend_too_few_cells))(rng, lent)
        yield Call("evaluate", {"row": rng.randrange(2**n)}, lent, "a diagram with a breach")
        lending.lend_rows(rng, lent, lending.rows_inside(rng, n))
        yield Call("evaluate_rows", {}, lent, "a diagram with a breach")
        lending.lend_file_space(rng, lent)
        yield Call("write_cells", {}, lent, "a diagram with a breach")
        numbers = lending.numbers_near(rng, "swap_cells", n)
        yield Call("swap_cells", numbers, lent, "a diagram with a breach")
