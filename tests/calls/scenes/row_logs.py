"""Scenes of document 02's 2.4, logs of rows."""

from calls.lent import lending, refusals, row_logs
from calls.library import Call
from calls.scenes.start import small_size


def logs_in_turn(rng):
    """Logs on the same counts, some of no row, and between them what goes by their care."""
    n, m = small_size(rng)
    lent = lending.lent_for(rng, n, m)
    for _ in range(rng.randint(3, 6)):
        call = row_logs.call_near(rng, lent, "logs in turn")
        if rng.random() < 0.3:
            lending.lend_rows(rng, lent, [])
        yield call
        names = ("cared", "count", "build", "sift", "pass", "swap", "evaluate", "moves")
        for name in rng.sample(names, 2):
            yield refusals.near_call(rng, name, lent, n, "between logs")


def same_logs(rng):
    """Two logs, the same in the other sequence, and one of both lists, each on a copy."""
    n, m = small_size(rng)
    lent = lending.lent_for(rng, n, m)
    first, second = lending.rows_inside(rng, n), lending.rows_inside(rng, n)
    lending.lend_rows(rng, lent, first + second)
    row_logs.lend_counts_near(rng, lent)
    numbers = {"least": row_logs.least_near(rng, lent)}
    for lists in ((first, second), (second, first), (first + second,)):
        copied = lent.copy(lent.contents)
        for rows in lists:
            lending.lend_rows(rng, copied, rows)
            yield Call("log_rows", numbers, copied, f"the same logs as {len(lists)}")
        yield Call("count", {}, copied, "after the same logs")
