"""Scenes of document 02's 2.8, reports of moves."""

import itertools

from calls.lent import lending, moves, refusals
from calls.scenes.start import small_size
from making import fill_tables


def to_be_reported(rng):
    """A sound start with a list that is enough; of many tables halves agree."""
    n, m = small_size(rng)
    lent = lending.lent_for(rng, n, m)
    if rng.random() < 0.4:
        lending.write_outputs(rng, lent, fill_tables.agreeing(rng, n, m))
    moves.lend_gains(rng, lent, n * n + rng.choice((0, 0, 1)))
    return lent


def reports_in_turn(rng):
    """Reports between calls that change the order, the care or what is held."""
    lent = to_be_reported(rng)
    n = lending.inputs_of(lent)
    names = ("build", "build", "swap", "sift", "pass", "log_rows", "swap_cells", "count")
    for _ in range(rng.randint(2, 4)):
        if rng.random() < 0.4:
            lent.contents["work"] = lending.dirty(rng, "work", len(lent.contents["work"]))
        yield refusals.near_call(rng, "moves", lent, n, "reports in turn")
        yield refusals.near_call(rng, rng.choice(names), lent, n, "between reports")
    yield refusals.near_call(rng, "moves", lent, n, "reports in turn")


def refused_reports(rng):
    """One refusal or several at once."""
    call = refusals.sound_call(rng, "moves", *small_size(rng))
    refusals.spoil_all(rng, call, rng.sample(refusals.kinds_of("moves"), rng.randint(1, 3)))
    yield call._replace(note="a report that is refused")


def reports_and_sifts(rng):
    yield from moves.with_sifts(to_be_reported(rng), "a report and sifts")


def reports_and_swaps(rng):
    lent = to_be_reported(rng)
    every = list(itertools.product(range(lending.inputs_of(lent)), repeat=2))
    chosen = rng.sample(every, min(len(every), 4))
    yield from moves.with_swaps(lent, "a report and swaps", chosen)
