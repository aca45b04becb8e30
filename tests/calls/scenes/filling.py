"""Scenes of document 02's 2.6, tables in which many halves agree."""

from calls.lent import lending, refusals
from calls.scenes.start import small_size
from making import fill_tables


def agreeing_halves(rng):
    """A table in which many halves agree, document 02's 2.6: built, and in other orders."""
    n, m = small_size(rng)
    lent = lending.lent_for(rng, n, m)
    lending.write_outputs(rng, lent, fill_tables.agreeing(rng, n, m))
    names = ["build", rng.choice(("swap", "swap", "sift", "pass")), "count", "build", "evaluate"]
    names += ["moves"] if rng.random() < 0.4 else []
    for name in names:
        yield refusals.near_call(rng, name, lent, n, "halves that agree")
