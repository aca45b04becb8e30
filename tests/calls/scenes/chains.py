"""Chains: the same state and buffers through many calls of every kind."""

from calls import library
from calls.lent import lending, refusals
from calls.scenes.network_files import some_network_file
from calls.scenes.start import lend_board, lend_counted, small_size
from making import tables
from paper import reference


def holds(lent):
    """The stage that the state comes to, its words as they are."""
    return reference.stage_of(library.state_from(lent.contents["state"]))


def next_name(rng, lent):
    """Mostly a call that is not refused for the stage."""
    if holds(lent) == reference.NOTHING and rng.random() < 0.6:
        return rng.choice(("load", "load", "read_cells"))
    if holds(lent) == reference.NETWORK and rng.random() < 0.5:
        return rng.choice(lending.HOLDERS)
    names = ["load", "cared", "count", "build", "build", "evaluate", "evaluate_rows", "swap"]
    names += ["swap", "sift", "pass", "write_cells", "read_cells", "log_rows", "swap_cells"]
    names += ["moves"]
    return rng.choice(names)


def meddle(rng, lent):
    """What a caller may do between two calls."""
    choice = rng.random()
    if choice < 0.2:
        lent.contents["work"] = lending.dirty(rng, "work", len(lent.contents["work"]))
    elif choice < 0.25:
        lending.broken_state(rng, lent.contents["state"])
    elif choice < 0.3:
        name = rng.choice(("cells", "roots", "values", "care"))
        at = rng.randrange(min(30, len(lent.contents[name])))
        lent.contents[name][at] = rng.randrange(8)
    elif choice < 0.35 and holds(lent) != reference.NOTHING:
        lending.write_planes(rng, lent, *lent.contents["state"][: library.M + 1])


def next_call(rng, lent, note):
    """One more call on what the last one left."""
    lending.lengthen(rng, lent)
    lent.lengths["cells"] = lending.SMALL_BOARD
    name = next_name(rng, lent)
    if name == "load":
        file = tables.random_table(rng, *small_size(rng))
        damaged = rng.random() < 0.2
        lending.lend_file(rng, lent, refusals.damaged_file(rng, file) if damaged else file)
    if name == "read_cells":
        lending.lend_file(rng, lent, some_network_file(rng))
    if name == "write_cells":
        lending.lend_file_space(rng, lent)
    if name in lending.HOLDERS and rng.random() < 0.5:
        lend_counted(rng, lent)
    if name == "build" and holds(lent) != reference.NOTHING and rng.random() < 0.4:
        lend_board(rng, lent)
    call = refusals.near_call(rng, name, lent, lending.inputs_of(lent), note)
    if rng.random() < 0.08:
        shortened = [*lending.SIZES, "answers", "counts", "gains"]
        buffers = [each for each in library.slices_of(name) if each in shortened]
        refusals.spoil(rng, call, rng.choice(buffers))
    return call


def chain(rng):
    """The same state and buffers through many calls."""
    lent = lending.lent_for(rng, *small_size(rng))
    length = rng.randint(8, 25)
    for step in range(length):
        yield next_call(rng, lent, f"step {step + 1} of a chain")
        meddle(rng, lent)
