"""Scenes of every call: one by itself with no, one or several refusals due, boards, and larger
tables."""

from calls import library
from calls.lent import cell_swaps, lending, refusals
from calls.library import Call
from calls.scenes.start import lend_board, lend_counted, small_size
from making import tables


def single(rng):
    """One call at a start of its own, with no, one or several refusals due."""
    name = rng.choice(list(library.CALLS))
    call = refusals.sound_call(rng, name, *small_size(rng))
    if name == "build":
        lend_board(rng, call.lent)
    if name in lending.HOLDERS:
        lend_counted(rng, call.lent)
    if name == "read_cells":
        call.lent.lengths["cells"] = lending.board_near(rng, refusals.cells_wanted(call))
    if name == "swap_cells" and rng.random() < 0.6:
        cell_swaps.lend_board(rng, call)
    due = rng.choices(range(4), (70, 15, 10, 5))[0]
    kinds = refusals.kinds_of(name)
    refusals.spoil_all(rng, call, rng.sample(kinds, min(due, len(kinds))))
    yield call


def boards(rng):
    """Builds with each board around the count, and every ragged end."""
    lent = lending.lent_for(rng, *small_size(rng))
    count = lending.cost_of(lent)
    lengths = {0, 1, 2} | {3 * count + more for more in range(-3, 6)}
    for length in sorted(lengths):
        if length >= 0:
            lent.contents["work"] = lending.dirty(rng, "work", len(lent.contents["work"]))
            lent.lengths["cells"] = length
            yield Call("build", {}, lent, f"a board around {count}")


# Larger tables: as much as the reference does in well under a second, so that a
# sift or pass has so many bits in all the tables it tries.
MOST_BITS_TRIED = 40 * 1024


def large(rng):
    n = rng.choices(range(6, 11), (6, 5, 4, 3, 2))[0]
    m = rng.choice((1, 1, 2, 3, 5, rng.randint(1, 16)))
    lent = lending.lent_for(rng, n, m, lending.LARGEST_BOARD)
    lending.lend_file(rng, lent, tables.random_table(rng, n, m))
    names = ["load", "cared", "build"] + ["evaluate"] * 5 + ["evaluate_rows", "build", "swap"]
    names += ["count", "build"] + ["evaluate"] * 3 + ["evaluate_rows"]
    names += ["build", "write_cells", "read_cells", "evaluate_rows", "write_cells", "build"]
    names += ["swap_cells", "swap_cells", "evaluate_rows", "count", "build", "swap_cells"]
    names += ["log_rows", "cared", "build", "evaluate", "log_rows", "count"]
    if n * m * 2**n <= MOST_BITS_TRIED:
        names += ["sift", "build", "evaluate"]
    if n * n * m * 2**n <= MOST_BITS_TRIED:
        names += ["pass", "build", "evaluate_rows", "moves"]
    for name in names:
        lent.lengths["cells"] = lending.LARGEST_BOARD
        if name == "build" and rng.random() < 0.3:
            lend_board(rng, lent)
        if name == "write_cells":
            lending.lend_file_space(rng, lent)
        if name == "read_cells":
            lending.lend_written(lent)
        yield refusals.near_call(rng, name, lent, n, "a larger table")
