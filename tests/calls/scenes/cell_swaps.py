"""Scenes of document 02's 2.7, swaps in the cells."""

from calls.lent import cell_swaps, lending, refusals
from calls.library import Call
from calls.scenes.start import small_size


def swap_near(rng, lent, n, note):
    """A swap in the cells: any buffer may be longer, the board small, the work dirty."""
    lending.lengthen(rng, lent)
    lent.lengths["cells"] = lending.SMALL_BOARD
    call = refusals.near_call(rng, "swap_cells", lent, n, note)
    if rng.random() < 0.3:
        cell_swaps.lend_board(rng, call)
    if rng.random() < 0.5:
        lent.contents["work"] = lending.dirty(rng, "work", len(lent.contents["work"]))
    return call


def swaps_in_turn(rng):
    """A network, mostly of a table with free rows, swapped again and again without a
    build between; then what goes by its cells, and what goes by the table."""
    n, m = small_size(rng)
    lent = lending.lent_for(rng, n, m)
    yield Call("build", {}, lent, "to be swapped")
    for _ in range(rng.randint(2, 6)):
        yield swap_near(rng, lent, n, "swaps in turn")
    lending.lengthen(rng, lent)
    lent.lengths["cells"] = lending.SMALL_BOARD
    lending.lend_rows(rng, lent, range(2**n))
    yield Call("evaluate_rows", {}, lent, "after swaps in turn")
    lending.lend_file_space(rng, lent)
    yield Call("write_cells", {}, lent, "after swaps in turn")
    for name in ("count", "moves", "build"):
        yield refusals.near_call(rng, name, lent, n, "after swaps in turn")


def near_swaps(rng):
    """A network that is nearly section 4's, a board that is too small, or both."""
    due = rng.choice(((refusals.NEAR,), (refusals.BOARD,), (refusals.NEAR, refusals.BOARD)))
    call = refusals.sound_call(rng, "swap_cells", *small_size(rng))
    refusals.spoil_all(rng, call, due)
    yield call._replace(note="a swap with " + " and ".join(due))


def swapped_back(rng):
    """Two swaps at one place, one place after the other, now and then on a small board."""
    n, m = small_size(rng)
    lent = lending.lent_for(rng, n, m)
    yield Call("build", {}, lent, "to be swapped and back")
    for place in rng.sample(range(n), max(n - 1, 0)):
        law = cell_swaps.back_again(lent)
        yield swap_near(rng, lent, n, "there")._replace(numbers={"place": place})
        yield Call("swap_cells", {"place": place}, lent, "and back", law)


def swapped_and_built(rng):
    """A fully cared table, swapped in the cells, and swapped and built."""
    n, m = small_size(rng)
    lent = lending.lent_for(rng, n, m)
    cell_swaps.care_for_all(lent)
    yield Call("build", {}, lent, "fully cared")
    for place in range(n - 1):
        copied = lent.copy(lent.contents)
        yield Call("swap_cells", {"place": place}, lent, "fully cared")
        yield Call("swap", {"place": place}, copied, "beside a swap in the cells")
        law = cell_swaps.as_swapped(lent, copied)
        yield Call("build", {}, copied, "beside a swap in the cells", law)
