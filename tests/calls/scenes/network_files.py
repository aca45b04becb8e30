"""Scenes of document 02's 2.2: network files read, and networks written and read again."""

from calls import library
from calls.lent import lending, refusals
from calls.library import Call
from calls.scenes.start import small_size
from calls.scenes.table_files import in_sound_frames
from making import diagrams, network_files, networks, tables


def any_diagram(rng, n, m):
    """Number 24 lets it pass, but it is hardly ever section 4's network."""
    cells, roots = diagrams.random_diagram(rng, n, m)
    order = tables.random_order(rng, n)
    return network_files.Network(n, m, order, cells, networks.sixteen(roots[:m]))


def some_network_file(rng):
    """Sound, damaged in its blocks, or of cells and roots that are no network."""
    n, m = small_size(rng)
    network = networks.of_table(tables.random_table(rng, n, m))
    file = network_files.network_file(network)
    choice = rng.random()
    if choice < 0.4:
        return file
    if choice < 0.65:
        return refusals.damaged_file(rng, file)
    if choice < 0.7:
        return in_sound_frames(rng, file)
    if choice < 0.75:
        return network_files.with_count(file, rng.choice((0, len(network.cells) + 1, 84, 85, 256)))
    if choice < 0.87:
        return network_files.network_file(networks.some_near(rng, network) or network)
    if choice < 0.94:
        return network_files.network_file(any_diagram(rng, n, m))
    diagrams.break_diagram(rng, n, m, network.cells, network.roots)
    return network_files.network_file(network)


def reads(rng):
    """Several network files into the same state and buffers."""
    lent = lending.lent_for(rng, *small_size(rng))
    for _ in range(6):
        lending.lend_file(rng, lent, some_network_file(rng))
        call = Call("read_cells", {}, lent, "network files one after the other")
        lending.lengthen(rng, lent)
        lent.lengths["cells"] = lending.SMALL_BOARD
        if rng.random() < 0.3:
            lent.lengths["cells"] = board_near_file(rng, lent)
        if rng.random() < 0.3:
            lent.contents["work"] = lending.dirty(rng, "work", len(lent.contents["work"]))
        if rng.random() < 0.1:
            refusals.spoil(rng, call, rng.choice(("state", "values", "care", "work", "roots")))
        yield call


def board_near_file(rng, lent):
    near = lending.board_near(rng, network_files.count_in(lent.part("file")))
    return min(near, lending.SMALL_BOARD)


def written_and_read(rng):
    """A network is written, read into another state and buffers, and written again."""
    lent = lending.lent_for(rng, *small_size(rng))
    yield Call("build", {}, lent, "to be written")
    lending.lend_file_space(rng, lent)
    yield Call("write_cells", {}, lent, "as built")
    lending.lend_written(lent)
    other = lending.lent_for(rng, *small_size(rng))
    other.put("file", lent.contents["file"], lent.lengths["file"])
    if rng.random() < 0.3:
        other.lengths["cells"] = board_near_file(rng, other)
    yield Call("read_cells", {}, other, "as written")
    n = lent.contents["state"][library.N]
    lending.lend_rows_near(rng, other, n)
    yield Call("evaluate_rows", {}, other, "as read")
    other.contents["work"] = lending.dirty(rng, "work", len(other.contents["work"]))
    lending.lend_file_space(rng, other)
    yield Call("write_cells", {}, other, "as read")
    yield Call("build", {}, other, "of the table as read")
    yield Call("write_cells", {}, other, "as built again")
