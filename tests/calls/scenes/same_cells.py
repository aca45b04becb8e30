"""Scenes of document 02's 2.10: heads that are recognised by their cells, and passes and sifts
that never end with more of them."""

from calls.lent import lending, same_cells
from calls.scenes.start import small_size
from making import near_tables, networks, tables
from making.network_files import network_file


def some_table(rng):
    n, m = small_size(rng)
    return near_tables.any_table(rng, n, m, tables.random_order(rng, n))


def near_heads(rng):
    """Two tables near each other, or some more."""
    family = near_tables.family(rng, some_table(rng), rng.randint(2, 4))
    lents = [same_cells.lent_table(rng, drawn) for drawn in family]
    yield from same_cells.all_calls(rng, lents, "near tables")


def near_files(rng):
    """A network file twice, one of it with roots inverted, one that is turned away, and that
    of any other table."""
    n, m = small_size(rng)
    network = networks.of_table(tables.random_table(rng, n, m))
    roots = [root ^ rng.randint(0, 1) for root in network.roots[:m]]
    made = [network, network, network._replace(roots=networks.sixteen(roots))]
    made += [networks.some_near(rng, network) or network]
    made += [networks.of_bits(n, m, network.order, tables.coin_bits(rng, n, m))]
    rng.shuffle(made)
    yield from same_cells.read(rng, map(network_file, made), "near network files")


def passes_by_limit(rng):
    drawn = some_table(rng)
    limits = [lending.limit_near(rng, drawn.n) for _ in range(rng.randint(2, 4))]
    lent = same_cells.lent_table(rng, drawn)
    yield from same_cells.with_passes(lent, "passes by their limits", limits)


def sifts_in_turn(rng):
    """Any inputs, now and then the same once more."""
    drawn = some_table(rng)
    inputs = [rng.randrange(drawn.n) for _ in range(rng.randint(1, 4))] if drawn.n else []
    yield from same_cells.with_sifts(same_cells.lent_table(rng, drawn), "sifts in turn", inputs)
