"""Fixed calls of document 02's 2.10: all small tables, each held against all others; for
every n tables that are near one another, and the widest; network files by hand; passes under
the limits at and around each turn's; sifts in turn."""

import functools
import itertools

from calls.fixed.start import FREE_ROWS, PARITY, TWO_ANDS, Held, lent_with
from calls.fixed.writes import source_networks
from calls.lent import lending, same_cells
from calls.lent.lending import HUGE, MOST_ORDERS
from calls.library import Call
from making import near_tables, networks, tables
from making.network_files import network_file

# Sizes of which all tables are tried that have free rows or none: n, m and the order.
ALL_DRAWN = [(0, 1, ()), (0, 2, ()), (0, 3, ()), (1, 1, (0,)), (1, 2, (0,))]
ALL_DRAWN += [(2, 1, (0, 1)), (2, 1, (1, 0))]
# Sizes of which all are tried that are fully cared.
ALL_CARED = [(2, 2, (1, 0)), (3, 1, (2, 0, 1))]


def lents_of(rng, family, cells=lending.SMALL_BOARD):
    return [same_cells.lent_table(rng, drawn, cells) for drawn in family]


# Heads.


def small_tables(rng):
    """All of a size, in any sequence: each is built, evaluated, written, read and swapped."""
    for n, m, order in ALL_DRAWN:
        marks = itertools.product("01-", repeat=m << n)
        texts = [[" ".join(rows[j << n : (j + 1) << n]) for j in range(m)] for rows in marks]
        family = [near_tables.from_rows(outputs, order) for outputs in texts]
        rng.shuffle(family)
        yield from same_cells.all_calls(rng, lents_of(rng, family), f"all of n {n}, m {m}")


def cared_tables(rng):
    """All of a size that are fully cared; each is another one."""
    for n, m, order in ALL_CARED:
        whole = near_tables.Drawn(n, m, order, [0] * (m << n), [1] * (m << n))
        family = [
            whole._replace(values=tables.bits_of(number, m << n)) for number in range(1 << (m << n))
        ]
        yield from same_cells.built(lents_of(rng, family), f"all cared of n {n}, m {m}")


def with_near(rng, first, kinds):
    """A table, and one of each of these kinds near it, on boards that are always enough."""
    return lents_of(rng, [first] + [near(rng, first) for near in kinds], lending.LARGEST_BOARD)


def sizes(rng, sizes_tried, kinds=near_tables.NEAR):
    for n, m in sizes_tried:
        first = near_tables.any_table(rng, n, m, rng.sample(range(n), n))
        lents = with_near(rng, first, kinds)
        yield from same_cells.all_calls(rng, lents, f"near tables, n {n}, m {m}")


def widest(rng):
    """All 2,159 cells: the same again, and one value other. The law goes by the rows alone."""
    bits = tables.widest_bits(rng)
    first = near_tables.Drawn(10, 16, range(10), bits, [1] * len(bits))
    lents = with_near(rng, first, (near_tables.same, near_tables.other_value))
    for lent in lents:
        yield Call("build", {}, lent, "near the widest table")
    yield from same_cells.evaluated(rng, lents, "near the widest table")


def files(rng):
    """Networks by hand, each with its roots inverted in all ways, and near networks, which
    compute the same table in other cells and are turned away."""
    for network in source_networks():
        made = [network, network]
        for turned in itertools.product((0, 1), repeat=network.m):
            roots = [root ^ odd for root, odd in zip(network.roots, turned)]
            made.append(network._replace(roots=networks.sixteen(roots)))
        made += [near for _, near in networks.near_networks(network)]
        yield from same_cells.read(rng, map(network_file, made), "files by hand")


# Passes and sifts.


def limits_of(n):
    """Each one up to a turn too many, or those at and around each turn's; and the largest."""
    turns = {n * turn + more for turn in range(n + 2) for more in (-1, 0, 1)}
    near = set(range(n * n + n + 1)) if n < 5 else {limit for limit in turns if limit >= 0}
    return sorted(near | {2**16, 2**31, MOST_ORDERS - 1, MOST_ORDERS})


def orders_of_four(rng):
    """From every order of four: one that is best, one that is not, and all that tie."""
    for note, table in (("parity", PARITY), ("two ands", TWO_ANDS), ("free rows", FREE_ROWS)):
        for order in itertools.permutations(range(4)):
            lent = lent_with(rng, Held(order=order + (9, 2, HUGE, 0, 4, 1)), table=table)
            told = f"{note}, order {order}"
            yield from same_cells.with_passes(lent, told, (0, 3, 4, 7, 8, 12, 16, MOST_ORDERS))
            yield from same_cells.with_sifts(lent, told, rng.sample(range(4), 4))


def passes(rng, sizes_tried):
    """Any table, and one that falls again and again, the limits in any sequence."""
    for n, m in sizes_tried:
        order = rng.sample(range(n), n)
        made = [near_tables.any_table(rng, n, m, order), near_tables.conjunctions(n, m)]
        for drawn in made:
            lent, limits = same_cells.lent_table(rng, drawn), limits_of(n)
            rng.shuffle(limits)
            yield from same_cells.with_passes(lent, f"n {n}, m {m}", limits)
            yield from same_cells.with_sifts(lent, f"n {n}, m {m}", rng.sample(range(n), n))


# Every n with one output, with two and with as many as there can be; of large ones fewer.
SMALL = list(itertools.product(range(7), (1, 2, 16)))
LARGE = ((7, 16), (8, 3), (9, 1), (10, 1))
LARGEST = ((10, 16),)
FEW_KINDS = (near_tables.same, near_tables.partly_filled, near_tables.inverted_output)
# For passes, so that all limits of one size are soon tried.
PASSES = [list(itertools.product(range(6), (1, 2, 5))), ((6, 1), (7, 1), (8, 1)), ((10, 1),)]

CHUNKS = [small_tables, cared_tables, files, widest, orders_of_four]
CHUNKS += [functools.partial(sizes, sizes_tried=tried) for tried in (SMALL, LARGE)]
CHUNKS += [functools.partial(sizes, sizes_tried=LARGEST, kinds=FEW_KINDS)]
CHUNKS += [functools.partial(passes, sizes_tried=tried) for tried in PASSES]
