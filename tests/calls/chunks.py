"""The calls of the comparison, in chunks.

A chunk is made from the seed and its number alone, so that one can be run again by itself. The
first chunks are the fixed ones; then comes one for each group of the cases, the scripts of which
are played; the others are random scenes.

A chunk is a generator. What a call is lent is changed by that call before the next one is made, so
that a chain meets the leftovers of its own calls.
"""

import itertools
import random

from calls import scripts
from calls.fixed.chunks import CHUNKS as FIXED
from calls.scenes import (
    base, cell_swaps, chains, diagrams, filling, moves, network_files, row_logs, same_cells,
    table_files,
)
from cases import groups

CALLS_IN_CHUNK = 100
FIXED_CHUNKS = len(FIXED)
# The first of the random chunks.
RANDOM_CHUNKS = FIXED_CHUNKS + len(groups.groups(0))

# Each with its share of the random calls' scenes.
SCENES = {
    base.single: 70, table_files.loads: 8, base.boards: 4, diagrams.diagram_calls: 9,
    network_files.reads: 8, network_files.written_and_read: 8, chains.chain: 14,
    filling.agreeing_halves: 6, row_logs.logs_in_turn: 6, row_logs.same_logs: 3,
    cell_swaps.swaps_in_turn: 6, cell_swaps.near_swaps: 8, cell_swaps.swapped_back: 4,
    cell_swaps.swapped_and_built: 3, moves.reports_in_turn: 5, moves.refused_reports: 5,
    moves.reports_and_sifts: 3, moves.reports_and_swaps: 2, same_cells.near_heads: 3,
    same_cells.near_files: 3, same_cells.passes_by_limit: 3, same_cells.sifts_in_turn: 2,
    base.large: 2,
}


def random_calls(rng):
    scenes, shares = list(SCENES), list(SCENES.values())
    while True:
        yield from rng.choices(scenes, shares)[0](rng)


def script_calls(rng, cases_of_group):
    """The calls of a group's scripts, one script after the other."""
    for case in cases_of_group:
        yield from scripts.calls_of(rng, case.file, case.command)


PARTS = ("fixed", "scripts", "random")


def chunks_of(part, calls):
    """The chunks of one part, or of all for None: at least `calls` random calls."""
    ends = 0, FIXED_CHUNKS, RANDOM_CHUNKS, RANDOM_CHUNKS + -(-calls // CALLS_IN_CHUNK)
    if part is None:
        return range(ends[-1])
    return range(*ends[PARTS.index(part) :][:2])


def chunk_calls(seed, number):
    """The calls of one chunk; each is to be run before the next is asked for."""
    rng = random.Random(f"{seed} {number}")
    if number < FIXED_CHUNKS:
        return FIXED[number](rng)
    if number < RANDOM_CHUNKS:
        make = list(groups.groups(seed).values())[number - FIXED_CHUNKS]
        return script_calls(rng, make())
    return itertools.islice(random_calls(rng), CALLS_IN_CHUNK)
