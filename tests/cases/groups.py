"""The groups of the comparison's cases, for the programs and for the scripts.

A group is a list of cases that one worker makes and runs. Groups are named,
and a random group is made from the seed and its own name alone, so any one
can be run again by itself.
"""

import random

from cases import case, cell_swaps, filling, moves, network_files, random_scripts, row_logs, tables

RANDOM_TABLES = 1000


def groups(seed, random_count=RANDOM_TABLES):
    """All groups as (name, function that makes the cases), longest first."""
    made = {}

    def seeded(name, make, *arguments):
        made[name] = lambda: make(random.Random(f"{seed} {name}"), *arguments)

    for density in (1, 0.9, 0.5, 0.2, 0.05, 0.01):
        seeded(f"large {density}", random_scripts.large_cases, density)
    seeded("widest", tables.widest_cases)
    for i in range(4):
        seeded(f"sift 8 {i}", tables.long_sift_cases, 8, 4, "sift 3 sift 7")
        seeded(f"sift 10 {i}", tables.long_sift_cases, 10, 2, "sift 9")
        seeded(f"pass 7 {i}", tables.long_sift_cases, 7, 3, "pass 49")
        seeded(f"pass 8 {i}", tables.long_sift_cases, 8, 2, "pass 23")
    for n in range(11):
        seeded(f"size {n}", tables.size_cases, n)
    seeded("pass 10", tables.long_sift_cases, 10, 1, f"pass {case.LARGEST}")
    made["paper"] = tables.paper_cases
    made["lengths"] = tables.length_cases
    made["numbers"] = tables.number_cases
    made["lists"] = tables.list_cases
    for base, parts in (("tiny", 2), ("small", 4), ("large", 16)):
        for part in range(parts):
            made[f"damage {base} {part}"] = (
                lambda base=base, part=part, parts=parts: tables.damage_cases(base, part, parts)
            )
    for i in range(random_count):
        seeded(f"random {i}", random_scripts.random_cases)
    made |= filling.groups(seed) | row_logs.groups(seed) | cell_swaps.groups(seed)
    made |= moves.groups(seed)
    return made | network_files.groups(seed, random_count)
