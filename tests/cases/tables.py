"""The cases of the comparison on table files: written out, damaged, of every size, and
sifted long."""

import random

from cases.case import LARGEST, PROGRAMS, Case, for_all, list_of
from making import table_files
from making.tables import (
    DAMAGE_BASES, all_zero, bits_of, coin_bits, random_order, random_table, widest_table,
)

# Section 9.


def paper_cases():
    two_ands = table_files.table_file(4, 1, [0, 1, 2, 3], bits_of(0xF888, 16), [1] * 16)
    mixed = table_files.table_file(4, 1, [0, 2, 1, 3], bits_of(0xF888, 16), [1] * 16)
    look = "count write build rows cared write"
    rows = [
        ["1"], ["0"], ["-"], ["0 0 0 1"], ["1 1 1 0"], ["0 0 0 1", "1 1 1 0"],
        ["0 1 1 0"], ["0 1 0 1"], ["0 0 0 -"], ["0 1 1 -"], ["0 1 - 1"],
    ]
    cases = [for_all(table_files.table_from_rows(outputs), look) for outputs in rows]
    cases.append(for_all(two_ands, look))
    cases.append(for_all(two_ands, "board 3 build board 4 build"))
    cases.append(for_all(mixed, "count moves sift 1 count moves build"))
    cases.append(for_all(all_zero(10, 1), look))
    cases.append(for_all(table_files.with_byte(all_zero(10, 1), 0, 4, 11), look))
    exclusive_or = table_files.table_from_rows(["0 1 1 0"])
    cases.append(for_all(exclusive_or, "build eval 3 eval 4"))
    cases.append(for_all(table_files.table_from_rows(["0 1"]), "build swap 0"))
    no_inputs = table_files.table_from_rows(["1"])
    cases.append(for_all(no_inputs, f"build pass 0 pass {LARGEST} sift 0 swap 0"))
    return cases


# Files: lengths and damages.


def length_cases():
    """Every length near a limit, with block 0 sound and with its check off.

    Past 65,536 bytes the programs answer 1 whatever block 0 holds; at 65,536, and in a
    load at any length, the checks of block 0 still come before the block count.
    """
    sound = table_files.table_from_rows(["0 1 1 0"])
    spoiled = table_files.with_stored_check(sound, 0, 26)
    lengths = (0, 1, 511, 512, 513, 1023, 1024, 1535, 1536, 1537, 2048, 5632, 6144)
    lengths += (65024, 65535, 65536, 65537, 66048, 131072)
    cut = [file[:length].ljust(length, b"\0") for file in (sound, spoiled) for length in lengths]
    return [for_all(table, "count") for table in cut]


def damage_cases(base, part, parts):
    """One share of all the single damages and pairs of them to a base."""
    sound = DAMAGE_BASES[base]()
    damages = table_files.all_damages(sound)
    sets = [[damage] for damage in damages] + table_files.pairs_of(damages)
    cases = []
    for at in range(part, len(sets), parts):
        # A single goes to both programs; of three pairs one to each, and one to none.
        programs = PROGRAMS if len(sets[at]) == 1 else PROGRAMS[at // parts % 3 :][:1]
        cases.append(Case(table_files.damaged(sound, sets[at]), "", programs))
    return cases


# Numbers and lists of rows.


def three_inputs():
    return table_files.table_from_rows(["0 1 1 0 1 0 0 -", "0 0 0 1 0 1 1 1"], [2, 0, 1])


def number_cases():
    """Numbers that are small, that are past the last, and the largest."""
    commands = [
        f"build {word} {number}"
        for word in ("swap", "swapcells", "sift", "pass", "eval")
        for number in (0, 1, 7, 2159, LARGEST)
    ]
    commands += [f"build {word} {row}" for word in ("evals", "log") for row in (0, 1, 7, 2159)]
    commands += [f"board {board} build" for board in (0, 1, 7, 2158, 2159)]
    # A board too small for the held network: still evaluated, not built.
    commands.append("build board 0 eval 3 rows build rows")
    return [Case(three_inputs(), command) for command in commands]


# All below eight, and with one that is not; some of those are in fewer bits.
RIGHT_LISTS = ["0", "7", "3,5,1", "7,0,5", "3,3,3,3", "7,6,5,4,3,2,1,0"]
LISTS_BEYOND = ["8", "8,0", "0,8", "0,8,1", "7,9", "65535", "0,1,65535", "256,0", "32771"]


def list_cases():
    """Lists that are right and that have a row out of range, at every stage and in turn."""
    commands = [f"build evals {rows}" for rows in RIGHT_LISTS + LISTS_BEYOND]
    # Before a build, after a swap, and with a board too small for the held network.
    commands += [f"evals {rows}" for rows in ("3", "8", "65535")]
    commands.append("build evals 3,5 swap 1 evals 3,5 evals 8 build evals 3,5 rows")
    commands.append("build sift 0 evals 0 build board 0 build evals 0,7 evals 7,8")
    # A shorter list after a longer one, and a right one after one that is refused.
    commands.append("build evals 7,6,5,4 evals 1 evals 3,8,2 evals 2,0,2 eval 6 evals 6")
    # A list far longer than there are rows.
    commands += ["build evals " + "5," * 2047 + last for last in ("7", "8")]
    cases = [Case(three_inputs(), command) for command in commands]
    no_inputs = table_files.table_from_rows(["1", "0", "1"])
    cases.append(Case(no_inputs, "evals 0 build evals 0,0 evals 1 evals 0,1"))
    return cases + whole_list_cases()


def whole_list_cases():
    """All rows of ten inputs in one list."""
    largest = random_table(random.Random("evals"), 10, 16)
    rows = list(range(1024))
    lists = (rows, rows[::-1], rows[1:] + [1024])
    return [Case(largest, f"build evals {list_of(each)}") for each in lists]


# Sizes.


def size_cases(rng, n):
    """Every m for one n, and the same file with a block too few or too many."""
    cases = []
    for m in range(1, 17):
        values = coin_bits(rng, n, m)
        density = 0.05 if n > 7 else 0.5
        care = [int(rng.random() < density) for _ in range(m << n)]
        table = table_files.table_file(n, m, random_order(rng, n), values, care)
        cases.append(for_all(table, "cared count build"))
        cases.append(Case(table[: -table_files.BLOCK], "count"))
        cases.append(Case(table + table[-table_files.BLOCK :], "count"))
    return cases


def long_sift_cases(rng, n, m, sifting):
    """A sift or pass over a larger table."""
    return [Case(random_table(rng, n, m), f"{sifting} build")]


def widest_cases(rng):
    """A board of one cell too few for that table, and of enough."""
    command = "count board 2158 build board 2159 build eval 777 write"
    return [for_all(widest_table(rng), command)]
