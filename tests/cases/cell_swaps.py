"""The cases of the comparison on swaps in the cells, document 02's 2.7, on table files
and on network files."""

import random

from calls import by_reference
from cases import case, random_scripts
from cases.case import Case
from making import networks, table_files, tables
from making.network_files import network_file
from programs.expected import MOST_CELLS


def two_ands(order):
    """Section 9's table: four cells in the natural order, six with 1 and 2 exchanged."""
    return table_files.table_file(4, 1, order, tables.bits_of(0xF888, 16), [1] * 16)


def free_table():
    """Sixteen rows, two outputs, an order of its own and free rows."""
    outputs = ["0 - 1 0 1 - 0 - - 1 - 0 0 - 1 1", "- 1 1 0 - - 0 1 0 - 1 - 1 0 - -"]
    return table_files.table_from_rows(outputs, [2, 0, 3, 1])


def read_of(table):
    """The network file of what is built of a table."""
    return network_file(networks.of_table(table))


def begun():
    """Fully cared and with free rows, as tables and as network files."""
    drawn = (two_ands([0, 2, 1, 3]), free_table())
    return drawn + tuple(read_of(table) for table in drawn)


# Words and places.


def word_cases():
    """At every stage, in turn and back, and with the other words between."""
    commands = [
        "swapcells 0", "swapcells 3", "swapcells 4294967295", "board 0 swapcells 0",
        "count swapcells 0", "build swapcells 1 rows swapcells 1 rows", "build swap 0 swapcells 0",
        "build swapcells 0 swap 0 build", "build sift 1 swapcells 0",
        "build swapcells 1 sift 1 build", "build pass 9 swapcells 0",
        "build swapcells 2 pass 16 build",
        "build swapcells 0 write swapcells 1 write swapcells 2 write count build write",
        "build swapcells 0 swapcells 1 swapcells 2 rows count cared build",
        "build swapcells 2 swapcells 1 swapcells 0 swapcells 0 swapcells 1 swapcells 2 rows",
        "build swapcells 0 swapcells 2 swapcells 2 swapcells 0",
        "build swapcells 1 eval 5 evals 3,15,16 evals 3,15 eval 16 rows cared",
        "build swapcells 1 count count swapcells 1 build",
        "build swapcells 1 build swapcells 1 build",
        "build swapcells 1 log 3,5 swapcells 1 count build swapcells 1 cared",
        "build log 1 swapcells 0 relog swapcells 0 build swapcells 0 write",
    ]
    return [Case(file, command) for file in begun() for command in commands]


def place_cases():
    """Every n: each place, the last one and past it, on a board and on none."""
    made = []
    for n in range(11):
        bits = [row * (row + 3) // 4 % 3 % 2 for row in range(2**n)]
        table = table_files.table_file(n, 1, range(n), bits, [1] * len(bits))
        beyond = (n - 1, n, n + 1, 255, 256, 65536, case.LARGEST)
        places = [*range(n - 1), *(place for place in beyond if place >= 0)]
        asked = " ".join(f"swapcells {place}" for place in places)
        made += [Case(table, first + asked) for first in ("build ", "build board 0 ", "")]
        made.append(Case(read_of(table), asked))
    return made


# Boards.


def board_tables():
    """Tables whose networks swaps make larger, make smaller, or leave as they are."""
    orders = ([0, 1, 2, 3], [0, 2, 1, 3], [2, 0, 3, 1])
    rows = [
        ["0 1 1 0"], ["0 0 0 1", "1 1 1 0"], ["0 1 0 1"], ["0 0 0 0", "1 1 1 1"], ["0 0 1 -"],
        ["0 0 1 1 0 1 0 1"], ["0 1 1 0 1 0 0 1", "0 0 0 1 0 1 1 1"], ["0 - 1 1 0 1 - 1"],
    ]
    drawn = [table_files.table_from_rows(outputs) for outputs in rows]
    return drawn + [two_ands(order) for order in orders] + [free_table()]


def counts_at(file, place):
    """The cells held after a build, and those that a swap at a place leaves."""
    return [by_reference.held_after(file, f"build {then}") for then in ("", f"swapcells {place}")]


def boards_at(file, place):
    """Boards around the cells held and the cells wanted, and the ends."""
    return sorted({0, MOST_CELLS, *random_scripts.boards_around(counts_at(file, place))})


def board_cases():
    """Each such board at each place, then the largest one, and what is held each time."""
    made = []
    for table in board_tables():
        for file in (table, read_of(table)):
            for place in range(file[4] - 1):
                asked = f"swapcells {place} rows write"
                for board in boards_at(file, place):
                    command = f"build board {board} {asked} board {MOST_CELLS} {asked}"
                    made.append(Case(file, command))
    return made


def board_changes():
    """Boards that change between builds and swaps."""
    commands = [
        "board 4 build swapcells 1 board 6 swapcells 1 swapcells 1",
        "board 6 build board 5 swapcells 1 board 6 swapcells 1 board 4 swapcells 1",
        "build board 3 swapcells 1 build board 4 build swapcells 1",
        "build swapcells 1 board 4 build swapcells 1 board 6 build",
        "build board 5 swapcells 3 swapcells 1 swap 0 swapcells 1 build swapcells 0",
    ]
    natural, crossed = two_ands([0, 1, 2, 3]), two_ands([0, 2, 1, 3])
    sources = (natural, crossed, read_of(natural), read_of(crossed))
    return [Case(file, command) for file in sources for command in commands]


def growing_cases(rng):
    """Random tables at every place that wants more cells: boards from those held on."""
    made = []
    for _ in range(40):
        table = tables.random_table(rng, rng.randint(3, 6), rng.randint(1, 4))
        file = rng.choice((table, read_of(table)))
        for place in range(file[4] - 1):
            held, wanted = counts_at(file, place)
            boards = sorted({held, wanted - 1, wanted}) if wanted > held else []
            words = [f"board {board} swapcells {place}" for board in boards]
            made += [Case(file, " ".join(["build"] + words + ["write"]))] if words else []
    return made


# Sizes.


def turn_words(rng, n, length):
    """So many swaps at any places, then the same ones back."""
    there = [f"swapcells {rng.randrange(n - 1)}" for _ in range(length)]
    return " ".join(there + ["count write"] + there[::-1])


def outputs_at(n):
    """Each number of them, or few where a table takes long."""
    return range(1, 17) if n < 6 else (1, 2, 7, 16) if n < 9 else (1, 5)


def size_cases(rng, n):
    """Swaps in turn and back, of what was built and of what was read, then a build."""
    made = []
    for m in outputs_at(n):
        table = tables.random_table(rng, n, m)
        command = f"build {turn_words(rng, n, 6 if n < 8 else 2)}"
        command += " rows build" if n < 8 else " build"
        made += [Case(file, command) for file in (table, read_of(table))[: 2 if n < 9 else 1]]
    return made


def with_a_build(rng):
    """Fully cared tables: the swap in the cells, and beside it a swap and a build."""
    made = []
    for n in range(2, 9):
        m = rng.choice((1, 2, 3, 16)) if n < 7 else 2
        bits = tables.pooled_bits(rng, n, m)
        table = table_files.table_file(n, m, tables.random_order(rng, n), bits, [1] * len(bits))
        place = rng.randrange(n - 1)
        for words in (f"build swapcells {place}", f"build swap {place} build"):
            made.append(Case(table, words + " write rows"))
    return made


def written_after(rng):
    """Network files of cells that a swap has left, read again."""
    made = []
    for n in range(2, 7):
        table = tables.random_table(rng, n, rng.randint(1, 4))
        file = by_reference.written_after(table, f"build swapcells {rng.randrange(n - 1)}")
        made.append(Case(file, "rows swapcells 0 write build write"))
    return made


def widest_cases(rng):
    """All 2,159 cells: a board of just so many, and one too small for those held."""
    command = "build board 2158 swapcells 3 board 2159 swapcells 3 swapcells 8 eval 777 write"
    return [Case(tables.widest_table(rng), command)]


def groups(seed):
    """All groups as (name, function that makes the cases)."""
    made = {
        "swap words": word_cases, "swap places": place_cases, "swap boards": board_cases,
        "swap board changes": board_changes,
    }

    def seeded(name, make, *arguments):
        made[name] = lambda: make(random.Random(f"{seed} {name}"), *arguments)

    seeded("swap growing", growing_cases)
    for n in range(2, 11):
        seeded(f"swap {n}", size_cases, n)
    seeded("swap and build", with_a_build)
    seeded("swap written", written_after)
    seeded("swap widest", widest_cases)
    return made
