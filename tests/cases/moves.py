"""The cases of the comparison on reports of moves, document 02's 2.8, on table files and
on network files."""

import itertools
import random

from cases.case import Case
from cases.cell_swaps import begun, read_of
from making import fill_tables, move_tables, table_files, tables


def word_cases():
    """At every stage, in turn, and with the other words between."""
    commands = [
        "moves", "moves moves", "moves cared", "count moves count moves count",
        "build moves rows write", "moves eval 3 build moves eval 3 rows",
        "moves sift 1 moves sift 2 moves build moves", "sift 4 moves swap 3 moves",
        "moves pass 16 moves pass 4 moves", "swap 0 moves swap 1 moves count",
        "board 0 moves build moves", "build swapcells 1 moves swapcells 1 moves count",
        "build swapcells 0 swapcells 2 moves count build moves",
        "board 3 build moves board 4 build moves",
        "log 3,5,12 moves cared relog moves least 0 relog moves", "least 2 moves log 3,3,9 moves",
        "log 16 moves log 1 moves build", "build log 7,9 moves sift 0 moves",
        "write moves write build moves write", "evals 1,2 moves build evals 1,2 moves evals 1,2",
    ]
    made = [Case(file, command) for file in begun() for command in commands]
    refused = table_files.with_byte(begun()[0], 1, 0, 3)
    return made + [Case(file, "moves") for file in (refused, b"", bytes([4]))]


def drawn_cases():
    """Tables drawn by hand, in the natural order and the other way round, also as read."""
    made = []
    for outputs in move_tables.DRAWN:
        places = range(table_files.inputs_in(outputs[0]))
        for order in (places, places[::-1]):
            table = table_files.table_from_rows(outputs, order)
            made.append(Case(table, "moves count build moves"))
            made.append(Case(read_of(table), "moves count"))
    return made


def order_cases():
    """Section 9's table, and one with free rows, from every order: the report, and each
    input sifted, which answers by the smallest entry."""
    made = []
    for order in itertools.permutations(range(4)):
        for outputs in (move_tables.TWO_ANDS, move_tables.EVERY_SIGN):
            table = table_files.table_from_rows(outputs, order)
            for sifted in range(4):
                made.append(Case(table, f"count moves sift {sifted} moves"))
    return made


def two_input_cases():
    """Every table of one output, and after a swap."""
    drawn = [" ".join(rows) for rows in itertools.product("01-", repeat=4)]
    return [Case(table_files.table_from_rows([rows]), "moves swap 0 moves") for rows in drawn]


def outputs_at(n):
    """Few where a report takes long."""
    return {7: (1, 4), 8: (1, 3), 9: (1,), 10: (1,)}.get(n, (1, 2, 5, 16))


def size_cases(rng, n):
    """Of any table, of its network file, and of one in which many halves agree."""
    made = []
    for m in outputs_at(n):
        table = tables.random_table(rng, n, m)
        asked = "moves" if n > 8 else "count moves build moves moves"
        asked += f" sift {rng.randrange(n)} moves" if 0 < n < 8 else ""
        made.append(Case(table, asked))
        if n < 8:
            made.append(Case(read_of(table), asked))
            made.append(Case(fill_tables.table(rng, n, m), asked))
    return made


def in_turn(rng):
    """Many reports of one state, on tables and on network files."""
    command = "moves swap 0 moves sift 2 moves build moves swapcells 0 moves pass 25 moves"
    drawn = [tables.random_table(rng, 5, m) for m in (1, 2, 3, 4)]
    return [Case(file, command) for table in drawn for file in (table, read_of(table))]


def large_gains():
    """Moves that bring hundreds of cells, and one that brings over a thousand."""
    drawn = [
        move_tables.counter_file(8, 16, (16, 16), range(8)),
        move_tables.counter_file(8, 8, (16, 16), [1, 2, 3, 4, 5, 6, 7, 0]),
        move_tables.counter_file(10, 13, (29, 32), range(10)),
    ]
    return [Case(table, "count moves") for table in drawn]


def groups(seed):
    """All groups as (name, function that makes the cases)."""
    made = {
        "moves gains": large_gains, "moves words": word_cases, "moves drawn": drawn_cases,
        "moves orders": order_cases, "moves two inputs": two_input_cases,
    }

    def seeded(name, make, *arguments):
        made[name] = lambda: make(random.Random(f"{seed} {name}"), *arguments)

    for n in range(11):
        seeded(f"moves {n}", size_cases, n)
    seeded("moves in turn", in_turn)
    return made
