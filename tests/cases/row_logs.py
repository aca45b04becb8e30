"""The cases of the comparison on logs of rows, document 02's 2.4, on table files and on
network files."""

import random

from cases import random_scripts
from cases.case import Case, list_of
from cases.tables import LISTS_BEYOND, RIGHT_LISTS
from making import networks, table_files, tables
from making.network_files import network_file

LOOK = "cared count build rows"


def free_table():
    """Eight rows, two outputs, an order of its own and free rows."""
    return table_files.table_from_rows(["0 1 1 0 1 0 0 -", "0 - 0 1 0 1 - 1"], [2, 0, 1])


def begun():
    """The same as a table and as the network file of what was built."""
    table = free_table()
    return table, network_file(networks.of_table(table))


def word_cases():
    """Every word before and after a log, at every stage."""
    commands = [
        "relog cared", "relog relog", "least 0 relog cared build", "log 3 " + LOOK,
        "log 3,3,5 log 5", "build log 1,2 rows evals 1 write build",
        "build least 2 log 1,1,2 cared relog least 1 relog cared least 3 relog cared",
        "least 2 log 7 cared log 7 cared log 7 cared", "log 0,1,2,3,4,5,6,7 " + LOOK,
        "log 4,5 count sift 0 log 1 count sift 2 build cared",
        "log 6,6,0 pass 9 relog pass 9 build write", "log 2 swap 0 log 3 swap 1 build rows",
        "log 8 cared", "log 1,8 log 1", "build log 9 rows", "least 4294967295 log 1 cared build",
        "board 0 log 3 count build board 2159 build", "log 1 eval 1 build eval 1 evals 1,0 write",
        "build log 3 swapcells 0 build swapcells 0",
        "build swapcells 1 log 3 swapcells 1 count build swapcells 1", "build relog swapcells 0",
        "build swapcells 0 cared", "build log 8 swapcells 0", "swapcells 0 relog swapcells 0 write",
        "log 1,2 build swapcells 0 swapcells 1 rows count relog count swapcells 0",
        "log 1 least 0 log 8 relog cared",
    ]
    return [Case(file, command) for file in begun() for command in commands]


def list_cases():
    """The lists that `evals` is given, to `log`, and one that is far longer."""
    table, network = begun()
    lists = RIGHT_LISTS + LISTS_BEYOND
    made = [Case(table, f"build log {rows} cared") for rows in lists]
    for last in ("7", "8"):
        rows = "5," * 2047 + last
        for file, least in ((table, 2047), (network, 2048)):
            made.append(Case(file, f"least {least} log {rows} cared count"))
    return made


def size_cases(rng):
    """No inputs, one, and ten with many outputs."""
    made = []
    for outputs in (["1"], ["0", "1", "-"], ["-"]):
        table = table_files.table_from_rows(outputs)
        for file in (table, network_file(networks.of_table(table))):
            made.append(Case(file, f"relog {LOOK} log 0,0 {LOOK} least 3 relog {LOOK}"))
            made.append(Case(file, f"log 0,1 log 1 least 0 relog {LOOK}"))
    for m in (1, 16):
        table = tables.random_table(rng, 10, m)
        few = list_of(rng.randrange(1024) for _ in range(60))
        every = list_of(rng.sample(range(1024), 1024))
        command = f"log {few} cared count log {every} least 2 relog build"
        command += " log 0,1023,1024 write log 1023,0 cared count"
        for file in (table, network_file(networks.of_table(table)))[: 1 if m > 1 else 2]:
            made.append(Case(file, command))
    return made


def sequence_cases(rng):
    """Two logs in either sequence, and one of both lists."""
    made = []
    for _ in range(12):
        n = rng.randint(0, 6)
        table = tables.random_table(rng, n, rng.randint(1, 4))
        first, second = ([rng.randrange(2**n) for _ in range(rng.randint(1, 9))] for _ in range(2))
        least = random_scripts.least_near(rng)
        for lists in ((first, second), (second, first), (first + second,)):
            logs = " ".join(f"log {list_of(rows)}" for rows in lists)
            made.append(Case(table, f"least {least} {logs} {LOOK}"))
    return made


def many_logs(rng):
    """Counts that grow past what 8 bits hold."""
    logs = [f"log {rng.choice(('3', '3,1', '0,3,3', '2'))}" for _ in range(300)]
    leasts = [f"least {least} relog cared" for least in (255, 256, 257, 300, 512)]
    return [Case(file, " ".join(logs + leasts + ["build"])) for file in begun()]


def groups(seed):
    """All groups as (name, function that makes the cases)."""
    made = {"log words": word_cases, "log lists": list_cases}

    def seeded(name, make):
        made[name] = lambda: make(random.Random(f"{seed} {name}"))

    seeded("log sizes", size_cases)
    seeded("log sequences", sequence_cases)
    seeded("log many", many_logs)
    return made
