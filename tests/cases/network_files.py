"""The cases of the comparison on network files, document 02's 2.2: read, written and put
through scripts; the programs take tables alone and refuse them."""

import random

from cases import random_scripts
from cases.case import Case, for_all
from making import network_files, networks, table_files, tables
from making.network_files import Network, network_file
from programs import expected

LOOK = "cared rows count write build write swapcells 0 rows count write build write"

ROWS = [
    ["1"], ["0", "1"], ["0 0 0 1"], ["1 1 1 0"], ["0 0 0 1", "1 1 1 0"], ["0 1 1 0"],
    ["0 1 0 1"], ["0 0 0 -"], ["0 1 1 -"], ["0 1 - 1"],
]


def drawn_network(rows, order=None):
    return networks.of_table(table_files.table_from_rows(rows, order))


def exclusive_or_file():
    return network_file(drawn_network(["0 1 1 0"]))


def paper_cases():
    """Section 9's networks as files."""
    made = [network_file(drawn_network(rows)) for rows in ROWS]
    for order in ([0, 1, 2, 3], [0, 2, 1, 3]):
        network = networks.of_bits(4, 1, order, tables.bits_of(0xF888, 16))
        made.append(network_file(network))
    looks = [for_all(file, LOOK) for file in made]
    return looks + [Case(made[-1], "write sift 1 write build write")]


def length_cases():
    """Every length near a limit, with block 0 sound and with its check off."""
    sound = exclusive_or_file()
    spoiled = table_files.with_stored_check(sound, 0, 26)
    lengths = (1, 2, 511, 512, 513, 1023, 1024, 1025, 1536, 13824, 14336)
    lengths += (65024, 65535, 65536, 65537, 66048, 131072)
    cut = [file[:length].ljust(length, b"\0") for file in (sound, spoiled) for length in lengths]
    return [for_all(file, "count write") for file in cut]


def damage_cases(rng, base):
    """Every single damage to a base, to the programs too, and some pairs."""
    sound = network_file(networks.DAMAGE_BASES[base]())
    damages = network_files.all_damages(sound)
    pairs = rng.sample(table_files.pairs_of(damages), 150)
    made = [for_all(table_files.damaged(sound, [damage]), "write") for damage in damages]
    return made + [Case(table_files.damaged(sound, pair), "") for pair in pairs]


def near_cases():
    """Cells that number 24 lets pass and 32 does not."""
    sources = [drawn_network(rows) for rows in ROWS]
    sources.append(drawn_network(["0 0 0 0 0 1 1 0", "0 0 0 1 0 0 0 0"], [1, 2, 0]))
    made = []
    for source in sources:
        for _, near in networks.near_networks(source):
            made.append(Case(network_file(near), ""))
    return made


def board_cases():
    """Counts at, around and far over the board of 2,159, and wrong ones."""
    made = []
    for count in (2158, 2159, 2160, 2184, 2185, 10668):
        alike = Network(1, 1, [0], [(0, 0, 1)] * count, networks.sixteen([2]))
        breach = networks.with_cell(alike, count, (0, 1))
        made += [Case(network_file(network), "") for network in (alike, breach)]
    for count in (0, 1, 3, 84, 85, 256, 65535):
        made.append(Case(network_files.with_count(exclusive_or_file(), count), ""))
    return made


def word_cases():
    """The word `write` at every stage, and after files that are refused."""
    commands = [
        "write", "write write", "write count", "swap 0 write", "sift 0 write build write",
        "pass 4 write build write", "board 0 write build write",
        "board 1 build write board 2 build write", "eval 3 evals 0,1,2 evals 4 write",
        "count write", "build write swap 0 build write", "cared rows write", "swapcells 0 write",
        "build swapcells 0 write swapcells 0 write build write",
        "swapcells 0 rows cared count write build write", "swapcells 1 write",
        "board 0 swapcells 0 write board 1 swapcells 0 write board 2 swapcells 0 write",
    ]
    table = table_files.table_from_rows(["0 1 1 0"])
    free = table_files.table_from_rows(["0 1 1 -", "- 1 - 0"], [1, 0])
    begun = (exclusive_or_file(), table, free)
    made = [Case(file, command) for file in begun for command in commands]
    refused = table_files.with_byte(exclusive_or_file(), 1, 0, 4)
    return made + [Case(file, "write") for file in (refused, bytes([4]), b"")]


def random_file_cases(rng):
    """The network file of a random table through a random script."""
    n = rng.choices(range(11), random_scripts.SHARES)[0]
    m = rng.choice((1, 1, 2, 3, 4, rng.randint(1, 16) if n < 8 else 2))
    file = network_file(networks.of_table(tables.random_table(rng, n, m)))
    step_count = rng.randint(1, 5) if n <= 6 else 2
    return [Case(file, random_scripts.random_script(rng, file, step_count, sifting=n <= 6))]


def large_cases(rng):
    """Networks of ten inputs, and the widest of all as the program `cells` writes it."""
    made = [Case(expected.cells_output(tables.widest_table(rng)), LOOK)]
    for m, density in ((16, 0.05), (16, 0.5), (3, 1)):
        care = [int(rng.random() < density) for _ in range(m << 10)]
        order = tables.random_order(rng, 10)
        table = table_files.table_file(10, m, order, tables.coin_bits(rng, 10, m), care)
        made.append(Case(network_file(networks.of_table(table)), "write count"))
    return made


# Groups of random network files, for so many random tables one.
TABLES_FOR_A_FILE = 4


def groups(seed, random_count):
    """All groups as (name, function that makes the cases)."""
    made = {
        "file paper": paper_cases, "file lengths": length_cases, "file near": near_cases,
        "file boards": board_cases, "file words": word_cases,
    }

    def seeded(name, make, *arguments):
        made[name] = lambda: make(random.Random(f"{seed} {name}"), *arguments)

    seeded("file large", large_cases)
    for base in networks.DAMAGE_BASES:
        seeded(f"file damage {base}", damage_cases, base)
    for i in range(random_count // TABLES_FOR_A_FILE):
        seeded(f"file random {i}", random_file_cases)
    return made
