"""The random cases: a file through a random script, and tables of the largest size."""

from calls import by_reference
from cases.case import LARGEST, for_all, list_of
from making import table_files, tables
from programs.expected import MOST_CELLS

WHOLE_BOARD = f"board {MOST_CELLS}"

# How many of a hundred random tables have n inputs, n from 0.
SHARES = (4, 6, 12, 20, 24, 14, 9, 6, 3, 1, 1)


# Numbers and lists.


def number_near(rng, n):
    """Mostly a place or input that exists; sometimes one just past, or far."""
    if n and rng.random() < 0.85:
        return rng.randrange(n)
    return rng.choice((n, n + 1, 255, 256, 65536, LARGEST))


def limit_near(rng, n):
    limits = (0, n - 1, n, n + 1, 2 * n - 1, 2 * n, n * n - 1, n * n, n * n + 1, LARGEST)
    return max(0, rng.choice(limits))


def row_near(rng, n):
    rows = 1 << n
    below = (rng.randrange(rows), rng.randrange(rows), rng.randrange(rows), 0, rows - 1)
    return rng.choice(below + (rows, rows + 1, 65536, LARGEST))


def rows_near(rng, n):
    """Few rows or all of them in any sequence, now and then with one out of range."""
    few = [rng.randrange(1 << n) for _ in range(rng.randint(1, 12))]
    rows = rng.choice((few, few, rng.sample(range(1 << n), 1 << n)))
    if rng.random() < 0.2:
        rows[rng.choice((0, len(rows) // 2, -1))] = rng.choice((1 << n, (1 << n) + 1, 65535))
    return list_of(rows)


def least_near(rng):
    """Mostly what some rows of a few lists reach."""
    return rng.choice((0, 1, 1, 1, 2, 2, 3, 5, 65536, LARGEST))


# Steps.


def build_near(rng, file, before):
    """A build on a board at, just below or just above the count, or at an end."""
    count = by_reference.answer_after(file, f"{before} count")
    board = rng.choice((count - 1, count - 1, count, count, count + 1, 0, MOST_CELLS))
    return f"board {min(max(board, 0), MOST_CELLS)} build"


def boards_around(counts):
    """Boards just below, at and just above each of some counts."""
    near = {count + more for count in counts for more in (-1, 0, 1)}
    return sorted(board for board in near if 0 <= board <= MOST_CELLS)


def cell_swap_near(rng, file, before):
    """A swap in the cells, mostly of a network just built, on the board as it is or on
    one around the cells held and wanted."""
    asked = f"swapcells {number_near(rng, max(file[4] - 1, 0))}"
    first = rng.choice(("", f"{WHOLE_BOARD} build", f"{WHOLE_BOARD} build"))
    if rng.random() < 0.5:
        held = by_reference.held_after(file, f"{before} {first}")
        wanted = by_reference.held_after(file, f"{before} {first} {WHOLE_BOARD} {asked}")
        first += f" board {rng.choice(boards_around((held, wanted)))}"
    return f"{first} {asked}"


def random_step(rng, file, before, sifting):
    """The words of one step, after those before it."""
    n = file[4]
    kinds = ["board", "swap", "eval", "evals", "count", "build", "write", "log", "relog"]
    kinds += ["swapcells", "swapcells"]
    kinds += ["sift", "sift", "pass", "pass", "moves"] if sifting else []
    kind = rng.choice(kinds)
    if kind == "board":
        return build_near(rng, file, before)
    if kind == "swapcells":
        return cell_swap_near(rng, file, before)
    if kind == "eval":
        return f"eval {row_near(rng, n)} eval {row_near(rng, n)}"
    if kind == "evals":
        return f"evals {rows_near(rng, n)}"
    if kind in ("log", "relog"):
        listed = rows_near(rng, n) if kind == "log" else ""
        return f"least {least_near(rng)} {kind} {listed} cared"
    if kind == "build":
        return f"{WHOLE_BOARD} build cared"
    if kind in ("count", "moves", "write"):
        return kind
    return f"{kind} {limit_near(rng, n) if kind == 'pass' else number_near(rng, n)}"


def random_script(rng, file, step_count, sifting):
    command = "cared"
    for _ in range(step_count):
        command += " " + random_step(rng, file, command, sifting)
    last = f"{WHOLE_BOARD} build" if rng.random() < 0.8 else ""
    return f"{command} {last} rows write"


# Cases.


def random_cases(rng):
    """A table; the larger it is, the less is asked."""
    n = rng.choices(range(11), SHARES)[0]
    m = rng.choice((1, 1, 2, 2, 3, 4, rng.randint(1, 16)))
    if n >= 8:
        m = min(m, 6)
    table = tables.random_table(rng, n, m)
    step_count = rng.randint(2, 9) if n <= 6 else 3
    return [for_all(table, random_script(rng, table, step_count, sifting=n <= 6))]


def large_cases(rng, density):
    """The largest size, at one density, in an order of its own."""
    n, m = 10, 16
    values = rng.choice((tables.coin_bits, tables.pooled_bits))(rng, n, m)
    care = [int(rng.random() < density) for _ in range(m << n)]
    table = table_files.table_file(n, m, tables.random_order(rng, n), values, care)
    command = f"{build_near(rng, table, '')} swap {rng.randrange(n - 1)}"
    command += f" {build_near(rng, table, command)} {WHOLE_BOARD} build"
    command += f" eval 1023 eval 1024 eval {rng.randrange(1024)} write"
    command += f" swapcells {rng.randrange(n - 1)}"
    command += " rows" if density < 0.3 else ""
    command += f" sift {rng.randrange(n)}" if density < 0.1 else ""
    return [for_all(table, command)]
