"""Makes refusals due, one or several at once, in what a call is lent.

Every argument of a call but a limit or a least can be spoilt in its own way, and
so can the state's words, the sum of counts and what a network's cells say. Of several refusals the
paper's sequence names the one that is answered, so each pair and each three of
them are worth a call.
"""

import itertools

from calls import library
from calls.lent import cell_swaps, lending, moves, row_logs
from calls.library import Call
from making import diagrams, network_files, networks, table_files, tables
from paper import network_file

# Not arguments: the state's words break a rule, or hold no table or network; a
# file's cells break a rule of number 24; cells that are not section 4's network; the
# records are too many; the board is too small for what a swap in the cells leaves.
WORDS, BREACH, NEAR, RECORDS, BOARD = "words", "breach", "near", "records", "board"
# Numbers that are never refused.
ANY_NUMBER = ("limit", "least")
# What is spoilt first: the cells' content before its length, and that before the file.
FIRST = (NEAR, BOARD, BREACH, "cells")
# How many refusals are due at once, at most.
AT_ONCE = 3


def kinds_of(name):
    """What can be spoilt in a call; load takes any state, and that too is tried."""
    arguments = [each for each in library.arguments_of(name) if each not in ANY_NUMBER]
    more = {
        "write_cells": [NEAR], "read_cells": [NEAR, BREACH], "log_rows": [RECORDS],
        "swap_cells": [NEAR, BOARD],
    }
    return arguments + [WORDS] + more.get(name, [])


def damaged_file(rng, file):
    """One or two damages to a table file or a network file."""
    kind = network_files if file[0] == network_files.HEADING_KIND else table_files
    return table_files.damaged(file, table_files.some_damages(rng, kind.all_damages(file)))


def spoil_words(rng, call):
    """Where a network is wanted a table alone is too little as well."""
    words = call.lent.contents["state"]
    if call.name in lending.HOLDERS and rng.random() < 0.3:
        words[library.STAGE] = 1
    else:
        lending.broken_state(rng, words)


def held_network(lent):
    """The counted cells and the first m roots, where the state is sound."""
    words = lent.contents["state"]
    n, m, count = words[library.N], words[library.M], words[library.COUNT]
    numbers, order = lent.contents["cells"], list(words[library.ORDER][:n])
    cells = [tuple(numbers[3 * i : 3 * i + 3]) for i in range(count)]
    return network_files.Network(n, m, order, cells, list(lent.contents["roots"][:m]))


def break_lent_diagram(rng, lent):
    held = held_network(lent)
    diagrams.break_diagram(rng, held.n, held.m, held.cells, held.roots)
    lending.lend_diagram(lent, held.cells, held.roots)


def break_filed_diagram(rng, lent):
    """The same in the lent file, which is sound so far."""
    filed = network_files.network_in(bytes(lent.part("file")))
    diagrams.break_diagram(rng, filed.n, filed.m, filed.cells, filed.roots)
    lending.lend_file(rng, lent, network_files.network_file(filed))


def spoil_network(rng, call):
    """A near network in the lent cells or in the lent file; without inputs there is none."""
    lent = call.lent
    filed = call.name == "read_cells"
    sound = network_files.network_in(bytes(lent.part("file"))) if filed else held_network(lent)
    near = networks.some_near(rng, sound)
    if near and filed:
        lending.lend_file(rng, lent, network_files.network_file(near))
    elif near:
        lending.lend_diagram(lent, near.cells, near.roots[: near.m])


def lend_too_few_cells(rng, lent):
    """Fewer cells than the count, by their length or by the count."""
    words = lent.contents["state"]
    if words[library.COUNT] and rng.random() < 0.5:
        lent.lengths["cells"] = 3 * words[library.COUNT] - rng.choice((1, 1, 2, 3))
    else:
        one_more = lent.lengths["cells"] // 3 + 1
        words[library.COUNT] = rng.choice((one_more, 2**63, (2**64 + 2) // 3, lending.HUGE))


def cells_wanted(call):
    """What 23 goes by: a build's network, or the file's count."""
    if call.name == "build":
        return lending.cost_of(call.lent)
    return network_files.count_in(call.lent.part("file"))


def spoil_cells(rng, call):
    """A board too small; or cells too few, or with a breach."""
    if call.name in ("build", "read_cells"):
        wanted = 3 * cells_wanted(call)
        call.lent.lengths["cells"] = max(0, wanted - rng.choice((1, 2, 3, wanted)))
    elif rng.random() < 0.7:
        break_lent_diagram(rng, call.lent)
    else:
        lend_too_few_cells(rng, call.lent)


def some_rows(rng, lent):
    """An empty list has no row to spoil, and any answers are enough for it."""
    if lent.lengths["rows"] == 0:
        lending.lend_rows(rng, lent, [0])


def spoil_rows(rng, lent):
    some_rows(rng, lent)
    n = lent.contents["state"][library.N]
    lending.put_row_beyond(rng, lent.contents["rows"], lent.lengths["rows"], n)


def spoil_answers(rng, lent):
    """Fewer answers than rows, mostly by one."""
    some_rows(rng, lent)
    rows = lent.lengths["rows"]
    lent.lengths["answers"] = rng.choice((0, rows - 1, rows - 1, rng.randrange(rows)))


def spoil_file(rng, call):
    """Damages to a file that is read; a file buffer too short to be written."""
    lent = call.lent
    if call.name == "write_cells":
        lent.lengths["file"] = lending.short_length(rng, network_file.FILE_BYTES)
    else:
        lending.lend_file(rng, lent, damaged_file(rng, bytes(lent.part("file"))))


SPOIL_CALL = {
    WORDS: spoil_words, NEAR: spoil_network, "cells": spoil_cells, "file": spoil_file,
    BOARD: cell_swaps.spoil_board,
}
SPOIL_LENT = {
    BREACH: break_filed_diagram, "rows": spoil_rows, "answers": spoil_answers,
    "counts": row_logs.spoil_counts, RECORDS: row_logs.spoil_records, "gains": moves.spoil_gains,
}


def spoil(rng, call, kind):
    """The call with one refusal more, or now and then with none more."""
    lent = call.lent
    if kind in SPOIL_CALL:
        SPOIL_CALL[kind](rng, call)
    elif kind in SPOIL_LENT:
        SPOIL_LENT[kind](rng, lent)
    elif kind in library.NUMBERS:
        n = lent.contents["state"][library.N]
        call.numbers[kind] = lending.beyond(rng, lending.first_beyond(kind, n))
    else:
        lent.lengths[kind] = lending.short_length(rng, lending.SIZES[kind])


def turn_of(kind):
    """The words last: the others go by a sound state."""
    return FIRST.index(kind) if kind in FIRST else len(FIRST) + (kind == WORDS)


def spoil_all(rng, call, kinds):
    for kind in sorted(kinds, key=turn_of):
        spoil(rng, call, kind)


def near_call(rng, name, lent, n, note):
    """The call, asked for numbers, rows and lists that are mostly not refused."""
    if name == "log_rows":
        return row_logs.call_near(rng, lent, note)
    if name == "moves":
        return moves.call_near(rng, lent, note)
    if name == "evaluate_rows":
        lending.lend_rows_near(rng, lent, n)
    return Call(name, lending.numbers_near(rng, name, n), lent, note)


def sound_call(rng, name, n, m):
    """No refusal due but, now and then, for the number, one of the rows, the records or
    a list that is too short."""
    lent = lending.lent_for(rng, n, m)
    if name == "load":
        lending.lend_file(rng, lent, tables.random_table(rng, n, m))
    if name in lending.EVALUATIONS:
        lending.lend_diagram(lent, *diagrams.random_diagram(rng, n, m))
    if name == "write_cells":
        lending.lend_diagram(lent, *lending.network_of(lent))
        lending.lend_file_space(rng, lent)
    if name == "swap_cells":
        cell_swaps.lend_network(rng, lent)
    if name == "read_cells":
        network = networks.of_table(tables.random_table(rng, n, m))
        lending.lend_file(rng, lent, network_files.network_file(network))
    return near_call(rng, name, lent, n, "one call")


def refused_at_once(rng, name):
    """Every choice of up to three refusals of one call, each at a start of its own."""
    kinds = kinds_of(name)
    for size in range(1, AT_ONCE + 1):
        for chosen in itertools.combinations(kinds, size):
            call = sound_call(rng, name, rng.randint(1, 5), rng.randint(1, 4))
            spoil_all(rng, call, chosen)
            yield call._replace(note="spoilt: " + ", ".join(chosen))
