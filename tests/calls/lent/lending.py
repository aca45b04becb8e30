"""Makes what a call is lent: state words, tables, buffers, numbers and lengths.

All is random and dirty. `lent_for` gives a sound start for any call, with no
refusal due; the functions named `broken_..`, `short_..` and `beyond` spoil it.
"""

import array

from calls import library
from making import fill_tables, network_files, table_files, tables
from paper import network_file, reference

HUGE = 2**64 - 1
MOST_ORDERS = 2**32 - 1

# The last row that a list can hold, of 16 bits.
MOST_ROW = 65535
# The calls that evaluate a network which the state holds, and all that take one.
EVALUATIONS = ("evaluate", "evaluate_rows")
HOLDERS = EVALUATIONS + ("write_cells", "swap_cells")

# Section 2's sizes; cells, files and lists of rows have none of their own.
SIZES = {
    "state": library.STATE_WORDS, "values": reference.TABLE_BYTES,
    "care": reference.TABLE_BYTES, "work": reference.WORK_BYTES,
    "roots": reference.ROOTS,
}
# Elements beyond section 2's sizes, so that more can be lent and still be watched.
SPARE = 12
# Boards in numbers, three a cell: for small tables, and for any.
SMALL_BOARD = 3 * 200
LARGEST_BOARD = 3 * 2159


def dirty(rng, name, length):
    """Random elements of a buffer's type."""
    code = library.TYPES[library.SLICES[name]][1]
    content = array.array(code)
    content.frombytes(rng.randbytes(length * content.itemsize))
    return library.new_buffer(name, content)


# States.


def inputs_of(lent):
    """The state's n; in a chain the words may hold any number."""
    return min(lent.contents["state"][library.N], reference.ORDER_ENTRIES)


def tail_of_order(rng, n):
    """Entries past n, which no call may use: plain, repeated or wild."""
    length = reference.ORDER_ENTRIES - n
    return rng.choice((
        [0] * length,
        list(range(n, n + length)),
        [rng.randrange(n + 1) for _ in range(length)],
        [rng.choice((HUGE, 10, 2**32, rng.getrandbits(64))) for _ in range(length)],
    ))


def forged_count(rng):
    return rng.choice((0, 1, rng.randrange(40), 2**32, 2**63, (2**64 + 2) // 3, HUGE))


def write_sound_state(rng, words, n, m):
    """A state at table or network, with any count: only evaluation reads it."""
    order = list(range(n))
    rng.shuffle(order)
    words[library.N], words[library.M] = n, m
    words[library.ORDER] = array.array(words.typecode, order + tail_of_order(rng, n))
    words[library.STAGE] = rng.choice((1, 2))
    words[library.COUNT] = rng.choice((0, forged_count(rng)))


def broken_sizes(words):
    """Words that break the heading's rules for n and m, some right in fewer bits."""
    n, m = words[library.N], words[library.M]
    broken = [(library.N, wrong) for wrong in (11, 256 + n, 2**32 + n, 2**63, HUGE)]
    broken += [(library.M, wrong) for wrong in (0, 17, 256 + m, 2**32 + m, HUGE)]
    return broken


def broken_orders(rng, words):
    n, first = words[library.N], library.ORDER.start
    if n == 0 or n > reference.ORDER_ENTRIES:
        return []
    at = rng.randrange(n)
    entry = words[first + at]
    broken = [(first + at, wrong) for wrong in (n, 256 + entry, 2**32 + entry, HUGE)]
    if n > 1:
        other = rng.choice([place for place in range(n) if place != at])
        broken.append((first + at, words[first + other]))
    return broken


def broken_stages(words):
    stage = words[library.STAGE]
    return [(library.STAGE, wrong) for wrong in (0, 3, 256 + stage, 2**32 + stage, HUGE)]


def broken_state(rng, words):
    """One word changed so that the state counts as nothing."""
    kinds = [broken_sizes(words), broken_stages(words), broken_orders(rng, words)]
    at, wrong = rng.choice(rng.choice([kind for kind in kinds if kind]))
    # In a chain the state may be broken before, by a number that is large already.
    words[at] = wrong % 2**64


# Buffers.


def random_planes(rng, n, m):
    """The stream's bytes of values and of care."""
    if rng.random() < 0.2:
        length = (m * 2**n + 7) // 8
        return rng.randbytes(length), rng.randbytes(length)
    values = rng.choice((tables.coin_bits, tables.pooled_bits, tables.formula_bits))(rng, n, m)
    return table_files.packed(values), table_files.packed(tables.care_bits(rng, n, m))


def put_planes(lent, values, care):
    """A table's bytes; the rest of the buffers stays as dirty as it is."""
    lent.contents["values"][: len(values)] = values
    lent.contents["care"][: len(care)] = care


def write_planes(rng, lent, n, m):
    put_planes(lent, *random_planes(rng, n, m))


def write_outputs(rng, lent, outputs):
    """Outputs with their rows by the places of the order that the state has."""
    order = reference.used_order(library.state_from(lent.contents["state"]))
    streams = fill_tables.streams(rng, outputs, order)
    put_planes(lent, *(table_files.packed(bits) for bits in streams))


def lengthen(rng, lent):
    """Every buffer as long as section 2 says, or longer."""
    for name, size in SIZES.items():
        lent.lengths[name] = size + rng.choice((0, 0, 0, 1, rng.randrange(SPARE)))


def short_length(rng, size):
    return rng.choice((0, size - 1, size - 1, rng.randrange(size)))


def lend_file(rng, lent, file):
    """The file, and behind it bytes that are not lent."""
    lent.put("file", file + rng.randbytes(rng.choice((1, 7, 512))), len(file))


def lend_file_space(rng, lent, length=network_file.FILE_BYTES):
    """A dirty file buffer, to be written."""
    lent.put("file", dirty(rng, "file", length + SPARE), length)


def lend_written(lent):
    """Of the file buffer just what a network was written to, to be read."""
    file = lent.contents["file"]
    blocks = network_file.blocks_for(network_files.count_in(file))
    lent.lengths["file"] = min(network_files.BLOCK * blocks, len(file) - 1)


def lend_rows(rng, lent, rows, more=0):
    """The rows, and dirty answers: so many more than rows, or with -1 one fewer."""
    behind = dirty(rng, "rows", SPARE)
    lent.put("rows", library.new_buffer("rows", rows) + behind, len(rows))
    answers = len(rows) + more
    lent.put("answers", dirty(rng, "answers", max(answers, len(rows)) + SPARE), answers)


def lend_diagram(lent, cells, roots):
    """The diagram in the dirty buffers, counted and held by the state."""
    numbers = [number for cell in cells for number in cell]
    lent.contents["cells"][: len(numbers)] = library.new_buffer("cells", numbers)
    lent.contents["roots"][: len(roots)] = library.new_buffer("roots", roots)
    lent.contents["state"][library.COUNT] = len(cells)
    lent.contents["state"][library.STAGE] = 2


def network_of(lent):
    """The network of the lent table in the state's order, where the state is sound."""
    state = library.state_from(lent.contents["state"])
    table = reference.lent_table(state, lent.contents["values"], lent.contents["care"])
    return reference.network(table, tuple(reference.used_order(state)))


def lent_for(rng, n, m, cells=SMALL_BOARD):
    """A sound state and dirty buffers; a file and a list of rows are lent apart."""
    lent = library.Lent()
    for name, size in SIZES.items():
        lent.put(name, dirty(rng, name, size + SPARE), size)
    if rng.random() < 0.2:
        lent.contents["work"] = bytearray(reference.WORK_BYTES + SPARE)
    lent.put("cells", dirty(rng, "cells", cells + SPARE), cells)
    write_sound_state(rng, lent.contents["state"], n, m)
    write_planes(rng, lent, n, m)
    lengthen(rng, lent)
    return lent


def cost_of(lent):
    """The cells that a build wants."""
    return len(network_of(lent)[0])


def board_near(rng, count):
    """A length for the cells: at the count, at its ends, or with a ragged end."""
    board = rng.choice((count, count, count + 1, count - 1, count - 1, 0, rng.randrange(count + 3)))
    return 3 * max(board, 0) + rng.randrange(3)


# Numbers.


def first_beyond(argument, n):
    """The smallest number that is refused; a swap needs a place below it too."""
    return {"row": 2**n, "place": max(n - 1, 0), "input": n}[argument]


def inside(rng, limit):
    return rng.choice((0, limit - 1, rng.randrange(limit), rng.randrange(limit)))


def beyond(rng, limit):
    """From the limit to the largest, some of them inside in fewer bits."""
    low = rng.randrange(limit) if limit else 0
    further = (limit, limit + 1, 2**16 + low, 2**32 + low, 2**63 + low, HUGE - 1, HUGE)
    return rng.choice((limit, rng.choice(further)))


def limit_near(rng, n):
    trials = n * rng.randint(0, n + 1)
    limits = (0, trials - 1, trials, trials, trials + 1, 2**31, MOST_ORDERS - n, MOST_ORDERS)
    return max(0, rng.choice(limits))


def number_near(rng, argument, n):
    """Mostly one that is not refused."""
    if argument == "limit":
        return limit_near(rng, n)
    limit = first_beyond(argument, n)
    if limit and rng.random() < 0.85:
        return inside(rng, limit)
    return beyond(rng, limit)


def numbers_near(rng, name, n):
    arguments = [each for each in library.arguments_of(name) if each in library.NUMBERS]
    return {argument: number_near(rng, argument, n) for argument in arguments}


# Lists of rows.


def rows_inside(rng, n):
    """No row beyond: none, few, the same again and again, or all in any sequence."""
    limit = 2**n
    few = [inside(rng, limit) for _ in range(rng.randint(1, 9))]
    all_rows = rng.sample(range(limit), limit)
    return rng.choice(([], few, few, few[:1] * rng.randint(2, 40), all_rows, all_rows + few))


def row_beyond(rng, n):
    """From the limit to the largest of 16 bits, some of them inside in fewer."""
    limit = 2**n
    low = rng.randrange(limit)
    further = (limit + 1, 2**10 + low, 2**15 + low, MOST_ROW, rng.randint(limit, MOST_ROW))
    return rng.choice((limit, rng.choice(further)))


def put_row_beyond(rng, rows, length, n):
    """At the first, a middle or the last position of what is lent."""
    rows[rng.choice((0, length // 2, length - 1))] = row_beyond(rng, n)


def lend_rows_near(rng, lent, n):
    """Mostly a list that is not refused, with answers enough."""
    rows = rows_inside(rng, n)
    if rows and rng.random() < 0.15:
        put_row_beyond(rng, rows, len(rows), n)
    lend_rows(rng, lent, rows, rng.choice((0, 0, 1, rng.randrange(SPARE))))
