"""The paper's sections 1 to 7, and document 02's 2.1, 2.3 and 2.6, written once
more, as plainly as possible.

This is the other implementation that the programs are compared with. It is
made from the papers alone and shares nothing with the crates. Rows are lists,
the network is read off the segments of the filled table, and nothing is packed
or shared between steps.

Every call answers (number, value). Buffers are mutable sequences of numbers:
values, care and work hold bytes; roots, cells, rows and answers hold 16-bit
numbers. Document 02's 2.2 is in network_file.py, its 2.4 in row_log.py, its 2.7
in cell_swap.py, its 2.8 in moves.py, its 2.10 in same_cells.py.
"""

from collections import namedtuple
from functools import lru_cache

BLOCK_BYTES = 512
BLOCK_BITS = 4048
CHECK_MODULUS = 65521
TABLE_BYTES = 2048
WORK_BYTES = 32768
ROOTS = 16
ORDER_ENTRIES = 10

NOTHING, TABLE, NETWORK = "nothing", "table", "network"

# Document 02's 2.6. False is section 3 as it stood before, for the test that fills
# fully cared tables both ways.
HALVES_FIRST = True

# A lent table without its order: what a fill under any order starts from.
Table = namedtuple("Table", "n m values care")


class State:
    """Section 2: n, m, the order (place p holds order[p]), count and stage."""

    def __init__(self):
        self.n = 0
        self.m = 0
        self.order = [0] * ORDER_ENTRIES
        self.count = 0
        self.stage = NOTHING


def used_order(state):
    """The order without the entries past n, which no call ever uses."""
    return list(state.order[: state.n])


def is_order(order, n):
    return sorted(order) == list(range(n))


def stage_of(state):
    """A state whose n, m or order breaks the heading's rules is at nothing."""
    if state.n > 10 or state.m < 1 or state.m > 16:
        return NOTHING
    if not is_order(used_order(state), state.n):
        return NOTHING
    return state.stage


# Section 1: the table file.


def check_of(block):
    return sum((i + 1) * block[i] for i in range(510)) % CHECK_MODULUS


def stored_check(block):
    return block[510] + 256 * block[511]


def stream_bits(content, length):
    """The first `length` bits of a stream, lowest bit of each byte first."""
    return [content[i // 8] >> (i % 8) & 1 for i in range(length)]


def blocks_per_stream(n, m):
    return (m * 2**n + BLOCK_BITS - 1) // BLOCK_BITS


def frame_refusal(block, kind, number):
    """Numbers 2 and 3; a check is compared as stored, not modulo anything."""
    if check_of(block) != stored_check(block):
        return 2
    if block[0] != kind or block[1] != 0:
        return 3
    if block[2] + 256 * block[3] != number:
        return 3
    return 0


def heading_refusal(block, kind, unused):
    """Block 0's numbers; `unused` gives what n and m leave unused of its content."""
    refusal = frame_refusal(block, kind, 0)
    if refusal:
        return refusal
    n, m = block[4], block[5]
    if n > 10:
        return 4
    if m == 0 or m > 16:
        return 5
    if not is_order(list(block[6 : 6 + n]), n):
        return 6
    if any(unused(block)):
        return 7
    return 0


def unused_in_heading(block):
    return block[6 + block[4] : 510]


def stream_block_refusal(block, number, n, m):
    """Numbers 2, 3 and 7 for a block of values or care."""
    per_stream = blocks_per_stream(n, m)
    kind = 2 if number <= per_stream else 3
    refusal = frame_refusal(block, kind, number)
    if refusal:
        return refusal
    blocks_before = (number - 1) % per_stream
    used_here = min(BLOCK_BITS, m * 2**n - BLOCK_BITS * blocks_before)
    bits = stream_bits(block[4:510], BLOCK_BITS)
    # By the bit: the last byte in use may have unused bits of its own.
    if any(bits[used_here:]):
        return 7
    return 0


def file_refusal(file):
    """Section 6: load's checks of the file, in the paper's sequence."""
    if len(file) == 0 or len(file) % BLOCK_BYTES != 0:
        return 1
    blocks = [file[at : at + BLOCK_BYTES] for at in range(0, len(file), BLOCK_BYTES)]
    refusal = heading_refusal(blocks[0], 1, unused_in_heading)
    if refusal:
        return refusal
    n, m = blocks[0][4], blocks[0][5]
    if len(blocks) != 1 + 2 * blocks_per_stream(n, m):
        return 1
    for number in range(1, len(blocks)):
        refusal = stream_block_refusal(blocks[number], number, n, m)
        if refusal:
            return refusal
    return 0


def write_stream(buffer, content):
    """Stream bytes from byte 0, and zero for the rest of the 2,048."""
    buffer[:TABLE_BYTES] = content.ljust(TABLE_BYTES, b"\0")


def load(state, file, values, care):
    if len(values) < TABLE_BYTES or len(care) < TABLE_BYTES:
        return 10, 0
    refusal = file_refusal(file)
    if refusal:
        return refusal, 0
    state.n, state.m = file[4], file[5]
    state.order = list(file[6 : 6 + state.n]) + [0] * (ORDER_ENTRIES - state.n)
    state.count = 0
    state.stage = TABLE
    contents = [file[at + 4 : at + 510] for at in range(0, len(file), BLOCK_BYTES)]
    per_stream = blocks_per_stream(state.n, state.m)
    stream_bytes = (state.m * 2**state.n + 7) // 8
    write_stream(values, b"".join(contents[1 : 1 + per_stream])[:stream_bytes])
    write_stream(care, b"".join(contents[1 + per_stream :])[:stream_bytes])
    return 0, 0


# Section 3: filling. A segment is a list of (value, care) pairs, a row each.


def row_in_file(row, order):
    """The file's row number of a row whose top place is the highest bit."""
    n = len(order)
    found = 0
    for place in range(n):
        bit = row >> (n - 1 - place) & 1
        # In a row number of the file, input 0 is the most significant bit.
        found += bit * 2 ** (n - 1 - order[place])
    return found


def reordered(table, order):
    """Each output as a segment with the top place as the highest row bit."""
    rows = 2**table.n
    values = stream_bits(table.values, table.m * rows)
    care = stream_bits(table.care, table.m * rows)
    sequence = [row_in_file(row, order) for row in range(rows)]
    return [
        [(values[j * rows + row], care[j * rows + row]) for row in sequence]
        for j in range(table.m)
    ]


def is_constant(segment, constant):
    for value, care in segment:
        if care and value != constant:
            return False
    return True


def agree(compared, entry):
    for (f, c), (g, d) in zip(compared, entry):
        if c and d and f != g:
            return False
    return True


def merged(compared, entry):
    return [(f if c else g, c or d) for (f, c), (g, d) in zip(compared, entry)]


def link_of(candidate, entries):
    """The first of section 3's rules that holds; it may change `entries`.

    A link is ("constant", bit) or ("entry", index, inverted).
    """
    for constant in (0, 1):
        if is_constant(candidate, constant):
            return "constant", constant
    inverse = [(1 - value, care) for value, care in candidate]
    for index, entry in enumerate(entries):
        for inverted, compared in ((0, candidate), (1, inverse)):
            if agree(compared, entry):
                entries[index] = merged(compared, entry)
                return "entry", index, inverted
    entries.append(candidate)
    return "entry", len(entries) - 1, 0


def halves(segment):
    half = len(segment) // 2
    return segment[:half], segment[half:]


def links_of_halves(entry, entries):
    """A finished entry's two links into the next level, the 0-half's first.

    Document 02's 2.6: halves that 'agree wherever both are cared', plainly, are
    'a single candidate (1-half where cared, else 0-half; either cared), and both
    links follow it'. That comes before anything is asked of either half alone.
    """
    zero_half, one_half = halves(entry)
    if HALVES_FIRST and agree(one_half, zero_half):
        link = link_of(merged(one_half, zero_half), entries)
        return [link, link]
    return [link_of(zero_half, entries), link_of(one_half, entries)]


def links_by_level(outputs, n):
    """For each level its links: one of each output, below two of each entry."""
    entries = []
    levels = [[link_of(output, entries) for output in outputs]]
    for _ in range(n):
        # The halves are taken only now that the level's entries are finished.
        finished, entries = entries, []
        below = [links_of_halves(entry, entries) for entry in finished]
        levels.append([link for both in below for link in both])
    return levels


def read_back(levels, level, link):
    """The filled bits of the segment that a link of this level stands for."""
    if link[0] == "constant":
        return [link[1]] * 2 ** (len(levels) - 1 - level)
    _, index, inverted = link
    below = levels[level + 1]
    bits = read_back(levels, level + 1, below[2 * index])
    bits = bits + read_back(levels, level + 1, below[2 * index + 1])
    return [bit ^ inverted for bit in bits]


def filled(table, order):
    """The filled table: each output's bits, rows by the order's places."""
    levels = links_by_level(reordered(table, order), table.n)
    return [read_back(levels, 0, link) for link in levels[0]]


# Section 4: the network.


def class_member(function):
    """Of a function and its inverse, the one whose all-zero row is 0."""
    if function[0] == 1:
        return tuple(1 - bit for bit in function)
    return tuple(function)


def segments(output, level):
    """The output's bits cut where the top `level` places change."""
    size = len(output) // 2**level
    return [output[at : at + size] for at in range(0, len(output), size)]


def numbered_cells(outputs, n):
    """Every cell's function with its number: by place, then first segment."""
    numbers = {}
    for place in range(n):
        for output in outputs:
            for segment in segments(output, place):
                zero_half, one_half = halves(segment)
                function = class_member(segment)
                # Functions of different places differ in length.
                if zero_half != one_half and function not in numbers:
                    numbers[function] = len(numbers) + 1
    return numbers


def reference_to(function, numbers):
    if not any(function):
        return 0
    if all(function):
        return 1
    zero_half, one_half = halves(function)
    if zero_half == one_half:
        return reference_to(zero_half, numbers)
    return 2 * numbers[class_member(function)] + function[0]


def network_of(outputs, n):
    """Section 4's cells and roots of filled outputs, rows by the order's places."""
    numbers = numbered_cells(outputs, n)
    cells = []
    for function in numbers:
        zero_half, one_half = halves(function)
        place = n + 1 - len(function).bit_length()
        arrows = reference_to(zero_half, numbers), reference_to(one_half, numbers)
        cells.append((place,) + arrows)
    return cells, [reference_to(output, numbers) for output in outputs]


@lru_cache(maxsize=128)
def network(table, order):
    """The network of the table filled under the order.

    Remembered, since the same order is asked for again and again.
    """
    return network_of(filled(table, order), table.n)


@lru_cache(maxsize=128)
def whole_network(table, order):
    """The same of a table that is filled already, every row cared: it 'fills to itself'."""
    outputs = [[value for value, _ in output] for output in reordered(table, order)]
    return network_of(outputs, table.n)


def cost(table, order):
    """Section 5's cost: the cells for the table filled afresh."""
    return len(network(table, tuple(order))[0])


# The calls of section 2, with the refusals of sections 6 and 7.


def lent_table(state, values, care):
    """The lent bytes as found at the call, with the sizes that rule them."""
    return Table(state.n, state.m, bytes(values[:TABLE_BYTES]), bytes(care[:TABLE_BYTES]))


def table_buffers_short(values, care, work):
    short_table = len(values) < TABLE_BYTES or len(care) < TABLE_BYTES
    return short_table or len(work) < WORK_BYTES


def clear_work(work):
    work[:WORK_BYTES] = bytes(WORK_BYTES)


def count(state, values, care, work):
    if table_buffers_short(values, care, work):
        return 10, 0
    if stage_of(state) == NOTHING:
        return 21, 0
    clear_work(work)
    return 0, cost(lent_table(state, values, care), used_order(state))


def cared(state, care):
    """Section 8's number of cared bits in the stream, refused like the others."""
    if len(care) < TABLE_BYTES:
        return 10, 0
    if stage_of(state) == NOTHING:
        return 21, 0
    return 0, sum(stream_bits(care, state.m * 2**state.n))


def build(state, values, care, work, roots, cells):
    if table_buffers_short(values, care, work) or len(roots) < ROOTS:
        return 10, 0
    if stage_of(state) == NOTHING:
        return 21, 0
    table = lent_table(state, values, care)
    new_cells, new_roots = network(table, tuple(used_order(state)))
    clear_work(work)
    if len(new_cells) > len(cells) // 3:
        return 23, len(new_cells)
    for i, cell in enumerate(new_cells):
        cells[3 * i], cells[3 * i + 1], cells[3 * i + 2] = cell
    for j in range(ROOTS):
        roots[j] = new_roots[j] if j < state.m else 0
    state.count = len(new_cells)
    state.stage = NETWORK
    return 0, state.count


def is_reference(reference, state):
    return reference <= 2 * state.count + 1


def network_is_sound(state, roots, cells):
    """Whether number 24 is not due."""
    if len(cells) // 3 < state.count:
        return False
    places = [cells[3 * i] for i in range(state.count)]
    if any(place >= state.n for place in places):
        return False
    if not all(is_reference(root, state) for root in roots[: state.m]):
        return False
    for i, place in enumerate(places):
        for arrow in cells[3 * i + 1 : 3 * i + 3]:
            if not is_reference(arrow, state):
                return False
            if arrow > 1 and places[arrow // 2 - 1] <= place:
                return False
    return True


def followed(state, row, reference, cells):
    """What a row gives at a reference, under the state's order."""
    if reference <= 1:
        return reference
    cell = cells[3 * (reference // 2 - 1) : 3 * (reference // 2)]
    place, zero_arrow, one_arrow = cell
    bit = row >> (state.n - 1 - state.order[place]) & 1
    given = followed(state, row, one_arrow if bit else zero_arrow, cells)
    return given ^ (reference % 2)


def answer_at(state, row, roots, cells):
    """Follows the roots; bit j is output j."""
    answer = 0
    for j in range(state.m):
        answer += 2**j * followed(state, row, roots[j], cells)
    return answer


def evaluate(state, row, roots, cells):
    if len(roots) < ROOTS:
        return 10, 0
    if stage_of(state) != NETWORK:
        return 22, 0
    if row >= 2**state.n:
        return 8, 0
    if not network_is_sound(state, roots, cells):
        return 24, 0
    return 0, answer_at(state, row, roots, cells)


def evaluate_rows(state, rows, answers, roots, cells):
    """Document 02's 2.1: each answer equals evaluating that row alone."""
    if len(roots) < ROOTS:
        return 10, 0
    if len(answers) < len(rows):
        return 31, 0
    if stage_of(state) != NETWORK:
        return 22, 0
    if any(row >= 2**state.n for row in rows):
        return 8, 0
    if not network_is_sound(state, roots, cells):
        return 24, 0
    for i, row in enumerate(rows):
        answers[i] = answer_at(state, row, roots, cells)
    return 0, 0


def leave_table(state, order):
    """A new order for the used places; entries past n keep what they hold."""
    state.order[: state.n] = order
    state.count = 0
    state.stage = TABLE


def swap(state, place):
    if stage_of(state) == NOTHING:
        return 21, 0
    if place + 1 >= state.n:
        return 9, 0
    order = used_order(state)
    order[place], order[place + 1] = order[place + 1], order[place]
    leave_table(state, order)
    return 0, 0


# Section 5: sifting.


def trials(order, sifted_input):
    """The orders of one sift: every place in turn, the others in sequence."""
    others = [other for other in order if other != sifted_input]
    return [
        others[:place] + [sifted_input] + others[place:]
        for place in range(len(order))
    ]


def best_trial(table, order, sifted_input):
    """The order that a sift leaves, and its cells. Document 02, 2.3: 'When an
    input's present place is among the fewest, the sift keeps it; otherwise the
    smallest place wins.'
    """
    tried = trials(order, sifted_input)
    cells = [cost(table, trial) for trial in tried]
    fewest = [place for place in range(len(tried)) if cells[place] == min(cells)]
    present = order.index(sifted_input)
    place = present if present in fewest else fewest[0]
    return tried[place], cells[place]


def sift(state, sifted_input, values, care, work):
    if table_buffers_short(values, care, work):
        return 10, 0
    if stage_of(state) == NOTHING:
        return 21, 0
    if sifted_input >= state.n:
        return 9, 0
    table = lent_table(state, values, care)
    order, fewest = best_trial(table, used_order(state), sifted_input)
    leave_table(state, order)
    clear_work(work)
    return 0, fewest


def next_input(table, order, unsifted):
    """The unsifted input with most cells under the order, lowest on ties."""
    cells, _ = network(table, tuple(order))
    places = [cell[0] for cell in cells]
    best, most = None, None
    for candidate in sorted(unsifted):
        held = places.count(order.index(candidate))
        if best is None or held > most:
            best, most = candidate, held
    return best


def sift_pass(state, limit, values, care, work):
    if table_buffers_short(values, care, work):
        return 10, 0
    if stage_of(state) == NOTHING:
        return 21, 0
    table = lent_table(state, values, care)
    order = used_order(state)
    unsifted = list(range(state.n))
    tried = 0
    while unsifted and tried + state.n <= limit:
        chosen = next_input(table, order, unsifted)
        order, _ = best_trial(table, order, chosen)
        tried += len(trials(order, chosen))
        unsifted.remove(chosen)
    leave_table(state, order)
    clear_work(work)
    return 0, tried
