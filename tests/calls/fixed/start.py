"""What the fixed calls start from: section 9's table of four cells.

Input 0 and 1, or 2 and 3. Its state, lengths, table and diagram are named here
once; a fixed case changes one thing or two of them.
"""

from collections import namedtuple

from calls import library
from calls.lent import lending, moves, row_logs
from calls.library import Call
from making import network_files, table_files, tables

# No place and no reference of the diagrams here.
NONE = 65535
NATURAL = tuple(range(10))

Held = namedtuple("Held", "n m order count stage", defaults=(4, 1, NATURAL, 4, 2))
Lengths = namedtuple("Lengths", "state values care work roots cells")
# What the calls of one set are asked.
Asked = namedtuple("Asked", "place input limit row least")

# The first two bytes of values, and of care.
TWO_ANDS = bytes([0x88, 0xF8]), bytes([0xFF, 0xFF])
FREE_ROWS = bytes([0x69, 0xD2]), bytes([0xBD, 0x7E])
PARITY = bytes([0x96, 0x69]), bytes([0xFF, 0xFF])
CONSTANTS = bytes([0x00, 0xFF]), bytes([0xFF, 0x00])

WHOLE = Lengths(40, 2048, 2048, 32768, 16, 24)
INSIDE = Asked(place=1, input=2, limit=8, row=14, least=1)
OUTSIDE = Asked(place=3, input=4, limit=0, row=16, least=0)

FOUR_CELLS = [(0, 6, 4), (1, 6, 1), (2, 0, 8), (3, 0, 1)]
FOUR_CELLS_NUMBERS = [number for cell in FOUR_CELLS for number in cell]
FOUR_CELLS_NETWORK = network_files.Network(4, 1, [2, 0, 3, 1], FOUR_CELLS, [2] + [0] * 15)


def sound_file():
    return table_files.table_file(4, 1, [2, 0, 3, 1], tables.bits_of(0xF888, 16), [1] * 16)


def write_held(words, held):
    words[library.N], words[library.M] = held.n, held.m
    words[library.COUNT], words[library.STAGE] = held.count, held.stage
    words[library.ORDER] = library.new_buffer("state", held.order)


def lent_with(rng, held, lengths=WHOLE, table=TWO_ANDS):
    """The state, the table and the four cells, and everything else dirty."""
    lent = library.Lent()
    for name, length in lengths._asdict().items():
        longest = max(length, getattr(WHOLE, name)) + lending.SPARE
        lent.put(name, lending.dirty(rng, name, longest), length)
    write_held(lent.contents["state"], held)
    lent.contents["values"][:2], lent.contents["care"][:2] = table
    lent.contents["cells"][:12] = library.new_buffer("cells", FOUR_CELLS_NUMBERS)
    lent.contents["roots"][0] = 2
    lending.lend_file(rng, lent, sound_file())
    return lent


def asked_of(name, asked):
    """Of what a set is asked, the numbers that this call takes."""
    arguments = library.arguments_of(name)
    return {key: number for key, number in asked._asdict().items() if key in arguments}


def one(rng, name, note, held, lengths=WHOLE, asked=INSIDE, table=TWO_ANDS):
    lent = lent_with(rng, held, lengths, table)
    lending.lend_rows(rng, lent, [0, asked.row, 1], more=2)
    row_logs.lend_counts(rng, lent, [row % 3 for row in range(2 ** lending.inputs_of(lent))])
    moves.lend_gains(rng, lent, moves.entries(lent) + 2)
    if name == "read_cells":
        lending.lend_file(rng, lent, network_files.network_file(FOUR_CELLS_NETWORK))
    if name == "write_cells":
        lending.lend_file_space(rng, lent)
    return Call(name, asked_of(name, asked), lent, note)


def every(rng, note, held, lengths=WHOLE, asked=INSIDE, table=TWO_ANDS):
    """Each call on the same."""
    return [one(rng, name, note, held, lengths, asked, table) for name in library.CALLS]
