"""Makes table files, and damages them.

The layout is written here a second time, apart from the reference that reads
it, so that one slip cannot hide in both. A damaged file's checks are right
again afterwards unless the damage is to a check.
"""

import itertools
from collections import namedtuple

BLOCK = 512
CONTENT = slice(4, 510)
CONTENT_BYTES = 506
CONTENT_BITS = 8 * CONTENT_BYTES


def block_check(block):
    return sum(weight * byte for weight, byte in enumerate(block[:510], 1)) % 65521


def with_check(block):
    return bytes(block[:510]) + block_check(block).to_bytes(2, "little")


def make_block(kind, number, content):
    padded = bytes(content).ljust(CONTENT_BYTES, b"\0")
    return with_check(bytes([kind, 0]) + number.to_bytes(2, "little") + padded)


def packed(bits):
    """Bits as bytes, lowest bit of each byte first."""
    content = bytearray((len(bits) + 7) // 8)
    for i, bit in enumerate(bits):
        content[i // 8] |= bit << (i % 8)
    return bytes(content)


def table_file(n, m, order, values, care):
    """A file from bit lists of m x 2^n, output 0's rows first."""
    contents = []
    for bits in (values, care):
        stream = packed(bits)
        contents.append(
            [stream[at : at + CONTENT_BYTES] for at in range(0, len(stream), CONTENT_BYTES)]
        )
    blocks = [make_block(1, 0, bytes([n, m]) + bytes(order))]
    for kind, parts in zip((2, 3), contents):
        for part in parts:
            blocks.append(make_block(kind, len(blocks), part))
    return b"".join(blocks)


def inputs_in(rows):
    """How many inputs a drawn output has."""
    return len(rows.split()).bit_length() - 1


def streams_from_rows(rows_by_output):
    """Values and care from texts as the paper writes them: "0 1 1 -" with - free."""
    marks = [mark for rows in rows_by_output for mark in rows.split()]
    return [int(mark == "1") for mark in marks], [int(mark != "-") for mark in marks]


def table_from_rows(rows_by_output, order=None):
    """A file from such texts, in the natural order if no other is given."""
    n = inputs_in(rows_by_output[0])
    order = range(n) if order is None else order
    return table_file(n, len(rows_by_output), order, *streams_from_rows(rows_by_output))


def blocks_of(file):
    return [file[at : at + BLOCK] for at in range(0, len(file), BLOCK)]


def with_byte(file, number, at, byte):
    """One byte of a block replaced, and the block's check made right."""
    blocks = blocks_of(file)
    block = bytearray(blocks[number])
    block[at] = byte
    blocks[number] = with_check(block)
    return b"".join(blocks)


def with_bit(file, number, stream_bit):
    """One bit of a block's content set, and the block's check made right."""
    at = 4 + stream_bit // 8
    byte = file[number * BLOCK + at] | 1 << (stream_bit % 8)
    return with_byte(file, number, at, byte)


def with_stored_check(file, number, stored):
    end = (number + 1) * BLOCK
    return file[: end - 2] + stored.to_bytes(2, "little") + file[end:]


def check_at(file, number):
    end = (number + 1) * BLOCK
    return int.from_bytes(file[end - 2 : end], "little")


# Damages, for the sequence of the checks.
#
# `number` is the refusal it must meet alone. `rank` is the check's place in
# the paper's sequence, so of two damages the one of lower rank is answered.
# `turn` is when it is applied: checks are spoiled after the bytes they cover,
# and lengths change last.
Damage = namedtuple("Damage", "name number rank turn apply")

HEADING_RANK = {2: 1, 3: 2, 4: 3, 5: 4, 6: 5, 7: 6}
COUNT_RANK = 7
SIZE_TURN, BYTE_TURN, CHECK_TURN, LENGTH_TURN = range(4)


def rank_in(block, number):
    if block == 0:
        return HEADING_RANK[number]
    return COUNT_RANK + 3 * (block - 1) + {2: 1, 3: 2, 7: 3}[number]


def byte_damage(block, number, at, byte):
    name = f"block {block} byte {at} is {byte}"
    return Damage(
        name, number, rank_in(block, number), BYTE_TURN,
        lambda file: with_byte(file, block, at, byte),
    )


def bit_damage(block, stream_bit):
    name = f"block {block} content bit {stream_bit} is 1"
    return Damage(
        name, 7, rank_in(block, 7), BYTE_TURN,
        lambda file: with_bit(file, block, stream_bit),
    )


def check_damages(file, block):
    """A check off by one, and one that is right only modulo 65,521."""
    changes = [("off by one", lambda check: check ^ 1)]
    if check_at(file, block) + 65521 < 65536:
        changes.append(("65,521 more", lambda check: (check + 65521) % 65536))
    return [
        Damage(
            f"block {block} check {name}", 2, rank_in(block, 2), CHECK_TURN,
            lambda file, change=change: with_stored_check(
                file, block, change(check_at(file, block))
            ),
        )
        for name, change in changes
    ]


def frame_damages(file, block):
    """Kind, byte 1 and number: refusal 3, for any block."""
    kind = file[block * BLOCK]
    wrong_kinds = [wrong for wrong in (0, 1, 2, 3, 4, 5, 255) if wrong != kind]
    damages = [byte_damage(block, 3, 0, wrong) for wrong in wrong_kinds]
    damages.append(byte_damage(block, 3, 1, 1))
    damages.append(byte_damage(block, 3, 2, block + 1))
    damages.append(byte_damage(block, 3, 3, 1))
    return damages


def size_damages(file):
    """n, m and the order: refusals 4, 5 and 6, for any heading."""
    n = file[4]
    damages = [byte_damage(0, 4, 4, wrong) for wrong in (11, 255)]
    damages += [byte_damage(0, 5, 5, wrong) for wrong in (0, 17, 255)]
    if n > 0:
        damages.append(byte_damage(0, 6, 6, n))
    if n > 1:
        damages.append(byte_damage(0, 6, 5 + n, file[6]))
    return damages


def heading_damages(file):
    unused = [byte_damage(0, 7, 6 + file[4], 1), byte_damage(0, 7, 509, 128)]
    return size_damages(file) + unused


def unused_damages(file, block):
    """The first and last unused bit of a block, and the byte's last."""
    n, m = file[4], file[5]
    stream = m * 2**n
    per_stream = (stream + CONTENT_BITS - 1) // CONTENT_BITS
    used = stream - CONTENT_BITS * ((block - 1) % per_stream)
    if used >= CONTENT_BITS:
        return []
    places = {used, used // 8 * 8 + 7, CONTENT_BITS - 1}
    return [bit_damage(block, at) for at in sorted(places) if at >= used]


def length_damages(file):
    """Broken lengths, refused first, and wrong block counts."""
    last = file[-BLOCK:]
    damages = [
        Damage("empty", 1, 0, LENGTH_TURN, lambda file: b""),
        Damage("a byte short", 1, 0, LENGTH_TURN, lambda file: file[:-1]),
        Damage("a byte long", 1, 0, LENGTH_TURN, lambda file: file + b"\0"),
        Damage("last block twice", 1, COUNT_RANK, LENGTH_TURN, lambda file: file + last),
        Damage("a zero block more", 1, COUNT_RANK, LENGTH_TURN, lambda file: file + bytes(BLOCK)),
    ]
    if len(file) > BLOCK:
        damages += [
            Damage("a block short", 1, COUNT_RANK, LENGTH_TURN, lambda file: file[:-BLOCK]),
            Damage("heading alone", 1, COUNT_RANK, LENGTH_TURN, lambda file: file[:BLOCK]),
        ]
    return damages


def output_damages(file):
    """An m that wants other blocks."""
    other_sizes = [m for m in (1, 16) if block_count(file[4], m) * BLOCK != len(file)]
    return [
        Damage(
            f"m is {m}, for other blocks", 1, COUNT_RANK, SIZE_TURN,
            lambda file, m=m: with_byte(file, 0, 5, m),
        )
        for m in other_sizes
    ]


def block_count(n, m):
    return 1 + 2 * ((m * 2**n + CONTENT_BITS - 1) // CONTENT_BITS)


def all_damages(file):
    """Every damage worth a try to a sound file."""
    damages = length_damages(file) + output_damages(file) + heading_damages(file)
    for block in range(len(file) // BLOCK):
        damages += check_damages(file, block) + frame_damages(file, block)
        if block > 0:
            damages += unused_damages(file, block)
    return damages


def damaged(file, damages):
    for damage in sorted(damages, key=lambda damage: damage.turn):
        file = damage.apply(file)
    return file


def may_undo(damages):
    """Changes of length, or of what says the blocks: two may undo each other."""
    return all(damage.number == 1 for damage in damages)


def pairs_of(damages):
    return [list(pair) for pair in itertools.combinations(damages, 2) if not may_undo(pair)]


def some_damages(rng, damages):
    """One of them or two."""
    chosen = rng.sample(damages, rng.randint(1, 2))
    return chosen[:1] if may_undo(chosen) else chosen


def refusal_due(damages):
    """The number the paper's sequence of checks gives for these damages."""
    return min(damages, key=lambda damage: damage.rank).number
