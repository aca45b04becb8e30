"""Makes tables in which the halves of many entries agree, document 02's 2.6.

A segment is a list of (value, care) pairs, a row each, by the places of an order.
Level by level a few segments are made from a pool of the next smaller ones: mostly
from one of them twice, in each half with other rows free.
"""

import itertools

from making import table_files, tables

# Tables of 2.6 drawn as section 9 does: halves that agree, a wholly free one, each half
# a constant by itself, halves that conflict in one row, and several outputs whose
# entries are merged, matched inverted or placed in turn.
BY_HAND = [
    ["0 1 - 1"], ["0 1 1 -"], ["- 0 1 -"], ["0 1 - -"], ["- - 1 0"], ["0 - - 1"], ["0 - 0 1"],
    ["0 - 1 - - 1 - 0"], ["0 1 1 0 - - - -"], ["- - - - 1 0 0 -"], ["- - - - - - 0 1"],
    ["0 0 - - - - 1 1"], ["- 1 - 1 0 - 0 -"], ["0 0 0 - - - - 1"], ["0 1 1 - 1 - 0 -"],
    ["0 1 - 0 0 - 1 1"], ["0 1 - 0 1 - - 0"], ["0 0 1 - - 1 1 -"], ["0 - - 1 1 1 0 1"],
    ["0 1 - -", "- - 1 0"], ["0 1 - -", "0 - 1 -"], ["- - - 1", "0 0 - -"],
    ["0 1 - 1", "0 - 1 1"], ["0 1 1 0", "1 - - 0"], ["0 1 - -", "- 1 0 1", "1 0 1 -"],
    ["0 1 - - - - - -", "- - 1 0 - - - -"], ["0 1 - - - - 1 -", "0 - - - - 1 - 0"],
    ["0 1 - - 1 1 1 1", "0 - 1 - 1 1 1 0"], ["0 0 0 1 0 0 0 0", "1 0 0 - - 0 0 1"],
    ["0 1 - - 1 1 1 1", "0 - - 0 - - 1 0"],
    ["0 1 - - - - 1 0", "0 1 - - 1 1 1 1", "- 1 0 0 0 0 0 0"],
]

# Of the levels of a table about so many have rows made free. With more of them hardly
# a row of a large table would be cared.
THIN_LEVELS = 3


def inverted(segment):
    return [(1 - value, care) for value, care in segment]


def turned(rng, segment):
    """Upright or inverted."""
    return inverted(segment) if rng.randint(0, 1) else segment


def kept(segment, rows):
    """Cared where it was and where `rows` has a 1."""
    return [(value, care & row) for (value, care), row in zip(segment, rows)]


def coins(rng, segment, share):
    return [int(rng.random() < share) for _ in segment]


# Two halves that agree wherever both are cared.


def shared_out(rng, part, rows):
    """The rows with a 1 are cared in one half, the others in the other half."""
    halves = [kept(part, rows), kept(part, [1 - row for row in rows])]
    rng.shuffle(halves)
    return halves[0] + halves[1]


def free_half(rng, part):
    """One half is wholly free."""
    return shared_out(rng, part, [1] * len(part))


def apart(rng, part):
    """No row is cared in both halves."""
    return shared_out(rng, part, coins(rng, part, rng.choice((0.5, 0.5, 0.1))))


def constants(rng, part):
    """Each half is a constant by itself: zeros are cared in one, ones in the other."""
    return shared_out(rng, part, [value for value, _ in part])


def overlapping(rng, part):
    """Some rows are cared in both halves, some in one, some in none."""
    return kept(part, coins(rng, part, 0.8)) + kept(part, coins(rng, part, 0.8))


def twice(_rng, part):
    return part + part


# Two halves that conflict, and any.


def conflicting(rng, part):
    """Halves that agree but for one row, the first, the last or any."""
    both = rng.choice((free_half, apart, overlapping, twice))(rng, part)
    row = rng.choice((0, len(part) - 1, rng.randrange(len(part))))
    value = rng.randint(0, 1)
    both[row], both[len(part) + row] = (value, 1), (1 - value, 1)
    return both


THIN = (free_half, apart, apart, constants, overlapping, overlapping, conflicting)
WHOLE = (twice, twice, conflicting)


def joined(rng, pool, joins):
    """Mostly one segment of the pool twice, now and then any two."""
    part, other = (turned(rng, rng.choice(pool)) for _ in range(2))
    return part + other if rng.random() < 0.3 else rng.choice(joins)(rng, part)


def pool_of(rng, n):
    """Some segments of 2^n rows that share halves."""
    pool = [[(0, 1)], [(1, 1)]]
    for level in range(n):
        # Two single rows that agree are no entry.
        thin = level and rng.random() < THIN_LEVELS / n
        pool = [joined(rng, pool, THIN if thin else WHOLE) for _ in range(rng.randint(2, 5))]
    return pool


def drawn(rng, pool):
    """An output: one of the pool, often with a part of its rows, so that several
    outputs make up one entry."""
    segment = turned(rng, rng.choice(pool))
    half = len(segment) // 2
    parts = [[1] * len(segment)] * 3 + [coins(rng, segment, 0.7)]
    parts += [[1] * half + [0] * (len(segment) - half), [0] * half + [1] * (len(segment) - half)]
    return kept(segment, rng.choice(parts))


def agreeing(rng, n, m):
    """Outputs in which many halves agree."""
    pool = pool_of(rng, n)
    return [drawn(rng, pool) for _ in range(m)]


def followed(rng, n):
    """Pairs of outputs: of the second the halves agree, and together they are the
    first one's 0-half, upright or inverted, or less of it."""
    pairs = []
    for join, turn in itertools.product((free_half, apart, constants, overlapping), (0, 1)):
        first = [(rng.randint(0, 1), 1) for _ in range(2**n)]
        part = first[: 2 ** (n - 1)]
        pairs.append([first, join(rng, inverted(part) if turn else part)])
    return pairs


# Tables.


def filed(segment, order):
    """The rows by places as rows of a file, where input 0 is the highest bit."""
    n = len(order)
    rows = [None] * len(segment)
    for at, pair in enumerate(segment):
        bits = [at >> (n - 1 - place) & 1 for place in range(n)]
        rows[sum(bit << (n - 1 - held) for bit, held in zip(bits, order))] = pair
    return rows


def streams(rng, outputs, order):
    """Values and care of outputs under an order, the values of free rows any."""
    pairs = [pair for output in outputs for pair in filed(output, order)]
    values = [value if care else rng.randint(0, 1) for value, care in pairs]
    return values, [care for _, care in pairs]


def table(rng, n, m):
    """A table file in which many halves agree, in an order of its own."""
    order = tables.random_order(rng, n)
    return table_files.table_file(n, m, order, *streams(rng, agreeing(rng, n, m), order))
