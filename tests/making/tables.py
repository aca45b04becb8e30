"""Makes tables as files: small and random ones, the widest, and those that damages are tried on."""

import random

from making import table_files


def bits_of(number, length):
    return [number >> i & 1 for i in range(length)]


def all_zero(n, m):
    return table_files.table_file(n, m, range(n), [0] * (m << n), [1] * (m << n))


def random_order(rng, n):
    order = list(range(n))
    if rng.random() < 0.7:
        rng.shuffle(order)
    return order


def coin_bits(rng, n, m):
    share = rng.choice((0.5, 0.5, 0.1, 0.9))
    return [int(rng.random() < share) for _ in range(m << n)]


def pooled_bits(rng, n, m):
    """Halves drawn from small pools, upright or inverted: many shared cells."""
    pool = [[0], [1]]
    for _ in range(n):
        pool = [drawn(rng, pool) + drawn(rng, pool) for _ in range(rng.randint(2, 5))]
    return [bit for _ in range(m) for bit in drawn(rng, pool)]


def drawn(rng, pool):
    inverted = rng.randint(0, 1)
    return [bit ^ inverted for bit in rng.choice(pool)]


def formula_bits(rng, n, m):
    """Sums of some inputs, as exclusive-or or against a threshold."""
    bits = []
    for _ in range(m):
        chosen = rng.getrandbits(n) if n else 0
        least = rng.choice((None, 1, 2, 3))
        for row in range(1 << n):
            ones = bin(row & chosen).count("1")
            bits.append(ones % 2 if least is None else int(ones >= least))
    return bits


def care_bits(rng, n, m):
    """Free rows by density, alike in all outputs or each for itself."""
    density = rng.choice((1, 1, 0.9, 0.5, 0.5, 0.2, 0.05, 0))
    if rng.random() < 0.3:
        return [int(rng.random() < density) for _ in range(1 << n)] * m
    return [int(rng.random() < density) for _ in range(m << n)]


def random_table(rng, n, m):
    values = rng.choice((coin_bits, pooled_bits, formula_bits))(rng, n, m)
    care = care_bits(rng, n, m)
    # Value bits of free rows never matter, so they may be anything.
    free = rng.choice((lambda: 0, lambda: 1, lambda: rng.randint(0, 1)))
    values = [value if cared else free() for value, cared in zip(values, care)]
    return table_files.table_file(n, m, random_order(rng, n), values, care)


# Others.


def widest_bits(rng):
    """The values of a table that needs all 2,159 cells.

    Its 1,024 segments of four places differ, also inverted, and depend on
    their top place; enough of them are drawn to show every smaller function.
    """
    tops = [f for f in range(1 << 15) if f >> 8 != f & 255]
    bits = []
    for function in rng.sample(tops, 1024):
        inverted = rng.choice((0, 0xFFFF))
        bits += bits_of(function ^ inverted, 16)
    return bits


def widest_table(rng):
    bits = widest_bits(rng)
    return table_files.table_file(10, 16, range(10), bits, [1] * len(bits))


DAMAGE_BASES = {
    # Here every check is below 15, so each has a second number modulo 65,521.
    "tiny": lambda: table_files.table_file(0, 1, [], [1], [1]),
    # Twelve bits: the last byte of each stream is half used.
    "small": lambda: table_files.table_file(2, 3, [1, 0], bits_of(0x5A6, 12), [1] * 12),
    # Two blocks for each stream, the second partly used.
    "large": lambda: random_table(random.Random("damage"), 10, 5),
}
