"""Tables for document 02's 2.8: drawn ones, in which a move brings more cells, fewer or
as many, and ones in which a single move brings hundreds."""

from making import table_files
from making.fill_tables import BY_HAND

# Under the natural order input 3 has a place that brings more cells, one that brings fewer
# and one that brings as many.
EVERY_SIGN = ["- - 1 - - - - 0 - - - 1 0 1 0 -"]
# Section 9's, input 0 and 1, or 2 and 3: six cells under order 0 2 1 3, else four.
TWO_ANDS = ["0 0 0 1 0 0 0 1 0 0 0 1 1 1 1 1"]

DRAWN = BY_HAND + [
    ["1"], ["0", "-"], ["0 1"], ["- 1", "1 0"], ["0 1 1 0"], ["0 0 0 1", "1 1 1 0"], ["0 1 0 1"],
    ["0 0 0 -"], ["- - - -", "0 0 0 0", "1 1 1 1"], ["0 1 1 0 1 0 0 1"], TWO_ANDS, EVERY_SIGN,
    ["0 - - 0 - 1 1 -", "1 - 1 0 - - 0 0"], ["1 1 1 0 0 - - 1", "1 - 0 - - - - -"],
    ["0 0 0 1 1 0 0 1", "1 0 1 0 1 0 1 0"], ["0 1 0 1 0 1 0 0", "0 1 0 1 0 0 0 0"],
    ["- - 1 - 1 1 - 1 0 - - - - - 0 -"], ["0 - - 0 - 1 - 1 - - 1 - 0 - - -"],
    ["0 1 0 0 1 0 1 1 0 1 0 0 1 0 1 0"], ["0 1 1 1 1 0 1 1 1 0 1 0 1 0 1 0"],
]


def ones(number):
    return bin(number).count("1")


def counters(n, m, sizes):
    """The bits of a table whose input 0 chooses between two counters of the others.

    With input 0 at the top each counter has cells of its own; below the others every
    pair of what the two hold has some.
    """
    bits = []
    for output in range(m):
        for row in range(2**n):
            inputs = [place for place in range(1, n) if row >> (n - 1 - place) & 1]
            if row >> (n - 1) & 1:
                held = (3 * output + sum(2 * i * i + 3 * i + 1 for i in inputs)) % sizes[0]
                bits.append(ones(held * held + held // 2) % 2)
            else:
                held = (5 * output + sum(i * i * i + 5 * i + 2 for i in inputs)) % sizes[1]
                bits.append(ones(3 * held * held + held) % 2)
    return bits


def counter_file(n, m, sizes, order):
    """Such a table as a file, fully cared."""
    bits = counters(n, m, sizes)
    return table_files.table_file(n, m, order, bits, [1] * len(bits))
