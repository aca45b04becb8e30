"""Makes tables near a table, of the same n, m and order, for document 02's 2.10: equal ones,
ones that are drawn otherwise and filled alike, ones that differ in little, and any other."""

from collections import namedtuple

from making import fill_tables, table_files, tables
from paper import reference

# A table's bits, m x 2^n of each kind, output 0's rows first.
Drawn = namedtuple("Drawn", "n m order values care")

# Larger tables are never drawn bit by bit: they share little, and filling them takes long.
MOST_COINS = 2048


def any_table(rng, n, m, order):
    """With free rows or none; of some many halves agree."""
    if rng.random() < 0.3:
        outputs = fill_tables.agreeing(rng, n, m)
        return Drawn(n, m, order, *fill_tables.streams(rng, outputs, order))
    made = (tables.pooled_bits, tables.formula_bits)
    made += (tables.coin_bits,) if m << n <= MOST_COINS else ()
    return Drawn(n, m, order, rng.choice(made)(rng, n, m), tables.care_bits(rng, n, m))


def from_rows(outputs, order):
    """A table from texts as the paper writes them."""
    n = table_files.inputs_in(outputs[0])
    return Drawn(n, len(outputs), order, *table_files.streams_from_rows(outputs))


def filled_bits(drawn):
    """The values of the filled table, by the rows of a file."""
    planes = (table_files.packed(bits) for bits in (drawn.values, drawn.care))
    outputs = reference.filled(reference.Table(drawn.n, drawn.m, *planes), drawn.order)
    return [bit for output in outputs for bit in fill_tables.filed(output, drawn.order)]


def conjunctions(n, m):
    """Input 0 and 1, or 2 and 3, and so on, in each further output one pair fewer; the order
    parts all pairs, so that one sift after the other leaves fewer cells."""
    pairs = [1 << (n - 1 - i) | 1 << (n - 2 - i) for i in range(0, n - 1, 2)]
    values = []
    for output in range(m):
        chosen = pairs[output % max(len(pairs), 1) :]
        values += [int(any(row & both == both for both in chosen)) for row in range(1 << n)]
    return Drawn(n, m, [*range(0, n, 2), *range(1, n, 2)], values, [1] * (m << n))


# Near ones.


def same(_rng, drawn):
    return drawn


def other_free_values(rng, drawn):
    """Free rows have any values."""
    pairs = zip(drawn.values, drawn.care)
    return drawn._replace(values=[value if cared else rng.randint(0, 1) for value, cared in pairs])


def partly_filled(rng, drawn):
    """Of the free rows some are cared, with the values that they fill to, or all of them."""
    share = rng.choice((0.3, 0.7, 1))
    chosen = [cared or int(rng.random() < share) for cared in drawn.care]
    added = [new and not cared for new, cared in zip(chosen, drawn.care)]
    rows = zip(drawn.values, filled_bits(drawn), added)
    return drawn._replace(values=[bit if new else value for value, bit, new in rows], care=chosen)


def flipped(rng, bits):
    """One bit turned, the first, the last or any."""
    at = rng.choice((0, len(bits) - 1, rng.randrange(len(bits))))
    return bits[:at] + [1 - bits[at]] + bits[at + 1 :]


def other_value(rng, drawn):
    """Of a row that may be free."""
    return drawn._replace(values=flipped(rng, drawn.values))


def other_care(rng, drawn):
    """A row more is free, or one fewer."""
    return drawn._replace(care=flipped(rng, drawn.care))


def output_rows(drawn, output):
    return slice(output << drawn.n, (output + 1) << drawn.n)


def inverted_output(rng, drawn):
    values, rows = list(drawn.values), output_rows(drawn, rng.randrange(drawn.m))
    values[rows] = [1 - value for value in values[rows]]
    return drawn._replace(values=values)


def exchanged_outputs(rng, drawn):
    """Two outputs exchanged; it may be one with itself."""
    one, other = (output_rows(drawn, rng.randrange(drawn.m)) for _ in range(2))
    values, care = list(drawn.values), list(drawn.care)
    for bits in (values, care):
        bits[one], bits[other] = bits[other], bits[one]
    return drawn._replace(values=values, care=care)


def by_rows(drawn, moved):
    """Each row as that one of the same output was which `moved` tells; an input's bit has the
    same place in a row and in the stream."""
    rows = [moved(at) for at in range(drawn.m << drawn.n)]
    values, care = ([bits[row] for row in rows] for bits in (drawn.values, drawn.care))
    return drawn._replace(values=values, care=care)


def inverted_input(rng, drawn):
    """One input is 0 where it was 1: as many cells where every row is cared, but other ones."""
    bit = 1 << rng.randrange(drawn.n) if drawn.n else 0
    return by_rows(drawn, lambda row: row ^ bit)


def exchanged_inputs(rng, drawn):
    """Two inputs exchanged; it may be one with itself."""
    one, other = (rng.randrange(max(drawn.n, 1)) for _ in range(2))
    both = 1 << one ^ 1 << other
    return by_rows(drawn, lambda row: row ^ both if (row >> one ^ row >> other) & 1 else row)


def another(rng, drawn):
    return any_table(rng, drawn.n, drawn.m, drawn.order)


NEAR = (
    same, other_free_values, partly_filled, other_value, other_care, inverted_output,
    exchanged_outputs, inverted_input, exchanged_inputs, another,
)


def family(rng, first, size):
    """So many tables, each one near to any of those before it."""
    made = [first]
    while len(made) < size:
        made.append(rng.choice(NEAR)(rng, rng.choice(made)))
    return made
