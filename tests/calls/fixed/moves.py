"""Fixed reports of moves, document 02's 2.8: lengths at and around their limits, states,
the sequence of the checks, what the list holds before, ties and every sign, all small
tables, every n, large gains, networks held, reports in turn, and beside them a count,
sifts and swaps."""

import functools
import itertools

from calls import library
from calls.fixed.cell_swaps import random_bits
from calls.fixed.filling import drawn, lent_with as lent_outputs
from calls.fixed.row_logs import TABLE_HELD, WILD
from calls.fixed.start import FREE_ROWS, PARITY, TWO_ANDS, WHOLE, Held, lent_with
from calls.lent import lending, moves, row_logs
from calls.lent.lending import HUGE
from calls.library import Call
from making import fill_tables, move_tables, table_files

NOTE = "a report of moves"
# Section 9's order of six cells, with entries past n that are wild.
CROSSED = Held(order=(0, 2, 1, 3, 9, 2, HUGE, 0, 4, 1))
NOTHING_HELD = Held(stage=0)


def asked(rng, lent, note, length=None):
    """A report to a list of that length, or else to one with two entries more."""
    moves.lend_gains(rng, lent, moves.entries(lent) + 2 if length is None else length)
    return moves.asked(lent, note)


def drawn_in(rng, outputs, order):
    """What a report of a drawn table is lent, in that order."""
    lent = drawn(rng, outputs, order)
    moves.lend_gains(rng, lent, moves.entries(lent))
    return lent


# Lengths.


def list_lengths(rng):
    """Just enough entries, one fewer, none, more, and as many as n 10 wants."""
    for n, held in itertools.product(range(5), (Held(), TABLE_HELD, CROSSED, NOTHING_HELD)):
        for length in {0, 1, n, n * n - 1, n * n, n * n + 1, n * n + 9, 100, 101} - {-1}:
            lent = lent_with(rng, held._replace(n=n))
            yield asked(rng, lent, f"n {n}, {length} entries", length)
    for n in range(5, 11):
        for length in (0, n, 10 * n - 10, n * n - 1):
            yield asked(rng, lent_with(rng, Held(n=n)), f"n {n}, {length} entries", length)


def lengths(rng):
    """The other buffers around their limits, with a list enough and one too short; 10
    before all else."""
    around = [(name, lending.SIZES[name]) for name in ("state", "values", "care", "work")]
    around = [(name, size + more) for name, size in around for more in (-size, -1, 0, 1, 9)]
    for (name, length), entries in itertools.product(around, (0, 15, 16, 17)):
        for held in (CROSSED, NOTHING_HELD, Held(n=11), Held(m=0)):
            lent = lent_with(rng, held, WHOLE._replace(**{name: length}))
            yield asked(rng, lent, f"{name} of {length}, {entries} entries", entries)


def contents(rng):
    """What the list holds before: all alike, also the ends of 32 bits, and what is right."""
    for start in (0, 1, -1, 2, -2, moves.LEAST, moves.MOST, 2**16, -(2**16)):
        for held, more in itertools.product((Held(), CROSSED, Held(n=0), Held(n=1)), (0, 1, 9)):
            lent = lent_with(rng, held)
            length = moves.entries(lent) + more
            lent.put("gains", [start] * (length + lending.SPARE), length)
            yield moves.asked(lent, f"a list of {start}")
            yield moves.asked(lent, f"a list of {start}, once more")


def work_before(rng):
    """The work buffer of zeros, of ones, and with one byte set at an end or in the middle."""
    whole = len(lent_with(rng, Held()).contents["work"])
    made = [bytearray(whole), bytearray([0xFF] * whole)]
    for at in (0, 1, 16383, 32766, 32767, 32768, whole - 1):
        made.append(bytearray(whole))
        made[-1][at] = 0xA5
    for work, held in itertools.product(made, (CROSSED, Held(n=0), NOTHING_HELD)):
        for length in (15, 16):
            lent = lent_with(rng, held)
            lent.contents["work"][:] = work
            yield asked(rng, lent, "work with little in it", length)


# States, and all refusals in their sequence.


def states(rng):
    """States that hold nothing: 21, also where 34 is due; with some of the n the entries
    would be none in 32 or 64 bits."""
    broken = [(library.N, each) for each in (11, 16, 256 + 4, 2**16, 2**32, 2**32 + 4, 2**63, HUGE)]
    broken += [(library.M, each) for each in (0, 17, 256 + 1, 2**32 + 1, HUGE)]
    broken += [(library.STAGE, each) for each in (0, 3, 256 + 1, 256 + 2, 2**32 + 2, HUGE)]
    first = library.ORDER.start
    broken += [(first + at, each) for at in (0, 3) for each in (1, 4, 256, 2**32 + at, HUGE)]
    for (at, word), length in itertools.product(broken, (0, 15, 16, 100, 121, 256)):
        lent = lent_with(rng, CROSSED)
        lent.contents["state"][at] = word
        yield asked(rng, lent, f"word {at} is {word}, {length} entries", length)


def helds(rng):
    """Any count and stage: the cells now are counted afresh, and the state stays."""
    counts = (0, 1, 3, 4, 5, 6, 7, 2**31, 2**32 + 4, 2**63, HUGE)
    for count, stage, table in itertools.product(counts, (1, 2), (TWO_ANDS, FREE_ROWS)):
        for held in (CROSSED, WILD):
            lent = lent_with(rng, held._replace(count=count, stage=stage), table=table)
            yield asked(rng, lent, f"{count} counted at stage {stage}")


def sequences(rng):
    """Every choice of refusals: state, values, care and work for 10, then 21 and 34."""
    for due in itertools.product((0, 1), repeat=6):
        state, values, care, work, words, few = due
        short = WHOLE._replace(
            state=40 - state, values=2048 - values, care=2048 - care, work=32768 - work
        )
        broken = (NOTHING_HELD, Held(m=0), Held(n=11), Held(order=(1, 1, 0, 2) + (0,) * 6))
        for held in broken if words else (Held(), TABLE_HELD, CROSSED):
            lent = lent_with(rng, held, short)
            length = moves.entries(lent) - few
            yield asked(rng, lent, f"10, 10, 10, 10, 21, 34 due: {due}", length)


# Signs, ties, and what each move brings.


def orders_of_four(rng):
    """From every order of four, beside a count and all sifts: all tie, the best two, the
    present one, and free rows."""
    for note, table in (("parity", PARITY), ("two ands", TWO_ANDS), ("free rows", FREE_ROWS)):
        for order in itertools.permutations(range(4)):
            lent = lent_with(rng, Held(order=order + (9, 2, HUGE, 0, 4, 1)), table=table)
            moves.lend_gains(rng, lent, 16)
            yield from moves.with_sifts(lent, f"{note}, order {order}")


def drawn_tables(rng):
    """Tables drawn by hand, in the natural order and the other way round."""
    for outputs in move_tables.DRAWN:
        places = range(table_files.inputs_in(outputs[0]))
        for order in (places, places[::-1]):
            note = f"{outputs}, order {list(order)}"
            yield from moves.with_sifts(drawn_in(rng, outputs, order), note)


def each_move(rng):
    """Every move of some tables done by swaps and counted."""
    for outputs in (move_tables.TWO_ANDS, move_tables.EVERY_SIGN, *move_tables.DRAWN[-8:]):
        n = table_files.inputs_in(outputs[0])
        lent = drawn_in(rng, outputs, rng.sample(range(n), n))
        every = list(itertools.product(range(n), repeat=2))
        yield from moves.with_swaps(lent, str(outputs), every)


def small_tables(rng):
    """Every table of two inputs and one output, in both orders; many of three inputs."""
    for rows in itertools.product("01-", repeat=4):
        for order in ((0, 1), (1, 0)):
            yield moves.asked(drawn_in(rng, [" ".join(rows)], order), NOTE)
    for _ in range(300):
        marks, m = rng.choice(("01", "01-", "01--", "01----")), rng.choice((1, 2, 3))
        outputs = [" ".join(rng.choice(marks) for _ in range(8)) for _ in range(m)]
        yield moves.asked(drawn_in(rng, outputs, rng.sample(range(3), 3)), NOTE)


# Sizes.


def outputs_at(n):
    """Each number of them, or few where a report takes long."""
    few = {5: (1, 2, 3, 5, 16), 6: (1, 2, 5, 16), 7: (1, 3, 8), 8: (1, 2), 9: (1,), 10: (1,)}
    return few.get(n, range(1, 17))


def cared_at(rng, n, m, share):
    """What a report of any values with such a share of rows cared is lent, and dirt."""
    lent = lending.lent_for(rng, n, m)
    care = [int(rng.random() < share) for _ in range(m << n)]
    lending.put_planes(lent, table_files.packed(random_bits(rng, n, m)), table_files.packed(care))
    return lent


def sizes(rng):
    """Every n, fully cared, with free rows, and with many halves that agree; the list just
    enough, then with more behind."""
    for n in range(11):
        for m in outputs_at(n):
            shares = (1, 0.6) if n < 9 else (rng.choice((1, 0.6)),)
            made = [cared_at(rng, n, m, share) for share in shares]
            if n < 8:
                made.append(lent_outputs(rng, fill_tables.agreeing(rng, n, m)))
            for more, lent in enumerate(made):
                yield asked(rng, lent, f"n {n}, m {m}", n * n + more)


def largest(rng):
    """Ten inputs and sixteen outputs: few rows cared, so that a report is soon made."""
    yield asked(rng, cared_at(rng, 10, 16, 0.02), "n 10, m 16", 100)


def large_gains(rng):
    """Moves that bring hundreds of cells, more and fewer: beyond what 8 bits hold."""
    for m, order in ((16, [0, 1, 2, 3, 4, 5, 6, 7]), (8, [1, 2, 3, 4, 5, 6, 7, 0])):
        bits = move_tables.counters(8, m, (16, 16))
        lent = lent_with(rng, Held(n=8, m=m, order=order + [HUGE, 3]))
        lending.put_planes(lent, table_files.packed(bits), table_files.packed([1] * len(bits)))
        yield asked(rng, lent, f"two counters, order {order}", 64)


# Several calls.


def networks_held(rng):
    """Networks swapped in the cells, or built before the table is another one: the state's
    count is not what a fresh count gives."""
    for n, m in itertools.product(range(2, 6), (1, 2, 3)):
        lent = cared_at(rng, n, m, 0.6)
        yield Call("build", {}, lent, "to be swapped")
        yield asked(rng, lent, "a network as built")
        for place in rng.sample(range(n - 1), min(n - 1, 2)):
            yield Call("swap_cells", {"place": place}, lent, "before a report")
            yield asked(rng, lent, "a network swapped in the cells")
        lending.write_planes(rng, lent, n, m)
        yield asked(rng, lent, "another table than the network's")


def in_turn(rng):
    """Reports between all that changes the order, the care or what is held."""
    lent = lent_with(rng, CROSSED, WHOLE._replace(cells=60))
    row_logs.lend_counts(rng, lent, [0] * 16)
    lending.lend_rows(rng, lent, [3, 7, 11, 12, 13, 14, 1])
    between = [("load", {}), ("build", {}), ("swap", {"place": 0}), ("swap", {"place": 2})]
    between += [("sift", {"input": 1}), ("pass", {"limit": 8}), ("log_rows", {"least": 1})]
    between += [("build", {}), ("swap_cells", {"place": 1}), ("count", {}), ("pass", {"limit": 16})]
    between += [("log_rows", {"least": 0}), ("build", {}), ("evaluate", {"row": 3})]
    for name, numbers in between:
        yield Call(name, numbers, lent, "between reports")
        yield asked(rng, lent, f"after {name}", 16 + rng.randrange(3))
    lending.lend_file_space(rng, lent)
    yield Call("write_cells", {}, lent, "between reports")
    lending.lend_written(lent)
    yield Call("read_cells", {}, lent, "between reports")
    yield asked(rng, lent, "after read_cells")
    lending.lend_file(rng, lent, table_files.table_from_rows(["1", "0"]))
    yield Call("load", {}, lent, "without inputs")
    yield moves.asked(lent, "without inputs, on the list as it is")


def beside_sifts(rng):
    """Larger tables beside a count and all sifts, free rows and none."""
    for n, m, share in itertools.product((2, 3, 5, 6), (1, 2, 4), (1, 0.7, 0.4)):
        lent = cared_at(rng, n, m, share)
        moves.lend_gains(rng, lent, n * n)
        yield from moves.with_sifts(lent, f"n {n}, m {m}, {share} cared")


def beside_swaps(rng):
    """Some moves of larger tables done by swaps and counted."""
    for n, m, share in itertools.product((4, 5, 6), (1, 3), (1, 0.6)):
        lent = cared_at(rng, n, m, share)
        moves.lend_gains(rng, lent, n * n)
        chosen = rng.sample(list(itertools.product(range(n), repeat=2)), 8)
        yield from moves.with_swaps(lent, f"n {n}, m {m}, {share} cared", chosen)


def run(rng, made):
    for calls in made:
        yield from calls(rng)


CHUNKS = [
    functools.partial(run, made=made)
    for made in (
        (list_lengths, lengths, contents, work_before), (states, helds, sequences),
        (orders_of_four, drawn_tables, each_move, small_tables), (sizes, large_gains), (largest,),
        (networks_held, in_turn, beside_sifts, beside_swaps),
    )
]
