"""Fixed calls of document 02's 2.6, halves before constants: tables drawn by hand, all
of two inputs, many of three, for every n and m one in which many halves agree, and such
ones sifted."""

import itertools

from calls import library
from calls.lent import lending
from calls.library import Call
from making import fill_tables, table_files

NOTE = "halves before constants"


def drawn(rng, outputs, order):
    """What a call is lent with a table drawn as section 9 does, in that order."""
    n = table_files.inputs_in(outputs[0])
    lent = lending.lent_for(rng, n, len(outputs))
    first = library.ORDER.start
    lent.contents["state"][first : first + n] = library.new_buffer("state", order)
    streams = table_files.streams_from_rows(outputs)
    lending.put_planes(lent, *(table_files.packed(bits) for bits in streams))
    return lent


def lent_with(rng, outputs):
    """What it is lent with outputs by the places of any order."""
    n = len(outputs[0]).bit_length() - 1
    lent = lending.lent_for(rng, n, len(outputs), lending.LARGEST_BOARD)
    lending.write_outputs(rng, lent, outputs)
    return lent


def by_hand(rng):
    """In the natural order and the other way round."""
    for outputs in fill_tables.BY_HAND:
        places = range(table_files.inputs_in(outputs[0]))
        for order in (places, places[::-1]):
            note = f"{outputs}, order {list(order)}"
            lent = drawn(rng, outputs, order)
            yield Call("build", {}, lent, note)
            for row in range(2 ** len(places)):
                yield Call("evaluate", {"row": row}, lent, note)


def two_inputs(rng):
    """Every table of one output, in both orders."""
    for rows in itertools.product("01-", repeat=4):
        for order in ((0, 1), (1, 0)):
            yield Call("build", {}, drawn(rng, [" ".join(rows)], order), NOTE)


def three_inputs(rng):
    """Of the tables with up to three outputs, in any order."""
    for _ in range(500):
        marks = rng.choice(("01-", "01--", "01----"))
        m = rng.choice((1, 1, 2, 3))
        outputs = [" ".join(rng.choice(marks) for _ in range(8)) for _ in range(m)]
        yield Call("build", {}, drawn(rng, outputs, rng.sample(range(3), 3)), NOTE)


def sizes(rng, inputs):
    """Every m for some n."""
    for n, m in itertools.product(inputs, range(1, 17)):
        lent = lent_with(rng, fill_tables.agreeing(rng, n, m))
        for name in ("count", "build"):
            yield Call(name, {}, lent, f"{NOTE}, n {n}, m {m}")


def followed(rng):
    """Both links follow an entry that is there, upright and inverted, at every size."""
    for n in range(2, 11):
        for outputs in fill_tables.followed(rng, n):
            yield Call("build", {}, lent_with(rng, outputs), f"{NOTE}, matched, n {n}")


def sifted(rng):
    """Every input once, and passes with every number of turns, each at a start of its own."""
    for n, m in itertools.product(range(2, 6), (1, 2, 3)):
        lent = lent_with(rng, fill_tables.agreeing(rng, n, m))
        asked = [("sift", {"input": number}) for number in range(n)]
        asked += [("pass", {"limit": n * turns}) for turns in range(1, n + 1)]
        for name, numbers in asked:
            copied = lent.copy(lent.contents)
            yield Call(name, numbers, copied, f"{NOTE}, n {n}, m {m}")
            yield Call("build", {}, copied, f"{NOTE}, after a {name}")


def small(rng):
    for calls in (by_hand, two_inputs, three_inputs, followed, sifted):
        yield from calls(rng)


def up_to_eight(rng):
    yield from sizes(rng, range(1, 9))


def nine_and_ten(rng):
    yield from sizes(rng, (9, 10))


CHUNKS = [small, up_to_eight, nine_and_ten]
