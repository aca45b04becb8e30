"""A quick test of document 02's 2.10 in the reference: same ribbon, same cells.

The figures here are worked out by hand from the papers, never taken from a program.
"""

import itertools
import random
import unittest

from calls.by_reference import called, loaded, played, state_of, written_after
from calls.lent import same_cells as laws
from making import move_tables, near_tables, networks, table_files, tables
from making.network_files import Network, network_file
from paper import reference, same_cells
from paper.same_cells import Head

# Input 0 chooses: input 1 if it is 0, input 2 if it is 1.
CHOICE = "0 0 1 1 0 1 0 1"
EXCLUSIVE_OR = (0, 4, 5, 1, 0, 1)


def known_by(count, cells, roots):
    return same_cells.Network(count, cells, roots)


def head_of(outputs, order=None):
    """A drawn table, built in that order, or in the natural one."""
    lent = loaded(table_files.table_from_rows(outputs, order), "build")
    state, contents = state_of(lent), lent.contents
    table = reference.lent_table(state, contents["values"], contents["care"])
    filled = same_cells.filled_table(table, tuple(reference.used_order(state)))
    return Head(filled, same_cells.network_held(state, contents["roots"], contents["cells"]))


def lent_for(drawn):
    """A drawn table as it is lent, built."""
    lent = laws.lent_table(random.Random(0), drawn)
    assert called(lent, "build")[0] == 0
    return lent


def shown(drawn):
    """A table's outputs as texts again."""
    pairs = zip(drawn.values, drawn.care)
    marks = [str(value) if cared else "-" for value, cared in pairs]
    size = 1 << drawn.n
    return tuple(" ".join(marks[j * size : (j + 1) * size]) for j in range(drawn.m))


def small_diagrams():
    """The cells of all diagrams of two inputs that have none, one, or two, of which the last
    is the only one that a network can have there."""
    yield []
    yield from ([cell] for cell in itertools.product(range(2), range(4), range(4)))
    yield from ([cell, (1, 0, 1)] for cell in itertools.product(range(2), range(6), range(6)))


class Drawn(unittest.TestCase):
    def assert_known(self, outputs, filled, network, order=None):
        """What it fills to, by places, and what it is known by."""
        bits = tuple(tuple(map(int, output.split())) for output in filled)
        self.assertEqual(head_of(outputs, order), Head(bits, known_by(*network)))

    def test_an_inverse_has_other_roots(self):
        self.assert_known(["0 1 1 0"], ["0 1 1 0"], (2, EXCLUSIVE_OR, (2,)))
        self.assert_known(["1 0 0 1"], ["1 0 0 1"], (2, EXCLUSIVE_OR, (3,)))
        conjunction = 2, (0, 0, 4, 1, 0, 1)
        self.assert_known(["0 0 0 1"], ["0 0 0 1"], (*conjunction, (2,)))
        self.assert_known(["1 1 1 0"], ["1 1 1 0"], (*conjunction, (3,)))

    def test_drawn_unlike_and_filled_alike(self):
        for outputs in (["0 0 0 -"], ["0 0 0 0"], ["- - - -"]):
            self.assert_known(outputs, ["0 0 0 0"], (0, (), (0,)))
        for outputs in (["1 1 1 -"], ["1 1 1 1"]):
            self.assert_known(outputs, ["1 1 1 1"], (0, (), (1,)))
        for outputs in (["0 1 1 -"], ["0 1 1 1"]):
            self.assert_known(outputs, ["0 1 1 1"], (2, (0, 4, 1, 1, 0, 1), (2,)))

    def test_halves_before_constants(self):
        for outputs in (["0 1 - 1"], ["0 1 0 1"], ["0 1 - -"]):
            self.assert_known(outputs, ["0 1 0 1"], (1, (1, 0, 1), (2,)))

    def test_outputs_exchanged(self):
        # Numbers rise by the first segment, output 0's first: other cells, the same roots.
        one, other = "0 0 0 1", "0 1 1 1"
        self.assert_known([one, other], [one, other], (3, (0, 0, 6, 0, 6, 1, 1, 0, 1), (2, 4)))
        self.assert_known([other, one], [other, one], (3, (0, 6, 1, 0, 0, 6, 1, 0, 1), (2, 4)))
        # Of two places each: the same cells, other roots.
        one, other = "0 0 1 1", "0 1 0 1"
        self.assert_known([one, other], [one, other], (2, (0, 0, 1, 1, 0, 1), (2, 4)))
        self.assert_known([other, one], [other, one], (2, (0, 0, 1, 1, 0, 1), (4, 2)))

    def test_the_order_must_be_the_same(self):
        self.assert_known(["0 0 1 1"], ["0 0 1 1"], (1, (0, 0, 1), (2,)), [0, 1])
        self.assert_known(["0 0 1 1"], ["0 1 0 1"], (1, (1, 0, 1), (2,)), [1, 0])
        # Another input in that place: the cells don't tell which.
        self.assert_known(["0 1 0 1"], ["0 1 0 1"], (1, (1, 0, 1), (2,)), [0, 1])

    def test_n_and_m_must_be_the_same(self):
        self.assert_known(["0 1"], ["0 1"], (1, (0, 0, 1), (2,)))
        self.assert_known(["0 0 1 1"], ["0 0 1 1"], (1, (0, 0, 1), (2,)))
        self.assert_known(["0 1", "0 1"], ["0 1", "0 1"], (1, (0, 0, 1), (2, 2)))

    def test_no_inputs(self):
        self.assert_known(["0"], ["0"], (0, (), (0,)))
        self.assert_known(["1"], ["1"], (0, (), (1,)))
        self.assert_known(["-", "1", "0"], ["0", "1", "0"], (0, (), (0, 1, 0)))


class Recognising(unittest.TestCase):
    def test_if_and_only_if(self):
        heads = [Head(table, network) for table, network in itertools.product((0, 1), repeat=2)]
        for one, other in itertools.product(heads, repeat=2):
            differ = one.table != other.table, one.network != other.network
            self.assertEqual(same_cells.recognised(one, other), differ in ((0, 0), (1, 1)))

    def assert_as_many(self, heads, number):
        """So many tables, and as many networks, each one of its own."""
        pairs = itertools.combinations(heads, 2)
        self.assertTrue(all(same_cells.recognised(one, other) for one, other in pairs))
        self.assertEqual(len({head.table for head in heads}), number)
        self.assertEqual(len({head.network for head in heads}), number)

    def test_all_of_two_inputs(self):
        # Whatever is free, one of the sixteen is what it fills to.
        for order in ((0, 1), (1, 0)):
            drawn = itertools.product("01-", repeat=4)
            self.assert_as_many([head_of([" ".join(rows)], order) for rows in drawn], 16)

    def test_all_of_three_inputs_fully_cared(self):
        drawn = [" ".join(rows) for rows in itertools.product("01", repeat=8)]
        self.assert_as_many([head_of([rows], [2, 0, 1]) for rows in drawn], 256)

    def test_near_tables(self):
        rng, met = random.Random(31), set()
        for _ in range(120):
            n, m = rng.randint(0, 4), rng.choice((1, 2, 3))
            first = near_tables.any_table(rng, n, m, rng.sample(range(n), n))
            family = near_tables.family(rng, first, 5)
            heads = [laws.as_built(lent_for(drawn)) for drawn in family]
            for one, other in itertools.combinations(heads, 2):
                self.assertTrue(same_cells.recognised(one, other))
                met |= laws.kinds_between(one, other)
        self.assertEqual(met, set(laws.KINDS["build"]))

    def test_leftovers_are_no_part(self):
        rng = random.Random(32)
        for outputs in (["1"], ["0 1 1 0"], ["0 0 0 1", "0 1 1 1"]):
            places = range(table_files.inputs_in(outputs[0]))
            lent = lent_for(near_tables.from_rows(outputs, places))
            before, contents = laws.held_in(lent), lent.copy(lent.contents).contents
            laws.dirty_unused(rng, lent)
            self.assertEqual(laws.held_in(lent), before)
            for name in ("roots", "cells"):
                self.assertNotEqual(lent.contents[name], contents[name])


class Files(unittest.TestCase):
    def test_an_inverse(self):
        # The checks are 100 and 119: root 0 is at byte 18, so one more of it is 19 more.
        drawn = [table_files.table_from_rows([rows]) for rows in ("0 1 1 0", "1 0 0 1")]
        one, other = (written_after(table, "build") for table in drawn)
        differing = [at for at in range(1024) if one[at] != other[at]]
        self.assertEqual((len(one), len(other), differing), (1024, 1024, [18, 510]))
        self.assertEqual((one[510], other[510]), (100, 119))

    def test_near_tables(self):
        rng, met = random.Random(33), set()
        for _ in range(40):
            n, m = rng.randint(0, 4), rng.choice((1, 2, 3))
            first = near_tables.any_table(rng, n, m, rng.sample(range(n), n))
            lents = [lent_for(drawn) for drawn in near_tables.family(rng, first, 4)]
            seen = []
            for call in laws.written(rng, lents, ""):
                self.assertEqual(called(call.lent, "write_cells"), (0, 0))
                seen.append(laws.as_written(call.lent, laws.filled_of(call.lent)))
            for one, other in itertools.combinations(seen, 2):
                self.assertTrue(same_cells.recognised(one, other))
                met |= laws.kinds_between(one, other)
        self.assertEqual(met, set(laws.KINDS["write_cells"]))

    def test_no_other_file_has_that_table(self):
        # There are sixteen tables, and as many files are accepted, each with one of its own.
        tables_read = []
        for cells in small_diagrams():
            for root in range(2 * len(cells) + 2):
                network = Network(2, 1, [0, 1], cells, networks.sixteen([root]))
                answers, lent = played(network_file(network))
                tables_read += [lent.contents["values"][0]] if answers == [(0, 0)] else []
        self.assertEqual(sorted(tables_read), list(range(16)))


class Limits(unittest.TestCase):
    def ends(self, drawn):
        """The cells after a pass, for every limit up to one turn too many."""
        lent = laws.lent_table(random.Random(0), drawn)
        planes = lent.contents["values"], lent.contents["care"]
        limits = range(drawn.n * drawn.n + drawn.n + 1)
        return [same_cells.end_of_pass(state_of(lent), limit, *planes) for limit in limits]

    def test_section_9(self):
        # Six cells, and four as soon as input 1 is sifted.
        drawn = near_tables.from_rows(move_tables.TWO_ANDS, [0, 2, 1, 3])
        self.assertEqual(self.ends(drawn), [6] * 4 + [4] * 17)

    def test_choice(self):
        # Of the four cells two are input 0's, so that it comes first, and goes to the top.
        drawn = near_tables.from_rows([CHOICE], [1, 0, 2])
        self.assertEqual(self.ends(drawn), [4] * 3 + [3] * 10)

    def test_two_choices(self):
        # Output 0 is the choice of inputs 0, 1 and 2, output 1 that of 3, 4 and 5. Of four
        # cells each two are input 0's and input 3's: input 0 comes first, then input 3, and
        # each brings one cell fewer above the two that it chooses from.
        rows = CHOICE.split()
        upper = " ".join(row for row in rows for _ in range(8))
        drawn = near_tables.from_rows([upper, " ".join(rows * 8)], [1, 0, 2, 4, 3, 5])
        self.assertEqual(self.ends(drawn), [8] * 6 + [7] * 6 + [6] * 31)

    def test_nothing_to_gain(self):
        self.assertEqual(self.ends(near_tables.from_rows(["0 1 1 0"], [1, 0])), [2] * 7)
        self.assertEqual(self.ends(near_tables.from_rows(["0 0 0 -"], [1, 0])), [0] * 7)
        self.assertEqual(self.ends(near_tables.from_rows(["1"], [])), [0])

    def test_any_table(self):
        rng, falls = random.Random(34), set()
        for _ in range(80):
            n, m = rng.randint(1, 5), rng.choice((1, 2, 3))
            ends = self.ends(near_tables.any_table(rng, n, m, rng.sample(range(n), n)))
            self.assertTrue(same_cells.never_more(list(enumerate(ends))))
            self.assertEqual(ends, sorted(ends, reverse=True))
            falls.add(len(set(ends)) - 1)
        self.assertLessEqual({0, 1, 2}, falls)

    def test_pairs_of_inputs(self):
        # Three pairs apart, of which each is to come together: more than one turn helps.
        ends = self.ends(near_tables.conjunctions(6, 1))
        self.assertEqual((ends[0], ends[-1]), (14, 6))
        self.assertTrue(same_cells.never_more(list(enumerate(ends))))
        self.assertGreater(len(set(ends)), 2)

    def test_single_sifts(self):
        drawn = near_tables.from_rows(move_tables.TWO_ANDS, [0, 2, 1, 3])
        lent = laws.lent_table(random.Random(0), drawn)
        planes = lent.contents["values"], lent.contents["care"]
        ends = [same_cells.end_of_sift(state_of(lent), each, *planes) for each in range(4)]
        self.assertEqual(ends, [6, 4, 4, 6])

    def test_any_sift(self):
        rng, changes = random.Random(35), set()
        for _ in range(60):
            n, m = rng.randint(1, 5), rng.choice((1, 2, 3))
            drawn = near_tables.any_table(rng, n, m, rng.sample(range(n), n))
            lent = laws.lent_table(random.Random(0), drawn)
            planes = lent.contents["values"], lent.contents["care"]
            before = same_cells.end_of_pass(state_of(lent), 0, *planes)
            after = same_cells.end_of_sift(state_of(lent), rng.randrange(n), *planes)
            self.assertLessEqual(after, before)
            changes.add(after < before)
        self.assertEqual(changes, {False, True})

    def test_never_more(self):
        never = [], [(0, 6)], [(0, 6), (4, 4)], [(8, 4), (0, 6), (4, 4)], [(4, 4), (4, 4)]
        more = [(0, 4), (4, 6)], [(4, 6), (0, 4)], [(0, 6), (4, 4), (8, 5)], [(4, 4), (4, 5)]
        for expected, ends in [(True, each) for each in never] + [(False, each) for each in more]:
            self.assertEqual(same_cells.never_more(ends), expected, ends)


class Laws(unittest.TestCase):
    """The laws that are asked after the calls tell what is forged."""

    def told(self, seen):
        """What the law tells of heads one after the other."""
        heads = laws.Heads()
        return [heads.law(lambda: head)((0, 0)) for head in seen]

    def heads(self, *drawn):
        return [laws.as_built(lent_for(near_tables.from_rows([rows], [0, 1]))) for rows in drawn]

    def test_sound(self):
        heads = self.heads("0 1 1 0", "1 0 0 1", "0 1 1 -", "0 1 1 0", "0 1 1 1", "0 0 0 1")
        self.assertEqual(self.told(heads), [None] * 6)

    def test_forged(self):
        one, other = self.heads("0 1 1 0", "1 0 0 1")
        forged = other._replace(network=one.network)
        self.assertRegex(self.told([one, forged])[1], "^unlike tables have equal cells")
        for name, wrong in (("count", 3), ("cells", (0, 5, 4, 1, 1, 0)), ("roots", (3,))):
            forged = one._replace(network=one.network._replace(**{name: wrong}))
            self.assertRegex(self.told([one, one, forged])[2], "^equal tables have other cells")
            self.assertEqual(laws.kinds_between(one, forged), {f"other {name}"})

    def test_refused(self):
        law = laws.Heads().law(lambda: self.fail("nothing was left"))
        self.assertEqual((law((23, 4)), law.kinds), (None, set()))

    def test_kinds(self):
        heads, ends = laws.Heads(), laws.Ends()
        seen = self.heads("0 0 0 -", "0 0 0 0", "1 1 1 1", "0 1 0 1")
        asked = [heads.law(lambda head=head: head) for head in seen]
        self.assertEqual([law((0, 0)) for law in asked], [None] * 4)
        same, unlike = laws.SAME, laws.DRAWN_UNLIKE
        kinds = [set(), {same, unlike}, {"other roots"}, {"other count"}]
        self.assertEqual([law.kinds for law in asked], kinds)
        asked = [ends.law(limit) for limit in (8, 0, 4, 9)]
        answers = [law((0, cells)) for law, cells in zip(asked, (5, 7, 5, 3))]
        self.assertEqual(answers, [None] * 4)
        kinds = [set(), {laws.FEWER}, {laws.FEWER, laws.AS_MANY}, {laws.FEWER}]
        self.assertEqual([law.kinds for law in asked], kinds)

    def test_ends(self):
        more = [(0, 4), (4, 5)], [(4, 5), (0, 4)], [(4, 4), (4, 5)], [(4, 5), (4, 4)]
        for pair in more:
            ends = laws.Ends()
            first, last = (ends.law(limit)((0, cells)) for limit, cells in pair)
            self.assertIsNone(first)
            self.assertRegex(last, "^more cells in the end")


class Tables(unittest.TestCase):
    def test_what_is_near_as_drawn(self):
        rng = random.Random(36)
        for _ in range(60):
            n, m = rng.randint(0, 4), rng.choice((1, 2, 3))
            drawn = near_tables.any_table(rng, n, m, rng.sample(range(n), n))
            table = laws.filled_of(lent_for(drawn))
            for near in (near_tables.same, near_tables.other_free_values):
                self.assertEqual(laws.filled_of(lent_for(near(rng, drawn))), table)
            # Filled wholly, it is cared in every row and fills to itself.
            whole = drawn._replace(values=near_tables.filled_bits(drawn), care=[1] * (m << n))
            self.assertEqual(laws.filled_of(lent_for(whole)), table)

    def test_outputs_and_inputs(self):
        rng, drawn = random.Random(37), near_tables.from_rows(["0 0 1 -", "1 1 1 0"], [1, 0])
        inverted = {("1 1 0 -", "1 1 1 0"), ("0 0 1 -", "0 0 0 1")}
        inputs = {("1 - 0 0", "1 0 1 1"), ("0 0 - 1", "1 1 0 1")}
        itself = {("0 0 1 -", "1 1 1 0")}
        for near, expected in (
            (near_tables.inverted_output, inverted), (near_tables.inverted_input, inputs),
            (near_tables.exchanged_outputs, itself | {("1 1 1 0", "0 0 1 -")}),
            (near_tables.exchanged_inputs, itself | {("0 1 0 -", "1 1 1 0")}),
        ):
            self.assertEqual({shown(near(rng, drawn)) for _ in range(40)}, expected, near)

    def test_no_inputs(self):
        rng, drawn = random.Random(38), near_tables.from_rows(["1"], [])
        for near in (near_tables.inverted_input, near_tables.exchanged_inputs):
            self.assertEqual(near(rng, drawn), drawn)

    def test_conjunctions(self):
        drawn = near_tables.conjunctions(4, 2)
        self.assertEqual((drawn.n, drawn.m, drawn.order), (4, 2, [0, 2, 1, 3]))
        self.assertEqual(drawn.values[:16], tables.bits_of(0xF888, 16))
        self.assertEqual(drawn.values[16:], [0, 0, 0, 1] * 4)
