"""A quick test of the reference's filling: section 3 with document 02's 2.6.

What tables fill to is copied from the papers or worked out by hand, never taken from a
program. A table is drawn as section 9 does.
"""

import itertools
import random
import unittest
from unittest import mock

from calls.by_reference import loaded, network_of, state_of
from making import fill_tables, table_files, tables
from paper import reference


def table_in(file):
    """The lent table of a file, and its order."""
    lent = loaded(file)
    state = state_of(lent)
    table = reference.lent_table(state, lent.contents["values"], lent.contents["care"])
    return table, reference.used_order(state)


def filled_of(file):
    """The filled outputs, rows by the order's places, as text."""
    outputs = reference.filled(*table_in(file))
    return [" ".join(str(bit) for bit in output) for output in outputs]


def links_of(outputs):
    """The links of every level, of a table in natural order."""
    table, order = table_in(table_files.table_from_rows(outputs))
    return reference.links_by_level(reference.reordered(table, order), table.n)


class Drawn(unittest.TestCase):
    def assert_fills(self, outputs, filled, order=None):
        self.assertEqual(filled_of(table_files.table_from_rows(outputs, order)), filled)

    def assert_network(self, outputs, cells, roots):
        self.assertEqual(network_of(table_files.table_from_rows(outputs)), (cells, roots))


class Filling(Drawn):
    """Section 9's slips, each with a table on which it shows."""

    def test_inverted_match(self):
        # The lower half is the upper one inverted where it is cared.
        self.assert_fills(["0 1 1 0 1 0 - -"], ["0 1 1 0 1 0 0 1"])

    def test_care_after_merges(self):
        # Output 1 widens output 0's entry to 0 1 1 -, which output 2 then
        # neither is nor inverts, though it agreed with 0 1 - - as it was.
        outputs = ["0 1 - -", "0 - 1 -", "- 1 0 0"]
        self.assert_fills(outputs, ["0 1 1 1", "0 1 1 1", "1 1 0 0"])

    def test_constants_before_matches(self):
        self.assert_fills(["0 1 1 0", "- - 1 -"], ["0 1 1 0", "1 1 1 1"])
        self.assert_fills(["0 1 1 0", "- - - -"], ["0 1 1 0", "0 0 0 0"])

    def test_plain_before_inverted(self):
        # No row is cared in both, so plain and inverted would both agree.
        self.assert_fills(["0 1 - -", "- - 0 1"], ["0 1 0 1", "0 1 0 1"])

    def test_first_entry_in_sequence(self):
        outputs = ["0 1 1 0", "0 0 1 0", "0 - 1 0"]
        self.assert_fills(outputs, ["0 1 1 0", "0 0 1 0", "0 1 1 0"])

    def test_full_care_fills_to_itself(self):
        rng = random.Random(5)
        for _ in range(50):
            n, m = rng.randint(0, 5), rng.randint(1, 4)
            values = [rng.randint(0, 1) for _ in range(m << n)]
            file = table_files.table_file(n, m, range(n), values, [1] * len(values))
            self.assertEqual(" ".join(filled_of(file)), " ".join(map(str, values)))


class Halves(Drawn):
    """Document 02's 2.6: halves before constants."""

    def test_paper(self):
        # Section 9 had 0 1 1 1 and two cells for the first; the second is as before.
        self.assert_fills(["0 1 - 1"], ["0 1 0 1"])
        self.assert_network(["0 1 - 1"], [(1, 0, 1)], [2])
        self.assert_fills(["0 1 1 -"], ["0 1 1 1"])
        self.assert_network(["0 1 1 -"], [(0, 4, 1), (1, 0, 1)], [2])

    def test_single_candidate(self):
        # The 1-half where it is cared, else the 0-half.
        self.assert_fills(["- 0 1 -"], ["1 0 1 0"])
        self.assert_network(["- 0 1 -"], [(1, 0, 1)], [3])
        self.assert_fills(["0 - 1 - - 1 - 0"], ["0 1 1 0 0 1 1 0"])
        self.assert_fills(["0 1 - 0 - 1 1 -"], ["0 1 1 0 0 1 1 0"])

    def test_every_table_of_two_inputs(self):
        for rows in itertools.product("01-", repeat=4):
            filled = " ".join(filled_by_hand(rows))
            self.assert_fills([" ".join(rows)], [filled])
            crossed = [rows[0], rows[2], rows[1], rows[3]]
            self.assert_fills([" ".join(crossed)], [filled], order=[1, 0])

    def test_wholly_free_half(self):
        for rows, filled in (
            ("0 1 - -", "0 1 0 1"), ("- - 1 0", "1 0 1 0"),
            ("0 1 1 0 - - - -", "0 1 1 0 0 1 1 0"), ("- - - - 1 0 0 -", "1 0 0 0 1 0 0 0"),
            ("- - - - - - 0 1", "0 1 0 1 0 1 0 1"), ("- - 0 1 - - - -", "0 1 0 1 0 1 0 1"),
        ):
            self.assert_fills([rows], [filled])

    def test_before_the_constants(self):
        # One half or each of them would be a constant by itself.
        for rows, filled in (
            ("0 - 0 1", "0 1 0 1"), ("1 0 1 -", "1 0 1 0"), ("0 - - 1", "0 1 0 1"),
            ("0 0 - - - - 1 1", "0 0 1 1 0 0 1 1"), ("- 1 - 1 0 - 0 -", "0 1 0 1 0 1 0 1"),
        ):
            self.assert_fills([rows], [filled])

    def test_one_row_conflicts(self):
        # Then the halves are two candidates, whichever row it is.
        self.assert_fills(["0 1 - 0 0 - 1 1"], ["0 1 0 0 0 0 1 1"])
        self.assert_fills(["0 1 - 0 1 - - 0"], ["0 1 0 0 1 0 1 0"])
        self.assert_fills(["0 0 1 - - 1 1 -"], ["0 0 1 1 1 1 1 1"])

    def test_inverted_halves_do_not_agree(self):
        # They are two candidates, and the second is matched with the first's entry.
        self.assert_fills(["0 1 1 - 1 - 0 -"], ["0 1 1 1 1 0 0 0"])
        self.assertEqual(links_of(["0 1 1 - 1 - 0 -"])[1], [("entry", 0, 0), ("entry", 0, 1)])

    def test_at_every_level(self):
        # Halves of an entry that is itself two halves in one, and of one that is not.
        self.assert_fills(["0 - - 1 - - - -"], ["0 1 0 1 0 1 0 1"])
        self.assert_fills(["0 - - 1 1 1 0 1"], ["0 1 0 1 1 1 0 1"])


class Entries(Drawn):
    """Document 02's 2.6 among several entries: which are tested, and what follows."""

    def test_finished_entries(self):
        # Each alone has halves that agree; the entry of both is 0 1 1 0.
        self.assert_fills(["0 1 - -"], ["0 1 0 1"])
        self.assert_fills(["- - 1 0"], ["1 0 1 0"])
        self.assert_fills(["0 1 - -", "- - 1 0"], ["0 1 1 0", "0 1 1 0"])
        # Halves that agree as finished did so before, but with fewer rows cared.
        outputs = ["0 1 - - - - - -", "- - 1 0 - - - -"]
        self.assert_fills(outputs, ["0 1 1 0 0 1 1 0"] * 2)
        outputs = ["0 1 - - - - 1 -", "0 - - - - 1 - 0"]
        self.assert_fills(outputs, ["0 1 1 0 0 1 1 0"] * 2)

    def test_finished_entries_below(self):
        # Of output 1 the 0-half makes 0 1 1 - of output 0's, whose halves agreed.
        outputs = ["0 1 - - 1 1 1 1", "0 - 1 - 1 1 1 0"]
        self.assert_fills(outputs, ["0 1 1 1 1 1 1 1", "0 1 1 1 1 1 1 0"])

    def test_outputs_are_no_halves(self):
        # The outputs agree wherever both are cared, and are constants all the same.
        self.assert_fills(["- - - 1", "0 0 - -"], ["1 1 1 1", "0 0 0 0"])
        # Output 0's own halves agree, but not those of what output 1 makes of it.
        self.assert_fills(["0 1 - 1", "0 - 1 1"], ["0 1 1 1", "0 1 1 1"])

    def test_both_links_follow_inverted(self):
        # Output 1's halves together are 1 0, which is 0 1 inverted.
        outputs = ["0 1 1 0", "1 - - 0"]
        self.assert_fills(outputs, ["0 1 1 0", "1 0 1 0"])
        inverted = ("entry", 0, 1)
        self.assertEqual(links_of(outputs)[1], [("entry", 0, 0)] + [inverted] * 3)
        self.assert_network(outputs, [(0, 4, 5), (1, 0, 1)], [2, 5])

    def test_both_links_follow_plain(self):
        # Output 1's halves together are 1 0 0 1, the second entry of their level.
        outputs = ["0 0 0 1 0 0 0 0", "1 0 0 - - 0 0 1"]
        self.assert_fills(outputs, ["0 0 0 1 0 0 0 0", "1 0 0 1 1 0 0 1"])
        second = ("entry", 1, 0)
        self.assertEqual(links_of(outputs)[1][2:], [second, second])

    def test_single_candidate_widens_an_entry(self):
        # Output 1's is 0 - 1 0, which makes 0 1 1 0 of output 0's 0 1 - -.
        outputs = ["0 1 - - 1 1 1 1", "0 - - 0 - - 1 0"]
        self.assert_fills(outputs, ["0 1 1 0 1 1 1 1", "0 1 1 0 0 1 1 0"])

    def test_single_candidate_in_its_turn(self):
        # Output 0's is 0 1 1 0 and comes first: output 1's 0 1 - - is merged with
        # it, and not with output 2's - 1 0 0.
        outputs = ["0 1 - - - - 1 0", "0 1 - - 1 1 1 1", "- 1 0 0 0 0 0 0"]
        filled = ["0 1 1 0 0 1 1 0", "0 1 1 0 1 1 1 1", "1 1 0 0 0 0 0 0"]
        self.assert_fills(outputs, filled)

    def test_dearer(self):
        # The halves' constants would give input 0 alone. Of all 6,561 tables of three
        # inputs and one output 36 are dearer than before, by one cell each; of those of
        # two inputs and one output or two, none.
        self.assert_fills(["0 0 0 - - - - 1"], ["0 0 0 1 0 0 0 1"])
        self.assert_network(["0 0 0 - - - - 1"], [(1, 0, 4), (2, 0, 1)], [2])
        self.assert_network(["0 0 0 0 1 1 1 1"], [(0, 0, 1)], [2])


def filled_by_hand(rows):
    """One output of two inputs: a constant, the same two rows twice, or each half
    for itself, where no row is free unless the half is a constant."""
    if "1" not in rows:
        return ["0"] * 4
    if "0" not in rows:
        return ["1"] * 4
    columns = [{rows[at], rows[at + 2]} - {"-"} for at in (0, 1)]
    if all(len(marks) < 2 for marks in columns):
        return [mark for marks in columns for mark in marks] * 2
    return [mark for half in (rows[:2], rows[2:]) for mark in half_by_hand(half)]


def half_by_hand(half):
    if "-" not in half:
        return list(half)
    return ["1"] * 2 if "1" in half else ["0"] * 2


class Random(unittest.TestCase):
    def tables(self, most_outputs):
        """Tables with many halves that agree, and any others, in orders of their own."""
        rng = random.Random(26)
        for n, _ in itertools.product(range(8), range(12)):
            m = rng.randint(1, most_outputs)
            for make in (fill_tables.table, tables.random_table):
                yield table_in(make(rng, n, m))

    def test_one_output_has_its_top_place_only_if_it_must(self):
        for table, order in self.tables(1):
            if table.n:
                drawn, = reference.reordered(table, order)
                filled, = reference.filled(table, order)
                zero_half, one_half = reference.halves(filled)
                self.assertEqual(zero_half == one_half, reference.agree(*reference.halves(drawn)))

    def test_cared_rows_stay(self):
        for table, order in self.tables(16):
            drawn, filled = reference.reordered(table, order), reference.filled(table, order)
            for output, bits in zip(drawn, filled):
                self.assertTrue(reference.agree(output, [(bit, 1) for bit in bits]))

    def test_values_of_free_rows_never_matter(self):
        for table, order in self.tables(16):
            drawn = reference.reordered(table, order)
            other = [[(value ^ 1 ^ care, care) for value, care in output] for output in drawn]
            left = [reference.links_by_level(each, table.n) for each in (drawn, other)]
            self.assertEqual(left[0], left[1])


class FullCare(unittest.TestCase):
    """'Fully cared tables are unaffected': section 3 with 2.6 and as it stood before."""

    SIZES = {0: 5, 1: 10, 2: 40, 3: 40, 4: 40, 5: 20, 6: 10, 7: 5, 8: 3, 10: 1}

    def outcome(self, table, order):
        """Links, filling and network, this one as if for the first time."""
        links = reference.links_by_level(reference.reordered(table, order), table.n)
        network = reference.network.__wrapped__(table, tuple(order))
        return links, reference.filled(table, order), network

    def before(self, table, order):
        with mock.patch.object(reference, "HALVES_FIRST", False):
            return self.outcome(table, order)

    def test_same_before_and_after(self):
        rng = random.Random(26)
        for n, count in self.SIZES.items():
            for _ in range(count):
                m = rng.randint(1, 16 if n < 7 else 4)
                bits = rng.choice((tables.coin_bits, tables.pooled_bits, tables.formula_bits))
                values = table_files.packed(bits(rng, n, m))
                table = reference.Table(n, m, values, table_files.packed([1] * (m << n)))
                order = rng.sample(range(n), n)
                self.assertEqual(self.outcome(table, order), self.before(table, order))
        # Before is what section 9 says, so the two are not the same thing.
        table, order = table_in(table_files.table_from_rows(["0 1 - 1"]))
        self.assertEqual(self.before(table, order)[1], [[0, 1, 1, 1]])
        self.assertEqual(self.outcome(table, order)[1], [[0, 1, 0, 1]])
