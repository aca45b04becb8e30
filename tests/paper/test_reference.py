"""A quick test of the reference against the papers' own figures.

The figures here are copied from the papers or worked out by hand, never taken from a
program. What tables fill to is in test_filling.py.
"""

import itertools
import random
import unittest

from calls import library
from calls.by_reference import (
    answers_of, called, loaded, network_in, network_of, played, stage_of, state_of,
)
from calls.lent.moves import order_of
from making import table_files, tables
from paper import reference
from programs import expected

EXCLUSIVE_OR_TEXT = """\
inputs 2
outputs 1
order 0 1
cared 4
cells 2
cell 1 0 4 5
cell 2 1 0 1
root 0 2
"""


def two_ands(order):
    """Input 0 and 1, or 2 and 3."""
    return table_files.table_file(4, 1, order, tables.bits_of(0xF888, 16), [1] * 16)


class Files(unittest.TestCase):
    def test_section_8_bytes(self):
        file = table_files.table_from_rows(["0 1 1 0"])
        heading, values, care = table_files.blocks_of(file)
        self.assertEqual(heading[:8], bytes([1, 0, 0, 0, 2, 1, 0, 1]))
        self.assertEqual(values[:5], bytes([2, 0, 1, 0, 0x06]))
        self.assertEqual(care[:5], bytes([3, 0, 2, 0, 0x0F]))
        checks = [reference.stored_check(block) for block in (heading, values, care)]
        self.assertEqual(checks, [25, 35, 84])

    def test_section_9_bytes(self):
        self.assertEqual(two_ands([0, 1, 2, 3])[512 + 4 : 512 + 6], bytes([0x88, 0xF8]))

    def test_longest_file(self):
        self.assertEqual(len(tables.all_zero(10, 16)), 11 * 512)

    def test_every_damage_and_pair(self):
        for base in tables.DAMAGE_BASES.values():
            sound = base()
            self.assertEqual(reference.file_refusal(sound), 0)
            damages = table_files.all_damages(sound)
            for chosen in [[damage] for damage in damages] + table_files.pairs_of(damages):
                refusal = reference.file_refusal(table_files.damaged(sound, chosen))
                names = [damage.name for damage in chosen]
                self.assertEqual(refusal, table_files.refusal_due(chosen), names)

    def test_sizes_at_their_limits(self):
        self.assertEqual(played(tables.all_zero(10, 1))[0], [(0, 0)])
        eleven = table_files.with_byte(tables.all_zero(10, 1), 0, 4, 11)
        self.assertEqual(played(eleven, "count")[0], [(4, 0), (21, 0)])

    def test_lengths(self):
        spoiled = table_files.with_stored_check(tables.all_zero(2, 1), 0, 1)
        for length, number in ((0, 1), (511, 1), (512, 2), (513, 1), (65536, 2)):
            table = spoiled[:length].ljust(length, b"\0")
            self.assertEqual(expected.print_text(table), f"refused {number}\n")
            self.assertEqual(played(table)[0], [(number, 0)])
        # The limit of 65,536 bytes is the programs'.
        longer = spoiled.ljust(66048, b"\0")
        self.assertEqual(expected.print_text(longer), "refused 1\n")
        self.assertEqual(played(longer)[0], [(2, 0)])


class Tables(unittest.TestCase):
    def assert_network(self, outputs, cells, roots):
        self.assertEqual(network_of(table_files.table_from_rows(outputs)), (cells, roots))

    def test_section_8_text(self):
        file = table_files.table_from_rows(["0 1 1 0"])
        self.assertEqual(expected.print_text(file), EXCLUSIVE_OR_TEXT)

    def test_no_inputs(self):
        self.assert_network(["1"], [], [1])
        text = expected.print_text(table_files.table_from_rows(["1"]))
        self.assertEqual(text, "inputs 0\noutputs 1\norder\ncared 1\ncells 0\nroot 0 1\n")

    def test_and_with_its_inverse(self):
        cells = [(0, 0, 4), (1, 0, 1)]
        self.assert_network(["0 0 0 1"], cells, [2])
        self.assert_network(["1 1 1 0"], cells, [3])
        self.assert_network(["0 0 0 1", "1 1 1 0"], cells, [2, 3])

    def test_two_inputs(self):
        self.assert_network(["0 1 1 0"], [(0, 4, 5), (1, 0, 1)], [2])
        self.assert_network(["0 1 0 1"], [(1, 0, 1)], [2])
        self.assert_network(["0 0 0 -"], [], [0])

    def test_two_ands(self):
        natural, mixed = two_ands([0, 1, 2, 3]), two_ands([0, 2, 1, 3])
        self.assertEqual(answers_of(natural, "count"), [(0, 4)])
        self.assertEqual(answers_of(mixed, "build sift 1 count"), [(0, 6), (0, 4), (0, 4)])
        sifted = loaded(mixed, "build sift 1")
        self.assertEqual((order_of(sifted), stage_of(sifted)), ([1, 0, 2, 3], ("table", 0)))
        answers, refused = played(natural, "board 3 build")
        self.assertEqual((answers[1:], stage_of(refused)), ([(23, 4)], ("table", 0)))
        answers, built = played(natural, "board 3 build board 4 build")
        self.assertEqual((answers[1:], stage_of(built)), ([(23, 4), (0, 4)], ("network", 4)))

    def test_rows_places_and_passes(self):
        exclusive_or = table_files.table_from_rows(["0 1 1 0"])
        answers = answers_of(exclusive_or, "eval 4 build eval 3 eval 1 eval 4")
        self.assertEqual(answers, [(22, 0), (0, 2), (0, 0), (0, 1), (8, 0)])
        self.assertEqual(answers_of(table_files.table_from_rows(["0 1"]), "swap 0"), [(9, 0)])
        answers, lent = played(table_files.table_from_rows(["1"]), "build pass 9 sift 0")
        self.assertEqual((answers[2:], stage_of(lent)), ([(0, 0), (9, 0)], ("table", 0)))

    def test_a_refused_build_keeps_the_network(self):
        answers, lent = played(table_files.table_from_rows(["0 1 1 0"]), "build board 1 build rows")
        self.assertEqual(answers[2:], [(23, 2), (0, 0), (0, 1), (0, 1), (0, 0)])
        self.assertEqual(stage_of(lent), ("network", 2))
        self.assertEqual(network_in(lent), ([(0, 4, 5), (1, 0, 1)], [2]))


class Networks(unittest.TestCase):
    def test_widest_table(self):
        file = tables.widest_table(random.Random(1))
        self.assertEqual(answers_of(file, "board 2158 build"), [(23, 2159)])

    def test_order_entries_are_inputs_at_places(self):
        # Input 0 alone, in the order 2 0 1: it stands at place 1.
        file = table_files.table_from_rows(["0 0 0 0 1 1 1 1"], [2, 0, 1])
        self.assertEqual(network_of(file), ([(1, 0, 1)], [2]))

    def test_numbers_by_place_then_output(self):
        # Output 0's segments come first: inputs 1 and 2 under input 0 at 1.
        outputs = ["0 0 0 0 0 1 1 0", "0 0 0 1 0 0 0 0"]
        cells = [(0, 0, 6), (0, 8, 0), (1, 10, 11), (1, 0, 10), (2, 0, 1)]
        self.assertEqual(network_of(table_files.table_from_rows(outputs)), (cells, [2, 4]))

    def test_cared_rows_evaluate_to_their_bits(self):
        rng = random.Random(6)
        for _ in range(60):
            n, m = rng.randint(0, 5), rng.randint(1, 5)
            lent = loaded(tables.random_table(rng, n, m), "build")
            values = reference.stream_bits(lent.contents["values"], m << n)
            care = reference.stream_bits(lent.contents["care"], m << n)
            for row in range(1 << n):
                number, answer = called(lent, "evaluate", row=row)
                self.assertEqual(number, 0)
                for j in range(m):
                    if care[(j << n) + row]:
                        self.assertEqual(answer >> j & 1, values[(j << n) + row])


class Sifting(unittest.TestCase):
    def test_pass_by_its_limit(self):
        # From 0 2 1 3, inputs 1 and 2 have two cells each, 0 and 3 one. So 1
        # goes first, to the top; then all have one cell each and 0, 2 and 3
        # follow. No place has fewer than the four cells, so each stays where it
        # is then: input 0 at place 1, not at place 0, where it was at first.
        wanted = {0: 0, 3: 0, 4: 4, 7: 4, 8: 8, 12: 12, 15: 12, 16: 16, 17: 16, 4294967295: 16}
        for limit, tried in wanted.items():
            answers, lent = played(two_ands([0, 2, 1, 3]), f"build pass {limit}")
            self.assertEqual((answers[-1], stage_of(lent)), ((0, tried), ("table", 0)))
            self.assertEqual(order_of(lent), [1, 0, 2, 3] if tried else [0, 2, 1, 3])

    def assert_sifted(self, file, sifted, cells, order):
        answers, lent = played(file, f"sift {sifted}")
        self.assertEqual((answers[-1], order_of(lent)), ((0, cells), list(order)))

    def test_present_place_is_kept_on_ties(self):
        # Exclusive-or has two cells in both orders. Of section 9's table every
        # input's own place has as few cells as any where the cells are four,
        # and so has input 3's in the order 0 2 1 3, where every place has six.
        for order, sifted in itertools.product(((0, 1), (1, 0)), (0, 1)):
            self.assert_sifted(table_files.table_from_rows(["0 1 1 0"], order), sifted, 2, order)
        four = (0, 1, 2, 3), (1, 0, 2, 3), (2, 3, 0, 1), (3, 2, 1, 0)
        for order, sifted in itertools.product(four, range(4)):
            self.assert_sifted(two_ands(order), sifted, 4, order)
        self.assert_sifted(two_ands([0, 2, 1, 3]), 3, 6, [0, 2, 1, 3])

    def test_smallest_place_otherwise(self):
        # Beside input 0, above or below it, input 1 leaves four cells; between
        # inputs 2 and 3, or with both between it and input 0, six.
        for order in ([0, 2, 1, 3], [0, 2, 3, 1]):
            self.assert_sifted(two_ands(order), 1, 4, [1, 0, 2, 3])
        self.assert_sifted(two_ands([1, 2, 3, 0]), 1, 4, [2, 3, 1, 0])

    def test_last_place_is_tried(self):
        # Input 1 beside both inputs' and: three cells with 1 on top, two below.
        file = table_files.table_from_rows(["0 1 0 1", "0 0 0 1"], [1, 0])
        self.assertEqual(answers_of(file, "count"), [(0, 3)])
        self.assert_sifted(file, 1, 2, [0, 1])

    def test_every_order_is_filled_afresh(self):
        # In the natural order the halves agree, 0 0 0 1 twice: inputs 1 and 2, two
        # cells. In the order 1 0 2 they are 0 0 - - and 0 - - 1, so together 0 0 - 1,
        # which has the halves' constants 0 and 1: input 0 alone. Filled once, every
        # order has two. (Document 02's 2.6: with 0 1 - 1 both orders have one now.)
        file = table_files.table_from_rows(["0 0 0 - - - - 1"])
        for sifting, answer in (("sift 0", 1), ("sift 1", 1), ("pass 3", 3)):
            answers, lent = played(file, f"build {sifting} build cared")
            self.assertEqual(answers[1:], [(0, 2), (0, answer), (0, 1), (0, 4)])
            self.assertEqual((order_of(lent), network_in(lent)), ([1, 0, 2], ([(1, 0, 1)], [2])))


class States(unittest.TestCase):
    """Forged states and short buffers, which no program can be given."""

    def with_network(self):
        return loaded(two_ands([0, 1, 2, 3]), "build")

    def evaluated(self, lent):
        return called(lent, "evaluate", row=15)

    def test_broken_states_count_as_nothing(self):
        for at, number in ((library.N, 11), (library.M, 0), (library.M, 17), (9, 0)):
            lent = self.with_network()
            lent.contents["state"][at] = number
            self.assertEqual(self.evaluated(lent), (22, 0))
            for name in ("count", "build"):
                self.assertEqual(called(lent, name), (21, 0))
            for name, number in (("swap", "place"), ("sift", "input"), ("pass", "limit")):
                self.assertEqual(called(lent, name, **{number: 0}), (21, 0))

    def test_entries_past_n_are_kept(self):
        lent, words = self.with_network(), [9, 9, 8, 0, 0, 7]
        lent.contents["state"][12:18] = library.new_buffer("state", words)
        for name, number in (("swap", "place"), ("sift", "input"), ("pass", "limit")):
            self.assertEqual(called(lent, name, **{number: 1})[0], 0)
        self.assertEqual(state_of(lent).order[4:], words)

    def test_broken_networks(self):
        # Of cells (0, 6, 4), (1, 6, 1), (2, 0, 8), (3, 0, 1) one number is
        # made wrong: a place, a reference past the last, an arrow to itself.
        for at, number in ((0, 4), (1, 10), (2, 11), (1, 2), (2, 3), (4, 4)):
            lent = self.with_network()
            self.assertEqual(self.evaluated(lent), (0, 1))
            lent.contents["cells"][at] = number
            self.assertEqual(self.evaluated(lent), (24, 0))
        lent = self.with_network()
        lent.contents["roots"][0] = 10
        self.assertEqual(self.evaluated(lent), (24, 0))
        lent.contents["roots"][0] = 9
        self.assertEqual(self.evaluated(lent)[0], 0)
        lent.lengths["cells"] = 11
        self.assertEqual(self.evaluated(lent), (24, 0))

    def test_short_buffers_come_first(self):
        for name, length in (("values", 2047), ("care", 2047), ("work", 32767)):
            lent = played(b"")[1]
            lent.lengths[name] = length
            for call, numbers in (("count", {}), ("sift", {"input": 99}), ("pass", {"limit": 99})):
                self.assertEqual(called(lent, call, **numbers), (10, 0))
            self.assertEqual(called(lent, "build"), (10, 0))
        lent = played(b"")[1]
        lent.lengths["roots"] = 15
        self.assertEqual(called(lent, "build"), (10, 0))
        self.assertEqual(called(lent, "evaluate", row=99), (10, 0))

    def built_on(self, length):
        """A build of section 9's table on so many numbers, dirty as the roots are."""
        lent = loaded(two_ands([0, 1, 2, 3]))
        lent.put("cells", [5] * length, length)
        lent.put("roots", [6] * 17, 17)
        answer = called(lent, "build")
        return answer, list(lent.contents["cells"]), list(lent.contents["roots"])

    def test_refused_build_writes_work_alone(self):
        self.assertEqual(self.built_on(11), ((23, 4), [5] * 11, [6] * 17))

    def test_build_leaves_the_rest(self):
        answer, cells, roots = self.built_on(14)
        self.assertEqual((answer, cells[12:], roots), ((0, 4), [5, 5], [2] + [0] * 15 + [6]))

    def test_work_is_left_zero(self):
        asked = [("count", {}, 27), ("build", {}, 27), ("build", {}, 9)]
        for name, numbers, cells in asked + [("sift", {"input": 3}, 27), ("pass", {"limit": 3}, 27)]:
            lent = self.with_network()
            lent.put("work", [7] * 32769, 32769)
            lent.lengths["cells"] = cells
            called(lent, name, **numbers)
            work = lent.contents["work"]
            self.assertEqual((any(work[:-1]), work[-1]), (False, 7))


class Lists(unittest.TestCase):
    """Document 02's 2.1: many rows, one call."""

    def setUp(self):
        self.lent = loaded(table_files.table_from_rows(["0 1 1 0"]), "build")

    def evaluated(self, rows, answers):
        """The call's answer, and the answers to the rows as it leaves them."""
        self.lent.put("rows", rows, len(rows))
        self.lent.put("answers", answers, len(answers))
        return called(self.lent, "evaluate_rows"), list(self.lent.contents["answers"])

    def assert_refused(self, number, rows, answers):
        self.assertEqual(self.evaluated(rows, answers), ((number, 0), answers))

    def test_answers_past_the_last_row_are_kept(self):
        self.assertEqual(self.evaluated([1, 3, 1, 2], [7] * 6), ((0, 0), [1, 0, 1, 1, 7, 7]))

    def test_answers_as_many_as_rows(self):
        self.assertEqual(self.evaluated([3, 2, 2], [7, 7, 7]), ((0, 0), [0, 1, 1]))

    def test_row_beyond_writes_nothing(self):
        for place, beyond in itertools.product(range(3), (4, 65535)):
            rows = [1, 2, 1]
            rows[place] = beyond
            self.assert_refused(8, rows, [7] * 4)

    def test_too_few_answers(self):
        for length in range(3):
            self.assert_refused(31, [1, 2, 1], [7] * length)

    def hold_no_network(self):
        self.lent.contents["state"][library.STAGE] = library.STAGES.index(reference.TABLE)

    def test_empty_list(self):
        for answers in ([], [7, 7]):
            self.assertEqual(self.evaluated([], answers), ((0, 0), answers))
        self.lent.contents["cells"][0] = 2
        self.assert_refused(24, [], [7])
        self.hold_no_network()
        self.assert_refused(22, [], [7])
        self.lent.lengths["roots"] = 15
        self.assert_refused(10, [], [7])

    def test_sequence_of_the_checks(self):
        for due in itertools.product((False, True), repeat=5):
            self.setUp()
            short_roots, few_answers, no_network, beyond, unsound = due
            if short_roots:
                self.lent.lengths["roots"] = 15
            if no_network:
                self.hold_no_network()
            if unsound:
                self.lent.contents["roots"][0] = 6
            numbers = [number for number, is_due in zip((10, 31, 22, 8, 24), due) if is_due]
            if numbers:
                rows = [1, 2, 4] if beyond else [1, 2, 3]
                self.assert_refused(numbers[0], rows, [7] * (2 if few_answers else 4))

    def test_each_answer_is_that_of_its_row_alone(self):
        rng = random.Random(7)
        for _ in range(40):
            n, m = rng.randint(0, 5), rng.randint(1, 16)
            self.lent = loaded(tables.random_table(rng, n, m), "build")
            rows = [rng.randrange(1 << n) for _ in range(20)]
            alone = [called(self.lent, "evaluate", row=row) for row in rows]
            wanted = [answer for _, answer in alone]
            self.assertEqual(alone, [(0, answer) for answer in wanted])
            self.assertEqual(self.evaluated(rows, [7] * 20), ((0, 0), wanted))

    def test_at_every_stage(self):
        file = table_files.table_from_rows(["0 1 1 0"])
        answers = answers_of(file, "evals 3 build evals 3,1,1 evals 0,4 swap 0 evals 4")
        self.assertEqual(answers, [(22, 0), (0, 2), (0, 0), (8, 0), (0, 0), (22, 0)])


class Scripts(unittest.TestCase):
    """The words that the cases are written in."""

    def test_a_wrong_word_is_an_error(self):
        for command in ("nonsense", "count 5", "swap", "swap count", "evals 3,,5"):
            with self.assertRaises((KeyError, RuntimeError, StopIteration, ValueError)):
                played(table_files.table_from_rows(["0 1 1 0"]), command)
