"""A quick test of the report of moves, document 02's 2.8, in the reference.

The figures here are worked out by hand from the papers, never taken from a program.
"""

import array
import itertools
import random
import unittest

from calls.by_reference import answers_of, loaded, network_in, played, stage_of
from calls.lent.moves import order_of
from cases import cell_swaps
from making import move_tables, table_files
from paper import moves, reference

# Input 0 chooses: input 1 if it is 0, input 2 if it is 1.
CHOICE = ["0 0 1 1 0 1 0 1"]
DIRT = 77


class Lent:
    """A state that holds a network of so many cells, and buffers with one element more than
    is asked for, all dirty."""

    def __init__(self, outputs, order, count=9):
        n = len(order)
        self.state = reference.State()
        self.state.n, self.state.m, self.state.count = n, len(outputs), count
        self.state.order = list(order) + [9] * (10 - n)
        self.state.stage = reference.NETWORK
        streams = table_files.streams_from_rows(outputs)
        self.values, self.care = (
            bytearray(table_files.packed(bits).ljust(2049, b"\xA5")) for bits in streams
        )
        self.work = bytearray([0xA5] * 32769)
        self.gains = array.array("i", [DIRT] * (n * n + 1))

    def copy_of_all(self):
        state = self.state
        held = state.n, state.m, list(state.order), state.count, state.stage
        return held, bytes(self.values), bytes(self.care), bytes(self.work), list(self.gains)

    def moves(self):
        return moves.moves(self.state, self.gains, self.values, self.care, self.work)

    def rows(self):
        n = self.state.n
        return [list(self.gains[n * variable : n * variable + n]) for variable in range(n)]


def random_lent(rng):
    """Of up to five inputs, with free rows or none, in any order."""
    n, m = rng.randint(0, 5), rng.choice((1, 2, 3))
    marks = rng.choice(("01", "01-", "01--"))
    outputs = [" ".join(rng.choice(marks) for _ in range(2**n)) for _ in range(m)]
    return Lent(outputs, rng.sample(range(n), n))


class Reporting(unittest.TestCase):
    def assert_report(self, outputs, order, rows):
        """The rows of the report; all else that is lent stays, but for the work buffer."""
        lent = Lent(outputs, order)
        held, values, care, _, _ = lent.copy_of_all()
        self.assertEqual(lent.moves(), (0, 0))
        self.assertEqual(lent.rows(), rows)
        gains = [gain for row in rows for gain in row] + [DIRT]
        work = bytes(32768) + b"\xA5"
        self.assertEqual(lent.copy_of_all(), (held, values, care, work, gains))

    def test_section_9(self):
        # Four cells if the upper two places are 0 and 1 or 2 and 3, in either sequence;
        # six in every other order.
        crossed = [[0] * 4, [-2, -2, 0, 0], [0, 0, -2, -2], [0] * 4]
        self.assert_report(move_tables.TWO_ANDS, [0, 2, 1, 3], crossed)
        natural = [[0, 0, 2, 2], [0, 0, 2, 2], [2, 2, 0, 0], [2, 2, 0, 0]]
        self.assert_report(move_tables.TWO_ANDS, [0, 1, 2, 3], natural)

    def test_all_alike(self):
        self.assert_report(["0 1 1 0"], [0, 1], [[0, 0], [0, 0]])
        self.assert_report(["0 1 1 0"], [1, 0], [[0, 0], [0, 0]])
        self.assert_report(["0 0 0 1", "1 1 1 0"], [1, 0], [[0, 0], [0, 0]])
        self.assert_report(["0 1 1 0 1 0 0 1"], [2, 0, 1], [[0] * 3] * 3)
        self.assert_report(["0 0 0 -"], [0, 1], [[0, 0], [0, 0]])
        self.assert_report(["0 0 1 1"], [0, 1], [[0, 0], [0, 0]])

    def test_none_and_one(self):
        self.assert_report(["1"], [], [])
        self.assert_report(["0", "-", "1"], [], [])
        self.assert_report(["0 1"], [0], [[0]])
        self.assert_report(["- -"], [0], [[0]])

    def test_choice(self):
        # Three cells if input 0 is at the top, in every other order four.
        self.assert_report(CHOICE, [0, 1, 2], [[0, 1, 1], [1, 0, 0], [1, 0, 0]])
        self.assert_report(CHOICE, [1, 0, 2], [[-1, 0, 0], [0, -1, -1], [0, 0, 0]])
        self.assert_report(CHOICE, [2, 1, 0], [[-1, 0, 0], [0, 0, 0], [0, 0, 0]])

    def test_every_sign(self):
        # Cared: 0010 and 1011 and 1101 are 1; 0111, 1100 and 1110 are 0.
        #   0 1 2 3: the halves of 0 agree; then 1 if not input 1, else not 2 and 3: 3 cells.
        #   3 0 1 2: the halves of 3 conflict, and match inverted; then not 0: 2 cells, 1 if
        #            inputs 0 and 3 are alike.
        #   0 3 1 2: the halves of 0 agree, of 3 they don't: not 1, and 1 if not 1, else
        #            not 2: 4 cells.
        #   0 1 3 2, 0 2 1 3 and 0 2 3 1 have 3 cells as well.
        #   1 0 2 3, 1 2 0 3, 1 2 3 0 and 2 0 1 3: the halves of 1, or of 2, agree, and it is
        #            1 if inputs 0 and 3 are alike: 2 cells.
        rows = [[0, -1, -1, -1], [-1, 0, 0, 0], [-1, 0, 0, 0], [-1, 1, 0, 0]]
        self.assert_report(move_tables.EVERY_SIGN, [0, 1, 2, 3], rows)

    def test_each_order_is_filled_afresh(self):
        # Filled under 0 1 2 3 it is 1 if not input 1, else not 2 and 3. Of that table 3 0 1 2
        # makes four cells: of 3, of 1 twice and of 2. Filled afresh it makes two.
        lent = Lent(move_tables.EVERY_SIGN, [0, 1, 2, 3])
        table = reference.lent_table(lent.state, lent.values, lent.care)
        bits = reference.filled(table, [0, 1, 2, 3])[0]
        self.assertEqual(bits, [1, 1, 1, 1, 0, 1, 0, 0] * 2)
        whole = Lent([" ".join(map(str, bits))], [0, 1, 2, 3])
        self.assertEqual((whole.moves(), whole.rows()[3][0]), ((0, 0), 1))
        self.assertEqual((lent.moves(), lent.rows()[3][0]), ((0, 0), -1))

    def test_values_of_free_rows(self):
        lent, other = (Lent(move_tables.EVERY_SIGN, [3, 0, 2, 1]) for _ in range(2))
        for at in range(2):
            other.values[at] ^= other.care[at] ^ 0xFF
        self.assertEqual((lent.moves(), other.moves()), ((0, 0), (0, 0)))
        self.assertEqual(lent.gains, other.gains)

    def test_the_cells_now_are_counted(self):
        stages = reference.TABLE, reference.NETWORK
        for count, stage in itertools.product((0, 4, 6, 2**64 - 1), stages):
            lent = Lent(move_tables.TWO_ANDS, [0, 2, 1, 3], count)
            lent.state.stage = stage
            before = lent.copy_of_all()
            self.assertEqual(lent.moves(), (0, 0))
            self.assertEqual(lent.rows()[1], [-2, -2, 0, 0])
            self.assertEqual(lent.copy_of_all()[0], before[0])

    def test_ten_inputs(self):
        # Input 9 alone is asked: one cell wherever it stands.
        outputs = [" ".join(["0", "1"] * 512)]
        self.assert_report(outputs, range(10), [[0] * 10] * 10)


class Refusing(unittest.TestCase):
    def assert_refused(self, lent, number):
        before = lent.copy_of_all()
        self.assertEqual(lent.moves(), (number, 0))
        self.assertEqual(lent.copy_of_all(), before)

    def test_every_choice(self):
        for due in itertools.product((False, True), repeat=5):
            values, care, work, nothing, few = due
            lent = Lent(move_tables.TWO_ANDS, [0, 2, 1, 3])
            lent.values = lent.values[: 2047 if values else 2048]
            lent.care = lent.care[: 2047 if care else 2048]
            lent.work = lent.work[: 32767 if work else 32768]
            lent.state.stage = reference.NOTHING if nothing else reference.TABLE
            lent.gains = lent.gains[: 15 if few else 16]
            numbers = [number for number, is_due in zip((10, 10, 10, 21, 34), due) if is_due]
            if numbers:
                self.assert_refused(lent, numbers[0])
            else:
                self.assertEqual(lent.moves(), (0, 0))

    def test_lists_by_n(self):
        for n in range(1, 11):
            outputs = [" ".join(["0"] * 2**n)]
            lent = Lent(outputs, range(n))
            lent.gains = lent.gains[: n * n - 1]
            self.assert_refused(lent, 34)
            lent.gains = array.array("i", [DIRT] * (n * n))
            if n < 6:
                self.assertEqual(lent.moves(), (0, 0))
                self.assertEqual(list(lent.gains), [0] * (n * n))

    def test_no_inputs_need_no_list(self):
        lent = Lent(["1"], [])
        lent.gains = lent.gains[:0]
        self.assertEqual(lent.moves(), (0, 0))
        self.assertEqual(lent.work, bytes(32768) + b"\xA5")

    def test_states_at_nothing(self):
        broken = [("n", 11), ("n", 2**32), ("m", 0), ("m", 17), ("order", [0, 1, 1, 3] + [0] * 6)]
        for name, value in broken + [("stage", reference.NOTHING)]:
            for length in (0, 16, 17):
                lent = Lent(move_tables.TWO_ANDS, [0, 2, 1, 3])
                lent.gains = lent.gains[:length]
                setattr(lent.state, name, value)
                self.assert_refused(lent, 21)


class Laws(unittest.TestCase):
    """Of random tables: what the paper says of every report."""

    def each_report(self):
        rng = random.Random(21)
        for _ in range(120):
            lent = random_lent(rng)
            self.assertEqual(lent.moves(), (0, 0))
            yield lent

    def test_staying(self):
        for lent in self.each_report():
            for place, variable in enumerate(reference.used_order(lent.state)):
                self.assertEqual(lent.rows()[variable][place], 0)

    def test_the_smallest_is_the_sift(self):
        seen = set()
        for lent in self.each_report():
            planes, order = (lent.values, lent.care, lent.work), list(lent.state.order)
            _, now = reference.count(lent.state, *planes)
            for variable, row in enumerate(lent.rows()):
                number, fewest = reference.sift(lent.state, variable, *planes)
                self.assertEqual((number, fewest - now), (0, min(row)))
                seen |= {(gain > 0) - (gain < 0) for gain in row}
                lent.state.order = list(order)
        self.assertEqual(seen, {-1, 0, 1})

    def test_neighbours(self):
        # One goes down past the other, or the other goes up past it.
        for lent in self.each_report():
            order, rows = reference.used_order(lent.state), lent.rows()
            for place, (above, below) in enumerate(zip(order, order[1:])):
                self.assertEqual(rows[above][place + 1], rows[below][place])


class Scripts(unittest.TestCase):
    def report(self, file):
        """The entries of a report, a row for each input."""
        lent = loaded(file, "moves")
        n = len(order_of(lent))
        return [list(lent.contents["gains"][n * i : n * i + n]) for i in range(n)]

    def test_reports(self):
        crossed = table_files.table_from_rows(move_tables.TWO_ANDS, [0, 2, 1, 3])
        still = [0, 0, 0, 0]
        self.assertEqual(self.report(crossed), [still, [-2, -2, 0, 0], [0, 0, -2, -2], still])
        signs = table_files.table_from_rows(move_tables.EVERY_SIGN)
        self.assertEqual(self.report(signs)[3], [-1, 1, 0, 0])

    def test_no_inputs(self):
        answers = answers_of(table_files.table_from_rows(["1", "0"]), "moves build moves")
        self.assertEqual(answers, [(0, 0)] * 3)

    def test_nothing_changes(self):
        table = table_files.table_from_rows(CHOICE)
        held = [loaded(table, command) for command in ("build", "build moves")]
        for found in (stage_of, order_of, network_in):
            self.assertEqual(*map(found, held))

    def test_a_network_file(self):
        file = cell_swaps.read_of(table_files.table_from_rows(["0 1 1 -"]))
        self.assertEqual(self.report(file), [[0, 0], [0, 0]])
        self.assertEqual(stage_of(loaded(file, "moves")), ("network", 2))

    def test_a_table_that_is_refused(self):
        refused = table_files.with_byte(table_files.table_from_rows(["0 1 1 0"]), 1, 0, 3)
        self.assertEqual(played(refused, "moves")[0], [(3, 0), (21, 0)])


class Tables(unittest.TestCase):
    def test_the_drawn_table_is_section_9s(self):
        values, care = table_files.streams_from_rows(move_tables.TWO_ANDS)
        packed = table_files.packed(values), table_files.packed(care)
        self.assertEqual(packed, (b"\x88\xF8", b"\xFF\xFF"))
