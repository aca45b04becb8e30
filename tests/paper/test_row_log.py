"""A quick test of the log of rows, document 02's 2.4, in the reference.

The figures here are worked out by hand from the papers, never taken from a program.
"""

import itertools
import random
import unittest

from calls.by_reference import answers_of, loaded, network_in, played, stage_of
from cases import row_logs
from making import table_files
from paper import reference, row_log

MOST = 4294967295


class Lent:
    """A state that holds a network, and counts and care that are dirty past their ends."""

    def __init__(self, n, m, counts):
        self.state = reference.State()
        self.state.n, self.state.m, self.state.count = n, m, 5
        self.state.order = list(range(n))[::-1] + [99] * (10 - n)
        self.state.stage = reference.NETWORK
        self.counts, self.care = list(counts), bytearray([0xA5] * 2049)

    def copy_of_all(self):
        state = self.state
        held = state.n, state.m, list(state.order), state.count, state.stage
        return held, list(self.counts), bytes(self.care)

    def log(self, rows, least):
        return row_log.log_rows(self.state, rows, least, self.counts, self.care)


def care_of(stream):
    """The stream's bytes, zeros, and the byte behind that stays."""
    return bytes(stream).ljust(2048, b"\0") + b"\xA5"


class Logging(unittest.TestCase):
    def assert_log(self, n, m, before, asked, after, stream):
        """`asked` are the rows and the least; the stage, count and order are looked at too."""
        lent = Lent(n, m, before)
        self.assertEqual(lent.log(*asked), (0, 0))
        order = list(range(n))[::-1] + [99] * (10 - n)
        self.assertEqual(lent.copy_of_all(),
                         ((n, m, order, 0, reference.TABLE), after, care_of(stream)))

    def test_by_hand(self):
        # Rows 1 and 3 are seen three times: bits 0 1 0 1 for each of two outputs.
        self.assert_log(2, 2, [0, 1, 0, 2, 77], ([1, 3, 1, 2], 2), [0, 3, 1, 3, 77], [0xAA])
        # Row 1 alone: 0x2 for each of three outputs, the last byte half used.
        self.assert_log(2, 3, [0, 0, 0, 0], ([1], 1), [0, 1, 0, 0], [0x22, 0x02])
        # Row 5 of eight is bit 5 of each byte.
        self.assert_log(3, 2, [0] * 8, ([5, 5], 2), [0, 0, 0, 0, 0, 2, 0, 0], [0x20, 0x20])

    def test_no_inputs(self):
        self.assert_log(0, 3, [0], ([0, 0], 2), [2], [0x07])
        self.assert_log(0, 3, [0], ([0, 0], 3), [2], [])
        self.assert_log(0, 1, [0, 8], ([], 1), [0, 8], [])
        self.assert_log(0, 16, [0, 8], ([], 0), [0, 8], [0xFF, 0xFF])

    def test_ten_inputs(self):
        # Row 0 is bit 0 of an output's 128 bytes, row 1,023 the last bit of the last.
        ends = [1] + [0] * 126 + [0x80]
        after = [3] + [0] * 1022 + [3]
        self.assert_log(10, 16, [3] + [0] * 1023, ([1023] * 3, 3), after, ends * 16)
        self.assert_log(10, 2, [0] * 1024, ([], 0), [0] * 1024, [0xFF] * 256)

    def test_the_least(self):
        # Counts 0 to 3 reach 0, 1, 3 and 4.
        rows, after = [2, 3], [0, 1, 3, 4]
        cared = {0: 0xF, 1: 0xE, 2: 0xC, 3: 0xC, 4: 0x8, 5: 0, MOST: 0}
        for least, nibble in cared.items():
            self.assert_log(2, 1, [0, 1, 2, 3], (rows, least), after, [nibble])
        self.assert_log(2, 1, [0, MOST - 1, 0, 0], ([1], MOST), [0, MOST, 0, 0], [0x2])
        self.assert_log(2, 1, [0, MOST - 1, 0, 0], ([2], MOST), [0, MOST - 1, 1, 0], [0])

    def test_a_log_of_no_row_makes_the_care_anew(self):
        lent = Lent(2, 1, [0, 1, 2, 3])
        for least, nibble in ((3, 0x8), (1, 0xE), (0, 0xF), (4, 0), (2, 0xC)):
            self.assertEqual(lent.log([], least), (0, 0))
            self.assertEqual((lent.counts, lent.care), ([0, 1, 2, 3], care_of([nibble])))

    def test_long_lists(self):
        self.assert_log(1, 1, [0, 0], ([1] * 65537 + [0], 65537), [1, 65537], [0x2])
        self.assert_log(1, 1, [0, 0], ([0, 1] * 40, 41), [40, 40], [0])

    def test_a_table_stays_one(self):
        lent = Lent(1, 1, [0, 0])
        lent.state.stage = reference.TABLE
        self.assertEqual(lent.log([1], 1), (0, 0))
        self.assertEqual((lent.state.stage, lent.state.count), (reference.TABLE, 0))


class Records(unittest.TestCase):
    def assert_records(self, n, counts, rows, number):
        lent = Lent(n, 1, counts)
        before = lent.copy_of_all()
        self.assertEqual(lent.log(rows, 1), (number, 0))
        if number:
            self.assertEqual(lent.copy_of_all(), before)

    def test_one_count(self):
        self.assert_records(0, [MOST], [], 0)
        self.assert_records(0, [MOST], [0], 33)
        self.assert_records(0, [MOST - 2], [0, 0], 0)
        self.assert_records(0, [MOST - 2], [0, 0, 0], 33)

    def test_together(self):
        # 4,294,967,293 and 1 leave room for one row; half of 2^32 twice is one too many.
        self.assert_records(1, [4294967293, 1], [0], 0)
        self.assert_records(1, [4294967293, 1], [0, 1], 33)
        self.assert_records(1, [2147483648, 2147483647], [], 0)
        self.assert_records(1, [2147483648, 2147483647], [1], 33)
        self.assert_records(1, [2147483648, 2147483648], [], 33)
        self.assert_records(2, [MOST, 0, 0, 0], [3], 33)
        self.assert_records(2, [MOST] * 4, [], 33)
        # 3 x 2^30 and 2^30 are 2^32, which is 0 in 32 bits.
        self.assert_records(2, [3221225472, 0, 1073741824, 0], [1], 33)

    def test_counts_past_are_no_records(self):
        self.assert_records(0, [5, MOST, MOST], [0], 0)
        self.assert_records(1, [MOST - 1, 0, MOST], [1], 0)
        self.assert_records(1, [MOST - 1, 0, 0], [1, 1], 33)


class Refusals(unittest.TestCase):
    def test_every_choice(self):
        for due in itertools.product((False, True), repeat=5):
            care, nothing, counts, beyond, many = due
            lent = Lent(2, 1, [MOST - 2 if many else 0, 0, 0, 0][: 3 if counts else 4])
            lent.care = lent.care[: 2047 if care else 2048]
            lent.state.stage = reference.NOTHING if nothing else reference.TABLE
            before = lent.copy_of_all()
            numbers = [n for n, is_due in zip((10, 21, 10, 8, 33), due) if is_due] + [0]
            self.assertEqual(lent.log([1, 4, 2] if beyond else [1, 3, 2], 1), (numbers[0], 0))
            if numbers[0]:
                self.assertEqual(lent.copy_of_all(), before)

    def test_a_row_out_of_range_wherever_it_stands(self):
        for at, wrong in itertools.product(range(3), (4, 5, 256, 65535)):
            rows = [1, 1, 1]
            rows[at] = wrong
            lent = Lent(2, 1, [0] * 9)
            before = lent.copy_of_all()
            self.assertEqual(lent.log(rows, 1), (8, 0))
            self.assertEqual(lent.copy_of_all(), before)

    def test_states_at_nothing(self):
        broken = [("n", 11), ("m", 0), ("m", 17), ("order", [0, 0] + [0] * 8)]
        for name, value in broken + [("stage", reference.NOTHING)]:
            lent = Lent(2, 1, [0] * 4)
            setattr(lent.state, name, value)
            before = lent.copy_of_all()
            self.assertEqual(lent.log([], 0), (21, 0))
            self.assertEqual(lent.copy_of_all(), before)

    def test_counts_by_n(self):
        for n in range(11):
            self.assertEqual(Lent(n, 1, [0] * 2**n).log([2**n - 1], 1), (0, 0))
            self.assertEqual(Lent(n, 1, [0] * (2**n - 1)).log([], 1), (10, 0))


class Several(unittest.TestCase):
    def test_any_sequence_leaves_the_same(self):
        rng = random.Random(11)
        for _ in range(60):
            n, m = rng.randint(0, 5), rng.randint(1, 16)
            counts = [rng.randrange(4) for _ in range(2**n)]
            lists = [[rng.randrange(2**n) for _ in range(rng.randrange(9))] for _ in range(3)]
            least = rng.randrange(6)
            left = []
            for sequence in [*itertools.permutations(lists), [sum(lists, [])]]:
                lent = Lent(n, m, counts)
                for rows in sequence:
                    self.assertEqual(lent.log(rows, least), (0, 0))
                left.append(lent.copy_of_all())
            self.assertEqual(left, left[:1] * 7)


class Scripts(unittest.TestCase):
    def answers(self, outputs, command):
        return answers_of(table_files.table_from_rows(outputs), command)

    def assert_network(self, outputs, command, network):
        lent = loaded(table_files.table_from_rows(outputs), command)
        self.assertEqual(network_in(lent), network)

    def test_section_9_by_logs(self):
        # 0 0 0 -, then 0 1 1 -, which fills to 0 1 1 1 and takes two cells, and
        # 0 1 - 1, which by document 02's 2.6 fills to 0 1 0 1 and takes one.
        self.assert_network(["0 0 0 1"], "log 0,1,2 build", ([], [0]))
        answers = self.answers(["0 0 0 1"], "log 0,1,2 build least 0 relog count")
        self.assertEqual(answers, [(0, 0), (0, 0), (0, 0), (0, 2)])
        self.assert_network(["0 1 1 0"], "log 0,1,2 build", ([(0, 4, 1), (1, 0, 1)], [2]))
        self.assert_network(["0 1 1 1"], "log 3,1,0 build", ([(1, 0, 1)], [2]))

    def test_logs_in_turn(self):
        command = "relog cared log 3,1,3 cared least 2 relog cared log 1 cared"
        cared = self.answers(["0 1 1 0"], command)[1::2]
        self.assertEqual(cared, [(0, 0), (0, 2), (0, 1), (0, 2)])
        lent = loaded(table_files.table_from_rows(["0 1 1 0"]), command)
        self.assertEqual(list(lent.contents["counts"][:4]), [0, 2, 0, 2])

    def test_a_refused_log_keeps_the_network(self):
        table = table_files.table_from_rows(["0 1 1 0"])
        for command, answer, left in (("0,4", (8, 0), ("network", 2)), ("0", (0, 0), ("table", 0))):
            answers, lent = played(table, f"build log {command}")
            self.assertEqual((answers[-1], stage_of(lent)), (answer, left))

    def test_no_inputs(self):
        command = "log 0,0 cared log 1 least 3 relog cared build"
        wanted = [(0, 0), (0, 2), (8, 0), (0, 0), (0, 0), (0, 0)]
        self.assertEqual(self.answers(["1", "0"], command), wanted)
        lent = played(table_files.table_from_rows(["1", "0"]), command)[1]
        self.assertEqual((lent.contents["counts"][0], network_in(lent)), (2, ([], [0, 0])))

    def test_a_network_file(self):
        answers, lent = played(row_logs.begun()[1], "cared log 7,7 cared")
        self.assertEqual(answers, [(0, 0), (0, 16), (0, 0), (0, 2)])
        self.assertEqual(stage_of(lent), ("table", 0))
