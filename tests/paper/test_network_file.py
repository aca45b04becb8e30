"""A quick test of the network file, document 02's 2.2, in the reference.

The figures here are worked out by hand from the papers, never taken from a program.
"""

import itertools
import random
import unittest

from calls.by_reference import answers_of, network_in, played, stage_of, written_after
from making import network_files, networks, table_files, tables
from making.network_files import Network, network_file
from paper import reference
from paper.network_file import read_cells, write_cells
from paper.test_filling import table_in
from programs import expected

EXCLUSIVE_OR = Network(2, 1, [0, 1], [(0, 4, 5), (1, 0, 1)], [2] + [0] * 15)

# By hand: 4 x 1, n 2 x 5, m 1 x 6, order 1 x 8, count 2 x 17 and root 2 x 19 are 100.
EXCLUSIVE_OR_HEADING = bytes([4, 0, 0, 0, 2, 1, 0, 1] + [0] * 8 + [2, 0, 2]).ljust(510, b"\0")
# And 5 x 1, number 1 x 3, arrows 4 x 7 and 5 x 9, place 1 x 11 and arrow 1 x 15 are 107.
EXCLUSIVE_OR_CELLS = bytes([5, 0, 1, 0, 0, 0, 4, 0, 5, 0, 1, 0, 0, 0, 1]).ljust(510, b"\0")
EXCLUSIVE_OR_FILE = EXCLUSIVE_OR_HEADING + bytes([100, 0]) + EXCLUSIVE_OR_CELLS + bytes([107, 0])


class Lent:
    """A state and buffers with an element more than section 2 says, all of it dirty."""

    def __init__(self, board):
        self.state = reference.State()
        self.state.n, self.state.m, self.state.count = 99, 0, 77
        self.state.order = [9] * 10
        self.values, self.care = bytearray([0xA5] * 2049), bytearray([0xA5] * 2049)
        self.work = bytearray([0xA5] * 32769)
        self.roots, self.cells = [55] * 17, [66] * (3 * board + 2)

    def copy_of_all(self):
        state = self.state
        held = state.n, state.m, list(state.order), state.count, state.stage
        table = bytes(self.values), bytes(self.care), bytes(self.work)
        return (held, *table, list(self.roots), list(self.cells))

    def read(self, file):
        return read_cells(
            self.state, file, self.values, self.care, self.work, self.roots, self.cells
        )

    def write(self, file):
        return write_cells(self.state, self.roots, self.cells, self.work, file)


def cleared(everything):
    """The same with the work buffer zero and the byte behind it kept."""
    held, values, care, work, roots, cells = everything
    return held, values, care, bytes(32768) + work[32768:], roots, cells


def read_sound(network):
    lent = Lent(len(network.cells))
    assert lent.read(network_file(network)) == (0, 0)
    return lent


class Reading(unittest.TestCase):
    def assert_read(self, file, board, answer):
        """A refusal: nothing is changed but the work buffer after 23 and 32."""
        lent = Lent(board)
        before = lent.copy_of_all()
        self.assertEqual(lent.read(file), answer)
        after = cleared(before) if answer[0] in (23, 32) else before
        self.assertEqual(lent.copy_of_all(), after)

    def test_exclusive_or(self):
        lent = Lent(4)
        self.assertEqual(lent.read(EXCLUSIVE_OR_FILE), (0, 0))
        held, values, care, work, roots, cells = lent.copy_of_all()
        self.assertEqual(held, (2, 1, [0, 1] + [0] * 8, 2, reference.NETWORK))
        self.assertEqual(values, bytes([0x06]) + bytes(2047) + b"\xA5")
        self.assertEqual(care, bytes([0x0F]) + bytes(2047) + b"\xA5")
        self.assertEqual(work, bytes(32768) + b"\xA5")
        self.assertEqual(roots, [2] + [0] * 15 + [55])
        self.assertEqual(cells, [0, 4, 5, 1, 0, 1] + [66] * 8)

    def test_the_table_is_by_inputs(self):
        # One cell at place 0, where the order 1 0 puts input 1: rows 0 1 0 1.
        lent = read_sound(Network(2, 1, [1, 0], [(0, 0, 1)], [2] + [0] * 15))
        self.assertEqual((lent.values[0], lent.care[0]), (0x0A, 0x0F))
        # The first output and its inverse in eight rows of two outputs.
        lent = read_sound(Network(2, 2, [0, 1], [(0, 0, 4), (1, 0, 1)], [2, 3] + [0] * 14))
        self.assertEqual((lent.values[0], lent.care[0]), (0x78, 0xFF))

    def test_no_inputs(self):
        # 4 x 1, m 1 x 6 and the root 1 x 19 are 29.
        file = bytes([4, 0, 0, 0, 0, 1] + [0] * 12 + [1]).ljust(510, b"\0") + bytes([29, 0])
        lent = Lent(0)
        self.assertEqual(lent.read(file), (0, 0))
        self.assertEqual((lent.values[:2], lent.care[:2]), (b"\1\0", b"\1\0"))
        self.assertEqual((lent.state.n, lent.state.count), (0, 0))
        one_cell = Network(0, 1, [], [(0, 0, 1)], [2] + [0] * 15)
        self.assert_read(network_file(one_cell), 1, (24, 0))

    def test_every_damage_and_pair(self):
        for name, base in networks.DAMAGE_BASES.items():
            sound = network_file(base())
            board = network_files.count_in(sound)
            self.assertEqual(Lent(board).read(sound), (0, 0))
            damages = network_files.all_damages(sound)
            pairs = table_files.pairs_of(damages)
            if name != "bare":
                pairs = random.Random(name).sample(pairs, 300)
            for chosen in [[damage] for damage in damages] + pairs:
                with self.subTest([damage.name for damage in chosen]):
                    file = table_files.damaged(sound, chosen)
                    self.assert_read(file, board, (table_files.refusal_due(chosen), 0))

    def test_short_buffers_come_first(self):
        for name, length in (("values", 2047), ("care", 2047), ("work", 32767), ("roots", 15)):
            for file in (EXCLUSIVE_OR_FILE, b""):
                lent = Lent(4)
                setattr(lent, name, getattr(lent, name)[:length])
                before = lent.copy_of_all()
                self.assertEqual(lent.read(file), (10, 0))
                self.assertEqual(lent.copy_of_all(), before)

    def test_the_board_goes_by_the_count(self):
        self.assert_read(EXCLUSIVE_OR_FILE, 1, (23, 2))
        # Three counted where there are two: the third is a cell of zeros.
        for count in (3, 84):
            wrong = network_files.with_count(EXCLUSIVE_OR_FILE, count)
            self.assert_read(wrong, 2, (23, count))
            self.assert_read(wrong, 84, (32, 0))
        self.assert_read(network_files.with_count(EXCLUSIVE_OR_FILE, 85), 2, (1, 0))
        self.assert_read(network_files.with_count(EXCLUSIVE_OR_FILE, 258), 2, (1, 0))
        self.assert_read(network_files.with_count(EXCLUSIVE_OR_FILE, 1), 1, (7, 0))

    def test_after_23_come_24_and_32(self):
        breach = network_file(networks.with_cell(EXCLUSIVE_OR, 2, (0, 2)))
        odd = network_file(networks.with_cell(EXCLUSIVE_OR, 1, (1, 5)))
        both = network_file(networks.with_cell(EXCLUSIVE_OR, 1, (1, 5), (2, 6)))
        self.assert_read(breach, 1, (23, 2))
        self.assert_read(breach, 2, (24, 0))
        self.assert_read(odd, 1, (23, 2))
        self.assert_read(odd, 2, (32, 0))
        self.assert_read(both, 2, (24, 0))

    def test_more_cells_than_are_ever_needed(self):
        for count in (2160, 65535):
            alike = Network(1, 1, [0], [(0, 0, 1)] * count, [2] + [0] * 15)
            self.assert_read(network_file(alike), count, (32, 0))
            self.assert_read(network_file(alike), count - 1, (23, count))
            breach = networks.with_cell(alike, count, (0, 1))
            self.assert_read(network_file(breach), count, (24, 0))

    def test_tables_and_network_files_are_not_each_other(self):
        table = table_files.table_from_rows(["0 1 1 0"])
        self.assert_read(table, 4, (3, 0))
        self.assertEqual(reference.file_refusal(EXCLUSIVE_OR_FILE), 3)
        self.assertEqual(reference.file_refusal(table_files.with_byte(table, 0, 0, 5)), 3)


class Near(unittest.TestCase):
    """Number 32, on cells that pass number 24."""

    def assert_near(self, cells, root=2, n=2):
        near = Network(n, 1, list(range(n)), cells, [root] + [0] * 15)
        self.assertEqual(Lent(9).read(network_file(near)), (32, 0))

    def test_by_hand(self):
        # Exclusive-or: turned over, repeated, unreached, equal arrows, out of sequence.
        self.assert_near([(0, 5, 4), (1, 1, 0)])
        self.assert_near([(0, 5, 4), (1, 0, 1)], root=3)
        self.assert_near([(0, 4, 7), (1, 0, 1), (1, 0, 1)])
        self.assert_near([(0, 6, 7), (0, 0, 6), (1, 0, 1)])
        self.assert_near([(0, 6, 7), (1, 0, 1), (1, 0, 1)])
        self.assert_near([(0, 4, 4), (1, 0, 1)])
        self.assert_near([(1, 0, 1), (0, 2, 3)], root=4)
        self.assert_near([(0, 4, 5), (1, 0, 1)], root=4)
        self.assert_near([(0, 4, 5), (1, 0, 1)], root=0)

    def test_numbers_by_first_segment(self):
        # Of x and y, x or y the first comes first, and so do the first output's.
        sound = Network(2, 2, [0, 1], [(0, 0, 6), (0, 6, 1), (1, 0, 1)], [2, 4] + [0] * 14)
        self.assertEqual(Lent(3).read(network_file(sound)), (0, 0))
        crossed = sound._replace(roots=[4, 2] + [0] * 14)
        self.assertEqual(Lent(3).read(network_file(crossed)), (32, 0))

    def test_an_inverted_root_is_another_network(self):
        inverted = EXCLUSIVE_OR._replace(roots=[3] + [0] * 15)
        self.assertEqual(Lent(2).read(network_file(inverted)), (0, 0))

    def test_every_order_is_another_network(self):
        for order in itertools.permutations(range(2)):
            read_sound(EXCLUSIVE_OR._replace(order=order))

    def test_each_kind_is_refused(self):
        rng = random.Random(8)
        met = set()
        for _ in range(60):
            table = tables.random_table(rng, rng.randint(0, 5), rng.randint(1, 4))
            network = networks.of_table(table)
            for name, near in networks.near_networks(network):
                met.add(name)
                self.assertEqual(Lent(len(near.cells)).read(network_file(near)), (32, 0), name)
        self.assertEqual(met, set(networks.NEAR))

    def test_all_diagrams_of_two_cells(self):
        # n 2, m 1: accepted are the networks of the tables that need two cells. Of the
        # sixteen, 2 are constant and 4 depend on one input; the other 10 need two.
        accepted = 0
        cells = itertools.product(range(2), range(6), range(6))
        last_cells = itertools.product((1,), (0, 1), (0, 1))
        for cell, last_cell, root in itertools.product(cells, last_cells, range(6)):
            network = Network(2, 1, [0, 1], [cell, last_cell], [root] + [0] * 15)
            accepted += Lent(2).read(network_file(network)) == (0, 0)
        self.assertEqual(accepted, 10)


class Writing(unittest.TestCase):
    def test_exclusive_or(self):
        lent = read_sound(EXCLUSIVE_OR)
        lent.state.order[2:] = [7] * 8
        lent.roots[1:] = [77] * 16
        lent.work = bytearray([0xA5] * 32769)
        before = lent.copy_of_all()
        file = bytearray([0x5A] * 13825)
        self.assertEqual(lent.write(file), (0, 0))
        self.assertEqual(file, EXCLUSIVE_OR_FILE + bytes([0x5A] * (13825 - 1024)))
        self.assertEqual(lent.copy_of_all(), cleared(before))

    def assert_refused(self, lent, number, length=13824):
        file = bytearray([0x5A] * length)
        before = lent.copy_of_all()
        self.assertEqual(lent.write(file), (number, 0))
        self.assertEqual(lent.copy_of_all(), cleared(before) if number == 32 else before)
        self.assertEqual(file, bytes([0x5A] * length))

    def test_every_choice_of_refusals(self):
        for due in itertools.product((False, True), repeat=6):
            roots, work, file, no_network, breach, odd = due
            lent = read_sound(EXCLUSIVE_OR)
            lent.roots = lent.roots[: 15 if roots else 17]
            lent.work = bytearray([0xA5] * (32767 if work else 32769))
            lent.state.stage = reference.TABLE if no_network else reference.NETWORK
            lent.cells[2] = 6 if breach else 5
            lent.cells[4] = 1 if odd else 0
            numbers = [n for n, is_due in zip((10, 10, 10, 22, 24, 32), due) if is_due]
            if numbers:
                self.assert_refused(lent, numbers[0], 13823 if file else 13824)

    def test_states_that_hold_no_network(self):
        broken = [("n", 11), ("m", 0), ("m", 17), ("order", [0, 0] + [0] * 8)]
        broken += [("stage", reference.NOTHING), ("stage", reference.TABLE)]
        for name, value in broken:
            lent = read_sound(EXCLUSIVE_OR)
            setattr(lent.state, name, value)
            self.assert_refused(lent, 22)

    def test_counts(self):
        for count, number in ((1, 24), (3, 24), (2**63, 24)):
            lent = read_sound(EXCLUSIVE_OR)
            lent.state.count = count
            self.assert_refused(lent, number)
        lent = read_sound(EXCLUSIVE_OR)
        lent.cells, lent.state.count = [0, 4, 5, 1, 0, 1, 1, 0, 1], 3
        self.assert_refused(lent, 32)

    def test_values_and_care_are_not_used(self):
        lent = read_sound(EXCLUSIVE_OR)
        lent.values, lent.care = bytearray(), bytearray()
        self.assertEqual(lent.write(bytearray(13824)), (0, 0))


class Both(unittest.TestCase):
    def test_there_and_back(self):
        rng = random.Random(9)
        for _ in range(80):
            n, m = rng.randint(0, 6), rng.randint(1, 16)
            table = tables.random_table(rng, n, m)
            network = networks.of_table(table)
            file = network_file(network)
            lent = read_sound(network)
            written = bytearray([0x5A] * 13824)
            self.assertEqual(lent.write(written), (0, 0))
            self.assertEqual(written[: len(file)], file)
            self.assertEqual(expected.cells_output(table), file)

    def test_the_table_read_is_the_filled_one(self):
        rng = random.Random(10)
        for _ in range(40):
            n, m = rng.randint(0, 5), rng.randint(1, 5)
            file = tables.random_table(rng, n, m)
            table, order = table_in(file)
            outputs = reference.filled(table, order)
            rows = [reference.row_in_file(row, order) for row in range(2**n)]
            filled = [output[rows.index(row)] for output in outputs for row in range(2**n)]
            lent = Lent(200)
            self.assertEqual(lent.read(expected.cells_output(file)), (0, 0))
            self.assertEqual(lent.values[:2048], table_files.packed(filled).ljust(2048, b"\0"))
            self.assertEqual(lent.care[:2048], table_files.packed([1] * (m << n)).ljust(2048, b"\0"))

    def test_blocks_by_the_count(self):
        for count, blocks in ((84, 2), (85, 3), (168, 3), (169, 4), (256, 5)):
            network = networks.with_cells(8 if count > 200 else 7, count)
            lent = read_sound(network)
            self.assertEqual(lent.state.count, count)
            file = bytearray([0x5A] * 13824)
            self.assertEqual(lent.write(file), (0, 0))
            self.assertEqual((file[16], file[17]), (count % 256, count // 256))
            self.assertEqual([file[512 * k] for k in range(blocks + 1)],
                             [4] + [5] * (blocks - 1) + [0x5A])

    def test_the_widest(self):
        # 2,159 cells take 26 blocks behind the heading, the writer's 13,824 bytes in all.
        network = networks.of_table(tables.widest_table(random.Random(1)))
        file = network_file(network)
        self.assertEqual((len(network.cells), len(file)), (2159, 13824))
        lent = Lent(2159)
        self.assertEqual(lent.read(file), (0, 0))
        written = bytearray(13824)
        self.assertEqual(lent.write(written), (0, 0))
        self.assertEqual(written, file)


class Programs(unittest.TestCase):
    def test_cells(self):
        table = table_files.table_from_rows(["0 1 1 0"])
        self.assertEqual(expected.cells_output(table), EXCLUSIVE_OR_FILE)
        self.assertEqual(expected.cells_output(b""), b"refused 1\n")
        self.assertEqual(expected.cells_output(EXCLUSIVE_OR_FILE), b"refused 3\n")
        self.assertEqual(expected.cells_output(bytes(65537)), b"refused 1\n")
        self.assertEqual(expected.print_text(EXCLUSIVE_OR_FILE), "refused 3\n")


class Scripts(unittest.TestCase):
    def test_a_file_that_is_read(self):
        answers, lent = played(EXCLUSIVE_OR_FILE, "cared eval 1 count")
        self.assertEqual(answers, [(0, 0), (0, 4), (0, 1), (0, 2)])
        self.assertEqual(stage_of(lent), ("network", 2))
        self.assertEqual(network_in(lent), ([(0, 4, 5), (1, 0, 1)], [2]))

    def test_files_that_are_refused(self):
        for length in (1, 512, 1023, 65536, 65537):
            file = EXCLUSIVE_OR_FILE[:length].ljust(length, b"\0")
            self.assertEqual(played(file)[0], [(1, 0)])
        alike = Network(1, 1, [0], [(0, 0, 1)] * 2160, [2] + [0] * 15)
        self.assertEqual(played(network_file(alike))[0], [(23, 2160)])
        fewer = network_file(alike._replace(cells=alike.cells[1:]))
        self.assertEqual(played(fewer)[0], [(32, 0)])

    def test_what_is_written(self):
        self.assertEqual(written_after(EXCLUSIVE_OR_FILE, "board 0"), EXCLUSIVE_OR_FILE)
        table = table_files.table_from_rows(["0 1 1 0"])
        self.assertEqual(written_after(table, "build"), EXCLUSIVE_OR_FILE)
        answers = answers_of(table, "write build write swap 0 write")
        self.assertEqual(answers, [(22, 0), (0, 2), (0, 0), (0, 0), (22, 0)])
