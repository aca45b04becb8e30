"""A quick test of the swap in the cells, document 02's 2.7, in the reference.

The figures here are worked out by hand from the papers, never taken from a program.
"""

import itertools
import random
import unittest

from making import networks, table_files, tables
from making.network_files import Network
from paper import cell_swap, reference
from slips import by_cells

# Section 9's table of four cells, and under order 0 2 1 3, where it has six.
FOUR = Network(4, 1, [0, 1, 2, 3], [(0, 6, 4), (1, 6, 1), (2, 0, 8), (3, 0, 1)], [2])
SIX_CELLS = [(0, 4, 6), (1, 0, 12), (1, 8, 10), (2, 0, 1), (2, 12, 1), (3, 0, 1)]
SIX = Network(4, 1, [0, 2, 1, 3], SIX_CELLS, [2])
# Input 0 chooses: input 1 if it is 0, input 2 if it is 1.
CHOICE = Network(3, 1, [0, 1, 2], [(0, 4, 6), (1, 0, 1), (2, 0, 1)], [2])


class Lent:
    """A network that is held, with an element more than section 2 says, and all dirty."""

    def __init__(self, network, board):
        count = len(network.cells)
        self.state = reference.State()
        self.state.n, self.state.m, self.state.count = network.n, network.m, count
        self.state.order = list(network.order) + [9] * (10 - network.n)
        self.state.stage = reference.NETWORK
        self.work = bytearray([0xA5] * 32769)
        used = list(network.roots[: network.m])
        self.roots = used + [55] * (17 - len(used))
        self.cells = [number for cell in network.cells for number in cell]
        self.cells += [66] * (3 * max(board, count) + 2 - len(self.cells))
        self.cells = self.cells[: 3 * board + 2]

    def copy_of_all(self):
        state = self.state
        held = state.n, state.m, list(state.order), state.count, state.stage
        return held, bytes(self.work), list(self.roots), list(self.cells)

    def swap(self, place):
        return cell_swap.swap_cells(self.state, place, self.work, self.roots, self.cells)


def cleared(everything):
    """The same with the work buffer zero and the byte behind it kept."""
    held, work, roots, cells = everything
    return held, bytes(32768) + work[32768:], roots, cells


def lent_table(n, m, values, care):
    """A state at table, and the two planes."""
    state = reference.State()
    state.n, state.m, state.stage = n, m, reference.TABLE
    state.order[:n] = range(n)
    planes = [bytearray(table_files.packed(bits).ljust(2048, b"\0")) for bits in (values, care)]
    return state, *planes


def built(state, values, care):
    """The network of the table, as a build leaves it."""
    roots, cells = [0] * 16, [0] * 3 * 2159
    number, count = reference.build(state, values, care, bytearray(32768), roots, cells)
    assert number == 0
    triples = [tuple(cells[3 * i : 3 * i + 3]) for i in range(count)]
    return Network(state.n, state.m, reference.used_order(state), triples, roots[: state.m])


class Swapping(unittest.TestCase):
    def assert_swapped(self, before, place, after, board=9):
        """All that is held and lent after the swap, also what should have stayed."""
        lent = Lent(before, board)
        left = lent.cells[3 * len(after.cells) :]
        self.assertEqual(lent.swap(place), (0, 0))
        held, work, roots, cells = lent.copy_of_all()
        order = list(after.order) + [9] * (10 - after.n)
        self.assertEqual(held, (after.n, after.m, order, len(after.cells), reference.NETWORK))
        self.assertEqual(work, bytes(32768) + b"\xA5")
        self.assertEqual(roots, networks.sixteen(after.roots) + [55])
        self.assertEqual(cells, [number for cell in after.cells for number in cell] + left)

    def test_exclusive_or(self):
        before = Network(2, 1, [0, 1], [(0, 4, 5), (1, 0, 1)], [3])
        self.assert_swapped(before, 0, before._replace(order=[1, 0]))

    def test_section_9(self):
        self.assert_swapped(FOUR, 1, SIX)
        self.assert_swapped(SIX, 1, FOUR)
        # Inputs 0 and 1 are alike, and so are 2 and 3.
        self.assert_swapped(FOUR, 0, FOUR._replace(order=[1, 0, 2, 3]))
        self.assert_swapped(FOUR, 2, FOUR._replace(order=[0, 1, 3, 2]))

    def test_choice(self):
        # By inputs 1, 0, 2 the rows are 00 01 11 01; the 1-half is the inverse of 00 10.
        cells = [(0, 4, 7), (1, 0, 8), (1, 0, 9), (2, 0, 1)]
        self.assert_swapped(CHOICE, 0, Network(3, 1, [1, 0, 2], cells, [2]))
        # By inputs 0, 2, 1 it is input 2 that has a cell at place 1.
        cells = [(0, 6, 4), (1, 0, 1), (2, 0, 1)]
        self.assert_swapped(CHOICE, 1, Network(3, 1, [0, 2, 1], cells, [2]))

    def test_one_input_alone(self):
        one = Network(2, 2, [1, 0], [(1, 0, 1)], [3, 0])
        self.assert_swapped(one, 0, one._replace(order=[0, 1], cells=[(0, 0, 1)]))

    def test_the_first_segment_decides(self):
        # Output 0 is input 1 and 2, output 1 input 0: place 0, then 1, then 2.
        before = Network(3, 2, [0, 1, 2], [(0, 0, 1), (1, 0, 6), (2, 0, 1)], [4, 2])
        # Under order 1 0 2 output 0 comes first, and input 0 has the second cell.
        after = Network(3, 2, [1, 0, 2], [(0, 0, 6), (1, 0, 1), (2, 0, 1)], [2, 4])
        self.assert_swapped(before, 0, after)

    def test_cells_below_are_numbered_anew(self):
        # 00, 01, 10 and 11 of inputs 0 and 1 choose 0, input 2 or 3, input 2, input 3.
        cells = [(0, 4, 6), (1, 0, 8), (1, 10, 12), (2, 12, 1), (2, 0, 1), (3, 0, 1)]
        before = Network(4, 1, [0, 1, 2, 3], cells, [2])
        # Of inputs 1 and 0 they choose 0, input 2, input 2 or 3, input 3.
        cells = [(0, 4, 6), (1, 0, 8), (1, 10, 12), (2, 0, 1), (2, 12, 1), (3, 0, 1)]
        self.assert_swapped(before, 0, Network(4, 1, [1, 0, 2, 3], cells, [2]))

    def test_no_cells(self):
        constants = Network(2, 3, [0, 1], [], [0, 1, 1])
        self.assert_swapped(constants, 0, constants._replace(order=[1, 0]), board=0)

    def test_a_fresh_build_may_differ(self):
        # 0 0 0 1 1 1 - - fills to input 0, or 1 and 2: three cells. Of that table order
        # 1 0 2 makes four, while filled afresh 00 11 01 -- is 00 11 01 01: three.
        bits = [0, 0, 0, 1, 1, 1, 0, 0]
        state, values, care = lent_table(3, 1, bits, [1] * 6 + [0] * 2)
        before = built(state, values, care)
        self.assertEqual(before.cells, [(0, 4, 1), (1, 0, 6), (2, 0, 1)])
        cells = [(0, 4, 6), (1, 0, 1), (1, 8, 1), (2, 0, 1)]
        self.assert_swapped(before, 0, Network(3, 1, [1, 0, 2], cells, [2]))
        self.assertEqual(reference.swap(state, 0), (0, 0))
        self.assertEqual(built(state, values, care).cells, [(0, 4, 6), (1, 0, 1), (2, 0, 1)])


class Refusing(unittest.TestCase):
    def assert_refused(self, lent, place, answer):
        before = lent.copy_of_all()
        self.assertEqual(lent.swap(place), answer)
        after = cleared(before) if answer[0] in (23, 32) else before
        self.assertEqual(lent.copy_of_all(), after)

    def test_the_board(self):
        for board, answer in ((3, (24, 0)), (4, (23, 6)), (5, (23, 6))):
            self.assert_refused(Lent(FOUR, board), 1, answer)
        lent = Lent(FOUR, 6)
        lent.cells = lent.cells[:17]
        self.assert_refused(lent, 1, (23, 6))
        lent.cells += [66]
        self.assertEqual(lent.swap(1), (0, 0))
        # Four cells are wanted, but six are counted.
        self.assert_refused(Lent(SIX, 5), 1, (24, 0))
        self.assertEqual(Lent(SIX, 6).swap(1), (0, 0))

    def test_places(self):
        for place in (3, 4, 2**16 + 1, 2**32 + 1, 2**64 - 1):
            self.assert_refused(Lent(FOUR, 9), place, (9, 0))
        for n, place in itertools.product((0, 1), (0, 1, 2**64 - 1)):
            constant = Network(n, 1, list(range(n)), [], [1])
            self.assert_refused(Lent(constant, 0), place, (9, 0))

    def test_states_that_hold_no_network(self):
        broken = [("n", 11), ("m", 0), ("m", 17), ("order", [0, 1, 1, 3] + [0] * 6)]
        broken += [("stage", reference.NOTHING), ("stage", reference.TABLE)]
        for (name, value), place in itertools.product(broken, (1, 3)):
            lent = Lent(FOUR, 9)
            setattr(lent.state, name, value)
            self.assert_refused(lent, place, (22, 0))

    def test_every_choice_of_refusals(self):
        for due in itertools.product((False, True), repeat=7):
            roots, work, no_network, beyond, breach, odd, small = due
            lent = Lent(FOUR, 5 if small else 6)
            lent.roots = lent.roots[: 15 if roots else 17]
            lent.work = lent.work[: 32767 if work else 32769]
            lent.state.stage = reference.TABLE if no_network else reference.NETWORK
            lent.cells[2] = 10 if breach else 4
            # The last cell turned over, and the only arrow to it.
            lent.cells[8:12] = [9, 3, 1, 0] if odd else [8, 3, 0, 1]
            numbered = zip((10, 10, 22, 9, 24, 32, 23), due)
            numbers = [number for number, is_due in numbered if is_due]
            if numbers:
                answer = numbers[0], 6 if numbers[0] == 23 else 0
                self.assert_refused(lent, 3 if beyond else 1, answer)

    def test_near_networks(self):
        rng = random.Random(11)
        met = set()
        for _ in range(60):
            table = tables.random_table(rng, rng.randint(2, 5), rng.randint(1, 4))
            network = networks.of_table(table)
            for name, near in networks.near_networks(network):
                met.add(name)
                self.assert_refused(Lent(near, len(near.cells)), 0, (32, 0))
        self.assertEqual(met, set(networks.NEAR))


class Laws(unittest.TestCase):
    """Of random networks: what the paper says of every swap, and the swap cell by cell."""

    def each_swap(self):
        rng = random.Random(12)
        for _ in range(150):
            n, m = rng.randint(2, 6), rng.choice((1, 2, 3, 16))
            network = networks.of_table(tables.random_table(rng, n, m))
            yield network, rng.randrange(n - 1)

    def test_cell_by_cell(self):
        grew = shrank = 0
        for network, place in self.each_swap():
            lent = Lent(network, 400)
            wanted = by_cells.swapped(lent.state, lent.roots, lent.cells, place)
            self.assertEqual(lent.swap(place), (0, 0))
            found = [tuple(lent.cells[3 * i : 3 * i + 3]) for i in range(lent.state.count)]
            self.assertEqual((found, lent.roots[: network.m]), wanted)
            grew += lent.state.count > len(network.cells)
            shrank += lent.state.count < len(network.cells)
        self.assertGreater(min(grew, shrank), 9)

    def test_back_again(self):
        for network, place in self.each_swap():
            lent = Lent(network, 400)
            before = lent.copy_of_all()
            self.assertEqual([lent.swap(place), lent.swap(place)], [(0, 0), (0, 0)])
            held, _, roots, cells = lent.copy_of_all()
            self.assertEqual((held, roots[: network.m]), (before[0], before[2][: network.m]))
            counted = 3 * len(network.cells)
            self.assertEqual(cells[:counted], before[3][:counted])

    def test_every_row_gives_the_same(self):
        for network, place in self.each_swap():
            lent = Lent(network, 400)
            rows = range(2**network.n)
            before = [reference.answer_at(lent.state, row, lent.roots, lent.cells) for row in rows]
            lent.swap(place)
            after = [reference.answer_at(lent.state, row, lent.roots, lent.cells) for row in rows]
            self.assertEqual(before, after)

    def test_a_swap_and_a_build(self):
        rng = random.Random(13)
        for _ in range(80):
            n, m = rng.randint(2, 6), rng.choice((1, 2, 3, 16))
            bits = rng.choice((tables.formula_bits, tables.coin_bits))(rng, n, m)
            state, values, care = lent_table(n, m, bits, [1] * (m << n))
            lent, place = Lent(built(state, values, care), 400), rng.randrange(n - 1)
            self.assertEqual((lent.swap(place), reference.swap(state, place)), ((0, 0), (0, 0)))
            fresh = built(state, values, care)
            self.assertEqual(reference.used_order(lent.state), fresh.order)
            self.assertEqual(lent.roots[:m], fresh.roots)
            numbers = [number for cell in fresh.cells for number in cell]
            self.assertEqual(lent.cells[: 3 * lent.state.count], numbers)

    def test_a_whole_table_fills_to_itself(self):
        rng = random.Random(14)
        for _ in range(60):
            n, m = rng.randint(0, 6), rng.randint(1, 4)
            planes = table_files.packed(tables.coin_bits(rng, n, m)), table_files.packed([1] * (m << n))
            table, order = reference.Table(n, m, *planes), tuple(tables.random_order(rng, n))
            self.assertEqual(reference.whole_network(table, order), reference.network(table, order))
