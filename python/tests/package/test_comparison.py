"""Tests of networks compared: the same cells and roots where every row agrees, the first difference, and what can't be compared."""

import concurrent.futures
import contextlib
import copy
import itertools
import random
import threading
import unittest

import yavdocsil
from tests.places import EXAMPLES
from yavdocsil import Difference, Network, Table, bits

# Swapped in the cells this is another network than one that is built in the new order.
FREE = "00--0--1"


def rows_of(network):
    """What a network gives at every row, by a build of its own where none is held."""
    held = copy.copy(network)
    if not held.is_built:
        held.build()
    return held.evaluate(range(2 ** len(held.inputs)))


def first_of(one, other):
    """The first difference of two lists of rows, plainly."""
    for row, pair in enumerate(zip(one, other)):
        for output, given in enumerate(zip(*pair)):
            if given[0] != given[1]:
                return Difference(row, output, given)
    return None


def random_rows(chance, n, m, free=0.0):
    return ["".join("-" if chance.random() < free else chance.choice("01") for _ in range(m)) for _ in range(2**n)]


def changed(rows, row, output):
    """The same rows with one bit the other way."""
    marks = list(rows[row])
    marks[output] = "10"[int(marks[output])]
    return [*rows[:row], "".join(marks), *rows[row + 1 :]]


def buffers(network):
    """The bytes of each buffer."""
    return network._lent.__getstate__()


class Compared(unittest.TestCase):
    def same(self, one, other):
        for first, second in ((one, other), (other, one)):
            self.assertIs(first.is_same(second), True)
            self.assertIsNone(first.difference(second))

    def different(self, one, other, *wanted):
        """The first difference, and from the other side the same with its bits exchanged."""
        row, output, given = wanted
        self.assertIs(one.is_same(other), False)
        self.assertIs(other.is_same(one), False)
        self.assertEqual(one.difference(other), Difference(row, output, given))
        self.assertEqual(other.difference(one), Difference(row, output, given[::-1]))

    def test_every_example_and_its_files(self):
        for drawing in sorted(EXAMPLES.glob("*.txt")):
            made = [Network.from_path(drawing.with_suffix(ending)) for ending in (".txt", ".table", ".cells")]
            for one, other in itertools.product(made, repeat=2):
                self.same(one, other)

    def test_what_is_held_stays(self):
        guard = EXAMPLES / "bounce-guard.txt"
        built, unbuilt = Network.from_path(guard), Network.from_path(guard)
        built.build()
        for one, other in itertools.product((built, unbuilt), repeat=2):
            before = [buffers(each) for each in (one, other)]
            self.same(one, other)
            self.assertEqual([buffers(each) for each in (one, other)], before)
        self.assertEqual((built.is_built, unbuilt.is_built), (True, False))

    def test_names_do_not_matter(self):
        plain = Network(Table.from_rows(["01", "10", "11", "00"]))
        self.same(plain, Network(Table.from_rows(["01", "10", "11", "00"], ["x1", "x0"], ["left", "y0"])))

    def test_one_bit_changed_in_a_cared_table_is_found(self):
        chance = random.Random(71)
        for n, m in ((0, 1), (0, 3), (1, 2), (3, 1), (3, 3), (4, 2)):
            rows, order = random_rows(chance, n, m), chance.sample(range(n), n)
            whole = Network(Table.from_rows(rows, order=order))
            for row, output in itertools.product(range(2**n), range(m)):
                other = Network(Table.from_rows(changed(rows, row, output), order=order))
                bit = int(rows[row][output])
                self.different(whole, other, row, output, (bit, 1 - bit))

    def test_of_several_the_first_row_and_output(self):
        self.different(*(Network(Table.from_rows(rows)) for rows in (["000", "000"], ["011", "100"])), 0, 1, (0, 1))
        self.different(*(Network(Table.from_rows(rows)) for rows in (["000", "000"], ["000", "101"])), 1, 0, (0, 1))

    def test_an_output_and_its_inverse(self):
        one, other = Network(Table.from_rows("0110")), Network(Table.from_rows("1001"))
        self.assertEqual((one.build(), other.build()), (2, 2))
        self.assertEqual((one.cells, one.roots, other.roots), (other.cells, (2,), (3,)))
        self.different(one, other, 0, 0, (0, 1))

    def test_two_outputs_exchanged(self):
        one, other = Network(Table.from_rows(["00", "01", "01", "11"])), Network(Table.from_rows(["00", "10", "10", "11"]))
        self.different(one, other, 1, 0, (0, 1))

    def test_constants(self):
        for n in range(4):
            zero, one = (Network(Table.from_rows([bit] * 2**n)) for bit in "01")
            self.assertEqual((zero.build(), one.build()), (0, 0))
            self.different(zero, one, 0, 0, (0, 1))
            self.same(zero, Network(Table.from_rows(["-"] * 2**n)))

    def test_ten_inputs_and_sixteen_outputs(self):
        rows = random_rows(random.Random(72), 10, 16)
        whole = Network(Table.from_rows(rows))
        self.same(whole, Network(Table.from_rows(rows)))
        bit = int(rows[-1][-1])
        self.different(whole, Network(Table.from_rows(changed(rows, 1023, 15))), 1023, 15, (bit, 1 - bit))

    def test_it_is_the_network_held_that_counts(self):
        swapped = Network(Table.from_rows(FREE))
        swapped.build()
        swapped.swap_cells(0)
        fresh = Network(swapped.table)
        self.assertEqual((len(swapped.cells), fresh.count()), (1, 2))
        self.assertEqual(swapped.is_same(fresh), False)
        self.assertEqual(swapped.difference(fresh), first_of(rows_of(swapped), rows_of(fresh)))
        self.same(swapped, Network.from_file(swapped.to_file()))

    def test_it_is_the_present_care_that_is_filled(self):
        network, whole = (Network(Table.from_rows("0110")) for _ in range(2))
        network.log([1])
        self.different(network, whole, 0, 0, (1, 0))
        network.log([], least=0)
        self.same(network, whole)

    def test_boards_do_not_matter(self):
        whole = Network(Table.from_rows("0110"))
        for board in (0, 1, 2, 100):
            small = Network(Table.from_rows("0110"), board)
            self.same(whole, small)
            self.assertEqual((small.board, small.is_built), (board, False))

    def test_a_difference_has_its_fields(self):
        found = Network(Table.from_rows("01")).difference(Network(Table.from_rows("00")))
        self.assertEqual((found.row, found.output, found.bits), (1, 0, (1, 0)))
        self.assertEqual(repr(found), "Difference(row=1, output=0, bits=(1, 0))")
        self.assertIn("Difference", yavdocsil.__all__)


class AtRandom(unittest.TestCase):
    """Cells and roots are the same exactly where every row agrees, which is what the proof says."""

    def near(self, chance, rows):
        """Rows that are drawn anew, or those given with some marks freed, cared or changed."""
        if chance.random() < 0.2:
            return random_rows(chance, len(rows).bit_length() - 1, len(rows[0]), 0.4)
        rate = chance.choice((0, 0.1, 0.3))
        return ["".join(chance.choice("01-") if chance.random() < rate else mark for mark in row) for row in rows]

    def test_small_tables(self):
        chance, found = random.Random(73), {True: 0, False: 0}
        for _ in range(600):
            n, m = chance.randrange(5), chance.randint(1, 3)
            rows, order = random_rows(chance, n, m, chance.choice((0, 0.3, 0.7))), chance.sample(range(n), n)
            one, other = (Network(Table.from_rows(each, order=order)) for each in (rows, self.near(chance, rows)))
            if chance.random() < 0.3:
                other.build()
                other = Network.from_file(other.to_file())
            answers = rows_of(one), rows_of(other)
            self.assertEqual(one.is_same(other), answers[0] == answers[1])
            self.assertEqual(one.difference(other), first_of(*answers))
            found[answers[0] == answers[1]] += 1
        self.assertGreater(min(found.values()), 150, found)

    def test_tables_unlike_that_are_filled_alike(self):
        """Other care and other marks may still be the same ribbon."""
        chance, alike = random.Random(74), 0
        for _ in range(300):
            rows = random_rows(chance, 3, 1, 0.5)
            one, other = (Network(Table.from_rows(each)) for each in (rows, self.near(chance, rows)))
            alike += one.table != other.table and one.is_same(other)
        self.assertGreater(alike, 10)


class NotComparable(unittest.TestCase):
    def refused(self, wanted, one, other):
        before = [buffers(each) for each in (one, other)]
        for ask in (one.is_same, one.difference):
            with self.assertRaises(ValueError) as caught:
                ask(other)
            self.assertEqual((type(caught.exception), str(caught.exception)), (ValueError, wanted))
        self.assertEqual([buffers(each) for each in (one, other)], before)

    def test_other_numbers(self):
        one, two, both = (Network(Table.from_rows(rows)) for rows in (["0", "1"], ["0", "1", "1", "0"], ["01", "10"]))
        self.refused("one network has 1 input, and the other 2 inputs", one, two)
        self.refused("one network has 2 inputs, and the other 1 input", two, one)
        self.refused("one network has 1 output, and the other 2 outputs", one, both)
        self.refused("one network has 2 inputs, and the other 1 input", two, both)

    def test_other_orders(self):
        one, other = (Network(Table.from_rows("00010111", order=order)) for order in ([0, 1, 2], [2, 0, 1]))
        wanted = "one network has the order 0 1 2, and the other 2 0 1: cells tell nothing across orders, and reorder gives both the same"
        self.refused(wanted, one, other)
        other.reorder(one.order)
        self.assertTrue(one.is_same(other))

    def test_the_same_cells_in_another_order_are_another_function(self):
        one, other = Network(Table.from_rows("0010", order=[0, 1])), Network(Table.from_rows("0100", order=[1, 0]))
        self.assertEqual((one.diagram.cells, one.roots), (other.diagram.cells, other.roots))
        self.assertNotEqual(rows_of(one), rows_of(other))
        with self.assertRaisesRegex(ValueError, "^one network has the order 0 1, and the other 1 0: "):
            one.is_same(other)

    def test_what_is_no_network(self):
        network = Network(Table.from_rows("0110"))
        for wrong, shown in ((None, "None"), ("a.cells", "'a.cells'"), (network.table, bits.shown(network.table))):
            for ask in (network.is_same, network.difference):
                with self.assertRaises(TypeError) as caught:
                    ask(wrong)
                self.assertEqual(str(caught.exception), f"a network is compared with a Network, not with {shown}")


class Watched:
    """A lock that notes which others of its kind are held when it is taken."""

    def __init__(self, lock, held, met):
        self.lock, self.held, self.met = lock, held, met

    def __enter__(self):
        self.lock.acquire()
        self.held.append(self)
        self.met.append(len(set(self.held)))

    def __exit__(self, *_):
        self.held.remove(self)
        self.lock.release()


class Threads(unittest.TestCase):
    def test_two_locks_are_never_held_at_once(self):
        """Else two threads that compare the same two networks, each from its side, could wait for each other."""
        pair, held, met = [Network(Table.from_rows(rows)) for rows in ("0110", "0111")], [], []
        for network in pair:
            network._lent.lock = Watched(network._lent.lock, held, met)
        for one, other in (pair, pair[::-1]):
            self.assertFalse(one.is_same(other))
            self.assertIsNotNone(one.difference(other))
        self.assertEqual((max(met), held), (1, []))
        self.assertGreaterEqual(len(met), 8)

    def test_both_sides_at_once(self):
        rows = random_rows(random.Random(75), 6, 4, 0.3)
        one, other = Network(Table.from_rows(rows)), Network(Table.from_rows(rows))
        answers = []
        # Threads that wait for each other must not keep the tests from ending.
        threads = [
            threading.Thread(target=lambda ask=ask, of=of: answers.extend(ask(of) for _ in range(50)), daemon=True)
            for ask, of in ((one.is_same, other), (other.is_same, one)) * 2
        ]
        for thread in threads:
            thread.start()
        for thread in threads:
            thread.join(30)
        self.assertEqual(answers, [True] * 200)

    def test_a_network_that_is_changed_meanwhile(self):
        """It is compared as it was at one moment: in the order before or in the one after, and with that one's cells."""
        rows, orders = random_rows(random.Random(76), 5, 3), ([0, 1, 2, 3, 4], [1, 0, 2, 3, 4])
        before, after = (Network(Table.from_rows(rows, order=order)) for order in orders)
        moving, answers, is_enough = copy.copy(before), [], threading.Event()
        moving.build()

        def there_and_back():
            while not is_enough.is_set():
                moving.swap_cells(0)
                moving.swap_cells(0)

        with concurrent.futures.ThreadPoolExecutor(1) as threads:
            swaps = threads.submit(there_and_back)
            for other in (before, after) * 100:
                with contextlib.suppress(ValueError):
                    answers.append(moving.is_same(other))
            is_enough.set()
            swaps.result(60)
        self.assertNotIn(False, answers)
        self.assertTrue(moving.is_same(before))


if __name__ == "__main__":
    unittest.main()
