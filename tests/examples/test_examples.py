"""A test of the examples: drawings, table files and networks say the same.

The networks in the drawings are held to the reference, and the drawings to what their
titles say, written here in Python.
"""

import itertools
import unittest

from calls.by_reference import answers_of, loaded, network_in, played, stage_of
from calls.lent.moves import order_of
from examples import drawings
from examples.drawings import EXAMPLES
from making import table_files
from programs import expected


def drawing(name):
    return (EXAMPLES / f"{name}.txt").read_text()


def printed_in(text):
    """The network that a drawing shows, as it is printed."""
    lines = [line.strip() for line in drawings.indented(text)]
    start = [line.split()[0] for line in lines].index("inputs")
    return "".join(line + "\n" for line in lines[start:])


def two_ands(a, b, c, d):
    return [(a and b) or (c and d)]


def guard(a, b, c, d, held):
    """The next hold bit, and whether the loom advances."""
    samples = {a, b, c, d}
    hold = a if len(samples) == 1 else held
    return [hold, int(hold > held)]


def has_lone_sample(a, b, c, d, _held):
    """Whether a sample differs from both its neighbours."""
    return a != b != c or b != c != d


def drawn_from(function, n, is_free=lambda *bits: False):
    """The marks of every row, as a drawing has them."""
    rows = []
    for bits in itertools.product((0, 1), repeat=n):
        outputs = function(*bits)
        rows.append(["-" if is_free(*bits) else str(bit) for bit in outputs])
    return rows


class Examples(unittest.TestCase):
    def test_each_table_is_made_from_its_drawing(self):
        tables = sorted(EXAMPLES.glob("*.table"))
        self.assertEqual([table.stem for table in tables], [each.stem for each in drawings.drawings()])
        for table in tables:
            with self.subTest(table.name):
                self.assertEqual(table.read_bytes(), drawings.table_of(drawing(table.stem)))

    def test_each_network_file_is_made_from_its_drawing(self):
        networks = sorted(EXAMPLES.glob("*.cells"))
        self.assertEqual([network.stem for network in networks], [each.stem for each in drawings.drawings()])
        for network in networks:
            with self.subTest(network.name):
                self.assertEqual(network.read_bytes(), drawings.network_file_of(drawing(network.stem)))

    def test_each_drawing_shows_the_network_of_its_table(self):
        for each in drawings.drawings():
            with self.subTest(each.name):
                text = each.read_text()
                self.assertEqual(printed_in(text), expected.print_text(drawings.table_of(text)))

    def test_drawings_say_what_their_titles_say(self):
        wanted = {
            "xor": drawn_from(lambda a, b: [a ^ b], 2),
            "and-or": drawn_from(two_ands, 4),
            "and-or-crossed": drawn_from(two_ands, 4),
            "bounce-guard": drawn_from(guard, 5, has_lone_sample),
        }
        for name, rows in wanted.items():
            with self.subTest(name):
                self.assertEqual(drawings.drawn_rows(drawing(name))[2], rows)

    def test_sifting_uncrosses(self):
        table = drawings.table_of(drawing("and-or-crossed"))
        answers, lent = played(table, "count sift 1 build evals 3,12")
        self.assertEqual(answers, [(0, 0), (0, 6), (0, 4), (0, 4), (0, 0)])
        self.assertEqual((order_of(lent), list(lent.part("answers"))), ([1, 0, 2, 3], [1, 1]))

    def test_a_swap_in_the_cells_uncrosses(self):
        lent = loaded(drawings.table_of(drawing("and-or-crossed")), "build swapcells 1")
        cells = [(0, 6, 4), (1, 6, 1), (2, 0, 8), (3, 0, 1)]
        self.assertEqual((order_of(lent), network_in(lent)), ([0, 1, 2, 3], (cells, [2])))

    def test_moves_of_the_crossed(self):
        table = drawings.table_of(drawing("and-or-crossed"))
        still, up, down = [0, 0, 0, 0], [-2, -2, 0, 0], [0, 0, -2, -2]
        left, right = [0, 0, 2, 2], [2, 2, 0, 0]
        reports = {"moves": (still, up, down, still), "sift 1 moves": (left, left, right, right)}
        for command, rows in reports.items():
            self.assertEqual(list(loaded(table, command).contents["gains"][:16]), sum(rows, []))

    def test_logs_save_cells(self):
        # Rows 0 and 12 are seen twice, 3 and 5 once.
        table = drawings.table_of(drawing("and-or"))
        command = "count log 0,0,3,5,12,12 cared count least 2 relog cared count"
        numbers = [value for _, value in answers_of(table, command)]
        self.assertEqual(numbers, [4, 0, 4, 2, 0, 2, 1])

    def test_the_guard_as_a_network_file(self):
        network = (EXAMPLES / "bounce-guard.cells").read_bytes()
        answers, lent = played(network, "eval 30")
        self.assertEqual((answers, stage_of(lent)), ([(0, 0), (0, 3)], ("network", 7)))

    def test_guard_with_every_row_drawn(self):
        rows = drawn_from(guard, 5)
        table = table_files.table_from_rows(
            [" ".join(row[j] for row in rows) for j in range(2)], order=[4, 0, 1, 2, 3]
        )
        self.assertIn("\ncells 9\n", expected.print_text(table))

    def test_wrong_drawings_are_refused(self):
        sound = drawing("xor")
        wrong = [
            sound.replace("1    1   |  0", "1    1   |  2"),
            sound.replace("1    1   |  0", "1    1   |"),
            sound.replace("    1    1   |  0", ""),
            sound.replace("0    1   |", "0    0   |"),
        ]
        for text in wrong:
            self.assertNotEqual(text, sound)
            with self.assertRaises(ValueError):
                drawings.table_of(text)
