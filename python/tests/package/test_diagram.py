"""A diagram as data: its part that some outputs reach, with the cells' own numbers, and what it evaluates to."""

from __future__ import annotations

import unittest

from tests.sample_diagrams import BOUNCE_GUARD, DIAGRAMS, LARGE, XOR, made


class Parts(unittest.TestCase):
    def test_cells_keep_their_numbers(self):
        part = BOUNCE_GUARD.only(["advance"])
        self.assertEqual([cell.number for cell in part.cells], [2, 3, 5, 7])
        self.assertEqual((part.outputs, part.roots, part.whole), (("advance",), (4,), 7))
        self.assertEqual((part.inputs, part.order), (BOUNCE_GUARD.inputs, BOUNCE_GUARD.order))
        for cell in part.cells:
            self.assertEqual(cell, BOUNCE_GUARD.cells[cell.number - 1])

    def test_outputs_are_as_in_the_whole(self):
        for name, diagram in DIAGRAMS.items():
            rows = range(0, 2 ** len(diagram.inputs), 7)
            for number, output in enumerate(diagram.outputs):
                part = diagram.only([output])
                with self.subTest(name, output=output):
                    self.assertEqual([part.evaluate(row) for row in rows], [diagram.evaluate(row)[number : number + 1] for row in rows])

    def test_no_cell_too_many(self):
        for diagram in (LARGE, DIAGRAMS["wild"]):
            part = diagram.only(diagram.outputs[1:3])
            referred = {arrow // 2 for arrow in (*part.roots, *(arrow for cell in part.cells for arrow in (cell.low, cell.high)))}
            self.assertEqual({cell.number for cell in part.cells}, referred - {0})
            self.assertLess(len(part.cells), len(diagram.cells))

    def test_several_outputs_stand_as_in_the_network_and_once(self):
        part = LARGE.only(["y5", "y2", "y5"])
        self.assertEqual((part.outputs, part.roots), (("y2", "y5"), (LARGE.roots[2], LARGE.roots[5])))

    def test_all_outputs_are_the_whole(self):
        self.assertEqual(BOUNCE_GUARD.only(["advance", "hold"]), BOUNCE_GUARD)
        part = BOUNCE_GUARD.only(["hold"])
        self.assertEqual(part.only(["hold"]), part)

    def test_a_part_of_a_part(self):
        part = LARGE.only(LARGE.outputs[2:5])
        self.assertEqual(part.only(LARGE.outputs[3:4]), LARGE.only(LARGE.outputs[3:4]))

    def test_outputs_that_are_constant(self):
        part = made("a", ["y", "one"], (0,), [(0, 0, 1)], (2, 1)).only(["one"])
        self.assertEqual((part.cells, part.size), ((), "0 of the network's 1 cell"))

    def test_unknown_outputs(self):
        for outputs, said in (
            (["z"], "there is no output z; there are hold advance"),
            (["hold", "a"], "there is no output a; there are hold advance"),
            (["Hold"], "there is no output Hold; there are hold advance"),
            ([], "no output is named; there are hold advance"),
        ):
            with self.assertRaises(ValueError) as raised:
                BOUNCE_GUARD.only(outputs)
            self.assertEqual(str(raised.exception), said)

    def test_sizes(self):
        sizes = [XOR.size, made("a", ["y"], (0,), [(0, 0, 1)], (2,)).size, BOUNCE_GUARD.only(["hold"]).size]
        self.assertEqual(sizes, ["2 cells", "1 cell", "6 of the network's 7 cells"])


class Reaching(unittest.TestCase):
    def test_cells_behind_references(self):
        self.assertEqual(BOUNCE_GUARD.reached([4]), {2, 3, 5, 7})
        self.assertEqual(BOUNCE_GUARD.reached([13]), {6, 7})
        self.assertEqual(BOUNCE_GUARD.reached([0, 1]), set())
        self.assertEqual(BOUNCE_GUARD.reached([2, 4]), set(range(1, 8)))
        self.assertEqual(BOUNCE_GUARD.reached([]), set())

    def test_a_part_equals_itself_after_it_was_asked(self):
        asked, fresh = BOUNCE_GUARD.only(["hold"]), BOUNCE_GUARD.only(["hold"])
        asked.evaluate(0)
        self.assertEqual(asked, fresh)
