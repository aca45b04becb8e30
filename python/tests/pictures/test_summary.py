"""The summary of a network: the cells of each place with a bar, those that each output reaches, and the total."""

from __future__ import annotations

import unittest

from tests.sample_diagrams import BOUNCE_GUARD, DIAGRAMS, LARGE, made
from yavdocsil.display import columns
from yavdocsil.pictures import summary


def chain(counts):
    """A network with so many cells at each place, all reached by one output; what they compute doesn't matter."""
    places = [place for place, count in enumerate(counts) for _ in range(count)]
    cells = [(place, 2 * (number + 2) if number + 1 < len(places) else 0, 1) for number, place in enumerate(places)]
    return made([f"x{place}" for place in range(len(counts))], ["y"], range(len(counts)), cells, (2 if cells else 0,))


def bars(diagram, width=80):
    """The lengths of the bars."""
    lines = summary.write(diagram, width).split("\n\n")[0].splitlines()[1:]
    return [line.count(summary.BAR) for line in lines]


class Summary(unittest.TestCase):
    def test_bounce_guard(self):
        self.assertEqual(summary.write(BOUNCE_GUARD).splitlines(), [
            "input    cells",
            "held         2  ##",
            "a            2  ##",
            "b            0",
            "c            2  ##",
            "d            1  #",
            "",
            "output   cells  alone",
            "hold         6      3",
            "advance      4      1",
            "",
            "7 cells in all.",
            "Alone are the cells that no other of these outputs reaches.",
        ])

    def test_a_part_of_a_network(self):
        lines = summary.write(BOUNCE_GUARD.only(["advance"])).splitlines()
        self.assertEqual(lines[7:9], ["output   cells  alone", "advance      4      4"])
        self.assertEqual(lines[-2], "4 of the network's 7 cells in all.")

    def test_no_inputs_and_no_cells(self):
        lines = summary.write(DIAGRAMS["no inputs"]).splitlines()
        self.assertEqual(lines[:3], ["output  cells  alone", "one         0      0", "zero        0      0"])
        self.assertEqual(bars(DIAGRAMS["no cells"]), [0, 0])

    def test_outputs_with_the_same_root_reach_nothing_alone(self):
        diagram = made("a", ["y", "z", "one"], (0,), [(0, 0, 1)], (2, 3, 1))
        lines = summary.write(diagram).splitlines()
        self.assertEqual([line.split() for line in lines[4:7]], [["y", "1", "0"], ["z", "1", "0"], ["one", "0", "0"]])

    def test_a_sign_a_cell_where_there_is_room(self):
        # The label takes 6 columns, the numbers 5, and 4 stand between.
        self.assertEqual(bars(chain([65, 1, 0]), 80), [65, 1, 0])
        self.assertEqual(bars(chain([40, 25, 7]), 55), [40, 25, 7])

    def test_else_bars_in_proportion(self):
        self.assertEqual(bars(chain([130, 65, 13, 1, 0]), 80), [65, 32, 6, 1, 0])
        self.assertEqual(bars(chain([66, 33]), 80), [65, 32])
        self.assertEqual(bars(chain([40, 20]), 25), [10, 5])
        self.assertEqual(bars(chain([40, 20]), 1), [10, 5])

    def test_no_line_is_wider(self):
        for width in (40, 60, 80, 120):
            for diagram in (LARGE, BOUNCE_GUARD, DIAGRAMS["long names"]):
                self.assertLessEqual(max(map(columns, summary.write(diagram, width).splitlines())), width)

    def test_every_cell_counts_once(self):
        for name, diagram in DIAGRAMS.items():
            with self.subTest(name):
                places = summary.write(diagram).split("\n\n")[0].splitlines()[1:] if diagram.inputs else []
                self.assertEqual([line.split()[:2] for line in places], [
                    [diagram.input_at(place), str(len(diagram.cells_at(place)))] for place in range(len(diagram.inputs))
                ])

    def test_names_are_harmless_and_padded_by_columns(self):
        diagram = made(["\u7532\u4e59\u4e19\u4e01", "e\u0301"], ["y\x1b"], (0, 1), [(0, 4, 5), (1, 0, 1)], (2,))
        self.assertEqual(summary.write(diagram).splitlines()[:6], [
            "input     cells",
            "\u7532\u4e59\u4e19\u4e01      1  #",
            "e\u0301             1  #",
            "",
            "output    cells  alone",
            "y\\x1b         2      2",
        ])
