"""The picture as text: all of the diagram, in lines of a width, and names that do nothing to a terminal."""

from __future__ import annotations

import re
import unittest

from tests.sample_diagrams import BOUNCE_GUARD, DIAGRAMS, LARGE, XOR, made
from yavdocsil.pictures import text


def read(target):
    """A reference from how the text writes it."""
    if target.startswith("const "):
        return int(target[-1])
    return 2 * int(target.lstrip("~")) + target.startswith("~")


class Text(unittest.TestCase):
    def test_all_of_the_diagram_is_there(self):
        for name, diagram in DIAGRAMS.items():
            with self.subTest(name):
                written = text.write(diagram).split("\n\ni: 0 -> j")[0]
                found = re.findall(r"(\d+): 0 -> (const [01]|~?\d+), 1 -> (const [01]|~?\d+)", written)
                cells = {int(number): (read(low), read(high)) for number, low, high in found}
                self.assertEqual(len(found), len(diagram.cells))
                self.assertEqual(cells, {cell.number: (cell.low, cell.high) for cell in diagram.cells})
                roots = re.findall(r"^(\S+) +-> (const [01]|~?\d+)$", written, re.MULTILINE)
                self.assertEqual([(name, read(root)) for name, root in roots], list(zip(diagram.outputs, diagram.roots)))

    def test_bounce_guard(self):
        self.assertEqual(text.write(BOUNCE_GUARD).splitlines()[:8], [
            "hold    -> 1",
            "advance -> 2",
            "",
            "held      1: 0 -> 3, 1 -> 4               2: 0 -> 3, 1 -> const 0",
            "a         3: 0 -> const 0, 1 -> 5         4: 0 -> 6, 1 -> const 1",
            "b         (never asked)",
            "c         5: 0 -> const 0, 1 -> 7         6: 0 -> 7, 1 -> const 1",
            "d         7: 0 -> const 0, 1 -> const 1",
        ])

    def test_inverted_reference(self):
        self.assertIn("left    1: 0 -> 2, 1 -> ~2", text.write(XOR))

    def test_wide_levels_wrap(self):
        lines = text.write(LARGE).splitlines()
        self.assertLessEqual(max(map(len, lines)), 80)
        self.assertGreater(len(lines), 50)

    def test_a_width(self):
        # A name, three blanks and a cell take 39 columns, and the next cell 32 more.
        for width in (1, 20, 39, 40, 70, 71, 80, 200):
            self.assertLessEqual(max(map(len, text.write(BOUNCE_GUARD, width).splitlines())), max(width, 39))
        self.assertIn("c         5: 0 -> const 0, 1 -> 7         6: 0 -> 7, 1 -> const 1\n", text.write(BOUNCE_GUARD, 71))
        self.assertIn("c         5: 0 -> const 0, 1 -> 7\n          6: 0 -> 7, 1 -> const 1\n", text.write(BOUNCE_GUARD, 70))

    def test_the_notation_is_wrapped(self):
        self.assertEqual(text.write(XOR, 40).split("\n\n")[-1].splitlines(), [
            "i: 0 -> j, 1 -> k  is cell i: on to cell",
            "  j if its line's input is 0, to k if 1.",
            "~j is cell j inverted; const 0 and const",
            "  1 are the constants.",
        ])

    def test_wide_and_combining_signs(self):
        diagram = made(["\u7532\u4e59", "e\u0301"], ["y"], (0, 1), [(0, 4, 5), (1, 0, 1)], (2,))
        self.assertEqual(text.write(diagram).splitlines()[:4], [
            "y    -> 1",
            "",
            "\u7532\u4e59   1: 0 -> 2, 1 -> ~2",
            "e\u0301      2: 0 -> const 0, 1 -> const 1",
        ])

    def test_names_are_harmless(self):
        diagram = made(["a\x1b[2J"], ["b\n"], (0,), [(0, 0, 1)], (2,))
        self.assertEqual(text.write(diagram).splitlines()[:3], ["b\\n      -> 1", "", "a\\x1b[2J   1: 0 -> const 0, 1 -> const 1"])

    def test_a_part_of_a_network(self):
        self.assertEqual(text.write(BOUNCE_GUARD.only(["advance"])).splitlines(), [
            "advance -> 2",
            "",
            "held      2: 0 -> 3, 1 -> const 0",
            "a         3: 0 -> const 0, 1 -> 5",
            "b         (never asked)",
            "c         5: 0 -> const 0, 1 -> 7",
            "d         7: 0 -> const 0, 1 -> const 1",
            "",
            *text.NOTATION,
            "These are 4 of the network's 7 cells.",
        ])

    def test_numbers_of_a_part_stand_below_each_other(self):
        part = LARGE.only([LARGE.outputs[-1]])
        starts = {line.index(":") for line in text.write(part, 40).splitlines() if "0 -> " in line[8:] and line[:1] in "x "}
        self.assertEqual(len(starts), 1)

    def test_no_inputs(self):
        self.assertEqual(text.write(DIAGRAMS["no inputs"]).splitlines()[:3], ["one  -> const 1", "zero -> const 0", ""])
