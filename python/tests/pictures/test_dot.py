"""The DOT that Graphviz is given: every edge once, in the look of the SVG picture, and names that it shows as they stand."""

from __future__ import annotations

import re
import unittest
from collections import Counter

from tests.sample_diagrams import BOUNCE_GUARD, DIAGRAMS, LARGE, NASTY, XOR, edges_of, made
from yavdocsil.pictures import dot, svg


def drawn_edges(written):
    """Every edge as `edges_of` has it, and how often it is there."""
    drawn = Counter()
    for kind, number, target, to, look in re.findall(r"^ *(root|cell)(\d+) -> (constant|cell)(\d+)(?: \[(.*)\])?;$", written, re.MULTILINE):
        edge = "root" if kind == "root" else "low" if "style=dashed" in look else "high"
        reference = int(to) if target == "constant" else 2 * int(to) + ("arrowhead=dot" in look)
        drawn[f"{kind} {number}", edge, reference] += 1
    return drawn


class Dot(unittest.TestCase):
    def test_every_edge_is_there_once(self):
        for name, diagram in DIAGRAMS.items():
            with self.subTest(name):
                written = dot.write(diagram)
                self.assertEqual(drawn_edges(written), Counter(edges_of(diagram)))
                self.assertEqual(written.count("rank=same"), len(diagram.inputs))

    def test_names_are_quoted(self):
        written = dot.write(made([NASTY], ["y"], (0,), [(0, 0, 1)], (2,)), NASTY)
        quoted = '"a<b>&amp;\\"c\'\\\\"'
        self.assertIn(f"place0 [label={quoted}, shape=plaintext];", written)
        self.assertIn(f"label=<<b>a&lt;b&gt;&amp;\"c'\\</b><br align=\"left\"/>{dot.LEGEND}<br align=\"left\"/>>;", written)

    def test_names_are_harmless(self):
        written = dot.write(made(["a\x1b"], ["b\n"], (0,), [(0, 0, 1)], (2,)), "c\0")
        self.assertIn('place0 [label="a\\\\x1b", shape=plaintext];', written)
        self.assertIn('root0 [label="b\\\\n", shape=plaintext];', written)
        self.assertIn("label=<<b>c\\x00</b><br", written)

    def test_there_is_a_legend_with_a_title_and_without(self):
        for title in ("", "xor"):
            written = dot.write(XOR, title)
            self.assertEqual(written.count(dot.LEGEND), 1)
            self.assertEqual(written.count("<b>"), len(title) // 3)
        self.assertEqual(re.sub("<.*?>", "", dot.LEGEND), "\u2500\u2500\u2500 1-edge   \u254c\u254c\u254c 0-edge   \u25cf dot inverts")

    def test_constants_that_are_not_used_are_not_there(self):
        written = dot.write(made("a", ["y"], (0,), [], (1,)))
        self.assertIn("constant1 [", written)
        self.assertNotIn("constant0", written)

    def test_exclusive_or(self):
        written = dot.write(XOR)
        self.assertIn('cell1 -> cell2 [style=dashed, color="#2f4f86"];', written)
        self.assertIn('cell1 -> cell2 [style=solid, arrowhead=dot, arrowsize=0.6, fillcolor="#b01e1e"];', written)

    def test_the_colours_are_those_of_the_svg(self):
        for diagram in (XOR, LARGE):
            written = dot.write(diagram)
            self.assertEqual(set(re.findall(r"arrowhead=dot, .*?fillcolor=\"(#\w+)\"", written)), {svg.DOT_INK})
            self.assertEqual(set(re.findall(r"style=dashed, color=\"(#\w+)\"", written)), {svg.SHADE})

    def test_a_part_of_a_network(self):
        written = dot.write(BOUNCE_GUARD.only(["advance"]))
        self.assertEqual(re.findall(r"cell(\d+) \[label=\"(\d+)\"", written), [("2", "2"), ("3", "3"), ("5", "5"), ("7", "7")])
        self.assertIn("root0 -> cell2;", written)
        self.assertIn(">4 of the network's 7 cells<", written)
        self.assertNotIn("network's", dot.write(BOUNCE_GUARD))
