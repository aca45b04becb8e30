"""The SVG pictures: everything is drawn, once, where it can be read, and nothing runs through anything else."""

from __future__ import annotations

import functools
import itertools
import os
import re
import subprocess
import sys
import unittest
import xml.etree.ElementTree as ElementTree
from collections import Counter

from tests.places import PYTHON
from tests.sample_diagrams import BOUNCE_GUARD, DIAGRAMS, LARGE, NASTY, XOR, edges_of, made
from yavdocsil.diagram import cell_of, is_constant, is_inverted
from yavdocsil.pictures import layout, svg
from yavdocsil.pictures.layout import graph, order, parts

SVG = "{http://www.w3.org/2000/svg}"


def by_class(root, name):
    return [element for element in root.iter() if element.get("class") == name]


def labels(root, name):
    return [element.text for element in by_class(root, name)]


def box(element):
    """Left, top, right, bottom of a rectangle."""
    x, y, width, height = (float(element.get(key)) for key in ("x", "y", "width", "height"))
    return x, y, x + width, y + height


def shapes(root):
    """The box of every cell and constant that has its own number as a label."""
    found = {}
    for kind in ("cell", "constant"):
        for group in by_class(root, kind):
            rectangle, label = by_class(group, f"{kind}-shape")[0], by_class(group, f"{kind}-label")[0]
            found[f"{kind} {label.text}"] = box(rectangle)
    return found


def numbers(piece):
    return [float(number) for number in re.findall(r"-?[\d.]+", piece)]


def points(path, steps=24):
    """Points along a path of M, L and C commands."""
    found = []
    for command, content in re.findall(r"([MLC])([^MLC]*)", path):
        values = numbers(content)
        ends = list(zip(values[::2], values[1::2]))
        if command == "M":
            found.append(ends[0])
            continue
        controls = [found[-1], *ends]
        found += [bezier(controls, step / steps) for step in range(1, steps + 1)]
    return found


def bezier(controls, t):
    """De Casteljau's way; a straight line has two controls."""
    while len(controls) > 1:
        controls = [tuple((1 - t) * a + t * b for a, b in zip(p, q)) for p, q in zip(controls, controls[1:])]
    return controls[0]


def is_inside(point, bounds, margin):
    left, top, right, bottom = bounds
    return left - margin < point[0] < right + margin and top - margin < point[1] < bottom + margin


def shift(root):
    """How far the drawing is moved to the right, beside the names of the places."""
    group = next(group for group in root.iter(f"{SVG}g") if group.find(f"{SVG}g[@class='output']") is not None)
    return numbers(group.get("transform"))[0]


def drawn_edges(root):
    return [element for element in root.iter(f"{SVG}path") if element.get("class") in ("low", "high", "root")]


def target_of(edge):
    reference = int(edge.get("data-reference"))
    return f"constant {reference}" if is_constant(reference) else f"cell {cell_of(reference)}"


def for_each(test):
    """A test of one diagram and its SVG picture, made one of all of them."""

    @functools.wraps(test)
    def tests(self):
        for name, diagram in DIAGRAMS.items():
            with self.subTest(name):
                test(self, diagram, self.roots[name])

    return tests


class EveryDiagram(unittest.TestCase):
    """What holds for each of the diagrams."""

    @classmethod
    def setUpClass(cls):
        cls.roots = {name: ElementTree.fromstring(svg.write(diagram, name)) for name, diagram in DIAGRAMS.items()}

    @for_each
    def test_frame(self, diagram, root):
        self.assertEqual(root.tag, f"{SVG}svg")
        self.assertEqual(root.get("role"), "img")
        self.assertEqual(root.get("viewBox"), f"0 0 {root.get('width')} {root.get('height')}")
        self.assertEqual(root.find(f"{SVG}title").text, root.get("aria-label"))
        self.assertEqual(len(by_class(root, "legend")), 1)

    @for_each
    def test_every_label_is_there_once(self, diagram, root):
        self.assertEqual(sorted(labels(root, "cell-label"), key=int), [str(cell.number) for cell in diagram.cells])
        self.assertEqual(Counter(labels(root, "output-label")), Counter(diagram.outputs))
        self.assertEqual(labels(root, "place-label"), [diagram.input_at(place) for place in range(len(diagram.inputs))])

    @for_each
    def test_constants_are_drawn_only_where_referred_to(self, diagram, root):
        referred = Counter(str(reference) for *_, reference in edges_of(diagram) if is_constant(reference))
        shared, own = labels(root, "constant-label"), labels(root, "stub-label")
        self.assertFalse(shared and own)
        self.assertEqual(Counter(own) if own else set(shared), referred if own else set(referred))

    @for_each
    def test_every_edge_is_there_once(self, diagram, root):
        drawn = [(edge.get("data-from"), edge.get("class"), int(edge.get("data-reference"))) for edge in drawn_edges(root)]
        self.assertEqual(Counter(drawn), Counter(edges_of(diagram)))

    @for_each
    def test_0_edges_and_no_others_are_dashed(self, diagram, root):
        for edge in drawn_edges(root):
            self.assertEqual(edge.get("stroke-dasharray") is not None, edge.get("class") == "low")

    @for_each
    def test_inverting_edges_and_no_others_have_a_dot_near_their_end(self, diagram, root):
        dots = Counter((float(dot.get("cx")), float(dot.get("cy"))) for dot in by_class(root, "inverted"))
        ends = Counter()
        for edge in drawn_edges(root):
            if is_inverted(int(edge.get("data-reference"))):
                x, y = points(edge.get("d"))[-1]
                ends[x, round(y - svg.DOT_ABOVE, 1)] += 1
        self.assertEqual(dots, ends)
        self.assertTrue(all(count == 1 for count in dots.values()))
        self.assertEqual(sum(dots.values()), sum(is_inverted(reference) for *_, reference in edges_of(diagram)))

    @for_each
    def test_edges_join_their_ends(self, diagram, root):
        found = shapes(root)
        for edge in drawn_edges(root):
            way = points(edge.get("d"))
            if edge.get("data-from") in found:
                left, _, right, bottom = found[edge.get("data-from")]
                self.assertAlmostEqual(way[0][1], bottom, delta=0.2)
                self.assertTrue(left < way[0][0] < right)
            if target_of(edge) in found:
                left, top, right, _ = found[target_of(edge)]
                self.assertAlmostEqual(way[-1][1], top, delta=0.2)
                self.assertTrue(left < way[-1][0] < right)

    @for_each
    def test_edges_into_a_node_are_apart(self, diagram, root):
        found, ends = shapes(root), {}
        for edge in drawn_edges(root):
            if target_of(edge) in found:
                ends.setdefault(target_of(edge), []).append(points(edge.get("d"))[-1][0])
        for across in ends.values():
            across.sort()
            self.assertTrue(all(after - before > 2 * svg.DOT_RADIUS for before, after in zip(across, across[1:])))

    @for_each
    def test_no_two_nodes_overlap(self, diagram, root):
        boxes = [*shapes(root).values(), *map(box, by_class(root, "stub"))]
        for at, (left, top, right, bottom) in enumerate(boxes):
            for other in boxes[:at]:
                is_apart = right < other[0] or other[2] < left or bottom < other[1] or other[3] < top
                self.assertTrue(is_apart, (boxes[at], other))

    @for_each
    def test_no_edge_runs_through_a_node(self, diagram, root):
        found = shapes(root)
        stubs = list(map(box, by_class(root, "stub")))
        for edge in drawn_edges(root):
            way = points(edge.get("d"))
            ends = (edge.get("data-from"), target_of(edge))
            others = [bounds for name, bounds in found.items() if name not in ends]
            others += [bounds for bounds in stubs if not is_inside(way[-1], bounds, 1)]
            least, most = min(way)[0], max(way)[0]
            for bounds in others:
                if bounds[0] - 2 < most and least < bounds[2] + 2:
                    self.assertFalse(any(is_inside(point, bounds, 2) for point in way), (ends, bounds))

    @for_each
    def test_no_edge_runs_through_the_names_of_places(self, diagram, root):
        names = [svg.MARGIN + parts.text_width(diagram.input_at(place)) for place in range(len(diagram.inputs))]
        least = min(point[0] for edge in drawn_edges(root) for point in points(edge.get("d"))) + shift(root)
        self.assertGreater(least, max(names, default=0.0))

    @for_each
    def test_names_of_outputs_do_not_overlap(self, diagram, root):
        placed = [(float(label.get("x")), parts.text_width(label.text) / 2) for label in by_class(root, "output-label")]
        if not any(label.get("transform") for label in by_class(root, "output-label")):
            placed.sort()
            self.assertTrue(all(after[0] - before[0] > before[1] + after[1] for before, after in zip(placed, placed[1:])))

    @for_each
    def test_everything_is_within_the_frame(self, diagram, root):
        width, height = float(root.get("width")), float(root.get("height"))
        placed = [point for edge in drawn_edges(root) for point in points(edge.get("d"))]
        for left, top, right, bottom in [*shapes(root).values(), *map(box, by_class(root, "stub"))]:
            placed += [(left, top), (right, bottom)]
        for label in by_class(root, "output-label"):
            reach = parts.text_width(label.text) * (0.77 if label.get("transform") else 0.5)
            placed.append((float(label.get("x")) + reach, float(label.get("y"))))
        right = width - shift(root)
        self.assertTrue(all(0 < x < right and 0 < y < height for x, y in placed))


class Svg(unittest.TestCase):
    def test_same_bytes_in_every_run(self):
        imported = "from tests.sample_diagrams import LARGE; from yavdocsil.pictures import svg"
        code = f"import sys; sys.path[:0] = [{str(PYTHON)!r}]; {imported}; print(svg.write(LARGE), end='')"
        runs = [
            subprocess.run([sys.executable, "-c", code], env={**os.environ, "PYTHONHASHSEED": seed}, capture_output=True, check=True)
            for seed in ("1", "2")
        ]
        self.assertEqual(runs[0].stdout, runs[1].stdout)
        self.assertEqual(runs[0].stdout.decode(), svg.write(LARGE))

    def test_large_is_large(self):
        self.assertGreater(len(LARGE.cells), 100)

    def test_names_are_escaped(self):
        diagram = made([NASTY], [NASTY, "bell\a"], (0,), [(0, 0, 1)], (2, 3))
        root = ElementTree.fromstring(svg.write(diagram, NASTY))
        self.assertEqual(labels(root, "place-label"), [NASTY])
        self.assertEqual(labels(root, "output-label"), [NASTY, "bell\\x07"])
        self.assertEqual(labels(root, "heading"), [NASTY])
        self.assertEqual(root.get("aria-label"), NASTY)

    def test_names_are_harmless(self):
        signs = {"\0": "\\x00", "\n": "\\n", "\t": "\\t", "\x1b": "\\x1b", "\ud800": "\\ud800", "\uffff": "\\uffff"}
        for sign, written in signs.items():
            diagram = made([f"a{sign}"], [f"b{sign}"], (0,), [(0, 0, 1)], (2,))
            root = ElementTree.fromstring(svg.write(diagram, f"c{sign}"))
            shown = [*labels(root, "place-label"), *labels(root, "output-label"), *labels(root, "heading")]
            self.assertEqual(shown, [f"{letter}{written}" for letter in "abc"])
            self.assertEqual(root.get("aria-label"), f"c{written}")
            self.assertEqual(root.find(f"{SVG}desc").text, (
                f"Binary decision diagram with complement edges: 1 cell for b{written}. Order: a{written}."
            ))

    def test_a_part_of_a_network_says_so(self):
        root = ElementTree.fromstring(svg.write(BOUNCE_GUARD.only(["advance"])))
        self.assertEqual(labels(root, "cell-label"), ["2", "3", "5", "7"])
        self.assertEqual(root.find(f"{SVG}desc").text, (
            "Binary decision diagram with complement edges: 4 of the network's 7 cells for advance. Order: held, a, b, c, d."
        ))

    def test_no_module_of_xml_is_imported(self):
        code = f"import sys; sys.path[:0] = [{str(PYTHON)!r}]; import yavdocsil.pictures.svg; print(*sys.modules)"
        run = subprocess.run([sys.executable, "-S", "-c", code], capture_output=True, check=True, encoding="utf-8")
        self.assertEqual([name for name in run.stdout.split() if name.split(".")[0] == "xml"], [])

    def test_place_that_is_never_asked_is_thin(self):
        root = ElementTree.fromstring(svg.write(BOUNCE_GUARD))
        heights = [float(group.find(f"{SVG}rect").get("height")) for group in by_class(root, "place")]
        self.assertEqual([height < 20 for height in heights], [False, False, True, False, False])

    def test_places_follow_each_other_downward(self):
        root = ElementTree.fromstring(svg.write(LARGE))
        bands = [group.find(f"{SVG}rect") for group in by_class(root, "place")]
        tops = [(float(band.get("y")), float(band.get("y")) + float(band.get("height"))) for band in bands]
        found = shapes(root)
        for cell in LARGE.cells:
            _, top, _, bottom = found[f"cell {cell.number}"]
            self.assertTrue(tops[cell.place][0] < top < bottom < tops[cell.place][1])
        self.assertTrue(all(upper[1] < lower[0] for upper, lower in zip(tops, tops[1:])))

    def test_no_crossing_where_none_is_needed(self):
        for diagram in (XOR, DIAGRAMS["and-or"], BOUNCE_GUARD):
            placed = layout.place(diagram)
            self.assertEqual(order._crossings([row.nodes for row in placed.rows]), 0)

    def test_crossings_are_reduced_and_the_best_order_is_kept(self):
        for diagram in (LARGE, DIAGRAMS["multiplier 3"], DIAGRAMS["wild"]):
            for turns_ties, is_large in itertools.product((False, True), repeat=2):
                rows = [row.nodes for row in graph.connected(diagram).rows]
                order._by_number(rows)
                before = order._crossings(rows)
                answered = order._reduce(rows, turns_ties, is_large)
                self.assertEqual(answered, order._crossings(rows))
                self.assertLess(answered, before if is_large else before / 2)

    def test_edges_turn_only_between_the_rows(self):
        for diagram in (BOUNCE_GUARD, LARGE):
            for edge in layout.place(diagram).edges:
                curves = [piece for piece in edge.path if len(piece) == 3]
                self.assertEqual(len(curves), edge.target.row - edge.source.row)
                # Both ends are upright.
                self.assertEqual(curves[0][0][0], edge.start[0])
                self.assertEqual(curves[-1][1][0], curves[-1][2][0])

    def test_long_names_of_many_outputs_are_aslant(self):
        placed = layout.place(DIAGRAMS["long names"])
        self.assertGreater(placed.slant, 0)
        self.assertLess(placed.width, 1000)
        self.assertEqual(layout.place(BOUNCE_GUARD).slant, 0)

    def test_many_references_to_constants_have_boxes_of_their_own(self):
        self.assertTrue(layout.place(LARGE).stubs)
        self.assertFalse(layout.place(BOUNCE_GUARD).stubs)
