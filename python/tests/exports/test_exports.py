"""Tests of the exports to BLIF and Verilog, which small readers here read again. Needs no library and no tool."""

from __future__ import annotations

import random
import re
import unittest
from collections.abc import Sequence
from dataclasses import replace

from tests.exports.readers import Read, read_blif, read_verilog
from yavdocsil.diagram import Cell, Diagram
from yavdocsil.exports import blif, names, verilog
from yavdocsil.reading import blif as blif_reader


def diagram_of(cells: Sequence[tuple[int, int, int]], roots: Sequence[int], inputs: Sequence[str], outputs: Sequence[str] = ()) -> Diagram:
    """A diagram with the inputs at their own places, from each cell's place, low and high."""
    numbered = tuple(Cell(i + 1, *cell) for i, cell in enumerate(cells))
    named = tuple(outputs) or tuple(f"y{i}" for i in range(len(roots)))
    return Diagram(tuple(inputs), named, tuple(range(len(inputs))), numbered, tuple(roots))


XOR = diagram_of([(0, 4, 5), (1, 0, 1)], [2], ["a", "b"], ["y"])
BOUNCE_GUARD = Diagram(
    ("a", "b", "c", "d", "held"), ("hold", "advance"), (4, 0, 1, 2, 3),
    tuple(Cell(i + 1, *cell) for i, cell in enumerate([(0, 6, 8), (0, 6, 0), (1, 0, 10), (1, 12, 1), (3, 0, 14), (3, 14, 1), (4, 0, 1)])),
    (2, 4),
)


def random_diagram(rng: random.Random) -> Diagram:
    """Any well-formed diagram: every edge leads to a deeper place or to a constant, and is inverted or not."""
    n, m = rng.randrange(7), rng.randrange(1, 5)
    places = sorted(rng.randrange(n) for _ in range(rng.randrange(1, 12))) if n else []
    cells = []
    for number, place in enumerate(places, 1):
        deeper = [0, 1] + [2 * i + 2 + k for i, other in enumerate(places) if other > place for k in (0, 1)]
        cells.append(Cell(number, place, rng.choice(deeper), rng.choice(deeper)))
    roots = tuple(rng.randrange(2 * len(cells) + 2) for _ in range(m))
    return Diagram(names_of("x", n), names_of("y", m), tuple(rng.sample(range(n), n)), tuple(cells), roots)


def names_of(letter: str, count: int) -> tuple[str, ...]:
    return tuple(f"{letter}{i}" for i in range(count))


FORMATS = {"blif": (blif.write, read_blif), "verilog": (verilog.write, read_verilog)}


class Agreement(unittest.TestCase):
    """Every row of an export that is read again is what the diagram gives."""

    def agree(self, diagram: Diagram) -> None:
        for kind, (write, read) in FORMATS.items():
            with self.subTest(kind, diagram=diagram):
                self.assertEqual(write(diagram), write(diagram))
                again = read(write(diagram))
                rows = range(2 ** len(diagram.inputs))
                self.assertEqual([again.evaluate(row) for row in rows], [diagram.evaluate(row) for row in rows])

    def test_by_hand(self) -> None:
        self.agree(XOR)
        self.agree(BOUNCE_GUARD)

    def test_inverted_root(self) -> None:
        self.agree(diagram_of([(0, 4, 5), (1, 0, 1)], [3, 2, 5], ["a", "b"]))

    def test_constants(self) -> None:
        self.agree(diagram_of([], [0, 1], ["a", "b"]))

    def test_no_inputs(self) -> None:
        self.agree(diagram_of([], [1, 0, 1], []))

    def test_an_input_itself(self) -> None:
        self.agree(diagram_of([(1, 0, 1)], [2, 3], ["a", "b"]))

    def test_every_pair_of_edges(self) -> None:
        for low in range(8):
            for high in range(8):
                cells = [(0, low + 2 * (low > 1), high + 2 * (high > 1)), (1, 0, 1), (2, 0, 1), (3, 1, 0)]
                self.agree(diagram_of(cells, [2, 3], ["a", "b", "c", "d"]))

    def test_random(self) -> None:
        rng = random.Random(1)
        for _ in range(150):
            self.agree(random_diagram(rng))

    def test_a_part_of_a_network(self) -> None:
        for outputs in (["hold"], ["advance"]):
            self.agree(BOUNCE_GUARD.only(outputs))

    def test_a_wrong_export_is_noticed(self) -> None:
        for kind, (write, read) in FORMATS.items():
            wrong = read(write(diagram_of([(0, 4, 4), (1, 0, 1)], [2], ["a", "b"], ["y"])))
            with self.subTest(kind):
                self.assertNotEqual([wrong.evaluate(row) for row in range(4)], [XOR.evaluate(row) for row in range(4)])


class Texts(unittest.TestCase):
    def test_a_cell_without_cubes(self) -> None:
        self.assertIn("\n.names cell1\n.names cell1 y0\n", blif.write(diagram_of([(0, 0, 0)], [2], ["a"])))

    def test_blif(self) -> None:
        lines = [".model network", ".inputs a b", ".outputs y", ".names a cell2 cell1", "01 1", "10 1", ".names b cell2", "1 1",
                 ".names cell1 y", "1 1", ".end", ""]
        self.assertEqual(blif.write(XOR).split("\n"), lines)

    def test_the_order_in_blif(self) -> None:
        """A comment for other tools, and read here again; under the names that the file has."""
        text = blif.write(BOUNCE_GUARD)
        self.assertIn("\n.outputs hold advance\n# places held a b c d\n", text)
        self.assertEqual(blif_reader.read(text).order, BOUNCE_GUARD.order)
        crossed = replace(XOR, inputs=("a b", "$"), order=(1, 0))
        self.assertIn("\n# places _ a_b\n", blif.write(crossed))
        self.assertEqual(blif_reader.read(blif.write(crossed)).order, (1, 0))
        self.assertNotIn("places", blif.write(XOR))

    def test_verilog(self) -> None:
        lines = ["module network (a, b, y);", "    input a, b;", "    output y;", "    wire cell1;", "    wire cell2;",
                 "    assign cell1 = a ? ~cell2 : cell2;", "    assign cell2 = b ? 1'b1 : 1'b0;", "    assign y = cell1;", "endmodule", ""]
        self.assertEqual(verilog.write(XOR).split("\n"), lines)

    def test_verilog_without_inputs_or_cells(self) -> None:
        lines = ["module network (y0);", "    output y0;", "    assign y0 = 1'b1;", "endmodule", ""]
        self.assertEqual(verilog.write(diagram_of([], [1], [])).split("\n"), lines)

    def test_wires_are_declared_place_by_place(self) -> None:
        lines = [line for line in verilog.write(BOUNCE_GUARD).splitlines() if "wire" in line]
        self.assertEqual(lines, ["    wire cell1, cell2;", "    wire cell3, cell4;", "    wire cell5, cell6;", "    wire cell7;"])

    def test_a_selector_for_each_cell(self) -> None:
        rng = random.Random(2)
        for diagram in [XOR, BOUNCE_GUARD, *(random_diagram(rng) for _ in range(50))]:
            in_blif, in_verilog = blif.write(diagram), verilog.write(diagram)
            self.assertEqual(len(re.findall(r"^\.names ", in_blif, re.M)), len(diagram.cells) + len(diagram.outputs))
            self.assertEqual(in_verilog.count("?"), len(diagram.cells))
            self.assertEqual(in_verilog.count("assign"), len(diagram.cells) + len(diagram.outputs))
            for cell in diagram.cells:
                self.assertEqual(len(re.findall(rf"^\.names .*\bcell{cell.number}$", in_blif, re.M)), 1)
                self.assertEqual(in_verilog.count(f"    assign cell{cell.number} = "), 1)

    def test_a_part_has_the_cells_of_the_whole(self) -> None:
        for write, _ in FORMATS.values():
            cells = set(re.findall(r"cell\d+", write(BOUNCE_GUARD.only(["advance"]))))
            self.assertEqual(cells, {"cell2", "cell3", "cell5", "cell7"})

    def test_nothing_but_the_columns_that_are_needed(self) -> None:
        text = blif.write(diagram_of([(0, 4, 1), (1, 0, 6), (2, 0, 1)], [2], ["a", "b", "c"]))
        for line in (".names a cell2 cell1\n01 1\n1- 1\n", ".names b cell3 cell2\n11 1\n", ".names c cell3\n1 1\n"):
            self.assertIn(line, text)


class Naming(unittest.TestCase):
    """Names that are kept, escaped or replaced; whatever they are, an export reads again as the diagram."""

    def renamed(self, inputs: Sequence[str], outputs: Sequence[str]) -> dict[str, Read]:
        """Exports of the first input for each output, inverted for every other; they are read again and compared on every row."""
        diagram = diagram_of([(0, 0, 1)], [2 + i % 2 for i in range(len(outputs))], inputs, outputs)
        found = {}
        for kind, (write, read) in FORMATS.items():
            found[kind] = again = read(write(diagram))
            with self.subTest(kind):
                signals = [*again.inputs, *again.drivers]
                self.assertEqual(len(set(signals)), len(inputs) + len(outputs) + 1)
                for row in range(2 ** len(inputs)):
                    self.assertEqual(again.evaluate(row), diagram.evaluate(row))
        return found

    def test_plain_names_are_kept(self) -> None:
        for again in self.renamed(["a", "b_2", "C"], ["y", "A"]).values():
            self.assertEqual((again.inputs, again.outputs), (["a", "b_2", "C"], ["y", "A"]))

    def test_keywords(self) -> None:
        words = ["module", "reg", "logic", "table"]
        for again in self.renamed(words, ["output", "always_comb"]).values():
            self.assertEqual((again.inputs, again.outputs), (words, ["output", "always_comb"]))
        self.assertIn("    input \\reg ;\n", verilog.write(diagram_of([], [0], ["reg"])))

    def test_signs(self) -> None:
        again = self.renamed(["a-b", "a[0]", "2x", "CS*"], ["y'", "$z"])
        for kind in FORMATS:
            self.assertEqual((again[kind].inputs, again[kind].outputs), (["a-b", "a[0]", "2x", "CS*"], ["y'", "$z"]))

    def test_blanks_and_line_ends(self) -> None:
        for again in self.renamed(["a b", "a\nb", "a_b", "\t", ""], ["y z", "end\n.end"]).values():
            self.assertEqual((again.inputs, again.outputs), (["a_b_in", "a_b_in2", "a_b", "_", "__in"], ["y_z", "end__end"]))

    def test_what_blif_uses(self) -> None:
        again = self.renamed(["a#", "b\\", "c=d", ".names"], ["#", "y"])
        self.assertEqual((again["blif"].inputs, again["blif"].outputs), (["a_", "b_", "c_d", "_names"], ["_", "y"]))
        self.assertEqual((again["verilog"].inputs, again["verilog"].outputs), (["a#", "b\\", "c=d", ".names"], ["_", "y"]))

    def test_what_verilog_uses(self) -> None:
        again = self.renamed(["`a", "*b", "c//d", "e/*f"], ["#y", '"'])
        self.assertEqual((again["verilog"].inputs, again["verilog"].outputs), (["_a", "*b", "c//d", "e/*f"], ["#y", '"']))

    def test_what_icarus_mistakes(self) -> None:
        again = self.renamed(["#", "*", "**"], ["##", "#*"])["verilog"]
        self.assertEqual((again.inputs, again.outputs), (["_", "__in", "**"], ["##", "#*"]))

    def test_what_abc_mistakes(self) -> None:
        again = self.renamed(["a(", "b)", "c,", "d;", "1'b0"], ["12'hf", "1'", "a'1", "[0]", "{}"])["verilog"]
        self.assertEqual(again.inputs, ["a_", "b_", "c_", "d_", "_1_b0"])
        self.assertEqual(again.outputs, ["_12_hf", "_1_", "a'1", "[0]", "{}"])

    def test_a_word_that_abc_mistakes(self) -> None:
        again = self.renamed(["wire", "wire_in"], ["wire_out", "wires"])["verilog"]
        self.assertEqual((again.inputs, again.outputs), (["wire_in2", "wire_in"], ["wire_out", "wires"]))
        again = self.renamed(["wires"], ["wire"])["verilog"]
        self.assertEqual((again.inputs, again.outputs), (["wires"], ["wire_out"]))

    def test_not_ascii(self) -> None:
        for kind, again in self.renamed(["Tür", "T_r", "β"], ["öffnet", "\ud800"]).items():
            self.assertEqual((again.inputs, again.outputs), (["T_r_in", "T_r", "_"], ["_ffnet", "__out"]))

    def test_an_output_named_as_an_input(self) -> None:
        for again in self.renamed(["hold", "hold_out"], ["hold", "y"]).values():
            self.assertEqual((again.inputs, again.outputs), (["hold", "hold_out"], ["hold_out2", "y"]))

    def test_a_made_up_name_gives_way(self) -> None:
        for again in self.renamed(["a b"], ["a_b", "a_b_in"]).values():
            self.assertEqual((again.inputs, again.outputs), (["a_b_in2"], ["a_b", "a_b_in"]))

    def test_cells_give_way(self) -> None:
        for again in self.renamed(["cell1", "cell"], ["cell_1", "cell2"]).values():
            self.assertEqual((again.inputs, again.outputs), (["cell1", "cell"], ["cell_1", "cell2"]))
            self.assertIn("cell__1", again.drivers)

    def test_cells_of_a_part_give_way(self) -> None:
        part = diagram_of([(0, 0, 1), (1, 0, 1)], [2, 4], ["cell2", "b"], ["y", "z"]).only(["z"])
        for kind, (write, read) in FORMATS.items():
            again = read(write(part))
            self.assertEqual((again.inputs, sorted(again.drivers)), (["cell2", "b"], ["cell_2", "z"]), kind)

    def test_a_comment_tells_the_name(self) -> None:
        diagram = diagram_of([(0, 0, 1)], [2, 3], ["Tür auf", "b"], ["b", "c\\\n"])
        for kind, sign in (("blif", "#"), ("verilog", "//")):
            told = [line for line in FORMATS[kind][0](diagram).splitlines() if line.startswith(sign)]
            lines = ["input 'Tür auf' is T_r_auf", "output 'b' is b_out", "output 'c\\\\\\n' is c__"]
            self.assertEqual(told, [f"{sign} {line}" for line in lines])
            self.assertNotIn(sign, FORMATS[kind][0](XOR))

    def test_the_model(self) -> None:
        for name, in_blif, in_verilog in (
            ("guard", "guard", "guard"), ("a b", "a_b", "a_b"), ("", "_", "_"), ("a-b", "a-b", "a-b"), ("x#\n", "x__", "x__"),
            ("wire", "wire", "wire"), ("a(b", "a(b", "a_b"),
            ("module", "module", "module"), ("always ff", "always_ff", "always_ff"), ("a", "a", "a"), ("2", "2", "2"), ("é", "_", "_"),
        ):
            self.assertEqual(read_blif(blif.write(XOR, name)).model, in_blif)
            self.assertEqual(read_verilog(verilog.write(XOR, name)).model, in_verilog)

    def test_random(self) -> None:
        rng = random.Random(3)
        parts = ["a", "b", "_", " ", "#", "\\", "`", "\n", "é", "cell", "1", "in", "out", "wire", "", ".", "=", "(", "'"]
        for _ in range(200):
            pool = list({"".join(rng.choices(parts, k=rng.randrange(4))) for _ in range(8)})
            inputs, outputs = (rng.sample(sorted(pool), min(len(pool), rng.randrange(1, 5))) for _ in range(2))
            for kind, again in self.renamed(inputs, outputs).items():
                fits = blif.fits if kind == "blif" else verilog.fits
                for name, new in zip(inputs, again.inputs):
                    self.assertEqual(fits(name), name == new)
                for name, new in zip(outputs, again.outputs):
                    self.assertEqual(fits(name) and name not in inputs, name == new)

    def test_plain(self) -> None:
        self.assertEqual([names.plain(name) for name in ("a", "a b", "2", "", "é")], ["a", "a_b", "_2", "_", "_"])
