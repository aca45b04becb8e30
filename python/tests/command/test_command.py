"""Tests of the command: formats there and back, pictures and exports, and what a person is told of bad input."""

import random
import unittest
import xml.etree.ElementTree

from tests.command.running import CROSSED, GUARD, WithFolder, yav
from tests.places import EXAMPLES
from yavdocsil import Table, __version__


class Processes(WithFolder):
    run_by = staticmethod(yav)


class Converting(Processes):
    def test_there_and_back_through_every_format(self):
        for drawing in sorted(EXAMPLES.glob("*.txt")):
            path = drawing
            for ending in (".pla", ".drawing", ".table", ".pla", ".table"):
                to = self.folder / f"{drawing.stem}{ending}"
                self.written("convert", path, to)
                path = to
            self.assertEqual(path.read_bytes(), drawing.with_suffix(".table").read_bytes())

    def test_the_examples_are_what_the_command_makes(self):
        for drawing in sorted(EXAMPLES.glob("*.txt")):
            for ending in (".table", ".cells"):
                to = self.folder / f"made{ending}"
                self.written("convert", drawing, to)
                self.assertEqual(to.read_bytes(), drawing.with_suffix(ending).read_bytes(), drawing.with_suffix(ending).name)
            self.assertEqual(self.written("show", drawing, "--svg"), drawing.with_suffix(".svg").read_text(encoding="utf-8"))

    def test_a_network_file_gives_its_table(self):
        self.written("convert", "examples/bounce-guard.cells", self.folder / "guard.table")
        self.written("convert", self.folder / "guard.table", self.folder / "guard.cells")
        self.assertEqual((self.folder / "guard.cells").read_bytes(), (EXAMPLES / "bounce-guard.cells").read_bytes())

    def test_a_format_can_be_named(self):
        self.written("convert", "examples/xor.table", self.folder / "plain", "--to", "pla")
        self.written("convert", self.folder / "plain", self.folder / "again", "--from", "pla", "--to", "table")
        self.assertEqual((self.folder / "again").read_bytes(), (EXAMPLES / "xor.table").read_bytes())


class Showing(Processes):
    def test_pictures(self):
        self.assertTrue(xml.etree.ElementTree.fromstring(self.written("show", GUARD, "--svg")).tag.endswith("svg"))
        self.assertTrue(self.written("show", GUARD, "--dot").startswith("digraph"))
        self.assertIn("held", self.written("show", GUARD))
        self.assertEqual(self.written("show", GUARD), self.written("show", GUARD, "--text"))
        self.assertEqual(self.written("show", GUARD, "--to", "svg"), self.written("show", GUARD, "--svg"))

    def test_one_output_alone(self):
        alone = self.written("show", GUARD, "--output", "advance")
        self.assertNotIn("hold", alone)
        self.assertIn("advance -> 2\n", alone)
        self.assertEqual(self.written("show", GUARD, "--output", "hold", "--output", "advance"), self.written("show", GUARD))
        self.refused(f"yav: {GUARD}: there is no output z; there are hold advance\n", "show", GUARD, "--output", "z")

    def test_the_width_of_the_terminal(self):
        narrow, wide = (yav("show", GUARD, COLUMNS=columns).stdout for columns in ("40", "200"))
        self.assertGreater(narrow.count("\n"), wide.count("\n"))
        self.assertLessEqual(max(map(len, narrow.splitlines()[:-2])), 40)
        out = self.folder / "out.txt"
        yav("show", GUARD, "-o", out, COLUMNS="40")
        self.assertEqual(out.read_text(encoding="utf-8"), self.written("show", GUARD))

    def test_large_networks(self):
        chance = random.Random(1)
        path = self.file("large.txt", Table.from_rows(["".join(chance.choice("01") for _ in range(4)) for _ in range(256)]).to_drawing())
        hint = "is hard to read: --output NAME draws one output alone, --summary counts the cells of each place\n"
        run = yav("show", path, "--svg")
        self.assertRegex(run.stderr, rf"^yav: a picture of \d+ cells, \d,\d+ pixels wide, {hint}$")
        self.assertRegex(yav("show", path, "--dot").stderr, rf"^yav: a picture of \d+ cells {hint}$")
        for words in (("--summary",), ("--svg", "--output", "y0"), ()):
            self.written("show", path, *words)

    def test_a_file_to_write(self):
        out = self.folder / "guard.svg"
        self.assertEqual(self.written("show", GUARD, "--svg", "-o", out), "")
        self.assertEqual(out.read_text(encoding="utf-8"), self.written("show", GUARD, "--svg"))

    def test_exports(self):
        self.assertIn(".names", self.written("export", GUARD, "--blif"))
        self.assertIn("endmodule", self.written("export", GUARD, "--verilog"))

    def test_orders(self):
        self.assertEqual(self.written("order", CROSSED), "6 cells in the order a c b d\n")
        self.assertEqual(self.written("order", CROSSED, "--sift"), "4 cells in the order b a c d\n")
        self.assertEqual(self.written("order", CROSSED, "--pass", "3"), "6 cells in the order a c b d\n")

    def test_moves(self):
        lines = self.written("moves", CROSSED).splitlines()
        self.assertEqual(lines[1].split(), ["a", "c", "b", "d"])
        self.assertEqual([line.split() for line in lines[2:]], [
            ["a", "0", "0", "0", "0"], ["c", "0", "0", "-2", "-2"], ["b", "-2", "-2", "0", "0"], ["d", "0", "0", "0", "0"],
        ])
        self.assertIn("+2", self.written("moves", CROSSED, "--sift"))

    def test_evaluation(self):
        self.assertEqual(self.written("evaluate", GUARD, "11110", "00001"), (
            "a b c d held | hold advance\n"
            "1 1 1 1  0   |  1      1\n"
            "0 0 0 0  1   |  0      0\n"
        ))
        self.assertEqual(len(self.written("evaluate", "examples/xor.txt").splitlines()), 5)


class Itself(Processes):
    def test_version_and_usage(self):
        self.assertEqual(self.written("--version"), f"yav {__version__}\n")
        self.assertTrue(self.written("--help").startswith("usage: yav "))
        self.assertTrue(self.written("show", "--help").startswith("usage: yav show "))
        self.misused("required: WORD")
        self.misused("required: FILE", "show")

    def test_completion(self):
        for shell in ("bash", "zsh", "fish"):
            self.assertIn("evaluate", self.written("completion", shell))
        self.misused("invalid choice: 'sh'", "completion", "sh")


class Telling(Processes):
    def bad(self, content):
        return self.file("bad", content)

    def test_bad_drawings_and_plas(self):
        out = self.folder / "out.table"
        bad = self.bad(b"a b | y\n0 0 | 1\n0 2 | 1\n")
        self.refused(f"{bad}:3:3: ", "convert", bad, out, "--from", "drawing")
        bad = self.bad(b".i 2\n.o 1\n.type fr\n1- 1\n11 0\n.e\n")
        wanted = f"{bad}:5:4: lines 4 and 5 contradict each other: in row 11 output z0 is 1 and 0\n"
        self.refused(wanted, "convert", bad, out, "--from", "pla")
        self.refused(f"{bad}:1", "show", bad, "--svg", "-o", self.folder / "out.svg", "--from", "drawing")

    def test_bad_files_and_rows(self):
        bad = self.bad((EXAMPLES / "xor.table").read_bytes()[:1000])
        self.refused("refused 1: ", "convert", bad, self.folder / "out.pla", "--from", "table")
        self.refused("refused 3: ", "export", self.bad((EXAMPLES / "xor.table").read_bytes()), "--blif", "--from", "cells")
        self.refused("it is no text\n", "show", self.bad(b"\xff\0\1"), "--from", "drawing")
        self.refused(f"{bad}: its ending tells no format", "show", self.bad(b""))
        self.refused("out.xyz: its ending tells no format: known are .txt, ", "convert", GUARD, self.folder / "out.xyz")
        self.refused("No such file", "show", self.folder / "none.txt")
        sheet = self.file("clerk.xlsx", "PK")
        self.refused(f"{sheet}: its ending tells no format: a .xlsx has to be saved as CSV; known are .txt, ", "show", sheet)
        self.refused("12 is no row", "evaluate", "examples/xor.txt", "12")


if __name__ == "__main__":
    unittest.main()
