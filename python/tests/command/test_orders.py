"""Tests of the command's orders and boards: an order given, inputs sifted, networks that fit and that don't."""

import itertools
import os
import subprocess

from tests.command.running import CROSSED, GUARD, PAIRS, WithFolder
from tests.places import EXAMPLES, ROOT
from yavdocsil import Network, Table
from yavdocsil.command.options import order_named
from yavdocsil.command.files import BadWord

# Every word that builds, with what it takes beside the file and the options.
BUILDING = (
    ("show",), ("export", "--blif"), ("order",), ("info",), ("evaluate",), ("moves",), ("swap", "0"), ("log", "0000"),
    ("convert", "-", "--to", "pla"),
)
# A table that a pass makes smaller, and a second one too.
SLOW_TO_REST = "0100000101111000"


def crossed():
    return Table.from_drawing((ROOT / CROSSED).read_text(encoding="utf-8"))


class Orders(WithFolder):
    def test_every_order_is_taken(self):
        for order in itertools.permutations("abcd"):
            cells = Network(crossed().reordered(["abcd".index(name) for name in order])).count()
            told = self.written("order", CROSSED, "--order", ",".join(order))
            self.assertEqual(told, f"{cells} cells in the order {' '.join(order)}\n")

    def test_an_order_is_written_to_every_format(self):
        for ending in (".txt", ".pla", ".table", ".cells"):
            out = self.folder / f"out{ending}"
            self.written("convert", CROSSED, out, "--order", "d,c,b,a")
            names = "d c b a" if ending in (".txt", ".pla") else "x3 x2 x1 x0"
            self.assertEqual(self.written("order", out), f"4 cells in the order {names}\n")
        self.written("convert", CROSSED, self.folder / "sifted.txt", "--sift")
        self.assertIn("places b a c d\n", (self.folder / "sifted.txt").read_text(encoding="utf-8"))

    def test_a_network_file_takes_an_order(self):
        out = self.folder / "out.cells"
        self.written("convert", "examples/and-or-crossed.cells", out, "--order", "x0,x1,x2,x3")
        self.assertEqual(out.read_bytes(), (EXAMPLES / "and-or.cells").read_bytes())

    def test_names_with_commas_or_blanks_between(self):
        for text in ("b,a,c,d", "b a c d", "b, a, c, d", " b,a,c,d "):
            self.assertEqual(self.written("order", CROSSED, "--order", text), "4 cells in the order b a c d\n")
        self.assertEqual(order_named("a,b a b", ["a", "b", "a,b"]), ["a,b", "a", "b"])
        self.assertEqual(order_named("", []), [])
        self.assertEqual(order_named("lamp, oven door", ["oven door", "lamp"]), ["lamp", "oven door"])
        with self.assertRaises(BadWord):
            order_named("a,b", ["a,b", "c"])

    def test_wrong_orders_are_told(self):
        for order, wanted in (
            ("a,b,c", f"{CROSSED}: --order a,b,c: d missing"),
            ("a,b,c,d,a", "--order a,b,c,d,a: a stands more than once"),
            ("a,b,c,z", "--order a,b,c,z: there is no input z, d missing"),
            ("a,a,z,y", "there is no input z, there is no input y, a stands more than once, b c d missing"),
            ("", "--order : a b c d missing"),
            ("0,1,2,3", "there is no input 0"),
        ):
            self.refused(wanted, "order", CROSSED, "--order", order)
        self.refused("--order z: there is no input z, a b c d missing\n", "convert", CROSSED, self.folder / "out.txt", "--order", "z")


class Sifting(WithFolder):
    def test_one_input(self):
        self.assertEqual(self.written("order", CROSSED, "--sift-input", "b"), "4 cells in the order b a c d\n")
        self.assertEqual(self.written("order", CROSSED, "--sift-input", "c"), "4 cells in the order a b c d\n")
        self.assertEqual(self.written("order", CROSSED, "--sift-input", "a"), "6 cells in the order a c b d\n")

    def test_several_in_the_sequence_given(self):
        table = Table.from_rows(["0", "1", "1", "-", "0", "-", "1", "0", "1", "0", "-", "1", "1", "0", "0", "-"], inputs="abcd")
        path = self.file("table.txt", table.to_drawing())
        for names in itertools.permutations("abcd", 2):
            network = Network(table)
            for name in names:
                network.sift(name)
            options = [word for name in names for word in ("--sift-input", name)]
            order = " ".join(table.inputs[number] for number in network.order)
            self.assertIn(f"in the order {order}\n", self.written("order", path, *options))

    def test_the_order_comes_first_and_the_pass_last(self):
        given = ("--sift", "--sift-input", "d", "--order", "d,b,a,c")
        network = Network(crossed())
        network.reorder("dbac")
        network.sift("d")
        network.sift_all()
        order = " ".join(network.inputs[number] for number in network.order)
        self.assertEqual(self.written("order", CROSSED, *given), f"{network.count()} cells in the order {order}\n")
        self.assertEqual(self.written("moves", CROSSED, *given).splitlines()[1].split(), order.split())

    def test_to_rest(self):
        path = self.file("slow.txt", Table.from_rows(SLOW_TO_REST).to_drawing())
        self.assertEqual(self.written("order", path, "--sift"), "6 cells in the order x3 x0 x1 x2\n")
        beside = "yav: sifted to rest in 3 passes: 6, 5, 5 cells\n"
        self.assertEqual(self.written("order", path, "--sift-to-rest", beside=beside), "5 cells in the order x3 x0 x2 x1\n")
        self.written("convert", path, self.folder / "rest.cells", "--sift-to-rest", beside=beside)
        self.assertEqual(self.written("order", self.folder / "rest.cells"), "5 cells in the order x3 x0 x2 x1\n")
        one = self.file("one.txt", "a | y\n0 | 0\n1 | 1\n")
        self.written("order", one, "--sift-to-rest", beside="yav: sifted to rest in 1 pass: 1 cell\n")
        beside = "yav: sifted to rest in 1 pass: 4 cells\n"
        self.assertEqual(self.written("order", PAIRS, "--sift-to-rest", beside=beside), "4 cells in the order a b c d\n")

    def test_every_word_takes_an_order(self):
        for word, *more in BUILDING:
            for options in (("--order", "b,a,c,d"), ("--sift",), ("--sift-input", "b"), ("--board", "9")):
                self.written(word, CROSSED, *more[:1], *options, *more[1:])

    def test_progress_is_told_on_a_terminal_alone(self):
        table = Table.from_rows(["01"[bin(row).count("1") % 3 == 1] for row in range(256)])
        path = self.file("long.txt", table.to_drawing())
        leader, follower = os.openpty()
        command = [str(ROOT / "yav"), "order", str(path), "--sift"]
        run = subprocess.run(command, cwd=ROOT, stdout=subprocess.PIPE, stderr=follower, text=True)
        # The line's end comes last, so once it is there all is.
        told = ""
        while not told.endswith("\n"):
            told += os.read(leader, 10000).decode()
        os.close(follower)
        os.close(leader)
        self.assertEqual((run.returncode, run.stdout), (0, self.written("order", path, "--sift")))
        self.assertEqual(told.count("\r"), 9)
        self.assertIn("sifted 8 of 8 inputs, ", told)

    def test_wrong_ones_are_told(self):
        self.refused(f"{CROSSED}: there is no input z; there are a b c d", "show", CROSSED, "--sift-input", "z")
        self.refused("there is no input 0; there are a b c d", "moves", CROSSED, "--sift-input", "0")
        self.misused("not allowed with", "order", CROSSED, "--sift", "--pass", "3")
        self.misused("not allowed with", "order", CROSSED, "--sift", "--sift-to-rest")
        self.misused("argument --pass: '-1' is no number from 0 to 4294967295", "order", CROSSED, "--pass", "-1")


class Boards(WithFolder):
    def test_a_network_that_fits(self):
        for word, *more in BUILDING:
            self.assertEqual(self.written(word, CROSSED, *more, "--board", "6"), self.written(word, CROSSED, *more))
        self.assertEqual(self.written("order", CROSSED, "--board", "32767"), "6 cells in the order a c b d\n")
        self.written("order", "examples/and-or-crossed.cells", "--board", "0" * 4 + "6")

    def test_one_that_does_not(self):
        for word, *more in BUILDING:
            before = ("--order", "a,c,b,d") if word != "log" else ("--least", "0")
            wanted = f"yav: {CROSSED}: refused 23: the board has too few cells: 6 are wanted, it has 5\n"
            self.refused(wanted, word, CROSSED, *more, *before, "--board", "5")
        self.refused("1 is wanted, it has 0", "show", self.file("one.txt", "a | y\n0 | 0\n1 | 1\n"), "--board", "0")

    def test_no_file_is_written_then(self):
        for ending in (".cells", ".txt", ".pla", ".table"):
            self.refused("6 are wanted, it has 4", "convert", CROSSED, self.folder / f"out{ending}", "--board", "4")
        self.refused("7 are wanted, it has 6", "show", GUARD, "--svg", "-o", self.folder / "out.svg", "--board", "6")

    def test_the_order_counts_that_is_asked_for(self):
        out = self.folder / "out.cells"
        for options in (("--sift",), ("--order", "x0,x1,x2,x3"), ("--sift-input", "x1")):
            self.written("convert", "examples/and-or-crossed.cells", out, *options, "--board", "4")
            self.refused("4 are wanted, it has 3", "show", "examples/and-or-crossed.cells", *options, "--board", "3")

    def test_a_network_read_is_the_same_on_a_board(self):
        for path in sorted(EXAMPLES.glob("*.cells")):
            out = self.folder / path.name
            self.written("convert", path, out, "--board", len(Network.from_file(path.read_bytes()).cells))
            self.assertEqual(out.read_bytes(), path.read_bytes())

    def test_boards_that_are_none(self):
        for board in ("-1", "four", "4.0", "", "32768", "9" * 5000, "٤"):
            self.misused(f"argument --board: {board!r} is no number from 0 to 32767", "show", PAIRS, "--board", board)


class Told(WithFolder):
    def test_info(self):
        self.assertEqual(self.written("info", GUARD), (
            "inputs  a b c d held\n"
            "outputs hold advance\n"
            "order   held a b c d\n"
            "care    40 marks cared, 24 free\n"
            "cells   7\n"
        ))
        self.assertIn("care    64 marks cared, 0 free\ncells   7\n", self.written("info", "examples/bounce-guard.cells"))
        self.assertIn("order   b a c d\n", self.written("info", CROSSED, "--sift"))

    def test_a_table_with_no_input(self):
        path = self.file("none.txt", "| y\n| 1\n")
        self.assertEqual(self.written("order", path, "--order", "", "--board", "0"), "0 cells in the order\n")
        self.assertIn("care    1 mark cared, 0 free\n", self.written("info", path))
