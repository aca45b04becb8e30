"""Tests of swaps in the cells: places by number and by name, tables with free rows, boards, and what is written."""

import pathlib

from tests.command.running import CROSSED, GUARD, PAIRS, WithFolder, yav
from tests.places import EXAMPLES
from yavdocsil import Network, Table

CELLS = "examples/and-or-crossed.cells"
HERE = "a format that can't be had here"


class Swapping(WithFolder):
    def test_a_network_file_needs_no_table(self):
        out = self.folder / "out.cells"
        told = self.written("swap", CELLS, "1", "-o", out)
        self.assertEqual(told, "6 cells in the order x0 x2 x1 x3\n4 cells in the order x0 x1 x2 x3\n")
        self.assertEqual(out.read_bytes(), (EXAMPLES / "and-or.cells").read_bytes())
        self.assertEqual(yav("swap", out, "1", "-o", out).returncode, 0)
        self.assertEqual(out.read_bytes(), (EXAMPLES / "and-or-crossed.cells").read_bytes())

    def test_several_in_the_sequence_given(self):
        lines = self.written("swap", CROSSED, "1", "0", "2").splitlines()
        self.assertEqual(lines, [f"{cells} cells in the order {order}" for cells, order in (
            (6, "a c b d"), (4, "a b c d"), (4, "b a c d"), (4, "b a d c"),
        )])

    def test_inputs_by_name(self):
        for word in ("c,b", "b,c"):
            self.assertEqual(self.written("swap", CROSSED, word), self.written("swap", CROSSED, "1"))
        self.assertIn("4 cells in the order b a c d\n", self.written("swap", CROSSED, "c,b", "a,b"))
        path = self.file("commas.txt", "a,b c 2 | y\n0 1 1 | 1\n1 1 0 | 0\n")
        self.assertIn("in the order c a,b 2\n", self.written("swap", path, "a,b,c"))
        self.assertIn("in the order a,b 2 c\n", self.written("swap", path, "2,c"))

    def test_it_is_the_order_asked_for_that_is_swapped(self):
        lines = self.written("swap", "--sift", CROSSED, "0").splitlines()
        self.assertEqual(lines, ["4 cells in the order b a c d", "4 cells in the order a b c d"])

    def test_free_rows_may_give_other_cells_than_a_build(self):
        for rows, held, built in (("00--0--1", "1 cell", 2), ("0001100-", "4 cells", 3), ("0001101-", "4 cells", 4)):
            path = self.file("free.txt", Table.from_rows(rows).to_drawing())
            told = self.written("swap", path, "0").splitlines()
            self.assertEqual(told[1], f"{held} in the order x1 x0 x2")
            self.assertEqual(told[2:], [f"built afresh in that order, the table gives other cells, {built} of them"])

    def test_every_network_of_a_swap_can_be_written(self):
        for ending, sign in ((".svg", b"<svg"), (".dot", b"digraph"), (".blif", b".model"), (".v", b"module")):
            out = self.folder / f"out{ending}"
            self.written("swap", PAIRS, "1", "-o", out)
            self.assertIn(sign, out.read_bytes())
        self.written("swap", GUARD, "0", "-o", self.folder / "plain", "--to", "cells")
        network = Network.from_file((self.folder / "plain").read_bytes())
        self.assertEqual((network.order, len(network.cells)), ((0, 4, 1, 2, 3), 8))


class Refusing(WithFolder):
    def test_places_that_are_none(self):
        for place in ("3", "4", "99999"):
            self.refused(f"swap {place}: refused 9: ", "swap", PAIRS, place)
        self.refused("swap 1: refused 9: ", "swap", "examples/xor.txt", "0", "1", "0")
        self.refused("swap 0: refused 9: ", "swap", self.file("none.txt", "| y\n| 1\n"), "0")
        for place in ("-1", "a", "one", "", "1.0", "a,c", "a,a", "a,z", ",", "a,b,c", "²"):
            self.refused(f"{PAIRS}: swap {place}: it is no place's number", "swap", PAIRS, place)
        for place in (10**9, 2**64, "1" + "0" * 5000):
            self.refused(f"{PAIRS}: swap {place}: refused 9: ", "swap", PAIRS, place)
        self.assertEqual(self.written("swap", PAIRS, "0" * 5000 + "1"), self.written("swap", PAIRS, "1"))

    def test_a_board_that_is_too_small(self):
        out = self.folder / "out.cells"
        wanted = "swap 1: refused 23: the board has too few cells: 6 are wanted, it has 5\n"
        self.refused(wanted, "swap", PAIRS, "1", "--board", "5", "-o", out)
        self.refused(f"{CELLS}: refused 23: the board has too few cells: 6 are wanted, it has 5", "swap", CELLS, "1", "--board", "5")
        self.assertIn("6 cells in the order a c b d\n", self.written("swap", PAIRS, "1", "--board", "6", "-o", out))

    def test_what_can_not_be_written(self):
        for name, told in (("out.txt", HERE), ("out.table", HERE), ("out.pla", HERE), ("out", "no format")):
            out = self.folder / name
            wanted = f"{out}: its ending tells {told}: known are .cells, .svg, .dot, .gv, .blif, .v, .sv; "
            self.refused(wanted, "swap", PAIRS, "1", "-o", out)
        self.refused("--to svg: there is no file to write; -o names one", "swap", PAIRS, "1", "--to", "svg")
        nowhere = pathlib.Path("/nowhere/out.svg")
        self.refused(f"{nowhere}: No such file", "swap", PAIRS, "1", "-o", nowhere)

    def test_no_place(self):
        self.misused("required: PLACE", "swap", PAIRS)
