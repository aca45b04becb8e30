"""Tests of the word check: every error at once, and what it tells of a table that can be read."""

from tests.command.running import CROSSED, GUARD, PAIRS, WithFolder
from yavdocsil import Table


class Errors(WithFolder):
    def wrong(self, content, *places, name="bad.txt", first=""):
        """Each error on a line of its own, in sequence, then how many there are."""
        path = self.file(name, content)
        run = self.run_by("check", path)
        lines = run.stderr.splitlines()
        self.assertEqual((run.returncode, run.stdout), (1, ""))
        told = lines[:-1] if len(places) > 1 else lines
        self.assertEqual([line.split(": ", 2)[1] for line in told], [f"{path}:{place}" for place in places])
        if len(places) > 1:
            self.assertEqual(lines[-1], f"yav: {len(places)} errors")
        self.assertIn(first, lines[0])
        return lines

    def test_a_drawing(self):
        text = "a b | y\n0 0 | 1\n0 2 | 1\n0 0 | 1\nwhat\n1 1 | x\n"
        lines = self.wrong(text, "3:3", "4:1", "5:1", "6:7", first="2 is not an input's mark")
        self.assertIn("row 00 is drawn twice, in lines 2 and 4", lines[1])

    def test_a_single_error_is_not_counted(self):
        self.assertEqual(len(self.wrong("a b | y\n0 2 | 1\n", "2:3")), 1)

    def test_a_pla(self):
        text = ".i 2\n.o 1\n.type fr\n.phase 2\n0x 1\n1- 1\n11\n.e\n"
        self.wrong(text, "4:8", "5:2", "7:1", name="bad.pla")

    def test_a_spreadsheet(self):
        self.wrong("a,b,|,y\n0,0,|,2\n0,,|,1\n", "2:7", "3:3", name="bad.csv", first="cell D2: ")

    def test_blif(self):
        self.wrong(".model m\n.inputs a\n.outputs y\n.latch a y\n.names a y\n2 1\n.end\n", "4:1", "6:1", name="bad.blif")

    def test_no_heading(self):
        self.wrong("what is this\n", "1")

    def test_very_many(self):
        for wrong, lines in ((99, 100), (100, 101), (150, 101)):
            told = self.run_by("check", self.file("bad.txt", "a b | y\n" + "0 2 | 1\n" * wrong)).stderr.splitlines()
            self.assertEqual(len(told), lines)
            self.assertEqual(told[-1], "yav: 99 errors" if wrong == 99 else "yav: the reading ended at 100 errors; there may be more")

    def test_table_files(self):
        self.refused("refused 1: ", "check", self.file("bad.table", b"\1" * 100))

    def test_what_is_taken_is_told(self):
        note = "the number of cubes is 1, not 3 (it is taken as it is)\n"
        path = self.file("odd.pla", ".i 1\n.o 1\n.p 3\n1 1\n.e\n")
        self.assertIn("cells   1 in the order x0\n", self.written("check", path, beside=f"yav: {path}:3:4: {note}"))
        path = self.file("wrong.pla", ".i 1\n.o 1\n.p 3\nx 1\n.e\n")
        wrong = f"yav: {path}:4:1: x is not a mark of a cube\n"
        self.assertEqual(self.run_by("check", path).stderr, f"yav: {path}:3:4: {note}{wrong}")


class Told(WithFolder):
    def test_the_guard(self):
        self.assertEqual(self.written("check", GUARD), (
            "inputs  5\n"
            "outputs 2\n"
            "rows    32: 20 cared, 12 free\n"
            "never asked: b\n"
            "cells   7 in the order held a b c d\n"
        ))

    def test_free_outputs_and_rows_free_in_part(self):
        table = Table.from_rows(["0--", "1--", "-0-", "---"], ["a", "b"], ["x", "y", "z"])
        told = self.written("check", self.file("free.txt", table.to_drawing()))
        self.assertIn("rows    4: 0 cared, 1 free, 3 free in some outputs\nwholly free: z\n", told)

    def test_the_board(self):
        self.assertTrue(self.written("check", PAIRS, "--board", "4").endswith("board   4 cells: it fits\n"))
        for words, cells, order in (((), 6, "a c b d"), (("--order", "c,a,b,d"), 6, "c a b d")):
            run = self.run_by("check", CROSSED, "--board", "5", *words)
            self.assertEqual((run.returncode, run.stderr), (1, ""))
            self.assertTrue(run.stdout.endswith(f"cells   {cells} in the order {order}\nboard   5 cells: too few, 6 are wanted\n"))
        self.assertTrue(self.written("check", CROSSED, "--board", "5", "--sift").endswith("board   5 cells: it fits\n"))

    def test_no_inputs_and_network_files(self):
        told = self.written("check", self.file("none.txt", "| y\n| 1\n"))
        self.assertEqual(told, "inputs  0\noutputs 1\nrows    1: 1 cared, 0 free\ncells   0 in the order\n")
        self.assertIn("rows    32: 32 cared, 0 free\n", self.written("check", "examples/bounce-guard.cells"))
