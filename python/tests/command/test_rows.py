"""Tests of the command's rows: evaluated, logged, on the command line and in files, and what is told of bad ones."""

import unittest

from tests.command.running import CROSSED, GUARD, PAIRS, WithFolder, yav
from tests.places import EXAMPLES, ROOT
from yavdocsil import Malformed, Network, Table
from yavdocsil.reading import rows

SEEN = ("0000", "0000", "0011", "0101", "1100", "1100")


class Evaluating(WithFolder):
    def test_rows_behind_and_before_options(self):
        wanted = self.written("evaluate", PAIRS, "0011", "0101")
        for words in ((PAIRS, "0 0 1 1", "--sift", "0101"), ("--sift", PAIRS, "0011", "0101"), (PAIRS, "--board", "4", "0011", "0101")):
            self.assertEqual(self.written("evaluate", *words), wanted)

    def test_rows_of_files(self):
        first, second = self.file("first", "0011\n"), self.file("second", "# seen\n\n0 1 0 1  # once\r\n1111")
        told = self.written("evaluate", PAIRS, "0000", "--rows", first, "--rows", second)
        self.assertEqual(told, self.written("evaluate", PAIRS, "0000", "0011", "0101", "1111"))
        told = self.written("evaluate", PAIRS, "--rows", "-", given="0000\n0011\n")
        self.assertEqual(told, self.written("evaluate", PAIRS, "0000", "0011"))

    def test_options_between_the_file_and_the_rows(self):
        wanted = self.written("evaluate", PAIRS, "1111", "0000")
        for options in (("--sift",), ("--order", "d,c,b,a"), ("--board", "9"), ("--sift-input", "a", "--pass", "8")):
            self.assertEqual(self.written("evaluate", PAIRS, *options, "1111", "0000"), wanted)

    def test_rows_that_were_free_are_marked(self):
        path = self.file("free.txt", Table.from_rows(["01", "1-", "--", "00"], ["a", "b"], ["up", "y"]).to_drawing())
        lines = self.written("evaluate", path).splitlines()
        self.assertEqual([line.partition(" free")[1:] for line in lines[1:]], [("", ""), (" free", ": y"), (" free", ""), ("", "")])
        self.assertEqual(lines[2], "0 1 | 1  0  free: y")
        self.assertEqual(self.written("evaluate", GUARD, "00100", "11110").splitlines()[1:], [
            "0 0 1 0  0   |  0      0     free", "1 1 1 1  0   |  1      1",
        ])

    def test_a_file_of_no_row_is_not_every_row(self):
        self.assertEqual(self.written("evaluate", PAIRS, "--rows", self.file("none", "# nothing\n")), "a b c d | stop\n")


class Logging(WithFolder):
    def test_what_it_comes_to(self):
        self.assertEqual(self.written("log", PAIRS, *SEEN), (
            "a b c d | seen\n"
            "0 0 0 0 |    2 cared\n"
            "0 0 1 1 |    1 cared\n"
            "0 1 0 1 |    1 cared\n"
            "1 1 0 0 |    2 cared\n"
            "before  4 cells in the order a b c d; 16 marks cared, 0 free\n"
            "now     2 cells in the order a b c d; 4 marks cared, 12 free\n"
        ))

    def test_how_often_is_enough(self):
        for least, lines in (
            (0, ["cared", "cared", "cared", "cared", "now     4 cells in the order a b c d; 16 marks cared, 0 free"]),
            (2, ["cared", "free", "free", "cared", "now     1 cell in the order a b c d; 2 marks cared, 14 free"]),
            (3, ["free", "free", "free", "free", "now     0 cells in the order a b c d; 0 marks cared, 16 free"]),
            (2**32 - 1, ["free", "free", "free", "free", "now     0 cells in the order a b c d; 0 marks cared, 16 free"]),
        ):
            told = self.written("log", PAIRS, *SEEN, "--least", least).splitlines()
            self.assertEqual([line.split()[-1] for line in told[1:5]] + told[6:], lines)

    def test_logs_are_added(self):
        first, second = self.file("first", "0000\n0011\n1100\n"), self.file("second", "0101 # one\n1100\n")
        wanted = self.written("log", PAIRS, *SEEN, "--least", "2")
        for words in (("0000", "--rows", first, "--rows", second), ("--rows", second, "--rows", first, "0000")):
            self.assertEqual(self.written("log", PAIRS, "--least", "2", *words), wanted)
        for run in (self.run_by, yav):
            self.assertEqual(run("log", PAIRS, "--rows", "-", "--least", "2", given="\n".join(SEEN)).stdout, wanted)

    def test_the_table_is_written_in_any_format(self):
        network = Network(Table.from_drawing((ROOT / PAIRS).read_text(encoding="utf-8")))
        network.log([int(row, 2) for row in SEEN])
        for ending in (".txt", ".pla", ".table"):
            out = self.folder / f"out{ending}"
            self.written("log", PAIRS, *SEEN, "-o", out)
            self.written("convert", out, self.folder / "again.table")
            self.assertEqual((self.folder / "again.table").read_bytes(), network.table.to_file())
        self.written("log", PAIRS, *SEEN, "-o", self.folder / "plain", "--to", "cells")
        network.build()
        self.assertEqual((self.folder / "plain").read_bytes(), network.to_file())

    def test_the_order_is_given_before_and_sifted_after(self):
        told = self.written("log", CROSSED, *SEEN, "--order", "d,a,c,b", "--sift", "-o", self.folder / "out.txt").splitlines()
        network = Network(Table.from_drawing((ROOT / CROSSED).read_text(encoding="utf-8")))
        network.reorder("dacb")
        before = network.count()
        network.log([int(row, 2) for row in SEEN])
        network.sift_all()
        self.assertTrue(told[-2].startswith(f"before  {before} cells in the order d a c b; "))
        order = " ".join(network.inputs[number] for number in network.order)
        self.assertTrue(told[-1].startswith(f"now     {network.count()} cells in the order {order}; "))
        self.assertEqual(Table.from_drawing((self.folder / "out.txt").read_text(encoding="utf-8")), network.table)

    def test_the_new_care_has_to_fit_the_board(self):
        self.assertIn("now     2 cells", self.written("log", PAIRS, *SEEN, "--board", "2"))
        out = self.folder / "out.cells"
        self.refused("refused 23: the board has too few cells: 2 are wanted, it has 1", "log", PAIRS, *SEEN, "--board", "1", "-o", out)

    def test_marks_that_were_free_are_told(self):
        told = self.written("log", GUARD, "00100", "11111", "-o", self.folder / "out.txt")
        self.assertTrue(told.endswith("\nfree before and cared now, as 0: 2 marks\n"))
        self.assertEqual(Table.from_drawing((self.folder / "out.txt").read_text(encoding="utf-8")).rows[4], "00")
        self.assertNotIn("free before", self.written("log", GUARD, "11111"))

    def test_a_network_file_and_tables_with_no_input(self):
        self.assertIn("x0 x1 x2 x3 | seen\n", self.written("log", "examples/and-or.cells", "0000"))
        none = self.file("none.txt", "| y\n| 1\n")
        self.assertIn("|    2 cared\n", self.written("log", none, "", ""))

    def test_a_log_may_be_empty(self):
        told = self.written("log", PAIRS, "--rows", self.file("none", ""))
        self.assertIn("now     0 cells in the order a b c d; 0 marks cared, 16 free\n", told)


class Refusing(WithFolder):
    def test_rows_that_are_none(self):
        for word in ("log", "evaluate"):
            for row in ("012", "000", "00000", "00-0", "0b01", "0_01", "٠٠٠٠", "0 0 1"):
                self.refused(f"{PAIRS}: {row} is no row: it takes 4 bits, for a b c d", word, PAIRS, "0000", row)
            self.refused("'' is no row", word, PAIRS, "")
        self.refused("0 is no row: it takes 0 bits\n", "log", self.file("none.txt", "| y\n| 1\n"), "0")

    def test_lines_that_are_none(self):
        out = self.folder / "out.txt"
        for content, place in (
            ("0000\n\n 012\n", "3:2: 012 is no row: it takes 4 bits, for a b c d"), ("0000 0011\n", "1:1: 0000 0011 is no row"),
            ("# a b c d\n0000\r\n0\r1111\r", "3:1: 0 is no row"), ("0000 | 1\n", "1:1: 0000 | 1 is no row"),
        ):
            path = self.file("bad", content)
            for word in (("log", "-o", out), ("evaluate",)):
                self.refused(f"yav: {path}:{place}", *word, PAIRS, "0000", "--rows", path)
        self.refused("yav: standard input:2:1: 2 is no row", "log", PAIRS, "--rows", "-", given="0000\n2\n")

    def test_files_that_are_none(self):
        bad = self.file("bad", b"\xff\0\1")
        self.refused(f"yav: {bad}: it is no text\n", "log", PAIRS, "--rows", bad)
        self.refused("none: No such file", "log", PAIRS, "--rows", self.folder / "none")

    def test_no_rows(self):
        self.refused(f"{PAIRS}: there are no rows to log", "log", PAIRS, "--least", "2")

    def test_numbers_that_are_none(self):
        for least in ("-1", "two", "4294967296", "", "1.5"):
            self.misused(f"argument --least: {least!r} is no number from 0 to 4294967295", "log", PAIRS, "0000", "--least", least)

    def test_what_can_not_be_written(self):
        out = self.folder / "out.svg"
        self.refused(f"{out}: its ending tells a format that can't be had here: known are .txt, ", "log", PAIRS, "0000", "-o", out)
        self.refused("--to pla: there is no file to write; -o names one", "log", PAIRS, "0000", "--to", "pla")


class Reading(unittest.TestCase):
    def test_the_documented_file(self):
        text = (ROOT / "docs" / "FORMATS.md").read_text(encoding="utf-8").split("```rows\n")[1].split("```")[0]
        self.assertEqual(rows.read(text, ["left", "right"]), [0, 1, 1, 3])

    def test_bits_there_and_back(self):
        for n in range(4):
            for row in range(2**n):
                self.assertEqual(rows.row_of("".join(map(str, rows.bits_of(row, n))), "abcd"[:n]), row)

    def test_places_are_told(self):
        with self.assertRaises(Malformed) as caught:
            rows.read("00\n  0 1 1", ["left", "right"])
        self.assertEqual((caught.exception.line, caught.exception.column), (2, 3))

    def test_the_example(self):
        self.assertEqual(rows.read((EXAMPLES / "and-or.rows").read_text(encoding="utf-8"), "abcd"), [int(row, 2) for row in SEEN])
