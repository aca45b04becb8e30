"""Drawings: what is read, every error with its place, and what is written."""

from __future__ import annotations

import importlib
import random
import sys
import unittest

from tests.places import EXAMPLES, ROOT
from tests.reading.random_tables import random_table
from yavdocsil import Malformed, Table
from yavdocsil.display import columns
from yavdocsil.errors import Faults
from yavdocsil.reading import MARKS, drawing


def other_reader():
    """tests/examples/drawings.py, which reads the examples' drawings on its own."""
    sys.path.append(str(ROOT / "tests"))
    return importlib.import_module("examples.drawings")


class Examples(unittest.TestCase):
    def test_they_read_as_another_reader_has_them(self) -> None:
        other = other_reader()
        drawings = other.drawings()
        self.assertGreaterEqual(len(drawings), 4)
        for path in drawings:
            with self.subTest(path.name):
                text = path.read_text(encoding="utf-8")
                inputs, outputs, rows = other.drawn_rows(text)
                table = Table.from_drawing(text)
                self.assertEqual(table.inputs, tuple(inputs))
                self.assertEqual(table.outputs, tuple(outputs))
                self.assertEqual(table.rows, ["".join(row) for row in rows])
                self.assertEqual(table.order, tuple(other.drawn_order(text, inputs)))

    def test_their_table_files(self) -> None:
        for path in EXAMPLES.glob("*.txt"):
            with self.subTest(path.name):
                self.assertEqual(Table.from_drawing(path.read_text(encoding="utf-8")).to_file(), path.with_suffix(".table").read_bytes())

    def test_what_is_written_of_them_reads_alike(self) -> None:
        for path in EXAMPLES.glob("*.txt"):
            with self.subTest(path.name):
                table = Table.from_drawing(path.read_text(encoding="utf-8"))
                self.assertEqual(Table.from_drawing(table.to_drawing()), table)


class Reading(unittest.TestCase):
    def check(self, text: str, *rows: str, **others) -> Table:
        table = Table.from_drawing(text)
        self.assertEqual(table.rows, list(rows))
        for field, wanted in others.items():
            self.assertEqual(getattr(table, field), wanted)
        return table

    def test_rows_in_sequence(self) -> None:
        self.check("a b | y\n0 0 | 0\n0 1 | 1\n1 0 | 1\n1 1 | 0\n", "0", "1", "1", "0", inputs=("a", "b"), outputs=("y",), order=(0, 1))

    def test_rows_in_any_sequence(self) -> None:
        self.check("a b | y z\n1 1 | 0 1\n0 0 | 1 -\n1 0 | - 0\n0 1 | 1 1\n", "1-", "11", "-0", "01")

    def test_rows_not_listed_are_free(self) -> None:
        self.check("a b | y z\n0 1 | 1 0\n", "--", "10", "--", "--")
        self.check("a b | y", "-", "-", "-", "-")

    def test_input_0_is_the_most_significant(self) -> None:
        self.check("a b c | y\n1 0 0 | 1\n", *"----1---")

    def test_either_value_of_an_input(self) -> None:
        self.check("a b | y\n0 - | 1\n1 1 | 0\n", "1", "1", "-", "0")
        self.check("a b | y z\n- 0 | 1 -\n- 1 | 0 1\n", "1-", "01", "1-", "01")
        self.check("a b c | y\n- 1 - | 1\n", *"--11--11")
        self.check("a b | y\n- - | 0\n", *"0000")

    def test_a_byte_order_mark(self) -> None:
        for text in ("a | y\n0 | 1\n", "# a | y\na | y\n0 | 1\n"):
            self.assertEqual(drawing.read(f"\ufeff{text}"), drawing.read(text))

    def test_no_inputs(self) -> None:
        for text, row in (("| y\n| 1\n", "1"), ("|y\n|0", "0"), ("| y\n", "-"), ("| y\n| -\n", "-"), ("places\n| y z\n| 1 0\n", "10")):
            with self.subTest(text):
                self.check(text, row, inputs=(), order=())

    def test_most_inputs_and_outputs(self) -> None:
        heading = " ".join(f"i{k}" for k in range(10)) + " | " + " ".join(f"o{k}" for k in range(16))
        table = Table.from_drawing(heading + "\n" + "1 " * 10 + "|" + " 1" * 16)
        self.assertEqual((len(table.inputs), len(table.outputs), table.rows[-1], table.cared), (10, 16, "1" * 16, 16))

    def test_blanks(self) -> None:
        self.check("a\tb|y\n\n 0   0|1\n\t1\t1\t|\t0\t\n   \n", "1", "-", "-", "0")

    def test_line_ends(self) -> None:
        for end in ("\n", "\r\n", "\r"):
            self.check(end.join(["a | y", "# comment", "0 | 1", "1 | 0", ""]), "1", "0")

    def test_comments(self) -> None:
        self.check("# a | b\na | y # the heading | of it\n# 0 | 0\n0 | 1 # 0 1\n1 | 0# | |\n  # 0 1\n", "1", "0")

    def test_places(self) -> None:
        rows = "a b c | y\n0 0 0 | 1\n"
        between = rows.replace("\n", "\nplaces c a b\n", 1)
        for text in ("places c a b\n" + rows, rows + "places c a b", rows + "  places c a b # from the top\n", between):
            with self.subTest(text):
                self.check(text, *"1-------", order=(2, 0, 1))

    def test_names_that_look_like_marks(self) -> None:
        text = "places -- 00\n00 -- | 01 places\n0 1 | 1 0\n"
        self.check(text, "--", "10", "--", "--", inputs=("00", "--"), outputs=("01", "places"), order=(1, 0))

    def test_an_input_and_an_output_may_share_a_name(self) -> None:
        self.check("a | a\n0 | 1\n", "1", "-", inputs=("a",), outputs=("a",))

    def test_a_page(self) -> None:
        before = "Title\n\nText of 0 1 0 and so on.\n\n    places b a\n\n"
        after = "\nplaces: see above.\n  places of work\n    cell 1 0\n"
        self.check(f"{before}    a b | y\n    0 0 | 1\n      1 1 | 0\n1 0 | 1\n{after}", "1", "-", "1", "0", order=(1, 0))

    def test_a_page_without_places(self) -> None:
        self.check("Two lines\nplaces b and a\n  a b | y\n  0 1 | 1\n", "-", "1", "-", "-", order=(0, 1))

    def test_places_of_another_indentation(self) -> None:
        self.check("\tplaces b a\n    a b | y\n", *"----", order=(1, 0))


class Errors(unittest.TestCase):
    def check(self, text: str, line: int, column: int, *reasons: str) -> None:
        with self.subTest(text), self.assertRaises(Malformed) as caught:
            Table.from_drawing(text)
        self.assertEqual((caught.exception.line, caught.exception.column), (line, column), caught.exception.reason)
        for reason in reasons:
            self.assertIn(reason, caught.exception.reason)

    def test_no_heading(self) -> None:
        for text in ("", "\n\n", "# a | b\n", "a b y\n0 0 1\n"):
            self.check(text, 1, 0, "no heading")

    def test_no_row_is_lost(self) -> None:
        self.check("0 1 | 1\n1 0 | 0\n", 1, 1, "a mark and no name")
        self.check("a b | 1\n", 1, 7, "a mark and no name")
        self.check("  a | y\n  0 ! 1\n  1 | 1\n", 2, 3, "among the rows")

    def test_a_byte_order_mark_before_a_name(self) -> None:
        reason = "a byte order mark stands before the name of an input; it may stand at the text's start alone"
        self.check("# so\n\ufeffa | y", 2, 1, reason)

    def test_names_twice(self) -> None:
        self.check("a b a | y", 1, 5, "the input a is named twice")
        self.check("\n a b | y z  y", 2, 13, "the output y is named twice")

    def test_too_many_names(self) -> None:
        self.check("a b c d e f g h i j k l | y", 1, 21, "more than 10 inputs")
        self.check("a | " + " ".join(f"y{k:02}" for k in range(17)), 1, 5 + 16 * 4, "more than 16 outputs")

    def test_no_outputs(self) -> None:
        self.check("a b |\n0 0 |\n", 1, 5, "no outputs")
        self.check("|", 1, 1, "no outputs")

    def test_number_of_marks(self) -> None:
        self.check("a b | y\n0 | 1", 2, 3, "the number of input marks is 1, not 2")
        self.check("a b | y\n0 0 1 | 1", 2, 5, "the number of input marks is 3, not 2")
        self.check("a b | y z\n0 0 | 1", 2, 5, "the number of output marks is 1, not 2")
        self.check("a b | y z\n0 0 | 1 1  -  0", 2, 12, "the number of output marks is 4, not 2")
        self.check("a b | y\n0 0 |", 2, 5, "the number of output marks is 0, not 1")
        self.check("| y\n0 | 1", 2, 1, "the number of input marks is 1, not 0")

    def test_wrong_marks(self) -> None:
        self.check("a b | y\n0 x | 1", 2, 3, "x is not an input's mark, which is 0, 1 or -")
        self.check("a b | y\n00 | 1", 2, 1, "00 is not an input's mark")
        self.check("a b | y\n0 0 | 1\n0 2 | 1", 3, 3, "2 is not an input's mark")
        self.check("a b | y z\n0 0 | 1 x", 2, 9, "x is not an output's mark")
        self.check("a b | y z\n0 0 | 10", 2, 7, "10 is not an output's mark")
        self.check("a b | y z\n0 0 |0 ~", 2, 8, "~ is not an output's mark, which is 0, 1 or -")
        self.check(f"a | y\n{'0' * 40} | 1", 2, 1, f"{'0' * 40} is not an input's mark")
        self.check(f"a | y\n{'0' * 41} | 1", 2, 1, f"{'0' * 40}.. is not an input's mark")
        self.check("a | y\n\x1b[m | 1", 2, 1, "\\x1b[m is not an input's mark")

    def test_a_row_twice(self) -> None:
        self.check("a b | y\n0 1 | 1\n0 0 | 1\n  0 1 | 0", 4, 3, "row 01 is drawn twice, in lines 2 and 4")
        self.check("a b | y\n0 1 | 1\n\n0 1 | 1", 4, 1, "row 01 is drawn twice, in lines 2 and 4")
        self.check("a b | y\n0 1 | -\n0 1 | -", 3, 1, "row 01 is drawn twice, in lines 2 and 3")
        self.check("| y\n| 1\n | 1", 3, 2, "the only row is drawn twice, in lines 2 and 3")

    def test_a_row_twice_by_lines_of_more(self) -> None:
        self.check("a b | y\n0 1 | 1\n- 1 | 1", 3, 1, "row 01 is drawn twice, in lines 2 and 3")
        self.check("a b | y\n1 - | 1\n0 0 | 1\n- 1 | 1", 4, 1, "row 11 is drawn twice, in lines 2 and 4")
        self.check("a b | y\n0 1 | 1\n1 0 | 0\n- - | -", 4, 1, "row 01 is drawn twice, in lines 2 and 4")
        self.check("a b | y\n- - | -\n1 1 | -", 3, 1, "row 11 is drawn twice, in lines 2 and 3")

    def test_two_bars(self) -> None:
        self.check("a | b | y\n", 1, 7, "second bar")
        self.check("a b | y\n0 | 0 | 1", 2, 7, "second bar")
        self.check("a | y\n0 || 1", 2, 4, "second bar")

    def test_places(self) -> None:
        rows = "a b c | y\n"
        self.check(rows + "places a c d\n2", 2, 12, "there is no input d")
        self.check(rows + "places a y c b", 2, 10, "there is no input y")
        self.check("places a b a\n" + rows, 1, 12, "the input a is named twice")
        self.check(rows + " places a b", 2, 2, "c missing")
        self.check(rows + "places", 2, 1, "a b c missing")
        self.check("| y\nplaces y", 2, 8, "there is no input y")
        self.check("\n  places a b\n  a b c | y", 2, 3, "c missing")

    def test_places_twice(self) -> None:
        self.check("places a b\na b | y\nplaces a b", 3, 1, "lines 1 and 3")
        self.check("text\n  a b | y\n  places a b\n\n  places b a", 5, 3, "lines 3 and 5")

    def test_other_text(self) -> None:
        self.check("a b | y\n 0 zero 1 x", 2, 2, "this is no row")
        self.check("A title\n\na b | y", 1, 1, "this is no row")
        self.check("a b | y\nPlaces b a", 2, 1, "this is no row")
        self.check("a b | y\n0 0 | 1\n  and so on", 3, 3, "this is no row")

    def test_a_row_without_a_bar(self) -> None:
        for text, line, column in (
            ("a b | y\n0 0 1", 2, 1), ("a b | y\n  00 1", 2, 3), ("0 0 1\na b | y", 1, 1), ("a b | y\n-", 2, 1),
            ("Text\n  a b | y\n  0 0 1", 3, 3), ("Text\n  a b | y\n0 0 - # free", 3, 1), ("Text\n----\n  a b | y", 2, 1),
            ("Text\n  a b | y\n  0 0 | 1\n  1 0 I 1", 4, 3), ("Text\n  a b | y\n 0 1 ! 1\n  1 1 | 0", 3, 2), ("a b | y\n 0 0 1 x", 2, 2),
        ):
            self.check(text, line, column, "a row without a bar")

    def test_text_that_begins_with_a_mark(self) -> None:
        for text in ("1 of them", "- a point", "0 is off, 1 is on", "0 zero"):
            self.assertEqual(Table.from_drawing(f"{text}\n  a b | y\n  0 1 | 1\n\n{text}\n").rows, ["-", "1", "-", "-"])
        self.assertEqual(Table.from_drawing("0 off\n  a | y\n  0 | 1\n").rows, ["1", "-"])

    def test_a_page_with_a_bar_in_its_text(self) -> None:
        self.check("Text with a | in it\n\n    a b | y\n", 3, 5, "a is not an input's mark")
        self.check("Text\n  a b | y\nThis | that", 3, 1, "This is not an input's mark")


class AllErrors(unittest.TestCase):
    """The errors of a drawing together, a line's first one for each line, and the first of them as the reading alone has it."""

    def check(self, text: str, *wanted: str) -> None:
        faults = Faults(gathers=True)
        with self.subTest(text):
            with self.assertRaises(Malformed) as caught:
                drawing.read(text, faults)
            self.assertEqual([str(error) for error in faults.found], list(wanted))
            self.assertIs(caught.exception, faults.found[0])
            with self.assertRaises(Malformed) as alone:
                drawing.read(text)
            self.assertEqual(str(alone.exception), wanted[0])

    def test_each_line_of_its_own(self) -> None:
        self.check(
            "0 0 1\na b | y\n0 2 | x\n0 0 | 1\n- 0 | 1\nplaces a\n1 0 | 1\nplaces b a\n\n1 0 | 0\n1 1 | 1 |\n",
            "line 1, column 1: a row without a bar",
            "line 3, column 3: 2 is not an input's mark, which is 0, 1 or -",
            "line 5, column 1: row 00 is drawn twice, in lines 4 and 5",
            "line 6, column 1: not every input has a place: b missing",
            "line 8, column 1: the places are named twice, in lines 6 and 8",
            "line 10, column 1: row 10 is drawn twice, in lines 7 and 10",
            "line 11, column 9: a second bar: a line has one, between the inputs and the outputs",
        )

    def test_a_heading_ends_it(self) -> None:
        self.check("0 0 1\na a | 0 |\n2 | 3\n", "line 2, column 9: a second bar: a line has one, between the inputs and the outputs")
        self.check("0 0 1\na a | 0\n2 | 3\n", "line 2, column 3: the input a is named twice")
        self.check("0 0 1\n", "line 1: there is no heading: no line has a bar")

    def test_no_error(self) -> None:
        faults = Faults(gathers=True)
        self.assertEqual(drawing.read("a | y\n0 | 1\n", faults), drawing.read("a | y\n0 | 1\n"))
        self.assertEqual(faults.found, [])

    def test_text_among_the_rows_is_told_when_a_row_follows(self) -> None:
        page = "Page\n  a b | y\n  0 0 | 1\n"
        among = "column 3: this is no row, and stands among the rows"
        bar = "column 1: a row without a bar"
        places = "column 10: there is no input q"
        mark = "column 9: 2 is not an output's mark, which is 0, 1 or -"
        self.check(page + "  one\ntwo\n  three\n  0 1 | 2\n  four\n", f"line 4, {among}", f"line 6, {among}", f"line 7, {mark}")
        # What is wrong between waits until it is known whether a row follows.
        text = page + "  one\n0 1\n  places q\n  two\n"
        self.check(text + "  0 1 | 1\n", f"line 4, {among}", f"line 5, {bar}", f"line 6, {places}", f"line 7, {among}")
        self.check(text, f"line 5, {bar}", f"line 6, {places}")
        self.check(page + "0 1\n  one\n  places q\n  0 1 | 1\n  two\n", f"line 4, {bar}", f"line 5, {among}", f"line 6, {places}")


class Writing(unittest.TestCase):
    def test_marks_stand_under_their_names(self) -> None:
        table = Table.from_rows(["0-", "--", "10", "-1"], ["left", "b"], ["lamp", "y"], [1, 0])
        self.assertEqual(table.to_drawing(), "places b left\nleft b | lamp y\n 0   0 |  0   -\n 1   0 |  1   0\n 1   1 |  -   1\n")

    def test_natural_order_and_free_rows(self) -> None:
        self.assertEqual(Table.from_rows(["0", "-", "-", "1"]).to_drawing(), "x0 x1 | y0\n0  0  | 0\n1  1  | 1\n")
        self.assertEqual(Table.from_rows(["-", "-"]).to_drawing(), "x0 | y0\n")

    def test_no_inputs(self) -> None:
        self.assertEqual(Table.from_rows(["1-"]).to_drawing(), "| y0 y1\n| 1  -\n")
        self.assertEqual(Table.from_rows(["-"]).to_drawing(), "| y0\n")

    def test_each_mark_is_under_its_name(self) -> None:
        chance = random.Random(2)
        for n in range(6):
            lines = random_table(chance, n).reordered(range(n)).to_drawing().splitlines()
            spans = [(at, at + len(word)) for at, word in self.words(lines[0])]
            for line in lines[1:]:
                for (at, _), (begin, end) in zip(self.words(line), spans):
                    self.assertTrue(begin <= at < end, line)

    @staticmethod
    def words(line: str) -> list[tuple[int, str]]:
        found, at = [], 0
        for word in line.split():
            at = line.index(word, at)
            found.append((at, word))
            at += len(word)
        return found

    def test_marks_stand_under_wide_names(self) -> None:
        table = Table.from_rows(["0-", "10"], ["\u958b\u304f"], ["\u706f", "e\u0301"])
        self.assertEqual(table.to_drawing(), "\u958b\u304f | \u706f e\u0301\n 0   | 0  -\n 1   | 1  0\n")
        for line in table.to_drawing().splitlines():
            self.assertEqual(columns(line[: line.index("|")]), 5)
        self.assertEqual(Table.from_drawing(table.to_drawing()), table)

    def test_round_trips(self) -> None:
        chance = random.Random(3)
        for n in [*range(7)] * 20 + [7, 8, 9, 10]:
            table = random_table(chance, n, 16 if n > 6 else 4)
            text = table.to_drawing()
            with self.subTest(text):
                self.assertEqual(Table.from_drawing(text), table)
                self.assertTrue(all(line == line.rstrip() for line in text.split("\n")))
                indented = "A page.\n\n" + "".join(f"    {line}\n" for line in text.splitlines())
                self.assertEqual(Table.from_drawing(indented), table)

    def test_every_table_of_one_input_and_output(self) -> None:
        for low in MARKS:
            for high in MARKS:
                table = Table.from_rows([low, high])
                self.assertEqual(Table.from_drawing(table.to_drawing()), table)

    def test_names_that_are_not_words(self) -> None:
        for name in ("", "a b", "a|b", "#", "a#", "|", "\t", "a\n", "a\u2028b", "0", "1", "-", "\ufeffa"):
            for names in ({"inputs": [name]}, {"outputs": [name]}):
                with self.subTest(name), self.assertRaises(ValueError):
                    Table.from_rows(["0", "1"], **names).to_drawing()
