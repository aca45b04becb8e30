"""Spreadsheets as CSV: what is read with each separator, quotes, every error with its place and cell, and what is written."""

from __future__ import annotations

import random
import unittest

from tests.places import ROOT
from tests.reading.random_tables import random_table
from yavdocsil import Malformed, Table
from yavdocsil.errors import Faults
from yavdocsil.reading import sheet
from yavdocsil.reading.encoding import decoded
from yavdocsil.reading.separated import cell_name

# Names that have to be quoted, or are easily mistaken.
NAMES = [
    "a", "sample a", "b,c", "d;e", 'say "so"', '"', '""', "é", "灯", "places", "sep=;", "x#", "a|b", "00", "--", "a\nb", "a\r\nb", "a\rb",
    "t\tu", "=1+1", "a;|;b", "||", "'", "\\", "Ω \u00a0 x", ",", ";",
]


def table_of(text: str) -> Table:
    return Table(*sheet.read(text))


class Reading(unittest.TestCase):
    def check(self, text: str, *rows: str, **others) -> None:
        with self.subTest(text):
            table = table_of(text)
            self.assertEqual(table.rows, list(rows))
            for field, wanted in others.items():
                self.assertEqual(getattr(table, field), wanted)

    def test_rows(self) -> None:
        text = "a,b,|,y,z\r\n0,0,|,1,-\r\n1,1,|,0,1\r\n0,1,|,-,0\r\n"
        self.check(text, "1-", "-0", "--", "01", inputs=("a", "b"), outputs=("y", "z"), order=(0, 1))

    def test_line_ends(self) -> None:
        for end in ("\n", "\r\n", "\r"):
            self.check(end.join(["a,|,y", "# so", "", "0,|,1", "1,|,0"]), "1", "0")

    def test_the_column_between(self) -> None:
        for text in ("a,|,y\n0,|,1", "a,,y\n0,,1", "a,|,y\n0,,1", "a,,y\n0,|,1", "a, ,y\n0, | ,1"):
            self.check(text, "1", "-", inputs=("a",), outputs=("y",))

    def test_either_value_of_an_input(self) -> None:
        self.check("a,b,,y\n-,0,,1\n1,1,,0\n", *"1-10")

    def test_empty_outputs_are_free(self) -> None:
        for row in ("0,|,,1", "0,|,-,1", "0,, ,1", '0,,"",1', "0,,,1,,,"):
            self.check(f"a,|,y,z\n{row}\n", "-1", "--")
        for row in ("0,|,1", "0,|,1,", "0,|,1,-", "0,,1"):
            self.check(f"a,|,y,z\n{row}\n", "1-", "--")
        for row in ("0", "0,", "0,|", "0,,,"):
            self.check(f"a,|,y,z\n{row}\n", "--", "--")

    def test_no_inputs(self) -> None:
        self.check("|,y,z\n|,1,0\n", "10", inputs=(), outputs=("y", "z"))
        self.check(",y\n,0\n", "0", inputs=(), outputs=("y",))
        self.check("|,y\n", "-")
        self.check("|,y\n|,1\nplaces\n", "1", order=())

    def test_places(self) -> None:
        for places in ("places,c,a,b", "places,c,a,b,,,", " places , c,a,b", '"places","c",a,b', "places,,c,,a,b"):
            self.check(f"a,b,c,|,y\n{places}\n0,0,0,|,1\n", *"1-------", order=(2, 0, 1))
            self.check(f"a,b,c,|,y\n0,0,0,|,1\n{places}\n", *"1-------", order=(2, 0, 1))

    def test_empty_rows_and_comments(self) -> None:
        empty = '\n,,,,\n"","",\n   \n# 0,|,1 and a 12" loom\n  # so\n"# quoted, and\n0,|,1 on two lines",,\n'
        self.check(f"{empty}a,|,y\n{empty}0,|,1\n{empty}", "1", "-")
        self.check("\t\t\n# so\na\t\ty\n\t\t\n0\t\t1\n", "1", "-")

    def test_empty_columns_at_the_right(self) -> None:
        self.check("a,|,y,,,\n0,|,1,,,,,\n1,|,0\n", "1", "0", outputs=("y",))

    def test_separators(self) -> None:
        for separator in ",;\t":
            for lines in (["a?b?|?y", "0?0?|?1"], ["a?b??y", "0?0??1"], ["a?b??y??", "0?0??1??"], ['"a"?b?|?"y"', '0?"0"??1']):
                self.check("\n".join(lines).replace("?", separator), *"1---", inputs=("a", "b"), outputs=("y",))

    def test_the_heading_tells_the_separator(self) -> None:
        self.check("a,b;c,d;|;y,z\n0;0;;1\n", *"1---", inputs=("a,b", "c,d"), outputs=("y,z",))
        self.check("a,b,c;;y,z\n0;;1\n", "1", "-", inputs=("a,b,c",), outputs=("y,z",))
        self.check('"a;|;b",|,y\n0,,1\n', "1", "-", inputs=("a;|;b",))
        self.check("a,b\t\ty;z\n0\t\t1\n", "1", "-", inputs=("a,b",), outputs=("y;z",))
        self.check('# a,|,y\n"# a,b";\n;;;\na;;y\n0;;1\n', "1", "-", inputs=("a",))

    def test_a_line_that_tells_it(self) -> None:
        for told, separator in (("sep=;", ";"), ("sep=,", ","), ("sep=\t", "\t"), ("SEP=; ", ";"), ("\ufeffsep=;", ";")):
            self.check(f"{told}\r\na?|?y\r\n0?|?1\r\n".replace("?", separator), "1", "-", inputs=("a",))
        self.check("sep=;\na,|,b;;y\n0;;1\n", "1", "-", inputs=("a,|,b",))
        self.check("sep=,|,y\n0,,1\n", "1", "-", inputs=("sep=",))

    def test_quotes(self) -> None:
        text = '"sample a","b,c", "say ""so""" ,"|","y\nz"\n"0",0, "1",|,"1"\n'
        self.check(text, *"-1------", inputs=("sample a", "b,c", 'say "so"'), outputs=("y\nz",))
        self.check('"  a  ",|," y\t"\n', "-", "-", inputs=("a",), outputs=("y",))

    def test_blanks_around_cells(self) -> None:
        self.check("  a\t,\tb b ,| , y\n 0 ,1\t,\u00a0,  1\n", *"-1--", inputs=("a", "b b"), outputs=("y",))

    def test_a_byte_order_mark(self) -> None:
        self.check("\ufeffa,|,y\n0,|,1\n", "1", "-", inputs=("a",))
        self.check('\ufeff"a",|,y\n0,|,1\n', "1", "-", inputs=("a",))

    def test_an_input_and_an_output_may_share_a_name(self) -> None:
        self.check("a,|,a\n0,,1\n", "1", "-")

    def test_most_inputs_and_outputs(self) -> None:
        heading = ",".join([*(f"i{k}" for k in range(10)), "|", *(f"o{k}" for k in range(16))])
        table = table_of(f"{heading}\n{'1,' * 10}|{',1' * 16}\n")
        self.assertEqual((table.rows[-1], table.cared), ("1" * 16, 16))

    def test_cell_names(self) -> None:
        for column, name in ((0, "A"), (1, "B"), (25, "Z"), (26, "AA"), (51, "AZ"), (52, "BA"), (701, "ZZ"), (702, "AAA"), (16383, "XFD")):
            self.assertEqual(cell_name(column, 3), f"{name}3")


class Errors(unittest.TestCase):
    def check(self, text: str, *wanted: str) -> None:
        """All errors together; the first of them is that of the reading alone."""
        faults = Faults(gathers=True)
        with self.subTest(text):
            with self.assertRaises(Malformed):
                sheet.read(text, faults)
            self.assertEqual([str(error) for error in faults.found], list(wanted))
            with self.assertRaises(Malformed) as alone:
                sheet.read(text)
            self.assertEqual(str(alone.exception), wanted[0])

    def test_no_heading(self) -> None:
        for text in ("", "\n\n", "# a,|,y\n", ",,,\n;;\n", "sep=;", "sep=;\n\n;;\n"):
            self.check(text, "line 1: there is no heading: every row is empty or a comment")

    def test_no_column_between(self) -> None:
        reason = "the heading has no column with |, or left empty, between the inputs and the outputs"
        for text in ("a,b,y\n0,0,1\n", "a b | y\n0 0 | 1\n", "a,b,,\n", "sep=;\na,|,y\n"):
            line = 2 if text.startswith("sep") else 1
            self.check(text, f"line {line}, column 1: cell A1: {reason}")
        self.check("places,b,a\na,b,|,y\n", f"line 1, column 1: cell A1: {reason}; a row of places stands below the heading")

    def test_names(self) -> None:
        self.check("a,b,a,|,y", "line 1, column 5: cell C1: the input a is named twice")
        self.check('\na,|,y,"z", y', "line 2, column 12: cell E2: the output y is named twice")
        self.check("a,|,|,y", "line 1, column 5: cell C1: a second bar: one column has it, between the inputs and the outputs")
        self.check("0,1,|,1\n", "line 1, column 1: cell A1: 0 is a mark and no name: a heading stands above the rows")
        self.check("a,|,y,-\n", "line 1, column 7: cell D1: - is a mark and no name: a heading stands above the rows")
        self.check("a,|,,", "line 1, column 3: cell B1: there are no outputs")
        self.check("|", "line 1, column 1: cell A1: there are no outputs")
        only = "no column before the last output's is left empty but the one between"
        self.check(",a,|,y", f"line 1, column 1: cell A1: an input has no name: {only}")
        self.check("a,|,y,,z", f"line 1, column 7: cell D1: an output has no name: {only}")
        self.check("a,,y,,z", f"line 1, column 6: cell D1: an output has no name: {only}")

    def test_too_many_names(self) -> None:
        self.check(",".join("abcdefghijk") + ",|,y", "line 1, column 21: cell K1: there are more than 10 inputs")
        self.check("a,|," + ",".join(f"y{k:02}" for k in range(17)), "line 1, column 69: cell S1: there are more than 16 outputs")

    def test_marks(self) -> None:
        self.check("a,|,y\n0,|,1\n1,,2\n", "line 3, column 4: cell C3: 2 is not an output's mark, which is 0, 1 or -")
        self.check("a,b,|,y\n0,x,|,1\n", "line 2, column 3: cell B2: x is not an input's mark, which is 0, 1 or -")
        self.check("a;b;|;y\n 01;1;;1\n", "line 2, column 2: cell A2: 01 is not an input's mark, which is 0, 1 or -")
        self.check("a\t\ty\n0\t\t1.0\n", "line 2, column 4: cell C2: 1.0 is not an output's mark, which is 0, 1 or -")

    def test_empty_inputs(self) -> None:
        reason = "an input's mark is missing, which is 0, 1 or -"
        for row, column, cell in (
            ("0,,|,1", 3, "B2"), (",0,|,1", 1, "A2"), ("0", 1, "B2"), ("0,", 2, "B2"), ("0, ", 3, "B2"), (",,,1", 1, "A2"),
            ('0,""', 3, "B2"),
        ):
            self.check(f"a,b,|,y\n{row}\n", f"line 2, column {column}: cell {cell}: {reason}")

    def test_other_columns(self) -> None:
        self.check("a,|,y\n0,1\n", "line 2, column 3: cell B2: 1 stands between the inputs and the outputs, where a cell is | or empty")
        self.check("a,|,y,,\n0,,1,,0,\n", "line 2, column 7: cell E2: 0 stands right of the outputs, where the heading is empty")
        self.check("a,|,y\n0,|,1,|\n", "line 2, column 7: cell D2: | stands right of the outputs, where the heading is empty")

    def test_a_row_twice(self) -> None:
        self.check("a,b,|,y\n0,1,,1\n\n0,1,,1\n", "line 4, column 1: cell A4: row 01 is drawn twice, in lines 2 and 4")
        self.check("a,b,|,y\n0,1,,1\n-,1,,0\n", "line 3, column 1: cell A3: row 01 is drawn twice, in lines 2 and 3")
        self.check("a,b,|,y\n0,1,,\n0,1,,-\n", "line 3, column 1: cell A3: row 01 is drawn twice, in lines 2 and 3")
        self.check("|,y\n|,1\n|,1\n", "line 3, column 1: cell A3: the only row is drawn twice, in lines 2 and 3")

    def test_places(self) -> None:
        heading = "a,b,|,y\n"
        self.check(f"{heading}places,a,q\n", "line 2, column 10: cell C2: there is no input q")
        self.check(f"{heading}places,a,a\n", "line 2, column 10: cell C2: the input a is named twice")
        self.check(f"{heading}places,b\n", "line 2, column 1: cell A2: not every input has a place: a missing")
        self.check(f"{heading}places,b,a\nplaces,a,b\n", "line 3, column 1: cell A3: the places are named twice, in lines 2 and 3")

    def test_the_separator(self) -> None:
        for text in ("sep=\na,|,y\n", "sep=|\na,|,y\n", "sep=x"):
            self.check(text, "line 1, column 1: sep= tells the separator, which is a comma, a semicolon or a tab")

    def test_quotes(self) -> None:
        inside = "a quote stands inside a cell that doesn't begin with one: put the cell in quotes, and write each in it twice"
        behind = "there is text behind the closing quote: write each quote inside a cell twice"
        self.check('a,12" b,|,y\n', f"line 1, column 3: cell B1: {inside}")
        self.check('a,|,y\n0,"|"x,1\n', f"line 2, column 3: cell B2: {behind}")
        self.check('a,|,y\n0,|,"1', "line 2, column 5: cell C2: a quote is opened and never closed")

    def test_an_open_quote_hides_no_other_line(self) -> None:
        never, mark = "a quote is opened and never closed", "is not an output's mark, which is 0, 1 or -"
        self.check(
            'a,|,y\n0,|,"1\n1,|,2\n1,|,3\n', f"line 2, column 5: cell C2: {never}", f"line 3, column 5: cell C3: 2 {mark}",
            f"line 4, column 5: cell C4: 3 {mark}",
        )

    def test_rows_of_more_than_one_line(self) -> None:
        behind = "there is text behind the closing quote: write each quote inside a cell twice"
        mark = "is not an input's mark, which is 0, 1 or -"
        self.check('"a\nb",c,|,y\n0,0,|,1\n0,2,|,1\n', f"line 4, column 3: cell B3: 2 {mark}")
        two = f"line 2, column 1: cell A2: 0\\r\\n1 {mark}"
        self.check('a,b,|,y\n"0\r\n1",0,|,1\n2,0,|,1\n', two, f"line 4, column 1: cell A3: 2 {mark}")
        # The lines up to the wrong cell are no rows.
        self.check('a,b,|,y\n"0\n2\n","1"1,|,1\n2,0,|,1\n', f"line 4, column 3: cell B2: {behind}", f"line 5, column 1: cell A3: 2 {mark}")

    def test_the_lines_together(self) -> None:
        self.check(
            "sep=;\na;b;|;y\n0;0;|;2\n\n0;1;;1\n# so\nplaces;a\n-;1;;1\n1;1;;1;1\n",
            "line 3, column 7: cell D2: 2 is not an output's mark, which is 0, 1 or -",
            "line 7, column 1: cell A6: not every input has a place: b missing",
            "line 8, column 1: cell A7: row 01 is drawn twice, in lines 5 and 8",
            "line 9, column 8: cell E8: 1 stands right of the outputs, where the heading is empty",
        )


class Writing(unittest.TestCase):
    def test_a_table(self) -> None:
        table = Table.from_rows(["0-", "--", "10", "-1"], ["left", "b"], ["lamp", "y"], [1, 0])
        self.assertEqual(sheet.write(table), "left,b,|,lamp,y\r\nplaces,b,left\r\n0,0,|,0,-\r\n1,0,|,1,0\r\n1,1,|,-,1\r\n")

    def test_natural_order_and_free_rows(self) -> None:
        self.assertEqual(sheet.write(Table.from_rows(["0", "-", "-", "1"])), "x0,x1,|,y0\r\n0,0,|,0\r\n1,1,|,1\r\n")
        self.assertEqual(sheet.write(Table.from_rows(["-", "-"])), "x0,|,y0\r\n")
        self.assertEqual(sheet.write(Table.from_rows(["1-"])), "|,y0,y1\r\n|,1,-\r\n")

    def test_quotes(self) -> None:
        table = Table.from_rows(["0", "-"], ['b, "c"'], ["d;e"])
        self.assertEqual(sheet.write(table), '"b, ""c""",|,"d;e"\r\n0,|,0\r\n')

    def test_a_byte_order_mark_for_names_beyond_ascii(self) -> None:
        text = sheet.write(Table.from_rows(["0", "-"], ["é"], ["y"]))
        self.assertEqual(text, "\ufeffé,|,y\r\n0,|,0\r\n")
        self.assertEqual(table_of(decoded(text.encode())), table_of(text))

    def test_round_trips(self) -> None:
        chance = random.Random(11)
        for n in [*range(7)] * 20 + [7, 8, 9, 10]:
            table = random_table(chance, n, 16 if n > 6 else 4)
            inputs, outputs = chance.sample(NAMES, n), chance.sample(NAMES, len(table.outputs))
            table = Table(table.columns, tuple(inputs), tuple(outputs), table.order)
            text = sheet.write(table)
            with self.subTest(text):
                self.assertEqual(table_of(text), table)
                self.assertEqual(table_of(decoded(text.encode())), table)

    def test_names_that_can_not_stand(self) -> None:
        for name in ("", " ", " a", "a ", "a\n", "\ta", "|", "0", "1", "-", "\ufeffa"):
            for names in ({"inputs": [name]}, {"outputs": [name]}):
                with self.subTest(name), self.assertRaisesRegex(ValueError, "can't stand in a spreadsheet"):
                    sheet.write(Table.from_rows(["0", "1"], **names))

    def test_a_comment_is_no_first_name(self) -> None:
        with self.assertRaisesRegex(ValueError, "the name '#a' can't stand first in a spreadsheet"):
            sheet.write(Table.from_rows(["0", "1"], ["#a"]))
        table = Table.from_rows(["0", "1", "0", "1"], ["a", "#a"], ["#"])
        self.assertEqual(table_of(sheet.write(table)), table)
        table = Table.from_rows(["0"], [], ["#"])
        self.assertEqual(table_of(sheet.write(table)), table)


class Documented(unittest.TestCase):
    def test_the_example(self) -> None:
        text = (ROOT / "docs" / "FORMATS.md").read_text(encoding="utf-8").split("```csv\n")[1].split("```")[0]
        table = Table.from_rows("0110", ["left", "right"], ["lamp"], [1, 0])
        self.assertEqual(table_of(text), table)
        self.assertEqual(sheet.write(table), text.replace("\n", "\r\n"))
