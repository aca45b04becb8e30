"""Tests of tables: what is taken for a mark, a name and an order, what is held then, texts, and files of every kind."""

import copy
import pathlib
import pickle
import tempfile
import unittest
import warnings

try:
    import numpy
except ImportError:
    numpy = None

from tests.places import ROOT
from yavdocsil import Malformed, Network, NotText, Refused, Table, UnknownFormat
from yavdocsil.reading import Content

EXCLUSIVE_OR = Table.from_rows(["0", "1", "1", "0"])
DRAWING = "left right | lamp\n 0 0 | 0\n 0 1 | 1\n 1 0 | 1\n 1 1 | 0\n"


class Counted:
    """An integer of another kind, as NumPy has them."""

    def __init__(self, number):
        self.number = number

    def __index__(self):
        return self.number

    def __repr__(self):
        return f"Counted({self.number})"


class Truth:
    """A bool that is no integer, as NumPy's are."""

    def __init__(self, truth):
        self.truth = truth

    def tolist(self):
        return self.truth


def of_marks(*marks):
    """A table of one output."""
    n = len(marks).bit_length() - 1
    return Table((marks,), tuple(f"x{i}" for i in range(n)), ("y0",), tuple(range(n)))


class Refusing(unittest.TestCase):
    def refused(self, wanted, make, kind=ValueError):
        with self.assertRaises(kind) as caught:
            make()
        self.assertEqual((type(caught.exception), str(caught.exception)), (kind, wanted))


class Marks(Refusing):
    def test_integers_of_any_kind_become_plain_ones(self):
        for given in ([0, 1, None, 0], [False, True, None, False], [Counted(0), Counted(1), None, 0], [Truth(False), Truth(True), None, 0]):
            table = of_marks(*given)
            self.assertEqual(table, of_marks(0, 1, None, 0))
            self.assertEqual([type(mark) for mark in table.columns[0]], [int, int, type(None), int])
            self.assertEqual(table.to_drawing(), "x0 x1 | y0\n0  0  | 0\n0  1  | 1\n1  1  | 0\n")
            self.assertEqual(table.rows, ["0", "1", "-", "0"])

    @unittest.skipIf(numpy is None, "NumPy isn't there")
    def test_numpy(self):
        wanted = Table.from_rows(["00", "01", "10", "11"])
        rows = numpy.array([[0, 0], [0, 1], [1, 0], [1, 1]])
        for kind in (int, bool, numpy.uint8, numpy.int16):
            given = rows.astype(kind)
            tables = [Table.from_rows(given), Table(given.T, ["x0", "x1"], ["y0", "y1"], numpy.arange(2))]
            self.assertEqual(tables, [wanted, wanted])
            self.assertEqual({type(mark) for table in tables for column in table.columns for mark in column}, {int})
            self.assertEqual({type(number) for table in tables for number in table.order}, {int})
        with self.assertRaisesRegex(ValueError, r"^output 0, row 0: .*0\.0\)? is no mark, which is 0, 1 or None$"):
            Table.from_rows(rows.astype(float))
        self.refused("output 0, row 0: array([0]) is no mark, which is 0, 1 or None", lambda: Table.from_rows(rows[:, :1].reshape(4, 1, 1)))

    def test_others_are_refused_with_their_place(self):
        for mark, shown in (
            (2, "2"), (-1, "-1"), (0.0, "0.0"), (1.0, "1.0"), ("1", "'1'"), ("-", "'-'"), (Counted(2), "Counted(2)"), ([1], "[1]"),
            (b"1", "b'1'"), (int, "<class 'int'>"), (2**200, "160693804425899027...2993782792835301376"),
        ):
            wanted = f"output 1, row 2: {shown} is no mark, which is 0, 1 or None"
            self.refused(wanted, lambda mark=mark: Table(((0, 1, 0, 1), (0, 1, mark, "?")), ("a", "b"), ("y", "z"), (0, 1)))

    def test_a_mark_is_shown_on_one_line(self):
        class Tall:
            def __repr__(self):
                return "two\n lines"

        self.refused("output 0, row 0: two lines is no mark, which is 0, 1 or None", lambda: of_marks(Tall()))


class Rows(Refusing):
    def test_rows_give_themselves_back(self):
        rows = ["01", "1-", "-0", "11"]
        self.assertEqual(Table.from_rows(rows).rows, rows)

    def test_rows_of_marks(self):
        wanted = Table.from_rows(["01", "1-"])
        for rows in ([[0, 1], [1, None]], ((False, True), (True, None)), [["0", "1"], ["1", "-"]], iter([iter([0, 1]), "1-"])):
            self.assertEqual(Table.from_rows(rows), wanted)
        for rows in ([0, 1, None, 1], [False, Counted(1), None, True], ["0", 1, "-", [1]]):
            self.assertEqual(Table.from_rows(rows), Table.from_rows("01-1"))
        self.assertEqual(Table.from_rows("01"), Table.from_rows([[0], [1]]))

    def test_wrong_marks_and_rows(self):
        self.refused("output 1, row 2: 'x' is no mark, which is 0, 1 or -", lambda: Table.from_rows(["00", "01", "1x", "??"]))
        self.refused("output 0, row 1: '01' is no mark, which is 0, 1 or -", lambda: Table.from_rows([["0"], ["01"]]))
        self.refused("output 0, row 1: 2 is no mark, which is 0, 1 or None", lambda: Table.from_rows([[0], [2]]))
        self.refused("output 0, row 1: 2 is no mark, which is 0, 1 or None", lambda: Table.from_rows([0, 2]))
        self.refused("output 0, row 0: 0.0 is no mark, which is 0, 1 or None", lambda: Table.from_rows([0.0, 1]))
        self.refused("every row has a mark for each output: row 0 has 1, and row 1 2", lambda: Table.from_rows([0, "01"]))

    def test_wrong_numbers_of_rows_and_marks(self):
        for rows in (["0", "1", "1"], ["0", "01", "0"], []):
            self.refused(f"a table has a power of two of rows, not {len(rows)}", lambda rows=rows: Table.from_rows(rows))
        self.refused("every row has a mark for each output: row 0 has 0, and row 1 1", lambda: Table.from_rows(["", "1"]))
        self.refused("a table has 1 to 16 outputs, not 0", lambda: Table.from_rows(["", ""]))
        self.refused("a table has 1 to 16 outputs, not 17", lambda: Table.from_rows(["0" * 17]))
        self.refused("a table has at most 10 inputs, not 11", lambda: Table.from_rows(["0"] * 2048))
        self.refused("with 2 inputs every output has 4 rows, not 2", lambda: Table.from_rows(["0", "1"], inputs=["a", "b"]))


class Held(Refusing):
    def test_lists_become_tuples(self):
        table = Table([[0, 1, 1, 0]], ["x0", "x1"], ["y0"], [Counted(0), True])
        self.assertEqual(table, EXCLUSIVE_OR)
        self.assertEqual((hash(table), {EXCLUSIVE_OR: "same"}[table]), (hash(EXCLUSIVE_OR), "same"))
        self.assertEqual((table.columns, table.inputs, table.outputs, table.order), (((0, 1, 1, 0),), ("x0", "x1"), ("y0",), (0, 1)))
        self.assertEqual([type(number) for number in table.order], [int, int])
        self.assertEqual(table.reordered([1, 0]).order, (1, 0))
        self.assertEqual(EXCLUSIVE_OR.reordered(["x1", "x0"]).order, (1, 0))
        self.assertEqual(Table.from_rows("0110", "ab", order="ba").order, (1, 0))

    def test_wrong_names_and_orders(self):
        alike = "no two inputs and no two outputs have the same name"
        self.refused(alike, lambda: Table.from_rows(["00", "11"], outputs=["y", "y"]))
        self.refused(alike, lambda: Table.from_rows(["0"] * 4, inputs=["a", "a"]))
        self.refused("a name is text, not 1", lambda: Table.from_rows(["0", "1"], inputs=[1]))
        self.refused("a name is text, not ['y']", lambda: Table.from_rows(["0", "1"], outputs=[["y"]]))
        self.refused("every output has one name", lambda: Table.from_rows(["0", "1"], outputs=["y", "z"]))
        for order in ([0], [0, 0], [0, 2], [0, 1, 1], [0.0, 1.0], ["x0", "x0"], ["x0", "z"], [0, 1, "x1"], [0, None], []):
            self.refused("the order has each input once", lambda order=order: EXCLUSIVE_OR.reordered(order))

    def test_copies_and_pickles_are_equal(self):
        for again in (copy.copy(EXCLUSIVE_OR), copy.deepcopy(EXCLUSIVE_OR), pickle.loads(pickle.dumps(EXCLUSIVE_OR))):
            self.assertEqual((again, hash(again)), (EXCLUSIVE_OR, hash(EXCLUSIVE_OR)))

    def test_it_is_told_in_a_line(self):
        self.assertEqual(repr(EXCLUSIVE_OR), "<Table of 2 inputs, 1 output: 4 marks cared, 0 free, in the order x0 x1>")
        one = Table.from_rows(["1-", "--"], inputs=["a\x1b[2J\nb"])
        self.assertEqual(repr(one), "<Table of 1 input, 2 outputs: 1 mark cared, 3 free, in the order a\\x1b[2J\\nb>")
        self.assertEqual(repr(Table.from_rows(["-"])), "<Table of 0 inputs, 1 output: 0 marks cared, 1 free>")
        self.assertLess(len(repr(Table.from_rows(["01-" * 5] * 1024))), 120)


def noting(text, faults):
    """A reader that has something to say of a text, and takes it."""
    for line in (1, 2):
        faults.note(Malformed(f"{text} is odd", line, 3))
    return Content(((0,),), (), ("y",), ())


class Texts(unittest.TestCase):
    def test_a_byte_order_mark_is_skipped(self):
        drawn = Table.from_drawing(DRAWING)
        self.assertEqual(Table.from_drawing("\ufeff" + DRAWING), drawn)
        self.assertEqual(drawn.inputs, ("left", "right"))
        self.assertEqual(Table.from_pla("\ufeff" + drawn.to_pla()), drawn)
        self.assertEqual(Table.from_csv("\ufeff" + drawn.to_csv()), drawn)
        self.assertEqual(Table.from_blif("\ufeff" + Network(drawn).to_blif()), drawn)

    def test_a_note_is_a_warning_of_the_line_that_reads(self):
        with warnings.catch_warnings(record=True) as given:
            warnings.simplefilter("always")
            Table._from_text(noting, "this")
        self.assertEqual([str(one.message) for one in given], ["line 1, column 3: this is odd", "line 2, column 3: this is odd"])
        self.assertEqual([one.category for one in given], [UserWarning] * 2)
        self.assertEqual({pathlib.Path(one.filename).name for one in given}, {"test_table.py"})

    def test_every_text_there_and_back(self):
        table = Table.from_rows(["0-1", "1-0", "--1", "---"], ["left", "right"], ["lamp", "bell", "door"], [1, 0])
        self.assertEqual(Table.from_drawing(table.to_drawing()), table)
        self.assertEqual(Table.from_pla(table.to_pla()), table)
        self.assertEqual(Table.from_csv(table.to_csv()), table)

    def test_what_is_in_order_is_not_warned_of(self):
        with warnings.catch_warnings():
            warnings.simplefilter("error")
            Table.from_pla(Table.from_drawing(DRAWING).to_pla())

    def test_wrong_texts_are_told_with_their_place(self):
        for read in (Table.from_drawing, Table.from_pla, Table.from_csv, Table.from_blif):
            with self.assertRaises(Malformed) as caught:
                read("\ufeff?\n")
            self.assertEqual(caught.exception.line, 1)


class Files(Refusing):
    def setUp(self):
        folder = tempfile.TemporaryDirectory()
        self.addCleanup(folder.cleanup)
        self.folder = pathlib.Path(folder.name)
        self.table = Table.from_drawing((ROOT / "examples" / "bounce-guard.txt").read_text(encoding="utf-8"))

    def put(self, name, content):
        path = self.folder / name
        path.write_bytes(content if isinstance(content, bytes) else content.encode("utf-8"))
        return path

    def test_the_ending_tells_the_format(self):
        table = self.table
        for name, content in (("a.txt", table.to_drawing()), ("a.pla", table.to_pla()), ("a.csv", table.to_csv())):
            path = self.put(name, content)
            self.assertEqual([Table.from_path(path), Table.from_path(str(path))], [table, table])
        nameless = Table.from_file(table.to_file())
        self.assertEqual(Table.from_path(self.put("a.table", table.to_file())), nameless)
        network = Network(table)
        network.build()
        computed = Table.from_rows([list(outputs) for outputs in network.evaluate(range(32))], order=table.order)
        self.assertEqual(Table.from_path(self.put("a.cells", network.to_file())), computed)
        read = Table.from_path(self.put("a.blif", network.to_blif()))
        self.assertEqual((read.columns, read.inputs, read.outputs), (computed.columns, table.inputs, table.outputs))

    def test_a_kind_can_be_named(self):
        self.assertEqual(Table.from_path(self.put("a", self.table.to_pla()), "pla"), self.table)
        self.assertEqual(Table.from_path(self.put("a.txt", self.table.to_csv()), kind="csv"), self.table)
        for read in (Table.from_path, Network.from_path):
            with self.assertRaises(UnknownFormat) as caught:
                read(self.folder / "a")
            self.assertIn(f"{self.folder / 'a'}: its ending tells no format: known are ", str(caught.exception))
            self.assertTrue(str(caught.exception).endswith("; or kind names one of drawing, pla, csv, table, blif, cells"))
            with self.assertRaisesRegex(UnknownFormat, ": svg can't be read; known are drawing, pla, csv, table, blif, cells$"):
                read(self.folder / "a", "svg")

    def test_errors_name_the_file(self):
        path = self.put("bad.txt", "a | y\n2 | 1\n")
        for read in (Table.from_path, Network.from_path):
            with self.assertRaises(Malformed) as caught:
                read(path)
            self.assertEqual(str(caught.exception), f"{path}: line 2, column 1: 2 is not an input's mark, which is 0, 1 or -")
            with self.assertRaises(NotText) as caught:
                read(self.put("other.txt", "a".encode("utf-16")))
            self.assertTrue(str(caught.exception).startswith(f"{self.folder / 'other.txt'}: it is UTF-16, not UTF-8: "))

    def test_what_is_no_text_or_file(self):
        for read in (Table.from_drawing, Table.from_pla, Table.from_csv, Table.from_blif):
            self.refused("a text is wanted, not b'a | y'; from_path reads a file", lambda read=read: read(b"a | y"), TypeError)
        for read in (Table.from_file, Network.from_file):
            self.refused("a file's bytes are wanted, not 512", lambda read=read: read(512), TypeError)
            self.refused("a file's bytes are wanted, not [257]", lambda read=read: read([257]), TypeError)
        self.refused("a network is of a Table, not of 'x.txt'; Network.from_path reads a file", lambda: Network("x.txt"), TypeError)

    def test_what_a_reader_notes_is_warned_of(self):
        """A BLIF without its .end may have been cut short."""
        text = Network(self.table).to_blif().removesuffix(".end\n")
        path = self.put("cut.blif", text)
        for read in (lambda: Table.from_blif(text), lambda: Table.from_path(path), lambda: Network.from_path(path)):
            with warnings.catch_warnings(record=True) as given:
                warnings.simplefilter("always")
                read()
            self.assertEqual([pathlib.Path(one.filename).name for one in given], ["test_table.py"])
            self.assertIn("line 1: there is no .end", str(given[0].message))

    def test_networks_of_files(self):
        built = Network(self.table)
        built.build()
        held = Network.from_path(self.put("a.cells", built.to_file()))
        self.assertEqual((held.is_built, held.cells), (True, built.cells))
        drawn = Network.from_path(str(self.put("a.txt", self.table.to_drawing())), board=6)
        self.assertEqual((drawn.is_built, drawn.table), (False, self.table))
        with self.assertRaisesRegex(Refused, "7 are wanted, it has 6$"):
            drawn.build()
        with self.assertRaisesRegex(Refused, "7 are wanted, it has 6$"):
            Network.from_path(self.folder / "a.cells", board=6)
        self.assertEqual(Network.from_path(self.put("b", self.table.to_pla()), "pla").table, self.table)
