"""What holds for every reader of texts: any text is read or is an error with its place, errors come together, and lines are cut late."""

from __future__ import annotations

import random
import re
import sys
import tracemalloc
import unittest
from collections.abc import Callable
from typing import NamedTuple, Optional

from yavdocsil import Malformed, Table
from yavdocsil.errors import MOST_GATHERED, Faults
from yavdocsil.reading import Content, blif, drawing, pla, rows, sheet

LINES = 50_000


class Reader(NamedTuple):
    """A reader, its writer if it has one, what texts are put together from, and a beginning that is right but for its last line.

    `looks_back` says that it knows some errors of a line only when it has read later ones, so reading alone may tell one of those first.
    """

    looks_back: bool
    read: Callable[..., Content]
    write: Optional[Callable[[Table], str]]
    begins: list[str]
    pieces: list[str]
    wrong: str


READERS = {
    "drawing": Reader(
        False, drawing.read, drawing.write, ["", "a b | y\n", "Page\n  a b | y\n"],
        [
            *"01-|  \n\n#ab\t\r", "places ", "  ", "0 1 | 1\n", "a b | y\n", "1 1 | -\n", "- 0 | 1\n", "  a | y\n", "  text\n",
            "  places b a\n", "\ufeff",
        ],
        "a b | y\n0 0 | 1\n0 2 | 1\n",
    ),
    "PLA": Reader(
        True, pla.read, pla.write, ["", ".i 2\n.o 1\n"],
        [*"01-~| \n#\r", ".i 2\n", ".o 1\n", "01 1\n", "1- 0\n", ".p 1\n", ".type fr\n", "# places x1 x0\n", ".e\n", "\ufeff"],
        ".i 2\n.o 1\n0x 1\n",
    ),
    "CSV": Reader(
        False, sheet.read, sheet.write, ["", "a,b,|,y\n", "sep=;\n", "a;;y\n"],
        [
            *'01-|,,;"\n\n#ab\t\r', "places,", "0,1,|,1\n", "1,1,,-\r\n", "-,0,|,1\n", '"0"', "\n\n", "places,b,a\n", "0;;1\n",
            '"a\nb"', "\ufeff", ",,,\n",
        ],
        "a,b,|,y\n0,0,|,1\n0,2,|,1\n",
    ),
    "BLIF": Reader(
        True, blif.read, None, ["", ".inputs a b\n.outputs y\n", ".model m\n.inputs a\n.outputs y\n.names a y\n"],
        [
            *"01- \n\n#\\\r", ".model m\n", ".inputs a b\n", ".outputs y\n", ".names a b y\n", ".names y\n", "01 1\n", "1- 1\n",
            "11 0\n", "1\n", ".end\n", ".names a x\n", ".names x y\n", "1 1\n", ".exdc\n", ".latch a y\n", "\ufeff",
        ],
        ".inputs a\n.outputs y\n.names a y\n2 1\n",
    ),
}


def outcome(read: Callable[..., Content], text: str, faults: Faults) -> tuple[Optional[Content], Optional[Malformed]]:
    """What is read, or the error."""
    try:
        return read(text, faults), None
    except Malformed as error:
        return None, error


class AnyText(unittest.TestCase):
    def test_any_text_is_read_or_malformed(self) -> None:
        for name, reader in READERS.items():
            chance, read = random.Random(name), 0
            for _ in range(2000):
                text = chance.choice(reader.begins) + "".join(chance.choice(reader.pieces) for _ in range(chance.randint(0, 10)))
                with self.subTest(name, text=text):
                    read += self.is_read(reader, text)
            self.assertTrue(50 < read < 1950, (name, read))

    def is_read(self, reader: Reader, text: str) -> bool:
        """Checks a text, and says whether it is read."""
        faults = Faults(gathers=True)
        content, error = outcome(reader.read, text, Faults())
        together, first = outcome(reader.read, text, faults)
        self.assertEqual(together, content)
        if content is None:
            self.check_errors(text, faults.found)
            self.assertIs(first, faults.found[0])
            self.assertIn(str(error), [str(found) for found in faults.found[: None if reader.looks_back else 1]])
            return False
        self.assertEqual(faults.found, [])
        if reader.write is not None:
            table = Table(*content)
            self.assertEqual(Table(*reader.read(reader.write(table))), table)
        return True

    def check_errors(self, text: str, found: list[Malformed]) -> None:
        """Each is told on one line and has its place in the text, and they come in the sequence of those."""
        lines = re.split(r"\r\n|\r|\n", text.removeprefix("\ufeff"))
        self.assertEqual([error.line for error in found], sorted(error.line for error in found))
        for error in found:
            self.assertTrue(1 <= error.line <= len(lines) and 0 <= error.column <= len(lines[error.line - 1]), str(error))
            self.assertEqual(error.reason, " ".join(error.reason.splitlines()))


class LongTexts(unittest.TestCase):
    """Not timed: what a reading takes in memory and calls says as much, and the same on every machine."""

    def test_an_early_error_is_told_before_later_lines_are_cut(self) -> None:
        later = "# a line of some length\n" * LINES
        for name, reader in READERS.items():
            self.check_peak(name, reader.wrong, later, reader.read)
        self.check_peak("rows", "00\n11\n0\n", "00\n" * LINES, lambda text: rows.read(text, "ab"))

    def check_peak(self, name: str, wrong: str, later: str, read: Callable[[str], object]) -> None:
        text = wrong + later
        tracemalloc.start()
        try:
            with self.subTest(name), self.assertRaises(Malformed) as caught:
                read(text)
            peak = tracemalloc.get_traced_memory()[1]
        finally:
            tracemalloc.stop()
        self.assertEqual(caught.exception.line, wrong.count("\n"), name)
        self.assertLess(peak, LINES, name)

    def test_each_further_line_takes_as_many_calls(self) -> None:
        for name, reader in READERS.items():
            begin = reader.wrong[: reader.wrong.rindex("\n", 0, -1) + 1] + ("1 1\n" if name == "BLIF" else "")
            self.check_calls(name, lambda count, read=reader.read, begin=begin: read(begin + "# a line\n" * count))
        self.check_calls("rows", lambda count: rows.read("01\n" * count, "ab"))
        self.check_calls("comments of rows", lambda count: rows.read("# a line\n" * count, "ab"))

    def check_calls(self, name: str, read: Callable[[int], object]) -> None:
        """So few calls a line, and no more for later lines."""
        few, more, most = (self.calls(read, count) for count in (100, 1100, 2100))
        self.assertEqual(most - more, more - few, name)
        self.assertLess(more - few, 1000 * 25, name)

    @staticmethod
    def calls(read: Callable[[int], object], count: int) -> int:
        """How many functions are called in a reading."""
        called = 0

        def note(frame: object, event: str, argument: object) -> None:
            nonlocal called
            called += event in ("call", "c_call")

        sys.setprofile(note)
        try:
            read(count)
        finally:
            sys.setprofile(None)
        return called

    def test_a_log_makes_no_row_twice(self) -> None:
        """Lines of bits that were met before are looked up, so each takes fewer calls than one with a comment."""
        known, other = (self.calls(lambda count: rows.read(line * count, "ab"), 1000) for line in ("01\n", "01 #\n"))
        self.assertLess(2 * known, other)


class ManyErrors(unittest.TestCase):
    def test_no_more_than_are_gathered_and_none_twice(self) -> None:
        many = 2 * MOST_GATHERED
        for reader, text in (
            (drawing.read, "Text\n  a | y\n" + "  what\n" * many + "  0 | 1\n"), (drawing.read, "a | y\n" + "2 | 1\n" * many),
            (sheet.read, "a,|,y\n" + "2,|,1\n" * many),
        ):
            faults = Faults(gathers=True)
            with self.assertRaises(Malformed):
                reader(text, faults)
            self.assertEqual(len({error.line for error in faults.found}), MOST_GATHERED)
            self.assertEqual(len(faults.found), MOST_GATHERED)

    def test_rows_of_a_file(self) -> None:
        self.assertEqual(rows.read("\ufeff00\n11\r\n1 0\r01", "ab"), [0, 3, 2, 1])
        self.assertEqual(rows.read("\n# so\n", []), [])
        for text, wanted in (
            ("00\n0\n", "line 2, column 1: 0"), ("\n  012 # so", "line 2, column 3: 012"), ("0\x1b", "line 1, column 1: 0\\x1b"),
            ("0" * 50, f"line 1, column 1: {'0' * 40}.."),
        ):
            with self.assertRaises(Malformed) as caught:
                rows.read(text, "ab")
            self.assertEqual(str(caught.exception), f"{wanted} is no row: it takes 2 bits, for a b")

