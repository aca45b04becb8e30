"""The text of a file: UTF-8, and what is said of every other encoding and of no text."""

from __future__ import annotations

import unittest

from tests.places import EXAMPLES
from yavdocsil import Malformed
from yavdocsil.errors import Error
from yavdocsil.reading import blif, drawing, pla, sheet
from yavdocsil.reading.encoding import NotText, decoded

MARK = b"\xef\xbb\xbf"


class Text(unittest.TestCase):
    def test_utf_8(self) -> None:
        for text in ("", "a | y\n", "é | 灯\r\n", "\x1b\f\v", "\x01"):
            self.assertEqual(decoded(text.encode()), text)

    def test_one_byte_order_mark_is_skipped(self) -> None:
        """By the readers, to whom a text may come with it from elsewhere, too; a second one is part of a name, which none has."""
        for read, text in (
            (drawing.read, "a | y\n"), (sheet.read, "a,|,y\n"), (pla.read, ".i 1\n.o 1\n"), (blif.read, ".inputs a\n.outputs a\n"),
        ):
            self.assertEqual(read(decoded(MARK + text.encode())), read(text))
            with self.assertRaises(Malformed):
                read(decoded(MARK + MARK + text.encode()))


class Wrong(unittest.TestCase):
    def check(self, data: bytes, reason: str, kind: type[Error] = NotText) -> Error:
        with self.subTest(data[:20]), self.assertRaises(kind) as caught:
            decoded(data)
        self.assertEqual(str(caught.exception), reason)
        return caught.exception

    def wrong_byte(self, data: bytes, line: int, column: int, reason: str) -> None:
        error = self.check(data, f"line {line}, column {column}: {reason}", Malformed)
        self.assertEqual((error.line, error.column), (line, column))

    def test_utf_16(self) -> None:
        reason = "it is UTF-16, not UTF-8: save it as UTF-8, or use iconv -f {} -t utf-8"
        for mark, name in ((b"\xff\xfe", "utf-16-le"), (b"\xfe\xff", "utf-16-be")):
            for text in ("", "a | y\n", "灯\n"):
                self.check(mark + text.encode(name), reason.format("utf-16"))
        for name in ("utf-32-le", "utf-32-be"):
            self.check("\ufeffa | y\n".encode(name), "it is UTF-32, not UTF-8: save it as UTF-8, or use iconv -f utf-32 -t utf-8")
        self.check("a | y\n".encode("utf-16-le"), reason.format("utf-16le"))
        self.check("a | y\n".encode("utf-16-be"), reason.format("utf-16be"))

    def test_no_text(self) -> None:
        for data in (b"\0", b"\0\0", b"a\0b", b"a\0bc", b"\0a\0", "灯a".encode("utf-16-le"), b"a | y\n0 | 1\0"):
            self.check(data, "it is no text")
        for data in (b"\x89PNG\r\n\x1a\n\x01", b"\xe9\x7f"):
            self.check(data, "it is no text")

    def test_files_in_blocks(self) -> None:
        table, cells = (EXAMPLES / f"xor{ending}" for ending in (".table", ".cells"))
        self.check(table.read_bytes(), "it is no text, it looks like a table file: name it .table, or say --from table")
        self.check(cells.read_bytes(), "it is no text, it looks like a network file: name it .cells, or say --from cells")
        self.check(table.read_bytes()[:-1], "it is no text")
        self.check(b"\x02" + table.read_bytes()[1:], "it is no text")
        # Without the blocks a sign of the kind is a text as any other.
        self.assertEqual(decoded(b"\x01" + b" " * 510), "\x01" + " " * 510)

    def test_latin_1(self) -> None:
        advice = "save it as UTF-8, or use iconv -f latin1 -t utf-8"
        self.wrong_byte(b"caf\xe9 | y\n", 1, 4, f"the byte e9 is no UTF-8; the text looks like Latin-1, where it is \u00e9: {advice}")
        self.wrong_byte(b"a\xa0b", 1, 2, f"the byte a0 is no UTF-8; the text looks like Latin-1, where it is no-break space: {advice}")
        self.wrong_byte(b"\xad", 1, 1, f"the byte ad is no UTF-8; the text looks like Latin-1, where it is soft hyphen: {advice}")

    def test_windows_1252(self) -> None:
        advice = "save it as UTF-8, or use iconv -f cp1252 -t utf-8"
        self.wrong_byte(b"a;\x80\n", 1, 3, f"the byte 80 is no UTF-8; the text looks like Windows-1252, where it is \u20ac: {advice}")
        self.wrong_byte(b"\xe9\x93", 1, 1, f"the byte e9 is no UTF-8; the text looks like Windows-1252, where it is \u00e9: {advice}")

    def test_neither(self) -> None:
        self.wrong_byte(b"a\x81", 1, 2, "the byte 81 is no UTF-8: save the text as UTF-8")
        self.wrong_byte("é ".encode() + b"\xe9", 1, 3, "the byte e9 is no UTF-8: save the text as UTF-8")
        self.wrong_byte(MARK + b"ab\xe9", 1, 3, "the byte e9 is no UTF-8: save the text as UTF-8")

    def test_places(self) -> None:
        reason = "the byte 81 is no UTF-8: save the text as UTF-8"
        for before, line, column in (
            (b"", 1, 1), (b"a\n", 2, 1), (b"a\r\n b", 2, 3), (b"a\rb\r", 3, 1), (b"\n\n\r\n", 4, 1), ("é灯\né".encode(), 2, 2),
            (MARK + b"a\n", 2, 1),
        ):
            self.wrong_byte(before + b"\x81 and so on\n\x82", line, column, reason)
