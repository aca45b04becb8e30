"""The text of a file: UTF-8, and what is said of bytes that are another encoding's, or no text at all."""

from __future__ import annotations

import codecs
import unicodedata
from typing import Optional

from ..errors import Error, Malformed
from ..library import BLOCK_BYTES
from .words import split_lines

NO_TEXT = "it is no text"
# The files in blocks, by the kind of their first block, as they are named with --from and by their ending.
BLOCK_FILES = {1: ("a table file", "table"), 4: ("a network file", "cells")}
# What begins a text in UTF-16, the low byte first or the high one.
UTF_16_MARKS = (codecs.BOM_UTF16_LE, codecs.BOM_UTF16_BE)
UTF_32_MARKS = (codecs.BOM_UTF32_LE, codecs.BOM_UTF32_BE)
# Encodings of one byte a sign, as a person and as iconv names them.
ONE_BYTE = (("Latin-1", "latin1"), ("Windows-1252", "cp1252"))
# Bytes that no text has in it, in whatever encoding: controls, but for those that move on and the escape.
CONTROLS = bytes(byte for byte in range(32) if byte not in b"\t\n\v\f\r\x1a\x1b") + b"\x7f"


class NotText(Error):
    """A file is no text, or one in an encoding that isn't read."""


def decoded(data: bytes) -> str:
    """The text of a file, which is UTF-8. A byte order mark at its start is left to the readers, who skip it."""
    _check_no_blocks(data)
    _check_no_utf_16(data)
    if 0 in data:
        raise NotText(NO_TEXT)
    try:
        return data.decode("utf-8")
    except UnicodeDecodeError as error:
        raise _not_utf_8(data, error.start) from error


def _check_no_blocks(data: bytes) -> None:
    """Raises where a file begins as table files and network files do."""
    if data and len(data) % BLOCK_BYTES == 0 and data[0] in BLOCK_FILES:
        kind, name = BLOCK_FILES[data[0]]
        raise NotText(f"{NO_TEXT}, it looks like {kind}: name it .{name}, or say --from {name}")


def _check_no_utf_16(data: bytes) -> None:
    """Raises where a text is UTF-16: it has the mark of it, or every second byte is zero. UTF-32 has the same mark, and more."""
    if data.startswith(UTF_32_MARKS):
        raise NotText("it is UTF-32, not UTF-8: save it as UTF-8, or use iconv -f utf-32 -t utf-8")
    name = "utf-16" if data.startswith(UTF_16_MARKS) else _unmarked_utf_16(data)
    if name is not None:
        raise NotText(f"it is UTF-16, not UTF-8: save it as UTF-8, or use iconv -f {name} -t utf-8")


def _unmarked_utf_16(data: bytes) -> Optional[str]:
    """Which UTF-16 a text without a mark is, if any."""
    if not data or len(data) % 2 or 0 not in data[:2]:
        return None
    zeros = bytes(len(data) // 2)
    return {(False, True): "utf-16le", (True, False): "utf-16be"}.get((data[::2] == zeros, data[1::2] == zeros))


def _not_utf_8(data: bytes, at: int) -> Error:
    """The error of a byte that is no UTF-8, the first one."""
    if any(control in data for control in CONTROLS):
        return NotText(NO_TEXT)
    # The last line before it; the greatest number is the last one's.
    line, before = max(enumerate(split_lines(data[:at].decode("utf-8")), 1))
    return Malformed(f"the byte {data[at]:02x} is no UTF-8{_advice(data, at)}", line, len(before) + 1)


def _advice(data: bytes, at: int) -> str:
    """What the byte may be, and what to do."""
    likely = _one_byte(data, at)
    if likely is None:
        return ": save the text as UTF-8"
    named, name = likely
    sign = data[at : at + 1].decode(name)
    shown = sign if sign.isprintable() else unicodedata.name(sign).lower()
    return f"; the text looks like {named}, where it is {shown}: save it as UTF-8, or use iconv -f {name} -t utf-8"


def _one_byte(data: bytes, at: int) -> Optional[tuple[str, str]]:
    """The encoding of one byte a sign that a text may be in. It is none where the text is UTF-8 beyond ASCII up to the wrong byte."""
    if not data[:at].isascii():
        return None
    return next((likely for likely in ONE_BYTE if _is_text(data, likely[1])), None)


def _is_text(data: bytes, name: str) -> bool:
    """Whether bytes are a text in an encoding: each has a sign there, and none is one of the upper controls."""
    try:
        text = data.decode(name)
    except UnicodeDecodeError:
        return False
    return not any("\x80" <= sign <= "\x9f" for sign in set(text))
