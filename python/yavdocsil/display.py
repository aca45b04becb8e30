"""Text for a person: how many columns of a terminal it takes, names padded and centred by that, with nothing in them that a terminal would
obey, and numbers of things."""

from __future__ import annotations

import unicodedata

# Marks that combine, signs that format and enclose: they take no column of their own.
NO_COLUMN = {"Mn", "Me", "Cf"}
# What a terminal could obey, or what could turn the line around: controls, formats, surrogates, private ones, separators of lines.
HARMFUL = {"Cc", "Cf", "Cs", "Co", "Cn", "Zl", "Zp"}


def columns(text: str) -> int:
    """How many columns of a terminal a text takes."""
    if text.isascii():
        return len(text)
    return sum(_columns_of(one) for one in text)


def _columns_of(one: str) -> int:
    if unicodedata.category(one) in NO_COLUMN:
        return 0
    return 2 if unicodedata.east_asian_width(one) in "WF" else 1


def padded(text: str, width: int) -> str:
    """The text with blanks behind it, up to a width."""
    return text + " " * (width - columns(text))


def right(text: str, width: int) -> str:
    """The text with blanks before it, up to a width."""
    return " " * (width - columns(text)) + text


def centred(text: str, width: int) -> str:
    """The text in the middle of a width; of an odd number of blanks one more stands as `str.center` has it."""
    return " " * width if not text else text.center(width - columns(text) + len(text))


def harmless(text: str) -> str:
    """The text with every sign that a terminal could obey written out, as \\x1b."""
    if text.isascii() and text.isprintable():
        return text
    return "".join(_written_out(one) if unicodedata.category(one) in HARMFUL else one for one in text)


def _written_out(one: str) -> str:
    return one.encode("unicode_escape").decode("ascii")


def many(count: int, thing: str) -> str:
    """So many of a thing."""
    return f"{count} {thing}" if count == 1 else f"{count} {thing}s"
