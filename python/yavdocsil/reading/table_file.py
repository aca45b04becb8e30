"""Table files: blocks of 512 bytes, as docs/FORMATS.md has them. The library reads them, and refuses with the papers' numbers."""

from __future__ import annotations

from collections.abc import Sequence
from typing import TYPE_CHECKING

from .. import bits
from ..library import BLOCK_BYTES, INPUTS, ORDER, OUTPUTS, Buffers, buffer
from . import Content, names_from

if TYPE_CHECKING:
    from ..table import Table

HEADING, VALUES, CARE = 1, 2, 3
CONTENT_AT, CONTENT_BYTES, CHECK_AT = 4, 506, 510
CHECK_MODULUS = 65521


def sealed(kind: int, number: int, content: Sequence[int]) -> bytes:
    """A block of a kind with its content and its check."""
    block = bytearray(BLOCK_BYTES)
    block[0], block[2], block[3] = kind, number % 256, number // 256
    block[CONTENT_AT : CONTENT_AT + len(content)] = bytes(content)
    check = sum((i + 1) * octet for i, octet in enumerate(block[:CHECK_AT])) % CHECK_MODULUS
    block[CHECK_AT:] = check.to_bytes(2, "little")
    return bytes(block)


def write(table: Table) -> bytes:
    marks = [mark for column in table.columns for mark in column]
    parts = [(HEADING, bytes([len(table.inputs), len(table.outputs), *table.order]))]
    for kind, plane in (
        (VALUES, bits.packed([mark or 0 for mark in marks])),
        (CARE, bits.packed([int(mark is not None) for mark in marks])),
    ):
        parts += [(kind, plane[at : at + CONTENT_BYTES]) for at in range(0, len(plane), CONTENT_BYTES)]
    return b"".join(sealed(kind, number, content) for number, (kind, content) in enumerate(parts))


def read(data: bytes) -> Content:
    """The content of a table file; its inputs are named x0, x1 and so on, and its outputs y0, y1."""
    lent = Buffers(board=0)
    lent.call("load", file=buffer("file", data))
    n, m = lent.state[INPUTS], lent.state[OUTPUTS]
    return Content(lent.columns, names_from("x", n), names_from("y", m), tuple(lent.state[ORDER : ORDER + n]))
