"""Bits: packed in bytes, where bit i is bit i mod 8 of byte i/8, the lowest first, and one by itself as a person gives it."""

from __future__ import annotations

import operator
import reprlib
from collections.abc import Sequence
from typing import Any, Optional


def packed(bits: Sequence[int]) -> bytes:
    octets = bytearray(-(-len(bits) // 8))
    for i, bit in enumerate(bits):
        octets[i // 8] |= bit << i % 8
    return bytes(octets)


def octets(given: Any) -> bytes:
    """A file's bytes. Numbers and texts, which Python could take for bytes too, are none."""
    if not isinstance(given, (bytes, bytearray, memoryview)):
        raise TypeError(f"a file's bytes are wanted, not {shown(given)}")
    return bytes(given)


def unpacked(octets: Sequence[int], count: int) -> list[int]:
    return [octets[i // 8] >> i % 8 & 1 for i in range(count)]


def plain(given: Any) -> int:
    """0 or 1 as a plain integer, from an integer or a bool of any kind. Whatever else is given raises ValueError."""
    bit = integer(given)
    if bit not in (0, 1):
        raise ValueError(f"{shown(given)} is neither 0 nor 1")
    return bit


def integer(given: Any) -> Optional[int]:
    """An integer of any kind as a plain one; None for whatever is none."""
    if isinstance(given, int):
        return int(given)
    # NumPy's bools are no integers, but become plain bools by this.
    single = given.tolist() if hasattr(given, "tolist") else given
    try:
        return int(operator.index(single))
    except TypeError:
        return None


def shown(given: object) -> str:
    """What was given, for an error: short, and on one line."""
    return " ".join(reprlib.repr(given).split())
