"""Small readers of the BLIF and the Verilog that are exported, which evaluate what they read; anything else is a ValueError."""

from __future__ import annotations

import re
from collections.abc import Callable, Sequence
from typing import NamedTuple

from yavdocsil.exports import verilog

Values = dict[str, int]


class Read(NamedTuple):
    """What an export says: its ports, and each other signal by what it is driven with, in the file's sequence."""

    model: str
    inputs: list[str]
    outputs: list[str]
    drivers: dict[str, Callable[[Values], int]]

    def evaluate(self, row: int) -> tuple[int, ...]:
        n = len(self.inputs)
        values = {name: row >> (n - 1 - i) & 1 for i, name in enumerate(self.inputs)}
        waiting = dict(self.drivers)
        while waiting:
            ready = [name for name, driver in waiting.items() if self._settle(name, driver, values)]
            if not ready:
                raise ValueError(f"not driven, or in a circle: {sorted(waiting)}")
            for name in ready:
                del waiting[name]
        return tuple(values[name] for name in self.outputs)

    @staticmethod
    def _settle(name: str, driver: Callable[[Values], int], values: Values) -> bool:
        try:
            values[name] = driver(values)
        except KeyError:
            return False
        return True


# BLIF.


def read_blif(text: str) -> Read:
    lines = [line.split("#")[0].split() for line in text.splitlines()]
    lines = [line for line in lines if line]
    if [line[0] for line in lines[:3]] != [".model", ".inputs", ".outputs"] or lines[-1] != [".end"]:
        raise ValueError("no model of this kind")
    if any("\\" in word for line in lines for word in line):
        raise ValueError("a line that goes on")
    drivers: dict[str, Callable[[Values], int]] = {}
    for i, line in enumerate(lines):
        if line[0] == ".names":
            rest = lines[i + 1 :]
            cover = rest[: next(k for k, other in enumerate(rest) if other[0].startswith("."))]
            if line[-1] in drivers or line[-1] in lines[1]:
                raise ValueError(f"{line[-1]} is driven twice")
            drivers[line[-1]] = cover_of(line[1:-1], cover)
    return Read(lines[0][1], lines[1][1:], lines[2][1:], drivers)


def cover_of(columns: Sequence[str], cover: Sequence[Sequence[str]]) -> Callable[[Values], int]:
    """1 where a cube of the cover has it; with no columns, the cover `1` is the constant 1."""
    cubes = [line[0] if columns else "" for line in cover]
    if len(set(columns)) != len(columns) or any(line[-1] != "1" or len(cube) != len(columns) for line, cube in zip(cover, cubes)):
        raise ValueError(f"no cover of {columns}: {cover}")

    def driver(values: Values) -> int:
        at = [str(values[name]) for name in columns]
        return int(any(all(mark in ("-", value) for mark, value in zip(cube, at)) for cube in cubes))

    return driver


# Verilog.

TOKEN = re.compile(r"\s+|//[^\n]*|\\(\S+)\s|([A-Za-z_][A-Za-z0-9_$]*)|(1'b[01]|[?:~=;(),])")


def tokens_of(text: str) -> list[str]:
    """Names with `.` before them, so that an escaped one is no keyword; words of the language and signs as they are."""
    found, at = [], 0
    while at < len(text):
        match = TOKEN.match(text, at)
        if not match:
            raise ValueError(f"no token: {text[at:at + 20]!r}")
        escaped, word, sign = match.groups()
        if escaped or word or sign:
            found.append(f".{escaped}" if escaped else sign or (word if word in verilog.KEYWORDS else f".{word}"))
        at = match.end()
    return found


def read_verilog(text: str) -> Read:
    head, *body = " ".join(tokens_of(text)).split(" ; ")
    module = re.fullmatch(r"module \.(\S+) \( (.*) \)", head)
    if not module or body[-1] != "endmodule":
        raise ValueError("no module of this kind")
    lines = [line.split(" ") for line in body[:-1]]
    inputs, outputs, wires = (declared(lines, kind) for kind in ("input", "output", "wire"))
    if module[2].split(" , ") != [f".{name}" for name in (*inputs, *outputs)]:
        raise ValueError("the ports aren't those of the head")
    assigned = [line for line in lines if line[0] == "assign"]
    if lines[len(lines) - len(assigned) :] != assigned or sorted(line[1][1:] for line in assigned) != sorted([*outputs, *wires]):
        raise ValueError("not every wire and output is assigned once, behind all declarations")
    drivers: dict[str, Callable[[Values], int]] = {}
    for _, target, sign, *expression in assigned:
        used = {token[1:] for token in expression if token[0] == "."}
        if sign != "=" or not used <= {*inputs, *wires}:
            raise ValueError(f"no such assignment: {target} {sign} {expression}")
        drivers[target[1:]] = expression_of(expression)
    return Read(module[1], inputs, outputs, drivers)


def declared(lines: Sequence[Sequence[str]], kind: str) -> list[str]:
    """The signals of a kind, from lines with `,` between them."""
    found = [line for line in lines if line[0] == kind]
    if any(set(line[2::2]) - {","} or len(line) % 2 for line in found):
        raise ValueError(f"no list of names: {found}")
    return [name[1:] for line in found for name in line[1::2]]


def expression_of(tokens: Sequence[str]) -> Callable[[Values], int]:
    """A reference, or a choice between two."""
    if "?" in tokens:
        ask, colon = tokens.index("?"), tokens.index(":")
        parts = tokens[:ask], tokens[ask + 1 : colon], tokens[colon + 1 :]
        select, high, low = (expression_of(part) for part in parts)
        return lambda values: high(values) if select(values) else low(values)
    flipped = int(tokens[0] == "~")
    (token,) = tokens[flipped:]
    if token in ("1'b0", "1'b1"):
        return lambda values: int(token[-1]) ^ flipped
    if not token.startswith("."):
        raise ValueError(f"no reference: {token}")
    return lambda values: values[token[1:]] ^ flipped
