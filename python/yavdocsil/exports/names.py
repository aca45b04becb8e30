"""Names for exports: kept where the format takes them, else replaced, and the cells' beside them; no two signals have the same."""

from __future__ import annotations

import re
from collections.abc import Callable, Collection, Sequence
from dataclasses import dataclass
from itertools import chain, count

from ..diagram import Diagram


@dataclass(frozen=True)
class Names:
    """The signals' names in an export; `replaced` tells, a line each, which inputs and outputs are called otherwise."""

    inputs: tuple[str, ...]
    outputs: tuple[str, ...]
    prefix: str
    replaced: tuple[str, ...]

    def cell(self, number: int) -> str:
        return f"{self.prefix}{number}"


def signals(diagram: Diagram, fits: Callable[[str], bool]) -> Names:
    """The names in a format that takes those that fit.

    An input's own name goes before an output's, and both before a name that is made up. So an output that is called as an input is, has
    another name.
    """
    own = [*diagram.inputs, *diagram.outputs]
    marks = ["in"] * len(diagram.inputs) + ["out"] * len(diagram.outputs)
    given = _given(own, marks, fits)
    lines = [f"{mark}put {name!r} is {new}" for name, mark, new in zip(own, marks, given) if new != name]
    n = len(diagram.inputs)
    return Names(tuple(given[:n]), tuple(given[n:]), _prefix(diagram.by_number, given), tuple(lines))


def plain(name: str) -> str:
    """The name with `_` for all but ASCII letters and digits, which every format takes."""
    kept = re.sub(r"[^A-Za-z0-9_]", "_", name)
    return kept if re.match(r"[A-Za-z_]", kept) else f"_{kept}"


def _given(own: Sequence[str], marks: Sequence[str], fits: Callable[[str], bool]) -> list[str]:
    """Own names where they fit and are first, and unused plain ones for all others."""
    keeps = [fits(name) and name not in own[:i] for i, name in enumerate(own)]
    taken = {name for name, kept in zip(own, keeps) if kept}
    given = []
    for name, mark, kept in zip(own, marks, keeps):
        given.append(name if kept else _unused(plain(name), mark, taken, fits))
        taken.add(given[-1])
    return given


def _unused(base: str, mark: str, taken: Collection[str], fits: Callable[[str], bool]) -> str:
    """The base itself, or base_in, base_in2, and so on, as long as they are taken or don't fit."""
    others = chain([base, f"{base}_{mark}"], (f"{base}_{mark}{number}" for number in count(2)))
    return next(name for name in others if name not in taken and fits(name))


def _prefix(cells: Collection[int], taken: Collection[str]) -> str:
    """What comes before a cell's number, so that no cell has a name that is taken."""
    prefixes = ("cell" + "_" * more for more in count())
    return next(prefix for prefix in prefixes if not any(f"{prefix}{number}" in taken for number in cells))
