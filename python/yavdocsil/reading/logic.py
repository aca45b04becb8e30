"""Signals that are driven by covers, as BLIF has them: whether all are driven, and in no cycle, and their values in all rows at once."""

from __future__ import annotations

from collections import defaultdict
from collections.abc import Collection, Mapping, Sequence
from dataclasses import dataclass, field
from itertools import chain

from ..display import many
from ..errors import Faults, Malformed
from .row_sets import all_rows, product
from .words import Word, shortened

# How many signals of a cycle are named.
MOST_NAMED = 8


@dataclass
class Cover:
    """Cubes over the signals that it reads, each with their marks, and the value that the driven signal has where one of them holds."""

    reads: list[Word]
    driven: Word
    value: str = ""
    cubes: list[str] = field(default_factory=list)

    def rows(self, values: Mapping[str, int], every: int) -> int:
        """The rows in which the driven signal is 1; without a cube there are none."""
        read = [values[word.text] for word in self.reads]
        rows = 0
        for cube in self.cubes:
            rows |= product(cube, read, every)
        return every ^ rows if self.value == "0" else rows


@dataclass
class Logic:
    """Inputs and outputs by name, in sequence, and the cover of each signal that is driven."""

    inputs: dict[str, Word] = field(default_factory=dict)
    outputs: dict[str, Word] = field(default_factory=dict)
    covers: dict[str, Cover] = field(default_factory=dict)

    def check(self, faults: Faults, misses: bool, where: str = "") -> None:
        """Tells signals that nothing drives, each where it is first named or read, unless what drives them may be missing, and a cycle."""
        for word in [] if misses else self._undriven().values():
            with faults:
                raise word.wrong(f"nothing drives {shortened(word.text)}{where}, and it is no input")
        with faults:
            _sequence(self.covers)

    def _undriven(self) -> dict[str, Word]:
        """The signals that are neither inputs nor driven, each with the first place where it is an output or read."""
        named = chain(self.outputs.values(), chain.from_iterable(cover.reads for cover in self.covers.values()))
        undriven: dict[str, Word] = {}
        for word in named:
            if word.text not in self.inputs and word.text not in self.covers:
                undriven.setdefault(word.text, word)
        return undriven

    def evaluate(self, inputs: Mapping[str, int], n: int) -> dict[str, int]:
        """The rows in which each signal is 1, from those of the inputs; there must be nothing to be told."""
        values, every = dict(inputs), all_rows(n)
        for name in _sequence(self.covers):
            values[name] = self.covers[name].rows(values, every)
        return values


def _sequence(covers: Mapping[str, Cover]) -> list[str]:
    """The driven signals, each behind those that it reads; a cycle is raised. Chains may be long, so nothing here calls itself."""
    readers = _readers(covers)
    waits = {name: sum(word.text in covers for word in cover.reads) for name, cover in covers.items()}
    ready = [name for name, count in waits.items() if not count]
    for name in ready:
        ready += _released(readers[name], waits)
    if len(ready) < len(covers):
        raise _cycle({name for name, count in waits.items() if count}, covers)
    return ready


def _released(readers: Sequence[str], waits: dict[str, int]) -> list[str]:
    """Those that wait for nothing more, once a signal that they read is known."""
    for reader in readers:
        waits[reader] -= 1
    return [reader for reader in dict.fromkeys(readers) if not waits[reader]]


def _readers(covers: Mapping[str, Cover]) -> defaultdict[str, list[str]]:
    """The signals that read each signal, as often as they do."""
    readers: defaultdict[str, list[str]] = defaultdict(list)
    for name, word in ((name, word) for name, cover in covers.items() for word in cover.reads):
        readers[word.text].append(name)
    return readers


def _cycle(waiting: Collection[str], covers: Mapping[str, Cover]) -> Malformed:
    """The error of a cycle, found by going from a signal that waits to one that it waits for, until one is met again."""
    met: dict[str, int] = {}
    name = next(name for name in covers if name in waiting)
    while name not in met:
        met[name] = len(met)
        name = next(word.text for word in covers[name].reads if word.text in waiting)
    around = list(met)[met[name] :]
    first = around.index(min(around, key=lambda one: covers[one].driven[1:3]))
    names = [shortened(one) for one in around[first:] + around[:first]]
    shown = names if len(names) <= MOST_NAMED else [*names[:MOST_NAMED], ".."]
    return covers[around[first]].driven.wrong(f"a cycle of {many(len(names), 'signal')}: {' reads '.join([*shown, names[0]])}")
