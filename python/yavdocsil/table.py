"""A truth table with don't-cares: every output's mark in every row, the names, and the order of the places."""

from __future__ import annotations

import os
import pathlib
from collections.abc import Callable, Iterable, Sequence
from dataclasses import dataclass, replace
from typing import Any, Optional, SupportsIndex, Union

from . import bits
from .display import harmless, many
from .errors import Faults
from .reading import MARKS, MOST_INPUTS, MOST_OUTPUTS, Content, Mark, blif, drawing, names_from, pla, sheet, table_file


@dataclass(frozen=True, repr=False)
class Table:
    """`columns[j][r]` is output j's mark in row r; in a row number input 0 is the most significant bit.

    `order` has the input of each place, the top place first. Whatever sequences and kinds of integers are given, NumPy's too, what is held
    are tuples and plain integers, so tables can be compared and be keys.
    """

    columns: tuple[tuple[Mark, ...], ...]
    inputs: tuple[str, ...]
    outputs: tuple[str, ...]
    order: tuple[int, ...]

    def __post_init__(self) -> None:
        self._hold("columns", tuple(_column(output, marks) for output, marks in enumerate(self.columns)))
        self._hold("inputs", _names(self.inputs))
        self._hold("outputs", _names(self.outputs))
        if not len(self.inputs) <= MOST_INPUTS:
            raise ValueError(f"a table has at most {MOST_INPUTS} inputs, not {len(self.inputs)}")
        if not 1 <= len(self.columns) <= MOST_OUTPUTS:
            raise ValueError(f"a table has 1 to {MOST_OUTPUTS} outputs, not {len(self.columns)}")
        if len(self.outputs) != len(self.columns):
            raise ValueError("every output has one name")
        uneven = next((len(column) for column in self.columns if len(column) != 2 ** len(self.inputs)), None)
        if uneven is not None:
            raise ValueError(f"with {many(len(self.inputs), 'input')} every output has {many(2 ** len(self.inputs), 'row')}, not {uneven}")
        self._hold("order", _order(self.order, self.inputs))

    def _hold(self, field: str, content: tuple[Any, ...]) -> None:
        # A table is frozen, and this its making.
        object.__setattr__(self, field, content)

    def __repr__(self) -> str:
        """Short: a table of ten inputs has thousands of marks."""
        cared, marks = self.cared, len(self.columns) * len(self.columns[0])
        return described("Table", self.inputs, self.outputs, self.order, f"{many(cared, 'mark')} cared, {marks - cared} free")

    @property
    def rows(self) -> list[str]:
        """The marks of each row, all outputs in sequence, as `from_rows` takes them."""
        return ["".join("-" if mark is None else str(mark) for mark in row) for row in zip(*self.columns)]

    @property
    def cared(self) -> int:
        """How many marks are not free."""
        return sum(mark is not None for column in self.columns for mark in column)

    def reordered(self, order: Iterable[Union[SupportsIndex, str]]) -> Table:
        """The same table in another order of the places, by the inputs' numbers or names."""
        return replace(self, order=_order(order, self.inputs))

    @classmethod
    def from_rows(
        cls,
        rows: Iterable[Union[None, SupportsIndex, Iterable[Union[None, str, SupportsIndex]]]],
        inputs: Optional[Sequence[str]] = None,
        outputs: Optional[Sequence[str]] = None,
        order: Optional[Iterable[Union[SupportsIndex, str]]] = None,
    ) -> Table:
        """From each row's marks, one for each output: `Table.from_rows(["0", "1", "1", "0"])` is exclusive-or.

        A mark is `0`, `1` or `-` as text, else 0, 1 or None: `Table.from_rows([[0, 1], [1, None]])` has a free one. Of one output the
        marks themselves will do: `Table.from_rows([0, 1, 1, 0])`.
        """
        marks = [_row(number, row) for number, row in enumerate(rows)]
        n = max(len(marks).bit_length() - 1, 0)
        if len(marks) != 2**n:
            raise ValueError(f"a table has a power of two of rows, not {len(marks)}")
        uneven = next((number for number, row in enumerate(marks) if len(row) != len(marks[0])), None)
        if uneven is not None:
            raise ValueError(f"every row has a mark for each output: row 0 has {len(marks[0])}, and row {uneven} {len(marks[uneven])}")
        columns = tuple(zip(*marks))
        named = names_from("x", n) if inputs is None else _names(inputs)
        return cls(
            columns,
            named,
            names_from("y", len(columns)) if outputs is None else tuple(outputs),
            tuple(range(n)) if order is None else _order(order, named),
        )

    # Texts and files, as docs/FORMATS.md has them.

    @classmethod
    def from_path(cls, path: Union[str, os.PathLike[str]], kind: Optional[str] = None) -> Table:
        """From a file, whose ending tells its format, or which is of the kind that is named."""
        # It imports this module.
        from . import formats

        return formats.read_table(pathlib.Path(path), kind)

    @classmethod
    def from_drawing(cls, text: str) -> Table:
        """From a drawing."""
        return cls._from_text(drawing.read, text)

    def to_drawing(self) -> str:
        """The table as a drawing. As for all that follow, ValueError is raised where a name can't stand there."""
        return drawing.write(self)

    @classmethod
    def from_pla(cls, text: str) -> Table:
        """From a PLA, as espresso has it."""
        return cls._from_text(pla.read, text)

    def to_pla(self) -> str:
        """The table as a PLA of type fr."""
        return pla.write(self)

    @classmethod
    def from_csv(cls, text: str) -> Table:
        """From a spreadsheet's rows, with commas between."""
        return cls._from_text(sheet.read, text)

    def to_csv(self) -> str:
        """The table as a spreadsheet, with lines that end in CR LF."""
        return sheet.write(self)

    @classmethod
    def from_blif(cls, text: str) -> Table:
        """From a BLIF: what its model computes; free is what its .exdc says."""
        return cls._from_text(blif.read, text)

    @classmethod
    def _from_text(cls, read: Callable[[str, Optional[Faults]], Content], text: str) -> Table:
        """What a reader takes from a text. What isn't as it should be in it is warned of."""
        if not isinstance(text, str):
            raise TypeError(f"a text is wanted, not {bits.shown(text)}; from_path reads a file")
        faults = Faults()
        table = cls(*read(text, faults))
        faults.warn()
        return table

    @classmethod
    def from_file(cls, data: bytes) -> Table:
        """From a table file, which has no names."""
        return cls(*table_file.read(bits.octets(data)))

    def to_file(self) -> bytes:
        """The table file, which has no names."""
        return table_file.write(self)


def described(kind: str, inputs: Sequence[str], outputs: Sequence[str], order: Sequence[int], held: str) -> str:
    """A table or a network on one line, with what it holds."""
    names = harmless(" ".join(inputs[number] for number in order))
    places = f", in the order {names}" if inputs else ""
    return f"<{kind} of {many(len(inputs), 'input')}, {many(len(outputs), 'output')}: {held}{places}>"


# What is given, as it is held.


def _row(number: int, row: Any) -> list[Any]:
    """A row's marks, those of text as they are held; whether the others are marks is asked of each output."""
    marks = list(row) if isinstance(row, Iterable) else [row]
    for output, mark in enumerate(marks):
        if isinstance(mark, str):
            if mark not in MARKS:
                raise _no_mark(output, number, mark, "0, 1 or -")
            marks[output] = MARKS[mark]
    return marks


def _column(output: int, marks: Iterable[Any]) -> tuple[Mark, ...]:
    """An output's marks."""
    held: list[Mark] = []
    for row, mark in enumerate(marks):
        try:
            held.append(None if mark is None else bits.plain(mark))
        except ValueError:
            raise _no_mark(output, row, mark, "0, 1 or None") from None
    return tuple(held)


def _no_mark(output: int, row: int, mark: object, marks: str) -> ValueError:
    return ValueError(f"output {output}, row {row}: {bits.shown(mark)} is no mark, which is {marks}")


def _names(given: Iterable[Any]) -> tuple[str, ...]:
    """The names of the inputs or of the outputs."""
    names = tuple(given)
    for name in names:
        if not isinstance(name, str):
            raise ValueError(f"a name is text, not {bits.shown(name)}")
    if len(set(names)) != len(names):
        raise ValueError("no two inputs and no two outputs have the same name")
    return names


def _order(given: Iterable[Any], inputs: Sequence[str]) -> tuple[int, ...]:
    """The input of each place, from its number or its name."""
    held = [_input_of(each, inputs) for each in given]
    order = tuple(number for number in held if number is not None)
    if len(order) != len(held) or sorted(order) != list(range(len(inputs))):
        raise ValueError("the order has each input once")
    return order


def _input_of(given: Any, inputs: Sequence[str]) -> Optional[int]:
    """An input's number; None for whatever is no input."""
    if isinstance(given, str):
        return inputs.index(given) if given in inputs else None
    return bits.integer(given)
