"""A network over the library: a table is lent, its order sifted, its cells built, evaluated, filed and swapped."""

from __future__ import annotations

import copy
import ctypes
import functools
import operator
import os
import pathlib
from collections import Counter
from collections.abc import Callable, Iterable, Mapping, Sequence
from typing import Any, Optional, SupportsIndex, TypeVar, Union, cast

from . import bits, comparison, pictures
from .diagram import Cell, Diagram
from .display import many
from .errors import NO_ROW, Refused
from .exports import blif, verilog
from .library import (
    BLOCK_BYTES, BLOCK_CELLS, COUNT, FILE_BYTES, INPUTS, MOST_CELLS, NETWORK, ORDER, OUTPUTS, STAGE, TABLE,
    Buffers, buffer,
)
from .pictures import dot, svg
from .reading import names_from
from .reading.rows import row_of
from .table import Table, described

NO_LIMIT = 2**32 - 1
MOST_ROW = 2**16 - 1

# A row: its number, its bits as text, or the bit of each input by name.
Row = Union[SupportsIndex, str, Mapping[str, SupportsIndex]]
# Told after each sift of a pass: how many there were, and the cells now.
Progress = Callable[[int, int], None]


Method = TypeVar("Method", bound=Callable[..., Any])


def alone(method: Method) -> Method:
    """A method that makes several calls, or reads what one leaves, with no other thread's between."""

    @functools.wraps(method)
    def held(self: Network, *arguments: Any, **named: Any) -> Any:
        with self._lent.lock:
            return method(self, *arguments, **named)

    return cast(Method, held)


class Network:
    """A table at the library, and its network once it is built.

    It is the library that builds, sifts, swaps, evaluates and logs. What is refused is raised as `Refused`, with the papers' number,
    and changes nothing. Copies, shallow ones too, and pickles have buffers of their own. Threads may share a network: each method has it
    to itself, and others wait; to work at once, give each thread a copy.
    """

    def __init__(self, table: Table, board: SupportsIndex = MOST_CELLS) -> None:
        if not isinstance(table, Table):
            raise TypeError(f"a network is of a Table, not of {bits.shown(table)}; Network.from_path reads a file")
        self.inputs, self.outputs = table.inputs, table.outputs
        self._lent = Buffers(board)
        self._lent.call("load", file=buffer("file", table.to_file()))

    @classmethod
    def from_file(cls, data: bytes, board: SupportsIndex = MOST_CELLS) -> Network:
        """From a network file, which has no names; every row is cared."""
        self = cls.__new__(cls)
        self._lent = Buffers(board)
        self._lent.call("read_cells", file=buffer("file", bits.octets(data)))
        state = self._lent.state
        self.inputs, self.outputs = names_from("x", state[INPUTS]), names_from("y", state[OUTPUTS])
        return self

    @classmethod
    def from_path(cls, path: Union[str, os.PathLike[str]], kind: Optional[str] = None, board: SupportsIndex = MOST_CELLS) -> Network:
        """From a file of any kind, told by its ending or named. Of a network file the network is held, of any other its table."""
        # It imports this module.
        from . import formats

        return formats.read(pathlib.Path(path), kind, board)

    def __copy__(self) -> Network:
        return copy.deepcopy(self)

    # What is held.

    def __repr__(self) -> str:
        """Short, and no more than what is held: nothing is built for it."""
        lent = vars(self).get("_lent")
        if lent is None or lent.state[STAGE] not in (TABLE, NETWORK):
            return "<Network without a table>"
        held = many(lent.state[COUNT], "cell") if self.is_built else "not built"
        return described("Network", self.inputs, self.outputs, self.order, held)

    def _repr_svg_(self) -> Optional[str]:
        """The picture for a notebook, of a copy, so that looking at a network changes nothing.

        There is none where it couldn't be read for its many cells, or where the board has too few: the notebook shows the words then.
        """
        try:
            diagram = copy.copy(self).diagram
        except Refused:
            return None
        return svg.write(diagram) if len(diagram.cells) <= pictures.MOST_READABLE else None

    @property
    def order(self) -> tuple[int, ...]:
        """The input at each place, the top place first."""
        return tuple(self._lent.state[ORDER : ORDER + len(self.inputs)])

    @property
    def is_built(self) -> bool:
        """Whether a network is held."""
        return int(self._lent.state[STAGE]) == NETWORK

    @property
    @alone
    def cells(self) -> tuple[Cell, ...]:
        """The cells of the network held; none where none is."""
        held = self._lent.cells
        return tuple(Cell(i + 1, *held[3 * i : 3 * i + 3]) for i in range(self._lent.state[COUNT]))

    @property
    @alone
    def roots(self) -> tuple[int, ...]:
        """Each output's reference; none where no network is held."""
        return tuple(self._lent.roots[: len(self.outputs)]) if self.is_built else ()

    @property
    @alone
    def diagram(self) -> Diagram:
        """The network held, for pictures and exports; it is built where none is."""
        if not self.is_built:
            self.build()
        return Diagram(self.inputs, self.outputs, self.order, self.cells, self.roots)

    @property
    @alone
    def table(self) -> Table:
        """The table held, with its present care and order."""
        return Table(self._lent.columns, self.inputs, self.outputs, self.order)

    @property
    @alone
    def seen(self) -> tuple[int, ...]:
        """How often each row was logged."""
        return tuple(self._lent.counts[: 2 ** len(self.inputs)])

    @property
    def board(self) -> int:
        """The cells of the board that networks are built on."""
        return self._lent.board

    def on_board(self, board: SupportsIndex) -> Network:
        """A copy, with the network built on a board of so many cells."""
        other = copy.copy(self)
        other._lent.take_board(board)
        other.build()
        return other

    # Compared with another.

    def is_same(self, other: Network) -> bool:
        """Whether both networks have the same cells and roots, which is whether both give the same at every row.

        Each is the network held, or else the one that a build gives, whatever the board; nothing changes in either. Inputs and outputs go
        by position, and names don't matter. ValueError is raised where their numbers differ, or the orders.
        """
        return comparison.are_same(*self._compared_with(other))

    def difference(self, other: Network) -> Optional[comparison.Difference]:
        """The first row at which both networks give other bits, the first output there, and the bits, this network's first.

        It is None where they are the same. What is compared, and what can't be, is as in `is_same`.
        """
        return next(comparison.differences(*self._compared_with(other)), None)

    def _compared_with(self, other: Network) -> tuple[Network, Network]:
        """Both as copies that are built. Each has its lock only while it is copied, so two threads can't wait for each other."""
        if not isinstance(other, Network):
            raise TypeError(f"a network is compared with a Network, not with {bits.shown(other)}")
        pair = self._settled(), other._settled()
        comparison.check_comparable(*pair)
        return pair

    def _settled(self) -> Network:
        """A copy with the network held; where none is, it is built on a board that is large enough for every one."""
        settled = copy.copy(self)
        return settled if settled.is_built else settled.on_board(MOST_CELLS)

    # The calls.

    def cared(self) -> int:
        """The number of marks that are not free."""
        return self._lent.call("cared")

    def count(self) -> int:
        """The cells that the table's network takes under the present order."""
        return self._lent.call("count")

    def build(self) -> int:
        """Builds the smallest network of the table, and answers its cells."""
        return self._lent.call("build")

    def sift(self, variable: Union[SupportsIndex, str]) -> int:
        """Moves one input to its best place, and answers the cells there."""
        return self._lent.call("sift", input=self._number(variable))

    @alone
    def sift_all(self, limit: SupportsIndex = NO_LIMIT, progress: Optional[Progress] = None) -> int:
        """Sifts each input once, as far as a limit of orders allows, and answers the orders tried.

        It is one pass of the library. Only where `progress` is to be told, after each sift, how many there were and the cells now, the
        library sifts input by input, and which comes next is chosen here as the papers say; order and answer are those of the pass.
        """
        n, orders = len(self.inputs), operator.index(limit)
        turns = min(n, orders // n) if n else 0
        if progress is None or turns < 1:
            return self._lent.call("pass", limit=min(orders, NO_LIMIT))
        unsifted = list(range(n))
        for turn in range(1, turns + 1):
            chosen = self._most_asked(unsifted)
            unsifted.remove(chosen)
            progress(turn, self.sift(chosen))
        return n * turns

    def _most_asked(self, variables: Sequence[int]) -> int:
        """The input that most cells ask under the present order; of several the first."""
        own, order = self._lent.built_apart(), self.order
        cells = Counter(own.cells[: 3 * own.state[COUNT] : 3])
        return max(variables, key=lambda variable: cells[order.index(variable)])

    @alone
    def sift_to_rest(self, progress: Optional[Progress] = None) -> list[int]:
        """Sifts each input once, again and again until that brings nothing, and answers the cells after each pass.

        The last two are equal then, unless the first pass brings nothing. A pass that brings nothing moves nothing, so the order is that
        of the last which saved cells. `progress` is told as in `sift_all`, from 1 in each pass.
        """
        cells = [self.count()]
        while len(cells) < 2 or cells[-1] < cells[-2]:
            self.sift_all(progress=progress)
            cells.append(self.count())
        return cells[1:]

    @alone
    def reorder(self, order: Iterable[Union[SupportsIndex, str]]) -> None:
        """Puts the inputs in an order, the top place's first, by exchanges of neighbours; where it is the present one, nothing changes."""
        wanted = [self._number(variable) for variable in order]
        if sorted(wanted) != list(range(len(self.inputs))):
            raise ValueError("the order has each input once")
        for place, variable in enumerate(wanted):
            self._raise_to(place, variable)

    def _raise_to(self, place: int, variable: int) -> None:
        """Moves an input up to a place, those between down by one."""
        for upper in reversed(range(place, self.order.index(variable))):
            self.swap(upper)

    def swap(self, place: SupportsIndex) -> None:
        """Exchanges a place and the next in the order; the table is held then, and no network."""
        self._lent.call("swap", place=place)

    def swap_cells(self, place: SupportsIndex) -> None:
        """The same in the cells of the network held, which stays held."""
        self._lent.call("swap_cells", place=place)

    def moves(self) -> list[list[int]]:
        """For each input, the cells with it at each place minus the cells now."""
        n = len(self.inputs)
        gains = buffer("gains", n * n)
        self._lent.call("moves", gains=gains)
        return [list(gains[n * variable : n * (variable + 1)]) for variable in range(n)]

    def evaluate(self, rows: Iterable[Row]) -> list[tuple[int, ...]]:
        """Each output at each row, from the network held.

        A row is its number, its bits as text, input 0 first, or a mapping with the bit of each input by name: of the inputs a, b and c,
        6, "110" and {"a": 1, "b": 1, "c": 0} are the same.
        """
        lent = self._lent_rows(rows)
        answers = buffer("answers", len(lent))
        self._lent.call("evaluate_rows", rows=lent, answers=answers)
        return [tuple(answer >> output & 1 for output in range(len(self.outputs))) for answer in answers]

    def outputs_at(self, row: Row) -> dict[str, int]:
        """Each output's bit at one row, by name: `network.outputs_at({"a": 1, "b": 0})["lamp"]`. The row is as in `evaluate`."""
        return dict(zip(self.outputs, self.evaluate([row])[0]))

    def log(self, rows: Iterable[Row], least: SupportsIndex = 1) -> None:
        """Logs rows that were seen, which are given as in `evaluate`.

        Those seen at least so often, over all logs, are cared from then on, and all others free.
        """
        self._lent.call("log_rows", rows=self._lent_rows(rows), least=least)

    # The network, written.

    @alone
    def to_file(self) -> bytes:
        """The network file of the network held."""
        file = buffer("file", FILE_BYTES)
        self._lent.call("write_cells", file=file)
        return bytes(file[: BLOCK_BYTES * (1 + -(-self._lent.state[COUNT] // BLOCK_CELLS))])

    def to_svg(self, title: str = "") -> str:
        """The picture as an SVG. As for all that follow, the network is built where none is held."""
        return svg.write(self.diagram, title)

    def to_dot(self, title: str = "") -> str:
        """The graph for Graphviz."""
        return dot.write(self.diagram, title)

    def to_blif(self, name: str = "network") -> str:
        """The network as a BLIF model of that name."""
        return blif.write(self.diagram, name)

    def to_verilog(self, name: str = "network") -> str:
        """The network as a Verilog module of that name."""
        return verilog.write(self.diagram, name)

    # What is given, as it is lent.

    def _number(self, variable: Union[SupportsIndex, str]) -> int:
        """An input by its number or its name."""
        return _named(variable, self.inputs) if isinstance(variable, str) else operator.index(variable)

    def _lent_rows(self, rows: Iterable[Row]) -> ctypes.Array[Any]:
        """Rows in 16 bits; a number that doesn't fit is no row of any table."""
        if isinstance(rows, (str, Mapping)):
            raise TypeError("rows are a list; one row alone is a list of one")
        numbers = [_row_number(row, self.inputs) for row in rows]
        if not all(0 <= number <= MOST_ROW for number in numbers):
            raise Refused(NO_ROW)
        return buffer("rows", numbers)


def _named(name: str, inputs: Sequence[str]) -> int:
    """The number of the input of that name."""
    if name not in inputs:
        raise ValueError(f"there is no input {name}; there are {' '.join(inputs) or 'none'}")
    return inputs.index(name)


def _row_number(row: Row, inputs: Sequence[str]) -> int:
    """A row's number, in which input 0 is the most significant bit."""
    # A log has many of these, so they are asked for first.
    if isinstance(row, int):
        return row
    if isinstance(row, str):
        return row_of(row, inputs)
    if isinstance(row, Mapping):
        return _by_names(row, inputs)
    return operator.index(row)


def _by_names(row: Mapping[str, SupportsIndex], inputs: Sequence[str]) -> int:
    """The number of a row that has each input's bit by its name."""
    number, n = 0, len(inputs)
    for name, bit in row.items():
        place = _named(name, inputs)
        try:
            number |= bits.plain(bit) << n - 1 - place
        except ValueError as error:
            raise ValueError(f"input {name}: {error}") from None
    missing = [name for name in inputs if name not in row]
    if missing:
        raise ValueError(f"not every input has a bit: {' '.join(missing)} missing")
    return number
