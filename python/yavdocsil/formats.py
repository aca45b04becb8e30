"""The files that are read and written, told by their endings or by name: tables, networks, pictures and exports."""

from __future__ import annotations

import contextlib
import pathlib
from collections.abc import Callable, Iterable, Iterator, Mapping
from typing import Optional, SupportsIndex, Union

from .diagram import Diagram
from .errors import Error, Faults, Malformed
from .exports import blif, verilog
from .library import MOST_CELLS
from .network import Network
from .pictures import dot, summary, svg, text
from .reading import Content, drawing, encoding, pla, sheet
from .reading import blif as read_blif
from .table import Table

DRAWING, PLA, CSV, BLIF, TABLE, CELLS = "drawing", "pla", "csv", "blif", "table", "cells"
SVG, DOT, TEXT, SUMMARY, VERILOG = "svg", "dot", "text", "summary", "verilog"

TEXT_READERS: dict[str, Callable[[str, Optional[Faults]], Content]] = {
    DRAWING: drawing.read, PLA: pla.read, CSV: sheet.read, BLIF: read_blif.read,
}
TABLE_WRITERS: dict[str, Callable[[Table], Union[str, bytes]]] = {
    DRAWING: Table.to_drawing, PLA: Table.to_pla, CSV: Table.to_csv, TABLE: Table.to_file,
}
# Those of a network that have a title, or a name.
NAMED_WRITERS: dict[str, Callable[[Diagram, str], str]] = {SVG: svg.write, DOT: dot.write, BLIF: blif.write, VERILOG: verilog.write}
# Those that are lines of a width, for a person to read.
LINE_WRITERS: dict[str, Callable[[Diagram, int], str]] = {TEXT: text.write, SUMMARY: summary.write}
BINARY = (TABLE, CELLS)
USUAL_WIDTH = 80

TABLE_ENDINGS = {".txt": DRAWING, ".drawing": DRAWING, ".pla": PLA, ".csv": CSV, ".table": TABLE}
EXPORT_ENDINGS = {".blif": BLIF, ".v": VERILOG, ".sv": VERILOG}
DRAWN_ENDINGS = {".svg": SVG, ".dot": DOT, ".gv": DOT}
READ_ENDINGS = {**TABLE_ENDINGS, ".blif": BLIF, ".cells": CELLS}
PICTURE_ENDINGS = {**DRAWN_ENDINGS, ".txt": TEXT}
NETWORK_ENDINGS = {".cells": CELLS, **DRAWN_ENDINGS, **EXPORT_ENDINGS}
CONVERTED_ENDINGS = {**TABLE_ENDINGS, **NETWORK_ENDINGS}
LOGGED_ENDINGS = {**TABLE_ENDINGS, ".cells": CELLS}
# Files of spreadsheet programs that aren't CSV.
SPREADSHEETS = frozenset(".xls .xlsx .ods".split())
# Endings that promise what nothing here writes, whatever format is named.
FOREIGN_ENDINGS = SPREADSHEETS | frozenset(
    ".png .jpg .jpeg .gif .bmp .tif .tiff .webp .pdf .ps .eps .html .htm .md .json .xml .doc .docx .odt .aig .vhd .vhdl".split()
)


class UnknownFormat(Error, ValueError):
    """A file's ending tells no format and none was named, or the two contradict each other."""


def names_in(endings: Mapping[str, str]) -> tuple[str, ...]:
    """The formats that endings tell, each once."""
    return tuple(dict.fromkeys(endings.values()))


def read_as(path: pathlib.PurePath, named: Optional[str] = None, option: str = "kind") -> str:
    """The format to read a file in: the one that is named, by an option that an error speaks of, or else the one that its ending tells."""
    names = names_in(READ_ENDINGS)
    if named is None:
        return _told_by(path, READ_ENDINGS, names, option)
    if named not in names:
        raise UnknownFormat(f"{named} can't be read; known are {', '.join(names)}")
    return named


def written_as(path: pathlib.PurePath, named: Optional[str], endings: Mapping[str, str], names: Iterable[str]) -> str:
    """The format to write a file in, one of those named. One that is asked for has to fit the ending, if that tells any."""
    if named is None:
        return _told_by(path, endings, names, "--to")
    suffix = path.suffix.lower()
    told = endings.get(suffix) or CONVERTED_ENDINGS.get(suffix)
    if told not in (None, named) and (told, named) != (TEXT, SUMMARY):
        raise UnknownFormat(f"its ending tells {told}, and {named} is asked for")
    if suffix in FOREIGN_ENDINGS:
        raise UnknownFormat(f"a {suffix} can't be written, and {named} is asked for")
    return named


def _told_by(path: pathlib.PurePath, endings: Mapping[str, str], names: Iterable[str], option: str) -> str:
    """The format that a file's ending tells, in whatever case it is written."""
    suffix = path.suffix.lower()
    if suffix in endings:
        return endings[suffix]
    wrong = "a format that can't be had here" if suffix in {**READ_ENDINGS, **CONVERTED_ENDINGS} else "no format"
    advice = f"known are {', '.join(endings)}; or {option} names one of {', '.join(names)}"
    saved = f"a {suffix} has to be saved as CSV; " if suffix in SPREADSHEETS else ""
    raise UnknownFormat(f"its ending tells {wrong}: {saved}{advice}")


# Reading.


def table_from(data: bytes, kind: str, faults: Optional[Faults] = None) -> Table:
    """The table that a file's bytes hold, in a format; of a network file it is what its cells compute."""
    if kind == TABLE:
        return Table.from_file(data)
    if kind == CELLS:
        return Network.from_file(data).table
    return Table(*TEXT_READERS[kind](encoding.decoded(data), faults))


def network_from(data: bytes, kind: str, faults: Optional[Faults] = None, board: SupportsIndex = MOST_CELLS) -> Network:
    """The same at the library. Of a network file the network is held."""
    return Network.from_file(data, board) if kind == CELLS else Network(table_from(data, kind, faults), board)


def read_table(path: pathlib.Path, named: Optional[str] = None) -> Table:
    """A file's table."""
    faults = Faults()
    with _told_of(path):
        table = table_from(path.read_bytes(), read_as(path, named), faults)
    faults.warn(str(path))
    return table


def read(path: pathlib.Path, named: Optional[str] = None, board: SupportsIndex = MOST_CELLS) -> Network:
    """A file's table at the library; of a network file the network is held, and its table has every row cared."""
    faults = Faults()
    with _told_of(path):
        network = network_from(path.read_bytes(), read_as(path, named), faults, board)
    faults.warn(str(path))
    return network


@contextlib.contextmanager
def _told_of(path: pathlib.Path) -> Iterator[None]:
    """What is wrong with a file is told with its name."""
    try:
        yield
    except Malformed as error:
        raise error.of(str(path)) from None
    except (UnknownFormat, encoding.NotText) as error:
        raise type(error)(f"{path}: {error}") from None


# Writing.


def written(network: Network, kind: str, name: str = "network", width: int = USUAL_WIDTH) -> bytes:
    """What is to be written in a format: the table held, or else the network, which is built where none is held."""
    if kind in TABLE_WRITERS:
        return encoded(TABLE_WRITERS[kind](network.table))
    if kind == CELLS:
        if not network.is_built:
            network.build()
        return network.to_file()
    return encoded(drawn(network.diagram, kind, name, width))


def drawn(diagram: Diagram, kind: str, name: str, width: int = USUAL_WIDTH) -> str:
    """A network as a picture or an export."""
    return LINE_WRITERS[kind](diagram, width) if kind in LINE_WRITERS else NAMED_WRITERS[kind](diagram, name)


def encoded(content: Union[str, bytes]) -> bytes:
    return content.encode("utf-8") if isinstance(content, str) else content
