"""The words that write tables and networks: convert, show, export and swap."""

from __future__ import annotations

import argparse
import re
import shutil

from .. import formats
from ..diagram import Diagram
from ..display import many
from ..errors import Refused
from ..network import Network
from ..pictures import MOST_READABLE
from .files import STANDARD, BadWord, kind_beside, kind_out, name_of, save, tell, warn_of, write_out
from .options import prepared

PICTURES = (formats.SVG, formats.DOT, formats.TEXT, formats.SUMMARY)
EXPORTS = (formats.BLIF, formats.VERILOG)
# No table has such a place.
NO_PLACE = 10**9


def convert(given: argparse.Namespace) -> None:
    kind = kind_out(given, formats.CONVERTED_ENDINGS)
    save(prepared(given), kind, given)


def export(given: argparse.Namespace) -> None:
    kind = kind_out(given, formats.EXPORT_ENDINGS)
    save(prepared(given), kind, given)


def show(given: argparse.Namespace) -> None:
    """Draws the network, or what some outputs need of it. Lines for a person go as wide as the terminal is."""
    kind = kind_out(given, formats.PICTURE_ENDINGS, formats.TEXT)
    diagram = prepared(given).diagram
    if given.shown:
        diagram = diagram.only(given.shown)
    to_output = given.out in (None, STANDARD)
    width = shutil.get_terminal_size().columns if to_output else formats.USUAL_WIDTH
    picture = formats.drawn(diagram, kind, name_of(given), width)
    if to_output and kind in formats.LINE_WRITERS:
        tell(*picture.splitlines())
    else:
        write_out(formats.encoded(picture), kind, given.out)
    if kind not in formats.LINE_WRITERS:
        warn_of_size(diagram, picture)


def warn_of_size(diagram: Diagram, picture: str) -> None:
    """Says of a picture that can't be read that it can't, and what can."""
    if len(diagram.cells) > MOST_READABLE:
        width = re.match(r'<svg [^>]*\bwidth="([0-9.]+)"', picture)
        pixels = f", {float(width[1]):,.0f} pixels wide," if width else ""
        warn_of(
            f"a picture of {len(diagram.cells):,} cells{pixels} is hard to read: --output NAME draws one output alone, "
            "--summary counts the cells of each place"
        )


def put_text(text: str) -> None:
    """Writes a text to standard output, as it stands."""
    write_out(formats.encoded(text), formats.TEXT, None)


def swap(given: argparse.Namespace) -> None:
    """Exchanges neighbours in the cells held, one pair after the other, and tells what it comes to each time."""
    kind = kind_beside(given, formats.NETWORK_ENDINGS)
    network = prepared(given)
    lines = [cells_held(network)]
    for word in given.places:
        swap_at(word, network)
        lines.append(cells_held(network))
    fresh = Network(network.table)
    if fresh.diagram != network.diagram:
        lines.append(f"built afresh in that order, the table gives other cells, {len(fresh.cells)} of them")
    if kind is not None:
        save(network, kind, given)
    tell(*lines, beside=given.out == STANDARD)


def cells_held(network: Network) -> str:
    return in_order(len(network.diagram.cells), network)


def in_order(cells: int, network: Network) -> str:
    """So many cells, and the order that takes them."""
    return f"{many(cells, 'cell')} {order_told(network)}"


def order_told(network: Network) -> str:
    return " ".join(["in the order", *(network.inputs[number] for number in network.order)])


def swap_at(word: str, network: Network) -> None:
    try:
        network.swap_cells(place_of(word, network))
    except Refused as error:
        raise BadWord(f"swap {word}: {error}") from error


def place_of(word: str, network: Network) -> int:
    """The upper one of two neighbouring places, from its number or from the names of both inputs with a comma between."""
    if word.isascii() and word.isdigit():
        # However long a number is, it is refused as one that is merely too large.
        digits = word.lstrip("0") or "0"
        return int(digits) if len(digits) < len(str(NO_PLACE)) else NO_PLACE
    names = [network.inputs[number] for number in network.order]
    for place, (upper, lower) in enumerate(zip(names, names[1:])):
        if word in (f"{upper},{lower}", f"{lower},{upper}"):
            return place
    order = " ".join(names)
    raise BadWord(f"swap {word}: it is no place's number, from 0, and not two neighbours of the order {order} with a comma between")
