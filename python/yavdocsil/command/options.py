"""The options that words of the command share, and what they ask of a network."""

from __future__ import annotations

import argparse
import contextlib
import pathlib
import sys
from collections.abc import Callable, Iterable, Iterator, Mapping, Sequence
from typing import Optional

from .. import formats
from ..display import many
from ..errors import Faults
from ..library import MOST_BOARD
from ..network import NO_LIMIT, Network, Progress
from ..reading import encoding, rows
from .files import STANDARD, BadWord, InFile, about, bytes_of, called, first_of, network_in, path_of, warn_of

# A pass of fewer inputs is over before a line could be read.
LONG_PASS = 8
# How far to sift: a pass under a limit of orders, or passes until one brings nothing.
TO_REST = -1


# The options.


def with_file(parser: argparse.ArgumentParser) -> None:
    parser.add_argument(
        "file", metavar="FILE", type=path_of, help="a drawing, PLA, CSV, BLIF, table file or network file; - for standard input",
    )
    parser.add_argument(
        "--from", dest="read_as", choices=formats.names_in(formats.READ_ENDINGS), help="the file's format, if its ending doesn't tell",
    )


def with_other(parser: argparse.ArgumentParser) -> None:
    """A second file, beside the one that a command begins with."""
    parser.add_argument("other", metavar="OTHER", type=path_of, help="another such file, to be compared with it; - for standard input")
    parser.add_argument(
        "--other-from", dest="other_read_as", choices=formats.names_in(formats.READ_ENDINGS),
        help="the other file's format, if its ending doesn't tell",
    )


def with_order(parser: argparse.ArgumentParser, beside: str = "") -> None:
    parser.add_argument(
        "--order", metavar="NAMES", help=f"the order to take: every input once, the top place's first, with commas between{beside}",
    )


def with_sifting(parser: argparse.ArgumentParser) -> None:
    """The options that look for an order, in the sequence in which they do so."""
    parser.add_argument(
        "--sift-input", dest="inputs", metavar="NAME", action="append", default=[],
        help="sift one input, after --order; several are sifted in the sequence given",
    )
    sifted = parser.add_mutually_exclusive_group()
    sifted.add_argument("--sift", dest="limit", action="store_const", const=NO_LIMIT, help="sift each input once, after --sift-input")
    sifted.add_argument(
        "--sift-to-rest", dest="limit", action="store_const", const=TO_REST, help="the same, again and again until it brings nothing",
    )
    sifted.add_argument("--pass", dest="limit", metavar="LIMIT", type=number_to(NO_LIMIT), help="once, under a limit of orders tried")


def with_board(parser: argparse.ArgumentParser) -> None:
    parser.add_argument(
        "--board", metavar="N", type=number_to(MOST_BOARD),
        help="the cells of the board; a network that takes more is refused, with 23",
    )


def with_rows(parser: argparse.ArgumentParser, without: str) -> None:
    parser.add_argument("rows", metavar="ROW", nargs="*", help=f"a row's bits, input 0 first; {without}")
    parser.add_argument(
        "--rows", dest="files", metavar="FILE", type=path_of, action="append", default=[],
        help="a file with a row a line, - for standard input; several are taken one after the other",
    )


def with_out(parser: argparse.ArgumentParser, otherwise: str) -> None:
    parser.add_argument(
        "-o", dest="out", metavar="OUT", type=path_of,
        help=f"the file to write, its format by the ending, - for standard output; {otherwise}",
    )


def with_format(parser: argparse.ArgumentParser, endings: Mapping[str, str], flags: Iterable[str] = ()) -> None:
    """The option that names a format to write, and for some formats one of its own."""
    group = parser.add_mutually_exclusive_group()
    names = dict.fromkeys([*flags, *formats.names_in(endings)])
    for name in flags:
        group.add_argument(f"--{name}", dest="write_as", action="store_const", const=name, help=f"the same as --to {name}")
    group.add_argument("--to", dest="write_as", choices=tuple(names), help="the format to write, if no ending tells")
    parser.set_defaults(formats=tuple(names))


def number_to(most: int) -> Callable[[str], int]:
    """Reads a number from 0 to the most there may be."""

    def number(word: str) -> int:
        if not (word.isascii() and word.isdigit() and len(word) <= len(str(most)) and int(word) <= most):
            raise argparse.ArgumentTypeError(f"{word!r} is no number from 0 to {most}")
        return int(word)

    return number


# What they ask.


def prepared(given: argparse.Namespace) -> Network:
    """The file's network in the order asked for, and on the board."""
    return on_board(sifted(ordered(given), given), given)


def ordered(given: argparse.Namespace, faults: Optional[Faults] = None) -> Network:
    """The file's network, in the order given."""
    network = network_in(first_of(given), faults or Faults())
    if given.order is not None:
        network.reorder(order_named(given.order, network.inputs))
    return network


def order_named(text: str, inputs: Sequence[str]) -> list[str]:
    """The inputs that an order names. Commas are between them, or blanks, since a name may have either in it."""
    names = text.replace(",", " ").split()
    for read in ([name.strip() for name in text.split(",")], text.split()):
        if sorted(read) == sorted(inputs):
            return read
    wrong = [f"there is no input {name}" for name in dict.fromkeys(names) if name not in inputs]
    wrong += [f"{name} stands more than once" for name in inputs if names.count(name) > 1]
    missing = [name for name in inputs if name not in names]
    if missing:
        wrong.append(f"{' '.join(missing)} missing")
    if wrong:
        raise BadWord(f"--order {text}: {', '.join(wrong)}")
    return names


def sifted(network: Network, given: argparse.Namespace) -> Network:
    """The network sifted as far as asked: the inputs that are named, then a pass, or passes to rest."""
    for name in given.inputs:
        network.sift(name)
    if given.limit is not None:
        with progress_of(network) as progress:
            if given.limit == TO_REST:
                passes = network.sift_to_rest(progress)
            else:
                network.sift_all(given.limit, progress)
    if given.limit == TO_REST:
        cells = ", ".join([*map(str, passes[:-1]), many(passes[-1], "cell")])
        warn_of(f"sifted to rest in {len(passes)} pass{'' if len(passes) == 1 else 'es'}: {cells}")
    return network


@contextlib.contextmanager
def progress_of(network: Network) -> Iterator[Optional[Progress]]:
    """Tells, on one line of a terminal, how far a long pass is."""
    n = len(network.inputs)
    if n < LONG_PASS or sys.stderr is None or not sys.stderr.isatty():
        yield None
        return
    try:
        yield lambda turn, cells: print(f"\rsifted {turn} of {n} inputs, {cells} cells ", end="", file=sys.stderr, flush=True)
    finally:
        print(file=sys.stderr)


def on_board(network: Network, given: argparse.Namespace) -> Network:
    """The network on the board; without one, as it is."""
    return network if given.board is None else network.on_board(given.board)


def check_read_once(*read: pathlib.Path) -> None:
    """Raises where standard input is to be read twice. It is asked before anything is read."""
    if read.count(STANDARD) > 1:
        raise InFile("standard input: it can be read only once, and - names it twice")


def rows_given(given: argparse.Namespace, inputs: Sequence[str]) -> list[list[int]]:
    """A list of rows for the command line, if some stand there, and one for each file."""
    lists = [[rows.row_of(word, inputs) for word in given.rows]] if given.rows else []
    for path in given.files:
        with about(called(path, "input")):
            lists.append(rows.read(encoding.decoded(bytes_of(path)), inputs))
    return lists
