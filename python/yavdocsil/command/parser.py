"""The words of the command, and the options that each takes."""

from __future__ import annotations

import argparse
from collections.abc import Callable
from typing import Any, Optional

from .. import __version__, formats
from ..network import NO_LIMIT
from . import by_rows, checking, comparing, completion, networks, telling
from .files import PROGRAM, STANDARD, path_of
from .options import number_to, with_board, with_file, with_format, with_order, with_other, with_out, with_rows, with_sifting

# Does what a word says, and answers the exit status if it isn't 0.
Does = Callable[[argparse.Namespace], Optional[int]]
# Adds a word with what it does, and what is said of it.
AddWord = Callable[[str, Does, str], argparse.ArgumentParser]


class Intermixed(argparse.ArgumentParser):
    """A parser that takes a list of rows or places behind options as well as before them.

    Behind `--` nothing is an option, which argparse heeds only where it doesn't mix the two.
    """

    inside = False

    def parse_known_args(self, *args: Any, **named: Any) -> Any:
        if self.inside or "--" in args[0]:
            return super().parse_known_args(*args, **named)
        self.inside = True
        try:
            return self.parse_known_intermixed_args(*args, **named)
        finally:
            self.inside = False


def parser() -> argparse.ArgumentParser:
    about_all = "Smallest selector networks of truth tables with don't-cares."
    whole = argparse.ArgumentParser(prog=PROGRAM, allow_abbrev=False, description=about_all)
    whole.add_argument("--version", action="version", version=f"{PROGRAM} {__version__}")
    words = whole.add_subparsers(dest="word", required=True, metavar="WORD", parser_class=Intermixed)

    def reading(name: str, does: Does, about: str) -> argparse.ArgumentParser:
        made = words.add_parser(name, allow_abbrev=False, help=about, description=f"{about[0].upper()}{about[1:]}.")
        made.set_defaults(does=does)
        with_file(made)
        return made

    def word(name: str, does: Does, about: str) -> argparse.ArgumentParser:
        made = reading(name, does, about)
        with_order(made)
        with_sifting(made)
        with_board(made)
        return made

    of_tables(word)
    of_networks(word)
    of_rows(word)
    of_two(reading)
    made = words.add_parser("completion", help="write what makes a shell complete this command", description="Write a shell's completions.")
    made.add_argument("shell", metavar="SHELL", choices=completion.SHELLS, help=f"one of {', '.join(completion.SHELLS)}")
    made.set_defaults(does=lambda given: networks.put_text(completion.script(given.shell, parser(), PROGRAM)), file=STANDARD)
    return whole


def of_tables(word: AddWord) -> None:
    made = word("convert", networks.convert, "write a table in another format, or its network as a file, a picture or an export")
    made.add_argument("out", metavar="OUT", type=path_of, help="the file to write, its format by the ending; - for standard output")
    with_format(made, formats.CONVERTED_ENDINGS)
    word("check", checking.check, "tell every error of a file, or what its table and its network come to")
    word("info", telling.info, "tell the inputs, the outputs, the order, the care and the cells")
    word("order", telling.order, "tell the order of the places and the cells it takes")
    word("moves", telling.moves, "tell what moving each input to each place would bring")


def of_networks(word: AddWord) -> None:
    made = word("show", networks.show, "draw the network")
    with_format(made, formats.PICTURE_ENDINGS, networks.PICTURES)
    made.add_argument(
        "--output", dest="shown", metavar="NAME", action="append", default=[],
        help="draw what this output needs alone; several are drawn together",
    )
    with_out(made, "that too without one")
    made = word("export", networks.export, "write the network for other tools")
    with_format(made, formats.EXPORT_ENDINGS, networks.EXPORTS)
    with_out(made, "that too without one")
    made = word("swap", networks.swap, "exchange neighbouring places in the network's cells, with no build")
    made.add_argument(
        "places", metavar="PLACE", nargs="+",
        help="the upper place's number, 0 for the top one, or both inputs as a,b; several are exchanged in the sequence given",
    )
    with_format(made, formats.NETWORK_ENDINGS)
    with_out(made, "without one, none is written")


def of_rows(word: AddWord) -> None:
    made = word("evaluate", by_rows.evaluate, "tell the outputs at rows")
    with_rows(made, "without any, every row")
    made = word("log", by_rows.log, "care for the rows that were seen often enough, and for no others")
    with_rows(made, "as often as it was seen")
    made.add_argument(
        "--least", metavar="R", type=number_to(NO_LIMIT), default=1, help="how often is enough, 1 if not said; with 0 every row is cared",
    )
    with_format(made, formats.LOGGED_ENDINGS)
    with_out(made, "without one, none is written")


def of_two(word: AddWord) -> None:
    """The word that compares: there is nothing to sift for it, and no board to fit."""
    made = word("same", comparing.same, "tell whether two files' networks are the same, or else where they differ")
    with_other(made)
    with_order(made, "; it is for both, by the names of FILE")
