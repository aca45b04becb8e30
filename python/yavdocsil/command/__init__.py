"""The command: reads tables and networks, and shows, checks, converts, sifts, swaps, evaluates, logs and compares them."""

from __future__ import annotations

import io
import sys
from collections.abc import Sequence
from typing import Optional

from ..errors import Error
from .files import about, called, flushed, let_go, warn_of
from .parser import parser

# The exit status where something is refused or can't be read, and those of a program that a signal ends, as a shell counts them.
REFUSED, INTERRUPTED, BROKEN_PIPE = 1, 130, 141


def main(words: Optional[Sequence[str]] = None) -> int:
    """Does what the words say, and gives the exit status."""
    for stream in (sys.stdout, sys.stderr):
        # A terminal that can't show a sign is given its number. A stream that is closed is none at all.
        if isinstance(stream, io.TextIOWrapper):
            stream.reconfigure(errors="backslashreplace")
    try:
        status = done(words)
        flushed()
    except BrokenPipeError:
        # Who reads has read enough, and is told nothing, as other filters do.
        status = BROKEN_PIPE
    except KeyboardInterrupt:
        status = INTERRUPTED
    except Error as error:
        warn_of(error)
        status = REFUSED
    let_go()
    return status


def done(words: Optional[Sequence[str]]) -> int:
    """The same, with errors raised, each told with the file that it is about."""
    try:
        given = parser().parse_args(words)
    except SystemExit as end:
        # Help and version are told, or what is wrong with the words.
        return int(end.code or 0)
    with about(called(given.file, "input")):
        return int(given.does(given) or 0)
