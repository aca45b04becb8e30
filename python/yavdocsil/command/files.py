"""Files of the command, standard streams among them: what is read and written, and errors told with the file that they are about."""

from __future__ import annotations

import argparse
import contextlib
import os
import pathlib
import shutil
import sys
from collections.abc import Iterator, Mapping
from typing import BinaryIO, NamedTuple, Optional

from .. import formats
from ..display import harmless
from ..errors import Error, Faults, Malformed, NotBuilt
from ..network import Network

PROGRAM = "yav"
STANDARD = pathlib.Path("-")
CLOSED = "it is closed"


class BadWord(Error):
    """A word of the command line doesn't fit the table, or the other words."""


class NoStream(Error):
    """A standard stream can't be used as it is asked for."""


class InFile(Error):
    """An error, told with the file that it is about."""


# What is told of files.


def path_of(word: str) -> pathlib.Path:
    """The file that a word names. `-` alone is a standard stream, and `./-` a file of that name."""
    if not word:
        raise argparse.ArgumentTypeError("the file's name is empty")
    path = pathlib.Path(word)
    return path.absolute() if path == STANDARD and word != str(STANDARD) else path


def called(path: pathlib.Path, standard: str) -> str:
    """A file as a person knows it; `-` is a standard stream."""
    return f"standard {standard}" if path == STANDARD else str(path)


@contextlib.contextmanager
def about(file: str) -> Iterator[None]:
    """What goes wrong inside is told of this file."""
    try:
        yield
    except (BrokenPipeError, InFile, NotBuilt):
        raise
    except (Error, OSError, ValueError) as error:
        raise InFile(told(error, file)) from error


def told(error: Exception, file: str) -> str:
    """An error as one line for a person, with the file and the place in it."""
    if isinstance(error, Malformed):
        column = f":{error.column}" if error.column else ""
        return f"{file}:{error.line}{column}: {error.reason}"
    return f"{file}: {error.strerror or error}" if isinstance(error, OSError) else f"{file}: {error}"


def warn_of(error: object) -> None:
    """Tells something on standard error, in one line. Where that can't be written, what is done goes on all the same."""
    if sys.stderr is not None:
        with contextlib.suppress(OSError):
            print(f"{PROGRAM}: {harmless(str(error))}", file=sys.stderr, flush=True)


# Reading.


class Source(NamedTuple):
    """A file to read, the format that is named for it, if any, and the option that names one."""

    path: pathlib.Path
    named: Optional[str]
    option: str

    @property
    def called(self) -> str:
        return called(self.path, "input")


def first_of(given: argparse.Namespace) -> Source:
    """The file that a command begins with."""
    return Source(given.file, given.read_as, "--from")


def bytes_of(path: pathlib.Path) -> bytes:
    """A file's bytes, or all that standard input has."""
    if path != STANDARD:
        return path.read_bytes()
    if sys.stdin is None:
        raise NoStream(CLOSED)
    return sys.stdin.buffer.read()


def kind_in(source: Source) -> str:
    """The format of the file to read."""
    if source.path == STANDARD and source.named is None:
        known = ", ".join(formats.names_in(formats.READ_ENDINGS))
        raise NoStream(f"it has no ending that tells its format; {source.option} names one of {known}")
    return formats.read_as(source.path, source.named, source.option)


def network_in(source: Source, faults: Faults) -> Network:
    """The network of a file; what is odd about the file is told."""
    try:
        with about(source.called):
            return formats.network_from(bytes_of(source.path), kind_in(source), faults)
    finally:
        for note in faults.notes:
            warn_of(f"{told(note, source.called)} (it is taken as it is)")


def name_of(given: argparse.Namespace) -> str:
    """What a picture or an export of the file is called."""
    return "network" if given.file == STANDARD else str(given.file.stem)


# Writing.


def output() -> BinaryIO:
    """Standard output, for bytes."""
    if sys.stdout is None:
        raise NoStream(CLOSED)
    sys.stdout.flush()
    return sys.stdout.buffer


def flushed() -> None:
    """Writes what is still to be written, so that what goes wrong with it is told."""
    if sys.stdout is not None:
        with about("standard output"):
            sys.stdout.flush()


def let_go() -> None:
    """Gives up what can't be written any more, so that nothing is said of it when the program ends."""
    for stream in (sys.stdout, sys.stderr):
        try:
            if stream is not None:
                stream.flush()
        except OSError:
            nowhere = os.open(os.devnull, os.O_WRONLY)
            os.dup2(nowhere, stream.fileno())
            os.close(nowhere)


def tell(*lines: str, beside: bool = False) -> None:
    """Tells lines to a person, on standard output, or on standard error where a file is written there."""
    name, stream = ("standard error", sys.stderr) if beside else ("standard output", sys.stdout)
    with about(name):
        if stream is None:
            raise NoStream(CLOSED)
        print(*(harmless(line).rstrip() for line in lines), sep="\n", file=stream)


def kind_out(given: argparse.Namespace, endings: Mapping[str, str], usual: Optional[str] = None) -> str:
    """The format to write, by the file's name or an option's. It is asked before the work is done."""
    out = given.out or STANDARD
    with about(called(out, "output")):
        if out == STANDARD:
            kind: Optional[str] = given.write_as or usual
            if kind is None:
                raise NoStream(f"it has no ending that tells a format; --to names one of {', '.join(given.formats)}")
            return kind
        kind = formats.written_as(out, given.write_as, endings, given.formats)
        check_not_lost(given.file, out, kind)
        return kind


def check_not_lost(read: pathlib.Path, out: pathlib.Path, kind: str) -> None:
    """Raises where a text would be written over the file that is read: what else stands in that, or the table itself, would be lost."""
    if kind not in formats.BINARY and read != STANDARD and out.exists() and read.exists() and out.samefile(read):
        raise BadWord("it is the file that is read, and what stands in it would be lost; name another")


def kind_beside(given: argparse.Namespace, endings: Mapping[str, str]) -> Optional[str]:
    """The same of a file that is written beside what is told; none where no file is to be written."""
    if given.out is not None:
        return kind_out(given, endings)
    if given.write_as is not None:
        raise InFile(f"--to {given.write_as}: there is no file to write; -o names one")
    return None


def write_out(data: bytes, kind: str, out: Optional[pathlib.Path]) -> None:
    """Writes to a file, or to standard output where none is named or it is `-`."""
    with about(called(out or STANDARD, "output")):
        if out is not None and out != STANDARD:
            put_file(data, out)
            return
        stream = output()
        if kind in formats.BINARY and stream.isatty():
            raise NoStream("it is a terminal, and this is no text; name a file, or write it on into one")
        stream.write(data)
        stream.flush()


def put_file(data: bytes, out: pathlib.Path) -> None:
    """Writes a file whole: what stood there stays until all is written, and of what can't be nothing is left."""
    path = out.resolve()
    if path.exists() and not path.is_file():
        # A device or a pipe has no content to keep.
        path.write_bytes(data)
        return
    beside = path.with_name(f".{path.name}.{os.getpid()}")
    try:
        beside.write_bytes(data)
        if path.exists():
            shutil.copymode(path, beside)
        beside.replace(path)
    finally:
        beside.unlink(missing_ok=True)


def save(network: Network, kind: str, given: argparse.Namespace) -> None:
    """Writes a table or a network in a format, to the file that is named."""
    with about(called(given.out or STANDARD, "output")):
        write_out(formats.written(network, kind, name_of(given)), kind, given.out)
