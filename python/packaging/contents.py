"""What an installation has, as a wheel or under a prefix: the package, the library, the man page and the completions."""

from __future__ import annotations

import pathlib

from version import PACKAGE, ROOT
from yavdocsil.command.completion import script
from yavdocsil.command.files import PROGRAM
from yavdocsil.command.parser import parser

LIBRARIES = ROOT / "target" / "lib"
SHARED = LIBRARIES / "libyavdocsil.so"
STATIC = LIBRARIES / "libyavdocsil.a"
# Where each shell looks for the completion of a command.
COMPLETIONS = {
    "bash": "share/bash-completion/completions/yav",
    "zsh": "share/zsh/site-functions/_yav",
    "fish": "share/fish/vendor_completions.d/yav.fish",
}


def built(path: pathlib.Path) -> pathlib.Path:
    """A file that ./build makes. Where it isn't there, nothing is installed."""
    if not path.is_file():
        raise SystemExit(f"nothing is built: {path} isn't there; ./build makes it")
    return path


def package_files() -> dict[str, bytes]:
    """The package's modules, and its mark for type checkers, by their names from the folder above it."""
    found = [path for path in PACKAGE.rglob("*") if path.suffix == ".py" or path.name == "py.typed"]
    return {path.relative_to(PACKAGE.parent).as_posix(): path.read_bytes() for path in sorted(found)}


def shared_files() -> dict[str, bytes]:
    """The man page and the completions, by their names under a prefix."""
    files = {"share/man/man1/yav.1": (ROOT / "docs" / "yav.1").read_bytes()}
    files.update({name: script(shell, parser(), PROGRAM).encode("utf-8") for shell, name in COMPLETIONS.items()})
    return files
