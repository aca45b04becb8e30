"""The version, read from the package without importing it. As a program it prints it."""

from __future__ import annotations

import pathlib
import re

ROOT = pathlib.Path(__file__).resolve().parent.parent.parent
PACKAGE = ROOT / "python" / "yavdocsil"


def version() -> str:
    found = re.search(r'^__version__ = "(.+)"$', (PACKAGE / "__init__.py").read_text(encoding="utf-8"), re.MULTILINE)
    if found is None:
        raise SystemExit(f"{PACKAGE / '__init__.py'} has no line __version__ = \"..\"")
    return found[1]


if __name__ == "__main__":
    print(version())
