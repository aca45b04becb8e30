"""The pages of the project, and where they are."""

import pathlib

ROOT = pathlib.Path(__file__).resolve().parent.parent.parent


def pages():
    """Every page, by its name from the checkout's folder."""
    found = [ROOT / "README.md", *sorted((ROOT / "docs").glob("*.md")), ROOT / "tests" / "README.md", ROOT / "bench" / "README.md"]
    return {path.relative_to(ROOT).as_posix(): path for path in found}


def lines_of(path):
    return path.read_text(encoding="utf-8").splitlines()
