"""Finding a tool and running it, and what is said of the networks that it took."""

from __future__ import annotations

import pathlib
import shutil
import subprocess
from collections.abc import Sequence
from typing import NamedTuple, Optional

SECONDS = 120


class Tool(NamedTuple):
    """A tool, what it may be called on the path, and the Debian package that has it."""

    name: str
    commands: tuple[str, ...]
    package: str


class Part(NamedTuple):
    """What a tool said: how many networks it took, how many broken ones it found, and the differences."""

    tool: str
    taken: int
    found: int
    differences: list[str]
    skipped: str = ""

    def __str__(self) -> str:
        if not self.taken and not self.differences:
            return f"{self.tool} not run"
        differences = f", differences: {len(self.differences)}" if self.differences else ""
        return f"{self.tool} {self.taken} (broken ones found: {self.found}{differences})"


def found(tool: Tool) -> Optional[str]:
    return next(filter(None, map(shutil.which, tool.commands)), None)


def run(command: Sequence[str], folder: pathlib.Path, given: str = "") -> subprocess.CompletedProcess:
    text = {"encoding": "utf-8", "errors": "replace"}
    return subprocess.run(command, input=given, cwd=folder, capture_output=True, timeout=SECONDS, **text)


def tail(done: subprocess.CompletedProcess) -> str:
    return f"status {done.returncode}: {(done.stdout + done.stderr).strip()[-300:]}"
