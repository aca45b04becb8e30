"""Makes the wheel, for pip and for ./build: a PEP 517 backend of the standard library alone.

    PYTHONPATH=python python3 python/packaging/backend.py FOLDER

writes the wheel into a folder. The same files give the same wheel: names are sorted, and every time is the first there is.
"""

from __future__ import annotations

import base64
import hashlib
import pathlib
import re
import sys
import sysconfig
import zipfile
from collections.abc import Mapping
from typing import Any, NoReturn, Optional

from contents import SHARED, built, package_files, shared_files
from version import ROOT, version

FIRST_TIME = (1980, 1, 1, 0, 0, 0)
ORDINARY, EXECUTABLE = 0o100644, 0o100755


class UnsupportedOperation(Exception):
    """What PEP 517 has for a distribution that can't be made."""


# The hooks.


def build_wheel(wheel_directory: str, config_settings: Any = None, metadata_directory: Optional[str] = None) -> str:
    """The wheel with the package, and the library in it."""
    library = {f"yavdocsil/{SHARED.name}": built(SHARED).read_bytes()}
    return write(pathlib.Path(wheel_directory), {**package_files(), **library})


def build_sdist(sdist_directory: str, config_settings: Any = None) -> NoReturn:
    raise UnsupportedOperation("the library is proved and built by ./build, from the whole checkout; there is only a wheel")


# The wheel.


def write(folder: pathlib.Path, files: Mapping[str, bytes]) -> str:
    """Writes the wheel of these files, and of what every wheel has; gives its name."""
    stem, tag = f"yavdocsil-{version()}", f"py3-none-{platform()}"
    whole = dict(files)
    whole.update({f"{stem}.data/data/{name}": content for name, content in shared_files().items()})
    whole.update({f"{stem}.dist-info/{name}": text.encode("utf-8") for name, text in described(tag).items()})
    record = f"{stem}.dist-info/RECORD"
    lines = [f"{name},sha256={digest(content)},{len(content)}\n" for name, content in sorted(whole.items())]
    name = f"{stem}-{tag}.whl"
    folder.mkdir(parents=True, exist_ok=True)
    with zipfile.ZipFile(folder / name, "w", zipfile.ZIP_DEFLATED) as wheel:
        for path, content in [*sorted(whole.items()), (record, "".join([*lines, f"{record},,\n"]).encode("utf-8"))]:
            wheel.writestr(entry(path), content)
    return name


def entry(path: str) -> zipfile.ZipInfo:
    made = zipfile.ZipInfo(path, FIRST_TIME)
    made.compress_type, made.create_system = zipfile.ZIP_DEFLATED, 3
    made.external_attr = (EXECUTABLE if path.endswith(".so") else ORDINARY) << 16
    return made


def digest(content: bytes) -> str:
    return base64.urlsafe_b64encode(hashlib.sha256(content).digest()).rstrip(b"=").decode("ascii")


def platform() -> str:
    """The machine as wheels name it: the library is of its kind."""
    return re.sub(r"[-.]", "_", sysconfig.get_platform())


def described(tag: str) -> dict[str, str]:
    """The files about the wheel, by what pyproject.toml says of the project."""
    text = (ROOT / "pyproject.toml").read_text(encoding="utf-8")
    said = dict(re.findall(r'^([\w-]+) = "(.*)"$', text, re.MULTILINE))
    heading = {
        "Metadata-Version": "2.1", "Name": said["name"], "Version": version(), "Summary": said["description"],
        "Requires-Python": said["requires-python"], "Description-Content-Type": "text/markdown; charset=UTF-8",
    }
    lines = [f"{key}: {value}\n" for key, value in heading.items()]
    return {
        "METADATA": "".join([*lines, "\n", (ROOT / said["readme"]).read_text(encoding="utf-8")]),
        "WHEEL": f"Wheel-Version: 1.0\nGenerator: yavdocsil ({version()})\nRoot-Is-Purelib: false\nTag: {tag}\n",
        "entry_points.txt": f"[console_scripts]\nyav = {said['yav']}\n",
    }


if __name__ == "__main__":
    print(build_wheel(sys.argv[1]))
