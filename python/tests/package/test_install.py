"""The wheel and the prefix: what is installed, that it works from anywhere with its own library, and that it goes away again.

The library has to be built. Nothing is fetched: pip is told to use no index.
"""

import base64
import hashlib
import os
import pathlib
import re
import shutil
import subprocess
import sys
import tempfile
import unittest
import zipfile

from tests.places import ROOT

BACKEND = "python/packaging/backend.py"
CROSSED = ROOT / "examples" / "and-or-crossed.txt"
SHARED = [
    "share/bash-completion/completions/yav",
    "share/fish/vendor_completions.d/yav.fish",
    "share/man/man1/yav.1",
    "share/zsh/site-functions/_yav",
]
# Builds a network, and tells the cells and the files of the library that are open.
BUILDING = """
import yavdocsil
network = yavdocsil.Network(yavdocsil.Table.from_drawing("a | y\\n0 | 1\\n1 | 0\\n"))
print(network.build(), *sorted({line.split()[-1] for line in open("/proc/self/maps") if "libyavdocsil" in line}))
"""


def clean(**others):
    """The environment without what would lead to the checkout."""
    named = {name: value for name, value in os.environ.items() if not name.startswith(("PYTHON", "YAVDOCSIL", "PIP_", "DESTDIR"))}
    return {**named, **others}


def said(*command, cwd=ROOT, **others):
    """What a program writes that goes well."""
    run = subprocess.run([str(word) for word in command], cwd=cwd, env=clean(**others), capture_output=True, text=True)
    if run.returncode != 0:
        raise AssertionError(f"{command}: {run.returncode}\n{run.stdout}{run.stderr}")
    return run.stdout


def refused(*command, cwd=ROOT, **others):
    """The status of a program that doesn't, and what it writes on standard error."""
    run = subprocess.run([str(word) for word in command], cwd=cwd, env=clean(**others), capture_output=True, text=True)
    return run.returncode, run.stdout, run.stderr


def wheel_in(folder):
    """The wheel made in a folder, as ./build does."""
    return folder / said(sys.executable, BACKEND, folder, PYTHONPATH="python").strip()


def files_in(folder):
    """Every file below a folder with its content's digest, and every link with where it leads."""
    found = [path for path in sorted(folder.rglob("*")) if path.is_symlink() or path.is_file()]
    kept = [f"-> {os.readlink(path)}" if path.is_symlink() else digest(path.read_bytes()) for path in found]
    return {path.relative_to(folder).as_posix(): each for path, each in zip(found, kept)}


def digest(content):
    return base64.urlsafe_b64encode(hashlib.sha256(content).digest()).decode("ascii").rstrip("=")


def version():
    return re.search(r'^__version__ = "(.*)"$', (ROOT / "python/yavdocsil/__init__.py").read_text(encoding="utf-8"), re.MULTILINE)[1]


def setUpModule():
    """The wheel that several tests look at: the one that YAVDOCSIL_WHEEL names, as the gate does with the built one, or one made here."""
    global WHEEL
    if "YAVDOCSIL_WHEEL" in os.environ:
        WHEEL = ROOT / os.environ["YAVDOCSIL_WHEEL"]
        return
    folder = tempfile.TemporaryDirectory()
    unittest.addModuleCleanup(folder.cleanup)
    WHEEL = wheel_in(pathlib.Path(folder.name))


class WithFolder(unittest.TestCase):
    """Tests that share a folder."""

    @classmethod
    def setUpClass(cls):
        folder = tempfile.TemporaryDirectory()
        cls.addClassCleanup(folder.cleanup)
        cls.folder = pathlib.Path(folder.name).resolve()


class Wheel(WithFolder):
    @classmethod
    def setUpClass(cls):
        super().setUpClass()
        with zipfile.ZipFile(WHEEL) as opened:
            cls.entries = opened.infolist()
            cls.files = {entry.filename: opened.read(entry) for entry in cls.entries}
        cls.about = f"yavdocsil-{version()}.dist-info"

    def test_name(self):
        self.assertRegex(WHEEL.name, rf"^yavdocsil-{re.escape(version())}-py3-none-[a-z0-9_]+\.whl$")

    def test_package(self):
        """Every module, the mark for type checkers and the library; nothing that Python or an editor left."""
        package = ROOT / "python" / "yavdocsil"
        modules = [path.relative_to(package.parent).as_posix() for path in package.rglob("*.py")]
        held = [name for name in self.files if name.startswith("yavdocsil/")]
        self.assertEqual(sorted(held), sorted([*modules, "yavdocsil/py.typed", "yavdocsil/libyavdocsil.so"]))
        self.assertEqual(self.files["yavdocsil/libyavdocsil.so"], (ROOT / "target/lib/libyavdocsil.so").read_bytes())

    def test_shared_files(self):
        data = f"yavdocsil-{version()}.data/data/"
        self.assertEqual([name[len(data):] for name in self.files if name.startswith(data)], SHARED)

    def test_record(self):
        """RECORD has each file's digest and length, and stands last."""
        lines = [line.split(",") for line in self.files[f"{self.about}/RECORD"].decode("utf-8").splitlines()]
        self.assertEqual([line[0] for line in lines], list(self.files))
        self.assertEqual(lines.pop(), [f"{self.about}/RECORD", "", ""])
        for name, kept, length in lines:
            self.assertEqual((kept, length), (f"sha256={digest(self.files[name])}", str(len(self.files[name]))), name)

    def test_same_again(self):
        self.assertEqual({entry.date_time for entry in self.entries}, {(1980, 1, 1, 0, 0, 0)})
        self.assertEqual(list(self.files)[:-1], sorted(list(self.files)[:-1]))
        self.assertEqual(wheel_in(self.folder).read_bytes(), WHEEL.read_bytes())

    def test_description(self):
        heading, text = self.files[f"{self.about}/METADATA"].decode("utf-8").split("\n\n", 1)
        fields = dict(line.split(": ", 1) for line in heading.splitlines())
        self.assertEqual((fields["Name"], fields["Version"], fields["Requires-Python"]), ("yavdocsil", version(), ">=3.9"))
        self.assertEqual(text, (ROOT / "README.md").read_text(encoding="utf-8"))
        self.assertEqual(self.files[f"{self.about}/entry_points.txt"], b"[console_scripts]\nyav = yavdocsil.command:main\n")

    @unittest.skipIf(sys.version_info < (3, 11), "Python has no reader of TOML")
    def test_description_is_that_of_the_project(self):
        import tomllib

        project = tomllib.loads((ROOT / "pyproject.toml").read_text(encoding="utf-8"))["project"]
        self.assertIn(f"\nSummary: {project['description']}\n", self.files[f"{self.about}/METADATA"].decode("utf-8"))
        self.assertEqual((project["scripts"], project["dynamic"]), ({"yav": "yavdocsil.command:main"}, ["version"]))
        self.assertNotIn("version", project)


class Installed(WithFolder):
    """In a virtual environment of its own; pip is the one outside, told to install there."""

    @classmethod
    def setUpClass(cls):
        super().setUpClass()
        cls.home, cls.elsewhere = cls.folder / "home", cls.folder / "elsewhere"
        said(sys.executable, "-m", "venv", "--without-pip", cls.home)
        cls.elsewhere.mkdir()
        cls.before = files_in(cls.home)

    def pip(self, *words):
        return said(sys.executable, "-m", "pip", "--python", self.home / "bin" / "python", "--disable-pip-version-check", *words)

    def here(self, *command):
        """A program of the environment, run where nothing of the checkout is."""
        return said(self.home / "bin" / command[0], *command[1:], cwd=self.elsewhere)

    def test_the_wheel_and_nothing_after_it(self):
        self.pip("install", "--no-index", "--no-deps", WHEEL)
        self.assertEqual(self.here("yav", "--version"), f"yav {version()}\n")
        self.assertEqual(self.here("yav", "order", CROSSED, "--sift"), "4 cells in the order b a c d\n")
        package = pathlib.Path(self.here("python", "-c", "import yavdocsil; print(yavdocsil.__path__[0])").strip())
        self.assertTrue(package.is_relative_to(self.home), package)
        self.assertEqual(self.here("python", "-c", BUILDING), f"1 {package / 'libyavdocsil.so'}\n")
        self.assertLessEqual({*SHARED, "bin/yav"}, set(files_in(self.home)))

        self.pip("uninstall", "--yes", "yavdocsil")
        self.assertEqual(files_in(self.home), self.before)


class Pip(WithFolder):
    def test_checkout(self):
        """pip makes of the checkout the very wheel that ./build makes."""
        said(sys.executable, "-m", "pip", "wheel", "--no-index", "--no-deps", "--disable-pip-version-check", "-w", self.folder, ROOT)
        self.assertEqual(files_in(self.folder), {WHEEL.name: digest(WHEEL.read_bytes())})


class Prefix(WithFolder):
    @classmethod
    def setUpClass(cls):
        super().setUpClass()
        cls.prefix = cls.folder / "a prefix"
        cls.said = said(ROOT / "install", cls.prefix)

    def test_it_tells_every_file(self):
        told = self.said.splitlines()
        self.assertEqual(told[0], f"installed under {self.prefix}:")
        names = [line.split(" -> ")[0].strip() for line in told[1:]]
        package = next(name for name in names if name.startswith("lib/yavdocsil/yavdocsil/ ("))
        modules = [name for name, kept in files_in(self.prefix).items() if name.startswith("lib/yavdocsil/") and not kept.startswith("->")]
        self.assertEqual(package, f"lib/yavdocsil/yavdocsil/ ({len(modules)} files)")
        self.assertEqual(sorted(set(names) - {package}), sorted(set(files_in(self.prefix)) - set(modules)))
        self.assertLessEqual({*SHARED, "bin/yav", "include/yavdocsil.h", "lib/pkgconfig/yavdocsil.pc", "lib/libyavdocsil.a"}, set(names))

    def test_links(self):
        self.assertEqual({name: kept for name, kept in files_in(self.prefix).items() if kept.startswith("->")}, {
            "lib/libyavdocsil.so": "-> libyavdocsil.so.1",
            "lib/libyavdocsil.so.1": f"-> libyavdocsil.so.{version()}",
            "lib/yavdocsil/yavdocsil/libyavdocsil.so": "-> ../../libyavdocsil.so.1",
        })

    def test_twice_is_the_same(self):
        """And a module that an older version had is gone, and its library, but not one that is asked for by another name."""
        (self.prefix / "lib/libyavdocsil.so.0.9.0").write_text("", encoding="utf-8")
        self.addCleanup((self.prefix / "lib/libyavdocsil.so.0.9.0").unlink)
        before = files_in(self.prefix)
        for older in ("lib/yavdocsil/yavdocsil/older.py", "lib/libyavdocsil.so.1.0.0"):
            (self.prefix / older).write_text("", encoding="utf-8")
        self.assertEqual(said(ROOT / "install", self.prefix), self.said)
        self.assertEqual(files_in(self.prefix), before)

    def test_it_can_be_moved(self):
        """The command is called by a link, where a module of its name would be taken for Python's if the working folder were looked in."""
        moved, elsewhere = self.folder / "moved", self.folder / "elsewhere"
        shutil.copytree(self.prefix, moved, symlinks=True)
        elsewhere.mkdir()
        (elsewhere / "argparse.py").write_text("raise SystemExit('taken from the working folder')", encoding="utf-8")
        (elsewhere / "linked").symlink_to(moved / "bin" / "yav")
        self.assertEqual(said(elsewhere / "linked", "order", CROSSED, "--sift", cwd=elsewhere), "4 cells in the order b a c d\n")
        self.assertEqual(said(elsewhere / "linked", "--version", cwd=elsewhere), f"yav {version()}\n")

    def test_destdir(self):
        """The prefix itself is not touched, and it is what the pkg-config file has. It lies in the folder, lest a slip reach the system."""
        stage, prefix = self.folder / "stage", self.folder / "to be"
        put = pathlib.Path(f"{stage}{prefix}")
        self.assertIn(f"installed under {put}:\n", said(ROOT / "install", prefix, DESTDIR=str(stage)))
        self.assertEqual(set(files_in(put)), set(files_in(self.prefix)))
        self.assertFalse(prefix.exists())
        page = (put / "lib/pkgconfig/yavdocsil.pc").read_text(encoding="utf-8")
        self.assertEqual(page.splitlines()[0], f"prefix={self.folder}/to\\ be")

    def test_everyone_can_read_it(self):
        """Whatever the one who installs keeps to themselves."""
        prefix = self.folder / "private"
        said("bash", "-c", 'umask 077; exec ./install "$0"', prefix)
        for path in (prefix, *prefix.rglob("*")):
            self.assertEqual(path.stat().st_mode & 0o055, 0o055 if path.is_dir() else path.stat().st_mode & 0o011 | 0o044, path)

    def test_usage(self):
        usage = "usage: ./install PREFIX, where PREFIX is a folder, as /usr/local; DESTDIR, if set, stands before it\n"
        for words in ((), ("a", "b"), ("--help",)):
            self.assertEqual(refused(ROOT / "install", *words, cwd=self.folder), (2, "", usage))

    def test_where_nothing_can_be_put(self):
        path = self.folder / "file"
        path.write_text("", encoding="utf-8")
        status, printed, told = refused(ROOT / "install", path)
        self.assertEqual((status, printed), (1, ""))
        self.assertEqual(told, f"install: {path}: File exists\n")


class NotBuilt(WithFolder):
    """A checkout without a library."""

    @classmethod
    def setUpClass(cls):
        super().setUpClass()
        cls.copy = cls.folder / "checkout"
        for name in ("python", "include", "docs"):
            shutil.copytree(ROOT / name, cls.copy / name, ignore=shutil.ignore_patterns("__pycache__", "tests", ".mypy_cache"))
        for name in ("install", "yav", "pyproject.toml", "README.md"):
            shutil.copy(ROOT / name, cls.copy / name)

    def missing(self, name):
        return 1, "", f"nothing is built: {self.copy}/target/lib/{name} isn't there; ./build makes it\n"

    def test_wheel(self):
        path = str(self.copy / "python")
        wanted = self.missing("libyavdocsil.so")
        self.assertEqual(refused(sys.executable, self.copy / BACKEND, self.folder, PYTHONPATH=path), wanted)

    def test_prefix(self):
        prefix = self.folder / "prefix"
        self.assertEqual(refused(self.copy / "install", prefix), self.missing(f"libyavdocsil.so.{version()}"))
        self.assertFalse(prefix.exists())
