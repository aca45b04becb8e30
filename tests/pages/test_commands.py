"""Every command that a page shows is run, and writes what is shown below it; programs in Python are run as well.

After ./build. The commands of a page are run one after the other, in a folder of
their own that looks like the checkout: what they write lies there, and the
checkout stays as it is. What can't be run there is named below, with what runs
it in the gate, or with why nothing does.
"""

import os
import pathlib
import re
import shutil
import subprocess
import sys
import tempfile
import unittest

from pages import shown, texts

# Commands that change the machine or take as long as the gate, and what runs them: a file, by its name, and a line that stands in it.
ELSEWHERE = {
    "./build": (".ci/run", "./build > "),
    "./install PREFIX": ("test_install.py", "class Prefix(WithFolder):"),
    "pip install target/wheel/yavdocsil-*.whl": ("test_install.py", "def test_the_wheel_and_nothing_after_it(self):"),
    "cc examples/sift.c $(pkg-config --cflags --libs yavdocsil)": ("test_interface.py", "def test_c_with_what_is_installed(self):"),
    "espresso guard.pla | yav export - --from pla --verilog": ("test_files.py", '"-", *more, "--from", "drawing"'),
}
# Commands that no test runs, and where a page says why: the gate itself, measurements, and packages of the system.
BY_HAND = {
    ".ci/run": ("README.md", "The gate proves"),
    "apt-get install berkeley-abc": ("bench/README.md", "no gate runs it"),
    "apt-get install libbdd-dev": ("bench/README.md", "no gate runs it"),
    "python3 bench/run.py": ("bench/README.md", "no gate runs it"),
    "target/rows": ("bench/README.md", "no gate runs it"),
    "target/canonical": ("bench/README.md", "no gate runs it"),
    "target/moves": ("bench/README.md", "no gate runs it"),
    "target/swaps": ("bench/README.md", "no gate runs it"),
    "target/builds BEFORE.so AFTER.so": ("bench/README.md", "no gate runs it"),
    "cc -O2 -DBUDDY bench/swaps.c -Iinclude target/lib/libyavdocsil.a -lbdd -lm -o target/swaps": ("bench/README.md", "no gate runs it"),
}
# Blocks that are neither transcripts nor programs: how each begins, and what it is.
TEXTS = {
    ("bench/README.md", "read_truth "): "a command of ABC, which bench/ttopt.py gives it",
    ("docs/LANDINGS.md", "  ABC: 8 left out"): "what tests/outside.py told at that landing",
    ("docs/LANDINGS.md", "  ABC, BLIF: 8 left out"): "what tests/outside.py told at that landing",
}
# Texts of a format, and the test that holds each to what is read and written.
FENCES = {
    "drawing": ("test_pla.py", 'self.example("drawing")'),
    "pla": ("test_pla.py", 'self.example("pla")'),
    "csv": ("test_sheet.py", "```csv"),
    "blif": ("test_blif.py", "```blif"),
    "rows": ("test_rows.py", "```rows"),
}
MANUAL = "docs/yav.1"
# What says on a page why a command ends with another status than 0: a refusal, an error told with its file, two files that differ.
REASON = re.compile(r"refused|^yav: \S+: |^different: ", re.MULTILINE)
# The longest that a command may take, in seconds.
LONGEST = 300


def stands(file, line):
    """Whether a line stands in a file, which is named by its path, or a test by its name alone."""
    path = texts.ROOT / file
    paths = [path] if path.exists() else [*texts.ROOT.glob(f"tests/**/{file}"), *texts.ROOT.glob(f"python/**/{file}")]
    return len(paths) == 1 and line in paths[0].read_text(encoding="utf-8")


def pages():
    """What each page shows, by its name."""
    found = {name: list(shown.shown_on(texts.lines_of(path))) for name, path in texts.pages().items()}
    found[MANUAL] = list(shown.shown_in_manual(texts.lines_of(texts.ROOT / MANUAL)))
    return found


def unknown(name, page):
    """What a page shows that is neither run nor named here."""
    wrong = []
    for each in page:
        if isinstance(each, shown.Other) and not any(name == other and each.text.startswith(begin) for other, begin in TEXTS):
            lines = [line.split("  ")[0] for line in each.text.splitlines() if line.strip()]
            wrong += [f"{name}:{each.line}: {line}" for line in lines if line not in ELSEWHERE and line not in BY_HAND]
        if isinstance(each, shown.Fence) and each.kind not in FENCES:
            wrong.append(f"{name}:{each.line}: {each.kind}")
    return wrong


class Folder:
    """A folder that looks like the checkout: the same files by links, but examples of its own, and what is built."""

    def __init__(self, path):
        self.path = path
        (path / "target").mkdir()
        for each in texts.ROOT.iterdir():
            if each.name == "examples":
                shutil.copytree(each, path / each.name)
            elif each.name not in ("target", ".git"):
                (path / each.name).symlink_to(each)
        for name in ("bin", "lib", "wheel"):
            (path / "target" / name).symlink_to(texts.ROOT / "target" / name)
        # The manual page calls the command by its name alone.
        (path / "target" / "path").mkdir()
        (path / "target" / "path" / "yav").symlink_to(texts.ROOT / "yav")

    def run(self, each):
        """What a command or a program writes, to standard output and then to standard error, and its status."""
        plain = {name: value for name, value in os.environ.items() if not name.startswith("PYTHON")}
        environment = {
            **plain, "COLUMNS": "80", "PYTHONDONTWRITEBYTECODE": "1",
            "PATH": f"{pathlib.Path(sys.executable).parent}:{self.path}/target/path:{os.environ['PATH']}",
        }
        if isinstance(each, shown.Program):
            words, environment["PYTHONPATH"] = [sys.executable, "-c", each.text], "python"
        else:
            words = ["bash", "-c", each.text]
        run = subprocess.run(words, cwd=self.path, env=environment, capture_output=True, encoding="utf-8", timeout=LONGEST)
        return run.stdout + run.stderr, run.returncode


def differences(name, page, folder):
    """Where a page shows something else than is written, or a command fails and what is shown doesn't say why."""
    wrong = []
    for each in page:
        if isinstance(each, (shown.Other, shown.Fence)) or each.text in ELSEWHERE or each.text in BY_HAND:
            continue
        written, status = folder.run(each)
        if written != each.writes:
            wrong.append(f"{name}:{each.line}: {each.text}\nshown:\n{each.writes}written:\n{written}")
        elif status != 0 and not REASON.search(written):
            wrong.append(f"{name}:{each.line}: {each.text}\nends with status {status}")
    return wrong


def held():
    """What lies in the checkout and could be changed by a command."""
    folders = [texts.ROOT, *(texts.ROOT / name for name in ("examples", "include", "docs", "bench", "python/yavdocsil"))]
    return {each: each.stat().st_mtime_ns for folder in folders for each in folder.iterdir() if each.is_file()}


class WithFolder(unittest.TestCase):
    def setUp(self):
        folder = tempfile.TemporaryDirectory()
        self.addCleanup(folder.cleanup)
        self.folder = Folder(pathlib.Path(folder.name))


class Pages(unittest.TestCase):
    def test_they_show_what_is_written(self):
        self.assertTrue((texts.ROOT / "target" / "lib" / "libyavdocsil.so").exists(), "nothing is built; ./build makes it")
        before = held()
        for name, page in pages().items():
            with self.subTest(page=name), tempfile.TemporaryDirectory() as folder:
                wrong = differences(name, page, Folder(pathlib.Path(folder)))
                if wrong:
                    self.fail("\n\n".join(wrong))
        self.assertEqual(held(), before)

    def test_everything_is_run_or_named(self):
        for name, page in pages().items():
            self.assertEqual(unknown(name, page), [])

    def test_there_are_commands_at_all(self):
        for name in ("README.md", "docs/COMMAND.md", "docs/LIBRARY.md", "bench/README.md", MANUAL):
            commands = [each for each in pages()[name] if isinstance(each, shown.Command)]
            self.assertGreater(len(commands), 3, name)
        self.assertEqual(sum(isinstance(each, shown.Program) for each in pages()["docs/LIBRARY.md"]), 1)


class Named(unittest.TestCase):
    """What is named here is shown on a page, and what runs it is there."""

    def test_lines_stand_where_they_are_said_to(self):
        for command, (file, line) in [*ELSEWHERE.items(), *BY_HAND.items(), *FENCES.items()]:
            with self.subTest(command=command):
                self.assertTrue(stands(file, line), f"{file} has no line with {line!r}")

    def test_nothing_is_named_in_vain(self):
        everything = [(name, each) for name, page in pages().items() for each in page]
        commands = {each.text for _, each in everything if isinstance(each, shown.Command)}
        self.assertEqual({*ELSEWHERE, *BY_HAND} - commands, set())
        for name, begin in TEXTS:
            others = [each for page, each in everything if page == name and isinstance(each, shown.Other)]
            self.assertTrue(any(each.text.startswith(begin) for each in others), begin)
        self.assertEqual({each.kind for _, each in everything if isinstance(each, shown.Fence)}, set(FENCES))


class Checked(WithFolder):
    """The test finds what it is to find."""

    def differing(self, text):
        return differences("page", list(shown.shown_on(text.splitlines())), self.folder)

    def test_what_is_right(self):
        self.assertEqual(self.differing("Text:\n\n    $ echo a; echo b >&2\n    a\n    b\n    $ true\n"), [])
        self.assertEqual(self.differing("    import os\n\n    print(os.path.exists('README.md'))\n\nIt prints:\n\n    True\n"), [])

    def test_what_is_written_otherwise(self):
        for text in ("    $ echo a\n    b\n", "    $ echo a\n", "    $ true\n    a\n", "    $ false\n", "    $ no-such-command\n"):
            self.assertEqual(len(self.differing(text)), 1, text)
        self.assertEqual(len(self.differing("    import os\n    print(1)\n\nIt prints:\n\n    2\n")), 1)
        self.assertEqual(len(self.differing("    import no_such_module\n")), 1)

    def test_a_refusal_may_end_with_a_status(self):
        self.assertEqual(self.differing("    $ echo refused 7; exit 1\n    refused 7\n"), [])

    def test_what_says_why_may_end_with_a_status(self):
        for said in ("refused 7", "yav: a.txt: it is no text", "different: first at this row"):
            self.assertEqual(self.differing(f"    $ echo {said}; exit 1\n    {said}\n"), [])
        for said in ("yav: sifted to rest in 1 pass: 4 cells", "they are different: so", "a.txt: it is no text"):
            self.assertEqual(len(self.differing(f"    $ echo {said}; exit 1\n    {said}\n")), 1, said)

    def test_what_is_not_named(self):
        for text, known in (("    ./build\n", True), ("    ./rebuild\n", False), ("```pla\n```\n", True), ("```c\n```\n", False)):
            self.assertEqual(unknown("page", list(shown.shown_on(text.splitlines()))) == [], known, text)
        listed = ["    ./build    proves and builds all", "    ./other    is nowhere named"]
        self.assertEqual(unknown("page", list(shown.shown_on(listed))), ["page:1: ./other"])

    def test_the_folder_is_apart(self):
        self.folder.run(shown.Command(1, "echo > examples/new; echo > new; echo > target/new", ""))
        for name in ("examples/new", "new", "target/new"):
            self.assertTrue((self.folder.path / name).exists())
            self.assertFalse((texts.ROOT / name).exists())

    def test_lines_that_stand_nowhere(self):
        self.assertFalse(stands(".ci/run", "no such line"))
        self.assertFalse(stands("test_of_nothing.py", ""))

    def test_a_manual_page(self):
        lines = [".nf", r"$ yav show a\-b.txt \-\-svg", "x", "$ yav", ".fi", "y"]
        self.assertEqual(
            list(shown.shown_in_manual(lines)), [shown.Command(2, "yav show a-b.txt --svg", "x\n"), shown.Command(4, "yav", "")]
        )


if __name__ == "__main__":
    unittest.main()
