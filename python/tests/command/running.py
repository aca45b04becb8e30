"""The command, run as a person calls it: what it writes, and what it refuses."""

import contextlib
import io
import os
import pathlib
import subprocess
import tempfile
import unittest
import unittest.mock

from tests.places import ROOT
from yavdocsil.command import main

# The environment of a person: nothing in it that says how Python writes, and a terminal of 80 columns.
PLAIN = {**{name: value for name, value in os.environ.items() if not name.startswith("PYTHON")}, "COLUMNS": "80"}
GUARD = "examples/bounce-guard.txt"
PAIRS = "examples/and-or.txt"
CROSSED = "examples/and-or-crossed.txt"


def yav(*words, given="", **environment):
    """The command in the checkout, with what is given on standard input, and in the environment."""
    command = [str(ROOT / "yav"), *map(str, words)]
    return subprocess.run(command, cwd=ROOT, capture_output=True, encoding="utf-8", input=given, env={**PLAIN, **environment})


def called(*words, given=""):
    """The same without a process of its own, for tests that call it often."""
    stdin, stdout, stderr = (io.TextIOWrapper(io.BytesIO(data), "utf-8") for data in (given.encode("utf-8"), b"", b""))
    before = os.getcwd()
    os.chdir(ROOT)
    try:
        with unittest.mock.patch("sys.stdin", stdin), unittest.mock.patch.dict(os.environ, {"COLUMNS": "80"}), \
                contextlib.redirect_stdout(stdout), contextlib.redirect_stderr(stderr):
            status = main([str(word) for word in words])
    finally:
        os.chdir(before)
    texts = []
    for stream in (stdout, stderr):
        stream.flush()
        texts.append(stream.buffer.getvalue().decode("utf-8"))
    return subprocess.CompletedProcess(words, status, *texts)


class WithFolder(unittest.TestCase):
    """Tests with a folder of their own. `run_by` is `yav` where a process is to be seen."""

    run_by = staticmethod(called)

    def setUp(self):
        folder = tempfile.TemporaryDirectory()
        self.addCleanup(folder.cleanup)
        self.folder = pathlib.Path(folder.name)

    def file(self, name, content):
        path = self.folder / name
        path.write_bytes(content.encode("utf-8") if isinstance(content, str) else content)
        return path

    def written(self, *words, given="", beside=""):
        """What a command writes to standard output, with this beside it on standard error."""
        run = self.run_by(*words, given=given)
        self.assertEqual((run.returncode, run.stderr), (0, beside))
        return run.stdout

    def refused(self, wanted, *words, given=""):
        """A message on one line, status 1, and no file written."""
        before = sorted(self.folder.iterdir())
        run = self.run_by(*words, given=given)
        self.assertEqual((run.returncode, run.stdout), (1, ""), run.stderr)
        self.assertEqual(run.stderr.count("\n"), 1, run.stderr)
        self.assertTrue(run.stderr.startswith("yav: "), run.stderr)
        self.assertIn(wanted, run.stderr)
        self.assertEqual(sorted(self.folder.iterdir()), before)

    def misused(self, wanted, *words):
        """The usage and what is wrong, status 2."""
        run = self.run_by(*words)
        self.assertEqual((run.returncode, run.stdout), (2, ""), run.stderr)
        self.assertTrue(run.stderr.startswith("usage: yav "), run.stderr)
        self.assertIn(wanted, run.stderr.splitlines()[-1])
