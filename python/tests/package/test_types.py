"""The package's types, by mypy where it is there."""

import shutil
import subprocess
import unittest

from tests.places import ROOT

MYPY = shutil.which("mypy")


@unittest.skipUnless(MYPY, "there is no mypy (package: mypy)")
class Types(unittest.TestCase):
    def test_they_are_strict(self):
        command = [MYPY, "--strict", "--cache-dir", str(ROOT / "target" / "mypy"), "-p", "yavdocsil"]
        run = subprocess.run(command, cwd=ROOT / "python", capture_output=True, text=True)
        self.assertEqual((run.returncode, run.stderr), (0, ""), run.stdout)
