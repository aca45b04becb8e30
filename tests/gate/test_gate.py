"""What the gate ends with: .ci/run in a folder of its own, where rt, python3 and ./build only say what a test wants.

rt's lines are those of `rt ci`: the last is 'N passed, M failed', and before it, if
all is well, stands a line that begins with `rt: ok`, which counts the must-fail edits.
"""

import os
import pathlib
import shutil
import subprocess
import tempfile
import unittest

ROOT = pathlib.Path(__file__).resolve().parent.parent.parent
REFUSED = "53 refused"
WELL = "rt: lists proved\nrt: ok; handles allowed: none; must-fail edits: {}; every proof and must-fail edit was done in this run\n"
PASSED = "74 passed, 0 failed\n"
# Each stands in for a command: it writes down how it was called and in what folder, and fails where it is told to.
STAND_IN = """#!/bin/sh
echo "{name} $*" >> "$GATE/called"
case "{name} $*" in $FAILS) exit 3 ;; esac
"""
RT = STAND_IN.format(name="rt") + """
pwd > "$GATE/rt-where"
find . -type f | sort > "$GATE/rt-saw"
mkdir -p crates/print/out crates/cells/out
echo print > crates/print/out/print
echo cells > crates/cells/out/cells
cat "$GATE/said"
exit "$(cat "$GATE/status")"
"""
BUILD = STAND_IN.format(name="./build") + """
echo "what the build says"
mkdir -p target/bin target/wheel
echo $PRINT > target/bin/print
echo cells > target/bin/cells
"""
COMPARISONS = ("outside.compare", "programs.compare", "calls.compare")


class Gate(unittest.TestCase):
    def setUp(self):
        folder = tempfile.TemporaryDirectory()
        self.addCleanup(folder.cleanup)
        self.top, self.notes = pathlib.Path(folder.name) / "checkout", pathlib.Path(folder.name) / "notes"
        self.notes.mkdir()
        for name in ("tests/gate/test_early.py", "tests/late/test_late.py", "crates/print/src/main.rt", "crates.txt"):
            self.put(name, "")
        (self.top / ".ci").mkdir()
        shutil.copy(ROOT / ".ci" / "run", self.top / ".ci" / "run")
        self.put("build", BUILD)
        for name, text in (("rt", RT), ("python3", STAND_IN.format(name="python3"))):
            self.put(self.notes / "bin" / name, text)
        self.before = sorted(f"./{path.relative_to(self.top)}" for path in self.top.rglob("*") if path.is_file())

    def put(self, name, text):
        path = self.top / name
        path.parent.mkdir(parents=True, exist_ok=True)
        path.write_text(text, encoding="utf-8")
        path.chmod(0o755)

    def run_gate(self, said=WELL.format(REFUSED) + PASSED, status=0, fails="nothing", prints="print"):
        """The gate's status, what it prints, and what it called in sequence."""
        (self.notes / "said").write_text(said, encoding="utf-8")
        (self.notes / "status").write_text(str(status), encoding="utf-8")
        (self.notes / "called").write_text("", encoding="utf-8")
        environment = {
            **os.environ, "PATH": f"{self.notes / 'bin'}:{os.environ['PATH']}", "GATE": str(self.notes), "FAILS": fails, "PRINT": prints,
        }
        run = subprocess.run([self.top / ".ci" / "run"], cwd="/", env=environment, capture_output=True, text=True)
        return run.returncode, run.stdout, (self.notes / "called").read_text(encoding="utf-8").splitlines()

    def test_all_is_well(self):
        for edits in (REFUSED, f"{REFUSED}, 2 of them only by a limit"):
            said = WELL.format(edits) + PASSED
            status, printed, called = self.run_gate(said)
            self.assertEqual((status, printed), (0, said))
            words = [word for each in called for word in each.split()]
            self.assertEqual([word for word in words if word in ("ci", "./build", *COMPARISONS)], ["ci", "./build", *COMPARISONS])
            for folder in ("tests/gate", "tests/late", "python/tests"):
                self.assertIn(folder, words)

    def test_rt_is_run_plainly(self):
        """At the top, with no name and no option, on all the files that were there, before anything is built."""
        status, _, called = self.run_gate()
        self.assertEqual(status, 0)
        self.assertEqual([each for each in called if each.startswith("rt")], ["rt ci"])
        self.assertLess(called.index("rt ci"), called.index("./build "))
        self.assertEqual((self.notes / "rt-where").read_text(encoding="utf-8"), f"{self.top.resolve()}\n")
        self.assertEqual((self.notes / "rt-saw").read_text(encoding="utf-8").split(), self.before)

    def test_rt_fails(self):
        for ended in (1, 2):
            said = f"rt: FAILED: lists\n{PASSED.replace('0 failed', '1 failed')}"
            status, printed, called = self.run_gate(said, ended)
            self.assertEqual((status, printed), (ended, said))
            self.assertNotIn("./build ", called)

    def test_an_edit_is_bad(self):
        """rt's status is 0 then. What it says in other words than these is no pass either."""
        edits = f"{REFUSED}, 1 bad", f"{REFUSED}, 2 of them only by a limit, 13 bad", "0 refused", "0 refused, 3 bad"
        others = WELL.replace("; must-fail edits: {}", ""), "rt: lists proved\n", WELL.format(REFUSED).replace("rt: ok", "ok")
        for line in (*map(WELL.format, edits), *others):
            status, printed, called = self.run_gate(line + PASSED)
            self.assertEqual((status, printed), (1, line))
            self.assertNotIn("./build ", called)

    def test_what_else_fails(self):
        """The last line is held back, and the status another than 0, whatever fails."""
        wanted = [
            *(f"*-m {name}*" for name in COMPARISONS), "*tests/gate*", "*tests/late*", "*python/tests*", "./build*",
        ]
        for fails in wanted:
            status, printed, _ = self.run_gate(fails=fails)
            self.assertNotEqual(status, 0, fails)
            self.assertNotIn("passed", printed, fails)

    def test_a_program_is_another(self):
        """One that ./build leaves, and that isn't what rt ci has proved and run."""
        status, printed, called = self.run_gate(prints="another")
        self.assertNotEqual(status, 0)
        self.assertNotIn("passed", printed)
        self.assertFalse([each for each in called if "compare" in each])


if __name__ == "__main__":
    unittest.main()
