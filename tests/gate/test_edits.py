"""That every must-fail edit fits: in crates/CRATE/must-fail, which the gate tries, and in tests/must-fail/CRATE, beside it.

An edit whose text doesn't stand in its file is never tried, and `rt ci` passes all
the same. An edit is read as rt reads it: a line `file: PATH` below the crate, and
pairs of lines `old: TEXT` and `new: TEXT`, where the old text stands once in what
the pairs before it have made of the file. Above the first `file:` it says in words
what it breaks.
"""

import pathlib
import re
import tempfile
import unittest

ROOT = pathlib.Path(__file__).resolve().parent.parent.parent
NAME = re.compile(r"[A-Za-z0-9_-][A-Za-z0-9_.-]*\.edit")
SOURCES = ("src/", "specs/", "proofs/")


def crates():
    return sorted((ROOT / "crates").iterdir())


def folders_of(crate):
    """The two folders of a crate's edits."""
    return [crate / "must-fail", ROOT / "tests" / "must-fail" / crate.name]


def edits_of(crate):
    return [path for folder in folders_of(crate) if folder.is_dir() for path in sorted(folder.iterdir())]


def fault(text, crate):
    """Why the edit can't be tried on the crate in that folder, or None."""
    path, old, made = None, None, {}
    for line in text.splitlines():
        word, _, rest = line.partition(":")
        rest = rest[1:] if rest.startswith(" ") else rest
        if word == "file" and old is None:
            path = rest.strip()
            if not path.startswith(SOURCES) or not (crate / path).is_file():
                return f"there is no file {path}"
            made.setdefault(path, (crate / path).read_text(encoding="utf-8"))
        elif word == "old" and old is None and path and rest:
            old = rest
            if made[path].count(old) != 1:
                return f"{made[path].count(old)} times in {path}: {old}"
        elif word == "new" and old is not None:
            made[path], old = made[path].replace(old, rest), None
        elif line.strip() and (path or word in ("old", "new")):
            return f"a line out of its place: {line}"
    if old is not None or not made:
        return "it has no pair of lines, or half of one"
    if all(text == (crate / path).read_text(encoding="utf-8") for path, text in made.items()):
        return "it changes nothing"
    return None


class Edits(unittest.TestCase):
    def test_each_fits(self):
        wrong = []
        for crate in crates():
            for path in edits_of(crate):
                why = fault(path.read_text(encoding="utf-8"), crate)
                wrong += [f"{path.relative_to(ROOT)}: {why}"] if why else []
        self.assertEqual(wrong, [])

    def test_each_is_named_so(self):
        for crate in crates():
            for path in edits_of(crate):
                self.assertTrue(path.is_file() and NAME.fullmatch(path.name), path)

    def test_each_is_in_one_of_the_folders(self):
        for crate in crates():
            gate, beside = ({path.name for path in folder.glob("*")} for folder in folders_of(crate))
            self.assertEqual(gate & beside, set(), crate.name)

    def test_each_is_of_a_crate(self):
        beside = {path.name for path in (ROOT / "tests" / "must-fail").iterdir()}
        self.assertLessEqual(beside, {crate.name for crate in crates()})

    def test_how_many_they_are(self):
        """What the pages say of it; and that there are some."""
        counts = [sum(len(list(folders_of(crate)[at].glob("*.edit"))) for crate in crates()) for at in (0, 1)]
        self.assertGreater(min(counts), 40)
        for page, said in (
            ("docs/DECISIONS.md", r"`crates/NAME/must-fail/`, (\d+) of them.*? The (\d+) others"),
            ("tests/README.md", r"the (\d+) edits in\s+`crates/CRATE/must-fail`.*? the (\d+) edits here"),
        ):
            found = re.search(said, (ROOT / page).read_text(encoding="utf-8"), re.DOTALL)
            self.assertEqual(found and [int(number) for number in found.groups()], counts, page)


class Checked(unittest.TestCase):
    """The test finds what it is to find."""

    GOOD = "file: src/lib.rt\nold: one\nnew: two\n"

    def setUp(self):
        folder = tempfile.TemporaryDirectory()
        self.addCleanup(folder.cleanup)
        self.crate = pathlib.Path(folder.name)
        (self.crate / "src").mkdir()
        (self.crate / "src" / "lib.rt").write_text("one\ntwice twice\nlast\n", encoding="utf-8")

    def test_what_fits(self):
        for text in (
            self.GOOD, f"The second is the first.\n\n{self.GOOD}", f"{self.GOOD}old: two\nnew: three\n",
            "file: src/lib.rt\nold: one\nnew:\n", f"{self.GOOD}file: src/lib.rt\nold: last\nnew: first\n",
            "file: src/lib.rt\nold: twice twice\nnew: twice\nold: twice\nnew: once\n",
        ):
            self.assertIsNone(fault(text, self.crate), text)

    def test_what_does_not(self):
        for text in (
            "", "file: src/lib.rt\n", self.GOOD.replace("one", "gone"), self.GOOD.replace("one", "twice"), self.GOOD.replace("lib", "main"),
            self.GOOD.replace("src/", "../src/"), self.GOOD.replace("old: one\n", ""), self.GOOD.replace("new: two\n", ""),
            self.GOOD.replace("two", "one"), f"{self.GOOD}more\n", f"{self.GOOD}old: one\nnew: three\n", "old: one\nnew: two\n",
            "file: src/lib.rt\nold: one\nold: last\nnew: two\n", "file: src/lib.rt\nold: one\nnew: two\nold: two\nnew: one\n",
        ):
            self.assertIsNotNone(fault(text, self.crate), text)


if __name__ == "__main__":
    unittest.main()
