"""docs/MAP.md: every path is there, and every name behind a path stands in that file as a definition.

A reference is a path in backticks, from `crates/` on, with a colon and the
names behind it. In the lists of definitions, code, laws and proofs nothing
else stands in backticks, so no name can lose its file.
"""

import re
import unittest

from pages import texts

MAP = texts.ROOT / "docs" / "MAP.md"
REFERENCE = re.compile(r"`(crates/[^`]+)`(?::\s+(`(?!crates/)[^`]+`(?:,\s+`(?!crates/)[^`]+`)*))?")
ITEM = re.compile(r"^- (definition|code|law|proof): .*(?:\n  .*)*", re.MULTILINE)
HEADING = re.compile(r"^## (?:Section (\d+)\.|(2\.\d+)) \S", re.MULTILINE)
SECTIONS = [*(str(number) for number in range(1, 10)), *(f"2.{number}" for number in (*range(1, 9), 10))]

# What defines a name in a file of this kind; the name is the last group that is there.
WORDS = r"(?:(?:pub|abbrev|opaque|unfoldable)\s+)*"
DEFINES = {
    ".antt": re.compile(rf"^[ \t]*{WORDS}(?:(?:data|record)\s+([^\s:]+)|([^\s:({{]\S*)\s+:(?=\s))", re.MULTILINE),
    ".rt": re.compile(r'^[ \t]*(?:pub(?:\([a-z]+\))?\s+)?(?:extern "C"\s+)?(?:fn|const|struct|enum|type)\s+(\w+)', re.MULTILINE),
}


def defined_in(path):
    """The names that a file of definitions or of code defines."""
    found = DEFINES[path.suffix].findall(path.read_text(encoding="utf-8"))
    return {name for names in found for name in ([names] if isinstance(names, str) else names) if name}


def references(text):
    """The paths that a text names, each with the names behind it."""
    for path, names in REFERENCE.findall(text):
        yield path, re.findall(r"`([^`]+)`", names)


def faults(text):
    """What is wrong in a map: paths that aren't there, names that their file doesn't define, names without a path."""
    wrong, known = [], {}
    for path, names in references(text):
        if not (texts.ROOT / path).exists():
            wrong.append(f"{path}: there is no such path")
        elif names:
            if path not in known:
                known[path] = defined_in(texts.ROOT / path)
            wrong += [f"{path}: it doesn't define {name}" for name in names if name not in known[path]]
    for item in ITEM.finditer(text):
        rest = REFERENCE.sub("", item[0])
        if rest == item[0] or "`" in rest:
            wrong.append(f"{item[0]!r}: a name without its path, or no path at all")
        wrong += [f"{path}: it is named without a name in it" for path, names in references(item[0]) if not names and is_source(path)]
    return wrong


def is_source(path):
    return path.endswith(tuple(DEFINES))


def sections(text):
    """The sections and requests with a heading, in sequence, each with what is said of it."""
    found = list(HEADING.finditer(text))
    ends = [*(heading.start() for heading in found[1:]), len(text)]
    return [(heading[1] or heading[2], text[heading.end() : end]) for heading, end in zip(found, ends)]


class Map(unittest.TestCase):
    def setUp(self):
        self.text = MAP.read_text(encoding="utf-8")

    def test_every_path_and_name(self):
        self.assertEqual(faults(self.text), [])

    def test_every_section(self):
        self.assertEqual([name for name, _ in sections(self.text)], SECTIONS)
        for name, said in sections(self.text):
            kinds = {item[1] for item in ITEM.finditer(said)}
            with self.subTest(section=name):
                self.assertLessEqual({"definition", "law"}, kinds)

    def test_every_crate(self):
        """Each crate stands in the table of the crates, and is named below it."""
        table = self.text.split("| crate |")[1].split("\n\n")[0]
        for folder in sorted((texts.ROOT / "crates").iterdir()):
            with self.subTest(crate=folder.name):
                self.assertRegex(table, rf"(?m)^\|[^|]*`{folder.name}`")
                self.assertIn(f"`crates/{folder.name}/", self.text)


class OtherPages(unittest.TestCase):
    def test_paths(self):
        """Paths of crates are there on every page but the landings, which name files as they were."""
        for name, path in texts.pages().items():
            named = re.findall(r"`(crates/[a-z][^`\s]*)`", path.read_text(encoding="utf-8"))
            with self.subTest(page=name):
                missing = [each for each in named if not (texts.ROOT / each).exists()]
                self.assertFalse(missing if name != "docs/LANDINGS.md" else [])

    def test_links(self):
        """What a page links to is there."""
        for name, path in texts.pages().items():
            linked = re.findall(r"\]\(([^)#:\s]+)(?:#[^)]*)?\)", path.read_text(encoding="utf-8"))
            with self.subTest(page=name):
                self.assertFalse([each for each in linked if not (path.parent / each).exists()])


class Checked(unittest.TestCase):
    """The test finds what it is to find."""

    GOOD = "- law: `crates/diagram/proofs/Demands.antt`: `kept`, `least` (no fewer);\n  `crates/network/src/build.rt`: `build`\n"

    def test_nothing_wrong(self):
        self.assertEqual(faults(self.GOOD), [])

    def test_a_wrong_path(self):
        self.assertEqual(
            faults(self.GOOD.replace("Demands", "Demand")), ["crates/diagram/proofs/Demand.antt: there is no such path"]
        )

    def test_a_wrong_name(self):
        for good, bad, path in (
            ("least", "leest", "crates/diagram/proofs/Demands.antt"), ("`build`", "`built`", "crates/network/src/build.rt"),
            # Names that stand in the file, but not as a definition there.
            ("kept", "kept_at", "crates/diagram/proofs/Demands.antt"), ("`build`", "`lay_out`", "crates/network/src/build.rt"),
        ):
            self.assertEqual(faults(self.GOOD.replace(good, bad)), [f"{path}: it doesn't define {bad.strip('`')}"])

    def test_a_name_without_its_path(self):
        for lost in ("- law: `kept`\n", self.GOOD.replace("(no fewer)", "(no fewer, `fits`)"), "- law: none\n"):
            self.assertEqual(len(faults(lost)), 1, lost)

    def test_a_path_without_a_name(self):
        self.assertEqual(len(faults("- code: `crates/network/src/build.rt`\n")), 1)

    def test_definitions_of_each_kind(self):
        for name, path in (
            ("Table", "diagram/specs/Table.antt"), ("n", "diagram/specs/Table.antt"), ("filled", "diagram/specs/Table.antt"),
            ("Tree", "diagram/specs/Tree.antt"), ("half_pair", "diagram/specs/Exchanging/Exchange.antt"),
            ("State", "table/src/lib.rt"), ("Answer", "table/src/lib.rt"), ("PLANE", "table/src/lib.rt"), ("swap", "table/src/swap.rt"),
            ("yav_load", "yavdocsil/src/load.rt"),
        ):
            self.assertIn(name, defined_in(texts.ROOT / "crates" / path))


if __name__ == "__main__":
    unittest.main()
