"""Tests that the crates' files are in order: small folders, inner definitions, crates.txt, no law that nobody reads."""

import collections
import pathlib
import re
import tempfile
import unittest
import unittest.mock

from sources.modules import ROOT, listed, modules

MOST_FILES = 15
# What every crate may cite, and crates.txt never lists.
ALWAYS = "std"


def heaps(everything):
    """Folders with more files than that."""
    files = collections.Counter(module.path.parent for module in everything if module.path.suffix == ".antt")
    return [f"{folder}: {count} files" for folder, count in files.items() if count > MOST_FILES]


def strangers(everything):
    """Citations of another crate's inner definitions."""
    for module in everything:
        for imported in module.imports:
            if imported.module.split(".")[0] == "Inner" and imported.crate != module.crate:
                yield f"{module.path}: {imported.crate}'s {imported.module}"


def unlisted(everything, known):
    """Crates that aren't in crates.txt, and citations of crates that aren't in the crate's line there."""
    yield from (f"crates.txt: {name}" for name in sorted({module.crate for module in everything} ^ known.keys()))
    for module in everything:
        for imported in module.imports:
            if imported.crate not in (module.crate, ALWAYS, *known.get(module.crate, ())):
                yield f"{module.path}: {imported.crate}"


def unread(everything):
    """Files with an import in a form that isn't read here, which the other tests would overlook."""
    return [f"{module.path}: {module.unread()}" for module in everything if module.unread()]


def idle(everything, named):
    """Definitions and laws that no file cites and that aren't named on the map."""
    cited = {(*imported.place, name) for module in everything for imported in module.imports for name in imported.names}
    for module in everything:
        # A proof that walks the code by hand answers by names of its own, and is closed by one that the check looks for.
        if module.path.suffix == ".antt" and module.path.name != "Proof.antt":
            for name, lines in module.definitions():
                if name not in named and (*module.place, name) not in cited and not module.cites(name, lines):
                    yield f"{module.path}: {name}"


def on_map(root=ROOT):
    return set(re.findall(r"`([^`\s]+)`", (root / "docs" / "MAP.md").read_text(encoding="utf-8")))


class Rooms(unittest.TestCase):
    def setUp(self):
        self.everything = modules()

    def test_there_are_some(self):
        self.assertGreater(sum(1 for module in self.everything if module.imports), 500)

    def test_every_import_is_read(self):
        self.assertEqual(unread(self.everything), [])

    def test_no_folder_is_a_heap(self):
        self.assertEqual(heaps(self.everything), [])

    def test_inner_definitions_are_cited_by_their_own_crate_alone(self):
        self.assertEqual(list(strangers(self.everything)), [])

    def test_each_crate_is_listed_with_what_it_cites(self):
        self.assertEqual(list(unlisted(self.everything, listed())), [])

    def test_every_law_is_cited_or_named_in_the_map(self):
        self.assertEqual(list(idle(self.everything, on_map())), [])


class Checked(unittest.TestCase):
    """The tests find what they are to find: in two crates that are in order, each fault by itself."""

    FILES = {
        "crates.txt": "# NAME: DEP ..\nlow:\nhigh staticlib: low   # for C\n",
        "docs/MAP.md": "- law: `crates/low/proofs/Sums.antt`: `on-the-map`\n",
        "crates/low/specs/Lib.antt": "pub mod Sums\npub mod Inner\n",
        "crates/low/specs/Sums.antt": (
            "-- Sums.\nuse Rattle.std.specs.Prelude.{ℕ, ◌+◌}\n\nabbrev pub sum : ℕ → ℕ → ℕ\nsum a b = a + b\n\n"
            "pub record Both : Type 0 where\n  pub one : ℕ\n\npub data Kind : Type 0 where\n  first : Kind\n"
        ),
        "crates/low/specs/Inner/Parts.antt": "unfoldable pub part : ℕ → ℕ\npart a = a\n",
        "crates/low/proofs/Sums.antt": (
            "use Rattle.low.specs.Sums.{sum, Both, Kind, first}\nuse Rattle.low.specs.Inner.Parts.{part}\n\n"
            "pub on-the-map : sum 0 1 ≡ 1\non-the-map = refl\n\n"
            "module _ (a : ℕ) where\n  pub by-alias : sum a 0 ≡ a\n  by-alias = below\n\n  below : sum a 0 ≡ a\n  below = refl\n\n"
            "pub by_tactic :\n    1 ≡ 1\nby_tactic = refl\n"
        ),
        "crates/low/src/lib.rt": (
            "ghost use Rattle.std.specs.Prelude.{◌≡◌};\nghost use Rattle.low.specs.Sums.{sum as total,\n    Both};\n\n"
            "#[tactic(auto, using(crate::proofs::Sums::by_tactic))]\npub fn f() {}\n"
        ),
        "crates/high/proofs/f/Answers.antt": (
            "use Rattle.low.proofs.Sums as sums\nuse Rattle.high.proofs.f.Goals as goal\n\n"
            "pub returns : goal.returns\nreturns c = omega (arith, sums.by-alias c.args.x)\n\n"
            "pub other :\n    goal.other\nother c = helps\n\nhelps : 1 ≡ 1\nhelps = refl\n"
        ),
        "crates/high/proofs/f/Invariants.antt": (
            "use Rattle.high.proofs.f.Given as goal\n\nabbrev pub invariant-loop : goal.invariant-loop\n"
            "invariant-loop l = record {\n  in_bounds : l.k ≤ 8;\n}\n"
        ),
        "crates/high/proofs/g/Proof.antt": "pub g-spec : statement\ng-spec = close\n",
        "crates/high/out/rlib/high.rlib/lang/antt/proofs/Made.antt": "pub made : 1 ≡ 1\nmade = refl\n",
    }

    def faults(self, name=None, old="", new=""):
        """All faults of these crates, with a text in one file replaced, or a file more."""
        files = dict(self.FILES)
        if name:
            self.assertIn(old, files.get(name, ""))
            files[name] = files.get(name, "").replace(old, new, 1) if old else new
        with tempfile.TemporaryDirectory() as folder:
            root = pathlib.Path(folder)
            for path, text in files.items():
                (root / path).parent.mkdir(parents=True, exist_ok=True)
                (root / path).write_text(text, encoding="utf-8")
            everything = modules(root)
            found = heaps(everything), strangers(everything), unlisted(everything, listed(root))
            return [fault for faults in (*found, unread(everything), idle(everything, on_map(root))) for fault in faults]

    def found(self, wanted, *change):
        self.assertEqual(self.faults(*change), [wanted])

    def test_in_order(self):
        self.assertEqual(self.faults(), [])

    def test_a_heap(self):
        files = {f"crates/low/proofs/Many/M{at}.antt": "" for at in range(MOST_FILES + 1)}
        with unittest.mock.patch.dict(self.FILES, files):
            self.found(f"crates/low/proofs/Many: {MOST_FILES + 1} files")
            del self.FILES["crates/low/proofs/Many/M0.antt"]
            self.assertEqual(self.faults(), [])

    def test_an_inner_definition_from_outside(self):
        for name, line in (
            ("crates/high/src/lib.rt", "ghost use Rattle.low.specs.Inner.Parts.{part};\n"),
            ("crates/high/specs/Lib.antt", "use Rattle.low.specs.Inner.Parts.{part}\n"),
            ("crates/high/proofs/Lib.antt", "pub use Rattle.low.specs.Inner.Parts\n"),
            ("crates/high/src/lib.rt", "#[tactic(auto, unfolding(low::specs::Inner::Parts::part))]\n"),
        ):
            self.found(f"{name}: low's Inner.Parts", name, "", line)

    def test_what_is_not_listed(self):
        low = "crates/low/specs/Sums.antt"
        self.found(f"{low}: high", low, "-- Sums.\n", "use Rattle.high.specs.Sums.{sum}\n")
        self.found(f"{low}: json", low, "-- Sums.\n", "use Rattle.json.specs.Sums.{sum}\n")
        self.found("crates/high/proofs/f/Answers.antt: low", "crates.txt", "staticlib: low", "staticlib:")
        self.assertIn("crates.txt: high", self.faults("crates.txt", "high staticlib", "# high staticlib"))
        self.found("crates.txt: lower", "crates.txt", "low:\n", "low:\nlower:\n")

    def test_an_import_in_another_form(self):
        name = "crates/low/specs/Lib.antt"
        for rest in (".{low, high}", ".low.specs.{Sums.{sum}, Inner}", "·low·specs.specs.Sums.{sum}", ".low"):
            self.found(f"{name}: 1", name, "", f"use Rattle{rest}\n")

    def test_what_nobody_cites(self):
        sums, laws = "crates/low/specs/Sums.antt", "crates/low/proofs/Sums.antt"
        answers = "crates/high/proofs/f/Answers.antt"
        for wanted, *change in (
            (f"{laws}: on-the-map", "docs/MAP.md", "on-the-map", "on-another"),
            (f"{laws}: by-alias", answers, "sums.by-alias", "sums.by-another"),
            (f"{laws}: by-alias", answers, "use Rattle.low.proofs.Sums as sums\n", ""),
            (f"{laws}: by_tactic", "crates/low/src/lib.rt", "Sums::by_tactic", "Sums::another"),
            (f"{laws}: below", laws, "by-alias = below", "by-alias = refl"),
            (f"{laws}: below", laws, "by-alias = below", "-- below"),
            (f"{laws}: more", laws, "pub on-the-map :", "pub more : 1 ≡ 1\nmore = refl\n\npub on-the-map :"),
            (f"{laws}: Kinds", laws, "pub on-the-map :", "pub data Kinds : Type 0 where\n\npub on-the-map :"),
            (f"{laws}: rules", laws, "pub on-the-map :", "pub ruleset rules = (arith, below)\n\npub on-the-map :"),
            (f"{sums}: Both2", sums, "pub record Both :", "pub record Both2 : Type 0 where\n  pub two : ℕ\n\npub record Both :"),
            (f"{sums}: first", laws, ", first}", "}"),
            (f"{answers}: helps", answers, "other c = helps", "other c = refl"),
            ("crates/low/specs/Inner/Parts.antt: part", laws, "use Rattle.low.specs.Inner.Parts.{part}\n", ""),
        ):
            with self.subTest(wanted=wanted, change=change):
                self.found(wanted, *change)


if __name__ == "__main__":
    unittest.main()
