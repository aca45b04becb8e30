"""The crates' texts as data: each file's definitions, what it imports, and where a name is cited; and what crates.txt lists.

In a file of specs/ or proofs/ an import is a line `use Rattle.CRATE.specs.MODULE`, with
names in braces behind it, or an alias, or neither; names are then cited by the module's
last word. In a source file it begins with `ghost use` and ends in a semicolon, and what
an attribute gives to tactics is named by its path, as `crate::proofs::MODULE::NAME`.
"""

import pathlib
import re

ROOT = pathlib.Path(__file__).resolve().parents[2]
PARTS = ("specs", "proofs", "src")

EDGE = r"[\s(){}\[\];,\".]"
MARKS = r"(?:(?:abbrev|unfoldable|pub)\s+)*"
DEFINED = re.compile(rf"^(\s*){MARKS}([^\s(){{}}:]+)\s+:(?=\s|$)")
DECLARED = re.compile(rf"^(\s*){MARKS}(?:record|data|ruleset)\s+([^\s(){{}}:]+)")
USES = r"^[ \t]*(?:ghost )?(?:pub )?use Rattle\b"
IMPORTED = re.compile(
    rf"{USES}\.(\w+)\.(specs|proofs)\.([^\s{{}};]+?)(?:\.\{{([^{{}}]*)\}})?(?: as ([^\s{{}};]+))?;?[ \t]*$", re.M
)
NAMED = re.compile(r"\b(\w+)::(specs|proofs)::((?:\w+::)+)(\w+)")
# A function's proof: what it answers are goals that the check makes of the code, by names of a module that it makes too.
PROOF = ("Answers.antt", "Invariants.antt")
MADE = ("Goals", "Given")


class Import:
    """What a file brings in of a module: names one by one, or all of it under an alias."""

    def __init__(self, crate, kind, module, names):
        self.crate, self.module = crate, module
        self.place = crate, kind, module
        self.names = names


class Module:
    """A file of specs/ or proofs/, or a source file, whose imports alone matter."""

    def __init__(self, path, root=ROOT):
        self.path = path.relative_to(root)
        _, self.crate, kind, *rest = self.path.with_suffix("").parts
        self.place = self.crate, kind, ".".join(rest)
        self.text = path.read_text(encoding="utf-8")
        self.lines = self.text.split("\n")
        self.goals = set()
        self.imports = [self._import(match) for match in IMPORTED.finditer(self.text)]
        if path.suffix == ".rt":
            self.imports += [self._named(match) for line in self.lines if "#" in line for match in NAMED.finditer(line)]

    def unread(self):
        """How many imports of Rattle's are written in another form than those that are read here."""
        return len(re.findall(USES, self.text, re.M)) - len(IMPORTED.findall(self.text))

    def definitions(self):
        """Each name that is defined outside a record, with the lines that define it; in a function's proof the goals answered are none."""
        for at, line in enumerate(self.lines):
            match = DEFINED.match(line) or DECLARED.match(line)
            if match and not self._is_field(at, len(match[1])) and not self._is_answer(at, match):
                yield match[2], range(at, self._end(at, len(match[1]), match[2]))

    def cites(self, name, besides=()):
        """Whether a line other than those says the name."""
        said = re.compile(rf"(?<!(?!{EDGE}).){re.escape(name)}(?=$|{EDGE})")
        lines = (line for at, line in enumerate(self.lines) if at not in besides)
        return any(said.search(line) for line in lines if not line.lstrip().startswith("--"))

    def _import(self, match):
        crate, kind, module, names, alias = match.groups()
        if names is None:
            alias = alias or module.split(".")[-1]
            named = re.findall(rf"(?<![^\s(){{}}\[\],;]){re.escape(alias)}\.([^\s(){{}}\[\],;.]+)", self.text)
            if module.split(".")[-1] in MADE:
                self.goals.add(alias)
        else:
            named = [name.split(" as ")[0].strip() for name in names.split(",") if name.strip()]
        return Import(crate, kind, module, named)

    def _named(self, match):
        crate, kind, modules, name = match.groups()
        return Import(self.crate if crate == "crate" else crate, kind, modules[:-2].replace("::", "."), [name])

    def _is_field(self, at, indent):
        lines = (line for line in reversed(self.lines[:at]) if line.strip() and len(line) - len(line.lstrip()) < indent)
        above = next(lines, "")
        return bool(re.match(r"\s*((abbrev|pub)\s+)*(record|where|let)\b", above)) or above.rstrip().endswith("record {")

    def _is_answer(self, at, match):
        said = " ".join([self.lines[at][match.end() :], *self.lines[at + 1 : at + 2]]).split()
        return self.path.name in PROOF and bool(said) and said[0].split(".")[0] in self.goals

    def _end(self, at, indent, name):
        for end in range(at + 1, len(self.lines)):
            line = self.lines[end]
            if line.strip() and len(line) - len(line.lstrip()) <= indent and line.split()[0] not in (name, "unfolding"):
                return end
        return len(self.lines)


def modules(root=ROOT):
    """Every file of specs/, proofs/ and src/; what rt makes beside them in out/ is none."""
    folders = [crate / part for crate in sorted((root / "crates").iterdir()) for part in PARTS]
    paths = [path for folder in folders for path in sorted(folder.rglob("*"))]
    return [Module(path, root) for path in paths if path.suffix in (".antt", ".rt")]


def listed(root=ROOT):
    """Each crate in crates.txt, with those that it may cite. A line is `NAME: DEP ..` or `NAME staticlib: DEP ..`; # begins a comment."""
    lines = [line.split("#")[0] for line in (root / "crates.txt").read_text(encoding="utf-8").splitlines()]
    pairs = [line.partition(":") for line in lines if line.strip()]
    return {name.split()[0]: below.split() for name, _, below in pairs}
