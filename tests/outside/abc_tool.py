"""BLIF, Verilog and PLA put to ABC, and what ABC writes itself put to the reader of BLIF here.

Of every PLA ABC makes two networks by itself: read as it is, the on-set, and with -b, ones and zeros both as ones, the care set. What
is compared is (the export) AND (the care set) with the on-set, which is within the care set. The AND is a model of its own, in a
file before the export's BLIF and ABC's own BLIF of the care set, both as they were written. So every mark comes from the PLA as exported.
"""

from __future__ import annotations

import pathlib
import re
from collections.abc import Iterable, Mapping, Sequence
from dataclasses import replace
from typing import NamedTuple

from yavdocsil import Diagram, Malformed, Table
from yavdocsil.exports import blif, verilog
from yavdocsil.reading import blif as own_reader

from outside.cases import Case
from outside.running import Part, run, tail

EQUAL, UNEQUAL = "equivalent", "NOT EQUIVALENT"


class Asked(NamedTuple):
    """A network or a broken one, as files called `name` with several endings; `good` is the name of the one that isn't broken."""

    name: str
    good: str
    case: Case
    diagram: Diagram

    @property
    def is_broken(self) -> bool:
        return self.name != self.good

    @property
    def has_pla(self) -> bool:
        """Whether ABC reads the PLA: version 1.01 takes none without inputs, and crashes at one without cubes."""
        return bool(self.case.table.inputs and self.case.table.cared)


def with_abc(tool: str, cases: Sequence[Case], folder: pathlib.Path) -> list[Part]:
    asked = [Asked(f"case{i}", f"case{i}", case, case.diagram) for i, case in enumerate(cases)]
    asked += [Asked(f"case{i}_broken", f"case{i}", case, case.broken) for i, case in enumerate(cases) if case.broken]
    prepare(tool, asked, folder)
    parts = [with_blif(tool, asked, folder), with_verilog(tool, asked, folder), with_no_names(tool, asked, folder)]
    return [*parts, with_own_reader(asked, folder)]


def prepare(tool: str, asked: Sequence[Asked], folder: pathlib.Path) -> None:
    """Writes every export, and has ABC write the care sets, the Verilog as BLIF, and the BLIF once more as its own gates."""
    commands = []
    for one in asked:
        (folder / f"{one.name}.blif").write_text(blif.write(one.diagram), encoding="utf-8")
        (folder / f"{one.name}.v").write_text(verilog.write(one.diagram), encoding="utf-8")
        if one.has_pla:
            (folder / f"{one.name}.pla").write_text(one.case.table.to_pla(), encoding="utf-8")
            commands += [f"read_pla -b {one.name}.pla", "short_names", f"write_blif {one.name}.care"]
        # Names that BLIF can't have, as a PLA and Verilog can, are replaced.
        commands += [f"read_verilog {one.name}.v", "short_names", f"write_blif {one.name}.from_verilog"]
        commands += [f"read_blif {one.name}.blif", "strash", f"write_blif {one.name}.gates"]
    run([tool], folder, prompt(commands))


# The parts.


def with_blif(tool: str, asked: Sequence[Asked], folder: pathlib.Path) -> Part:
    """The BLIF held to the PLA where it cares."""
    taken = [one for one in asked if one.has_pla]
    said = answers(tool, folder, {
        one.name: [f"read_blif {one.name}.blif", "print_stats", *where_cared(folder, one, "blif")] for one in taken
    })
    outcomes = {one.name: wrong_size(said[one.name], one, 0) or verdict(said[one.name], 1) for one in taken}
    left_out = sum(not one.has_pla and not one.is_broken for one in asked)
    note = f"{left_out} left out that have no inputs or nothing cared: ABC doesn't read such a PLA" if left_out else ""
    return judged("ABC, BLIF", taken, outcomes, note)


def with_verilog(tool: str, asked: Sequence[Asked], folder: pathlib.Path) -> Part:
    """The Verilog held to the BLIF on every row, and to the PLA where it cares."""
    said = answers(tool, folder, {
        one.name: [
            f"read_verilog {one.name}.v", "print_stats", f"cec -n {one.name}.v {one.good}.blif",
            *(where_cared(folder, one, "from_verilog") if one.has_pla else []),
        ]
        for one in asked
    })
    # A node more for each constant that a selector chooses.
    constants = {one.name: len({arrow for cell in one.diagram.cells for arrow in (cell.low, cell.high)} & {0, 1}) for one in asked}
    outcomes = {one.name: wrong_size(said[one.name], one, constants[one.name]) or verdict(said[one.name], 1 + one.has_pla) for one in asked}
    return judged("ABC, Verilog", asked, outcomes)


def with_no_names(tool: str, asked: Sequence[Asked], folder: pathlib.Path) -> Part:
    """A PLA without names, and an export under the names that it is given here: ABC has to match them by name."""
    taken = [one for one in asked if one.case.table.inputs and any(map(any, one.case.rows))]
    for one in taken:
        unnamed = pla_without_names(one.case)
        read = Table.from_pla(unnamed)
        (folder / f"{one.name}.unnamed.pla").write_text(unnamed, encoding="utf-8")
        named = replace(one.diagram, inputs=read.inputs, outputs=read.outputs)
        (folder / f"{one.name}.unnamed.blif").write_text(blif.write(named), encoding="utf-8")
    said = answers(tool, folder, {one.name: [f"cec {one.name}.unnamed.blif {one.name}.unnamed.pla"] for one in taken})
    return judged("ABC, PLA without names", taken, {one.name: verdict(said[one.name], 1) for one in taken})


def pla_without_names(case: Case) -> str:
    """What a network gives at every row, as a PLA of ones."""
    n = len(case.table.inputs)
    cubes = [f"{row:0{n}b} {''.join(map(str, outputs))}" for row, outputs in enumerate(case.rows) if any(outputs)]
    return "\n".join([f".i {n}", f".o {len(case.table.outputs)}", ".type f", *cubes, ".e", ""])


def with_own_reader(asked: Sequence[Asked], folder: pathlib.Path) -> Part:
    """ABC's own BLIF of a network, read here, held to the network's rows."""
    return judged("ABC's BLIF read here", asked, {one.name: read_here(one, folder) for one in asked})


def read_here(one: Asked, folder: pathlib.Path) -> str:
    try:
        content = own_reader.read(text_of(folder / f"{one.name}.gates"))
    except Malformed as error:
        return str(error)
    return EQUAL if list(zip(*content.columns)) == one.case.rows else UNEQUAL


def judged(part: str, taken: Sequence[Asked], outcomes: Mapping[str, str], note: str = "") -> Part:
    """What came out for each: a network has to be equal, and a broken one unequal, not merely unread."""
    goods, breaks = ([one for one in taken if one.is_broken == is_broken] for is_broken in (False, True))
    missed = [one for one in breaks if outcomes[one.name] != UNEQUAL]
    differences = [f"{one.case.label}: {outcomes[one.name]}" for one in goods if outcomes[one.name] != EQUAL]
    differences += [f"{one.case.label}: a broken one isn't found: {outcomes[one.name]}" for one in missed]
    return Part(part, len(goods), len(breaks) - len(missed), differences, note)


# Asking ABC.


def prompt(commands: Iterable[str]) -> str:
    """Commands for ABC's own prompt: there an error ends a command and no more."""
    return "".join(f"{command}\n" for command in (*commands, "quit"))


def answers(tool: str, folder: pathlib.Path, commands: Mapping[str, Sequence[str]]) -> dict[str, str]:
    """What ABC says to each list of commands."""
    done = run([tool], folder, prompt(command for name, each in commands.items() for command in (f"echo CASE {name}", *each)))
    said = {name: text for name, text in re.findall(r"^CASE (\S+) *\n(.*?)(?=^CASE |\Z)", done.stdout, re.M | re.S)}
    return {name: said.get(name, tail(done)) for name in commands}


def verdict(said: str, comparisons: int) -> str:
    """What all comparisons agree in, or what was said instead."""
    verdicts = re.findall(r"Networks are (equivalent|NOT EQUIVALENT)", said)
    agreed = len(verdicts) == comparisons and len(set(verdicts)) == 1
    return verdicts[0] if agreed else said.strip()[-300:]


def wrong_size(said: str, one: Asked, more: int) -> str:
    """What is wrong, or nothing: a node for each cell and each output in the file as exported, and so many more."""
    counts = re.search(r"i/o = *(\d+)/ *(\d+) .* nd = *(\d+)", said)
    n, m = len(one.case.table.inputs), len(one.case.table.outputs)
    wanted = [n, m, len(one.diagram.cells) + m + more]
    if not counts or [int(count) for count in counts.groups()] != wanted:
        return f"not of {wanted} inputs, outputs and nodes: {said.strip()[-300:]}"
    return ""


def where_cared(folder: pathlib.Path, one: Asked, ending: str) -> list[str]:
    """The command that compares a BLIF and the care set with the on-set, matching inputs and outputs by sequence."""
    ours, care = (text_of(folder / f"{one.name}.{each}") for each in (ending, "care"))
    if not ours or not care:
        return ["echo the PLA or the export was not read"]
    (folder / f"{one.name}.{ending}.masked.blif").write_text(both(ours, care) + ours + care, encoding="utf-8")
    return [f"cec -n {one.name}.{ending}.masked.blif {one.name}.pla"]


def text_of(path: pathlib.Path) -> str:
    """What ABC wrote; nothing where it couldn't read what it was given."""
    return path.read_text(encoding="utf-8") if path.is_file() else ""


def both(*models: str) -> str:
    """A model whose outputs are 1 where those of all models are; models that come after it in the file."""
    heads = [{words[0]: words[1:] for words in map(str.split, text.replace("\\\n", " ").splitlines()) if words} for text in models]
    n, m = (len(heads[0].get(kind, ())) for kind in (".inputs", ".outputs"))
    lines = [".model both", " ".join([".inputs", *(f"i{i}" for i in range(n))]), " ".join([".outputs", *(f"o{j}" for j in range(m))])]
    for k, head in enumerate(heads):
        pins = [f"{name}=i{i}" for i, name in enumerate(head.get(".inputs", ()))]
        pins += [f"{name}=s{k}_{j}" for j, name in enumerate(head[".outputs"])]
        lines.append(" ".join([".subckt", *head[".model"], *pins]))
    for j in range(m):
        lines += [" ".join([".names", *(f"s{k}_{j}" for k in range(len(models))), f"o{j}"]), "1" * len(models) + " 1"]
    return "\n".join([*lines, ".end", ""])
