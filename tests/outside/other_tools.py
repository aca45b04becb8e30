"""Pictures put to Graphviz, and PLAs to espresso."""

from __future__ import annotations

import pathlib
from collections.abc import Sequence
from dataclasses import replace

from yavdocsil import Error, Table
from yavdocsil.pictures import dot

from outside.cases import Case, misses
from outside.running import Part, run, tail


def with_dot(tool: str, cases: Sequence[Case], folder: pathlib.Path) -> list[Part]:
    """Every DOT laid out as SVG; one that is cut short must be refused."""
    texts = [dot.write(case.diagram, f'{case.label} <&">\\') for case in cases]
    done = run([tool, "-Tsvg"], folder, "".join(texts))
    pictures = done.stdout.count("</svg>")
    differences = [] if done.returncode == 0 and pictures == len(texts) else [f"{pictures} pictures of {len(texts)} DOTs: {tail(done)}"]
    cut = run([tool, "-Tsvg"], folder, texts[0].rstrip()[:-1])
    differences += ["a DOT that is cut short is taken"] if cut.returncode == 0 else []
    return [Part("Graphviz", pictures, int(cut.returncode != 0), differences)]


def with_espresso(tool: str, cases: Sequence[Case], folder: pathlib.Path) -> list[Part]:
    """What it makes of each PLA must have every mark that is cared; with one mark flipped in the PLA, it must not."""
    asked = [case for case in cases if case.table.inputs and case.table.cared]
    differences, caught = [], 0
    for case in asked:
        if minimized_misses(tool, case.table, case.table, folder):
            differences.append(f"{case.label}: what comes back has other marks")
        if minimized_misses(tool, flipped(case.table), case.table, folder):
            caught += 1
        else:
            differences.append(f"{case.label}: a broken one isn't found")
    return [Part("espresso", len(asked), caught, differences)]


def minimized_misses(tool: str, given: Table, wanted: Table, folder: pathlib.Path) -> bool:
    """Whether the on-set that comes back of one table's PLA misses another table."""
    (folder / "given.pla").write_text(given.to_pla(), encoding="utf-8")
    done = run([tool, "given.pla"], folder)
    try:
        return misses(wanted, list(zip(*Table.from_pla(done.stdout).columns)))
    except Error as error:
        raise SystemExit(f"what espresso gives isn't a PLA: {error}; {tail(done)}") from error


def flipped(table: Table) -> Table:
    """The table with its first cared mark flipped."""
    j, row = next((j, row) for j, column in enumerate(table.columns) for row, mark in enumerate(column) if mark is not None)
    column = tuple(1 - mark if i == row and mark is not None else mark for i, mark in enumerate(table.columns[j]))
    return replace(table, columns=(*table.columns[:j], column, *table.columns[j + 1 :]))
