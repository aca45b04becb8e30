"""Verilog put to Icarus and to Yosys, on every row.

All modules stand in one file, each in a module that takes a row as a number; ports are connected by sequence.
"""

from __future__ import annotations

import pathlib
import re
from collections.abc import Sequence
from typing import NamedTuple

from yavdocsil.exports import verilog

from outside.cases import Case
from outside.running import Part, run, tail


class Module(NamedTuple):
    case: Case
    text: str
    is_broken: bool


def modules_of(cases: Sequence[Case]) -> list[Module]:
    """Every export, and every broken one after it, called network0 and so on."""
    both_kinds = [(case, diagram, kind) for case in cases for kind, diagram in enumerate((case.diagram, case.broken)) if diagram]
    return [Module(case, verilog.write(diagram, f"network{i}"), bool(kind)) for i, (case, diagram, kind) in enumerate(both_kinds)]


def instance(number: int, module: Module) -> str:
    n, m = len(module.case.table.inputs), len(module.case.table.outputs)
    pins = [f"row[{n - 1 - i}]" for i in range(n)] + [f"out{number}[{j}]" for j in range(m)]
    return f"network{number} instance{number} ({', '.join(pins)});"


def judged(tool: str, cases: Sequence[Case], modules: Sequence[Module], said: dict[tuple[int, int], str], trouble: str) -> list[Part]:
    """What the tool gave for each module and row, outputs from the last to the first, held to what the network evaluates to."""
    differences, caught = [], 0
    for i, module in enumerate(modules):
        wanted = ["".join(map(str, reversed(row))) for row in module.case.rows]
        wrong = [row for row, answer in enumerate(wanted) if said.get((i, row)) != answer]
        # A broken one is found by an answer that is another, not by one that is missing.
        caught += module.is_broken and any((i, row) in said for row in wrong)
        if module.is_broken and not any((i, row) in said for row in wrong):
            differences.append(f"{module.case.label}: a broken one isn't found")
        elif wrong and not module.is_broken:
            differences.append(f"{module.case.label}: row {wrong[0]}: {said.get((i, wrong[0]), trouble)}, not {wanted[wrong[0]]}")
    return [Part(tool, len(cases), caught, differences)]


def with_icarus(tool: str, cases: Sequence[Case], folder: pathlib.Path) -> list[Part]:
    """A testbench goes through the rows of the largest table once and prints each module's answers in the rows that it has."""
    modules = modules_of(cases)
    most = max(len(module.case.rows) for module in modules)
    bench = ["module testbench;", "    reg [15:0] row;"]
    for i, module in enumerate(modules):
        bench += [f"    wire [{len(module.case.table.outputs) - 1}:0] out{i};", f"    {instance(i, module)}"]
    bench += ["    initial begin", f"        for (row = 0; row < {most}; row = row + 1) begin", "            #1;"]
    for i, module in enumerate(modules):
        bench.append(f'            if (row < {len(module.case.rows)}) $display("ROW {i} %0d %b", row, out{i});')
    bench += ["        end", "    end", "endmodule", ""]
    (folder / "all.v").write_text("".join(module.text for module in modules) + "\n".join(bench), encoding="utf-8")
    made = run([tool, "-g2005", "-o", "all.vvp", "-s", "testbench", "all.v"], folder)
    done = run(["vvp", "-n", "all.vvp"], folder) if made.returncode == 0 else made
    said = {(int(i), int(row)): answer for i, row, answer in re.findall(r"^ROW (\d+) (\d+) ([01]+)$", done.stdout, re.M)}
    return judged("Icarus Verilog", cases, modules, said, tail(done))


def with_yosys(tool: str, cases: Sequence[Case], folder: pathlib.Path) -> list[Part]:
    """Each module within one that takes the row as a number, flattened and evaluated; a table without inputs has its one row shown."""
    modules = modules_of(cases)
    text, script = [], ["read_verilog all.v", "flatten"]
    for i, module in enumerate(modules):
        n, m = len(module.case.table.inputs), len(module.case.table.outputs)
        row = f"input [{n - 1}:0] row, " if n else ""
        text.append(f"{module.text}module top{i} ({row}output [{m - 1}:0] out{i});\n    {instance(i, module)}\nendmodule\n")
        script += [f"log MODULE {i}", f"eval {'-table row ' if n else ''}-show out{i} top{i}"]
    (folder / "all.v").write_text("".join(text), encoding="utf-8")
    done = run([tool, "-p", "; ".join(script)], folder)
    said = {}
    for part in re.split(r"^MODULE ", done.stdout, flags=re.M)[1:]:
        number = int(part.split(None, 1)[0])
        answers = re.findall(r"^ *(?:\d+'([01]+) *\| *|Eval result: \S+ = )\d+'([01]+)\.? *$", part, re.M)
        said.update({(number, int(row or "0", 2)): answer for row, answer in answers})
    return judged("Yosys", cases, modules, said, tail(done))
