"""Holds the exports to tools that nobody here wrote: ABC, Icarus, Yosys, Graphviz and espresso.

    PYTHONPATH=tests:python python3 -m outside.compare [--tables N] [--seed S]

Takes the examples' drawings, some tables drawn here and N random ones with free rows, and needs the library that
./build makes. BLIF, Verilog and PLA are put to ABC, Verilog also to Icarus and to Yosys, DOT to Graphviz, PLA to
espresso; and BLIF that ABC writes itself is read here. It installs nothing: the tools are Debian's berkeley-abc,
iverilog, yosys and graphviz. Debian has no package of espresso; one on the path is asked. What isn't there is named,
and its part not run. Where a part runs, broken exports are put to the tool, too, and must be found. The status is 0
if all that was run agreed, and 1 on a difference.
"""

from __future__ import annotations

import argparse
import pathlib
import random
import sys
import tempfile
from collections.abc import Callable, Iterator, Sequence

from outside.abc_tool import with_abc
from outside.cases import Case, case_of, drawn, randoms
from outside.other_tools import with_dot, with_espresso
from outside.running import Part, Tool, found
from outside.simulators import with_icarus, with_yosys
from yavdocsil import Error

TOOLS: dict[Tool, Callable[[str, Sequence[Case], pathlib.Path], list[Part]]] = {
    Tool("ABC", ("berkeley-abc", "abc", "yosys-abc"), "berkeley-abc"): with_abc,
    Tool("Icarus Verilog", ("iverilog",), "iverilog"): with_icarus,
    Tool("Yosys", ("yosys",), "yosys"): with_yosys,
    Tool("Graphviz", ("dot",), "graphviz"): with_dot,
    Tool("espresso", ("espresso",), "none that Debian has"): with_espresso,
}


def parts(cases: Sequence[Case], folder: pathlib.Path) -> Iterator[Part]:
    """The parts of each tool, or that it isn't there."""
    for tool, ask in TOOLS.items():
        path = found(tool)
        missing = Part(tool.name, 0, 0, [], f"not run: there is no {tool.name} (package: {tool.package})")
        yield from [missing] if path is None else ask(path, cases, folder)


def main() -> int:
    parser = argparse.ArgumentParser(description=__doc__.split("\n")[0])
    parser.add_argument("--tables", type=int, default=45, help="random tables (45)")
    parser.add_argument("--seed", type=int, default=1)
    asked = parser.parse_args()
    rng = random.Random(asked.seed)
    try:
        cases = [case_of(label, table, rng) for label, table in (*drawn(), *randoms(asked.tables, asked.seed))]
    except Error as error:
        raise SystemExit(str(error)) from error
    with tempfile.TemporaryDirectory() as folder:
        said = list(parts(cases, pathlib.Path(folder)))
    for part in said:
        for line in [*part.differences, *filter(None, [part.skipped])]:
            print(f"{part.tool}: {line}")
    print(f"{len(cases)} networks: {'; '.join(map(str, said))}")
    return int(any(part.differences for part in said))


if __name__ == "__main__":
    sys.exit(main())
