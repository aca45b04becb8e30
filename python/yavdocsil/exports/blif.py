"""A network as BLIF: `.names` with a selector's cubes for each cell, and a buffer, an inverter or a constant for each output."""

from __future__ import annotations

import re

from . import names
from ..diagram import Cell, Diagram, cell_of, is_constant, is_inverted
from .names import Names


def write(diagram: Diagram, name: str = "network") -> str:
    """The network as one model, its cells in sequence."""
    called = names.signals(diagram, fits)
    lines = [
        *(f"# {line}" for line in called.replaced),
        f".model {name if fits(name) else names.plain(name)}",
        " ".join([".inputs", *called.inputs]),
        " ".join([".outputs", *called.outputs]),
        *_places(diagram, called),
    ]
    lines += [line for cell in diagram.cells for line in _selector(cell, called.inputs[diagram.order[cell.place]], called)]
    lines += [line for output, root in zip(called.outputs, diagram.roots) for line in _output(output, root, called)]
    return "\n".join([*lines, ".end", ""])


def _places(diagram: Diagram, called: Names) -> list[str]:
    """The comment that names the places, as it is read here again; none where the order is that of the inputs."""
    natural = list(diagram.order) == sorted(diagram.order)
    return [] if natural else [" ".join(["# places", *(called.inputs[number] for number in diagram.order)])]


def fits(name: str) -> bool:
    """Whether BLIF takes a name: printable ASCII without what comments, line ends and pins use, not begun as a command is, nor `$`.

    Yosys takes that one for the beginning of a name of its own.
    """
    return name != "$" and re.fullmatch(r"[!-~]+", name) is not None and not name.startswith(".") and not set(name) & set("#\\=")


def _selector(cell: Cell, select: str, called: Names) -> list[str]:
    """A cell: a column for its input and one for each cell that it refers to, a cube for each edge that can give 1."""
    referred = sorted({cell_of(edge) for edge in (cell.low, cell.high) if not is_constant(edge)})
    cubes = [f"{value}{_cube(edge, referred)} 1" for value, edge in ((0, cell.low), (1, cell.high)) if edge != 0]
    # With both edges 0, which no build leaves, there is no cube, and ABC takes no columns then.
    columns = [select, *map(called.cell, referred)] if cubes else []
    return [" ".join([".names", *columns, called.cell(cell.number)]), *cubes]


def _cube(edge: int, referred: list[int]) -> str:
    """Where an edge gives 1: its cell's column has 1, or 0 if it is inverted, and the other one doesn't matter."""
    return "".join("-" if number != cell_of(edge) else "0" if is_inverted(edge) else "1" for number in referred)


def _output(output: str, root: int, called: Names) -> list[str]:
    if is_constant(root):
        return [f".names {output}", *["1"] * root]
    return [f".names {called.cell(cell_of(root))} {output}", "0 1" if is_inverted(root) else "1 1"]
