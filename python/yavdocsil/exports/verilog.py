"""A network as Verilog: a wire with `?:` for each cell, and an assignment for each output.

It has the form that Icarus, Yosys and ABC all read; ABC takes no kinds of ports in the module's head, and no wire that is assigned where
it is declared.
"""

from __future__ import annotations

import re
from collections.abc import Sequence

from . import names
from ..diagram import Cell, Diagram, cell_of, is_inverted
from .names import Names

# Of IEEE 1364-2005 and, since many tools read every file so, IEEE 1800-2017.
KEYWORDS = frozenset(
    """
    accept_on alias always always_comb always_ff always_latch and assert assign assume automatic before begin bind bins binsof bit break
    buf bufif0 bufif1 byte case casex casez cell chandle checker class clocking cmos config const constraint context continue cover
    covergroup coverpoint cross deassign default defparam design disable dist do edge else end endcase endchecker endclass endclocking
    endconfig endfunction endgenerate endgroup endinterface endmodule endpackage endprimitive endprogram endproperty endsequence
    endspecify endtable endtask enum event eventually expect export extends extern final first_match for force foreach forever fork
    forkjoin function generate genvar global highz0 highz1 if iff ifnone ignore_bins illegal_bins implements implies import incdir
    include initial inout input inside instance int integer interconnect interface intersect join join_any join_none large let liblist
    library local localparam logic longint macromodule matches medium modport module nand negedge nettype new nexttime nmos nor
    noshowcancelled not notif0 notif1 null or output package packed parameter pmos posedge primitive priority program property protected
    pull0 pull1 pulldown pullup pulsestyle_ondetect pulsestyle_onevent pure rand randc randcase randsequence rcmos real realtime ref reg
    reject_on release repeat restrict return rnmos rpmos rtran rtranif0 rtranif1 s_always s_eventually s_nexttime s_until s_until_with
    scalared sequence shortint shortreal showcancelled signed small soft solve specify specparam static string strong strong0 strong1
    struct super supply0 supply1 sync_accept_on sync_reject_on table tagged task this throughout time timeprecision timeunit tran
    tranif0 tranif1 tri tri0 tri1 triand trior trireg type typedef union unique unique0 unsigned until until_with untyped use uwire var
    vectored virtual void wait wait_order wand weak weak0 weak1 while wildcard wire with within wor xnor xor
    """.split()
)


def write(diagram: Diagram, name: str = "network") -> str:
    """The network as one module: its ports and wires, its cells in sequence, its outputs."""
    called = names.signals(diagram, fits)
    lines = [
        *(f"// {line}" for line in called.replaced),
        f"module {spelled(name if fits(name) else names.plain(name))} ({_list([*called.inputs, *called.outputs])});",
        *_declared("input", called.inputs),
        *_declared("output", called.outputs),
    ]
    for place in range(len(diagram.inputs)):
        lines += _declared("wire", [called.cell(cell.number) for cell in diagram.cells_at(place)])
    lines += [_selector(cell, called.inputs[diagram.order[cell.place]], called) for cell in diagram.cells]
    lines += [f"    assign {spelled(output)} = {_reference(root, called)};" for output, root in zip(called.outputs, diagram.roots)]
    return "\n".join([*lines, "endmodule", ""])


def fits(name: str) -> bool:
    """Whether a name can be taken, if only escaped: printable ASCII, but for what a tool mistakes even there.

    Preprocessors take a backtick for a macro. ABC takes parentheses, `,` and `;` for those of the language, a name that begins as a number
    with a size for a constant, and `wire` for the word. Icarus takes `#` for the base of a class, and `*` for all ports.
    """
    mistaken = re.match(r"\d+'", name) is not None or name in ("wire", "#", "*")
    return re.fullmatch(r"[!-~]+", name) is not None and not mistaken and not set(name) & set("`(),;")


def spelled(name: str) -> str:
    """A name that fits, as it is where that is an identifier, else escaped; a blank ends it then."""
    simple = re.fullmatch(r"[A-Za-z_][A-Za-z0-9_$]*", name) and name not in KEYWORDS
    return name if simple else f"\\{name} "


def _list(called: Sequence[str]) -> str:
    return ", ".join(map(spelled, called))


def _declared(kind: str, called: Sequence[str]) -> list[str]:
    """The line that declares signals of a kind; none where there are none."""
    return [f"    {kind} {_list(called)};"] if called else []


def _selector(cell: Cell, select: str, called: Names) -> str:
    """A cell; `?:` is what it does, and tools that map to multiplexers look for it."""
    return f"    assign {called.cell(cell.number)} = {spelled(select)} ? {_reference(cell.high, called)} : {_reference(cell.low, called)};"


def _reference(reference: int, called: Names) -> str:
    if reference < 2:
        return f"1'b{reference}"
    return f"{'~' if is_inverted(reference) else ''}{called.cell(cell_of(reference))}"
