"""The word same: whether two heads weave the same ribbon, and if not, where they first differ.

All is told by the first file's names: heads have none, so inputs and outputs go by position.
"""

from __future__ import annotations

import argparse
from collections.abc import Sequence
from typing import NamedTuple

from .. import formats
from ..comparison import Difference, differences
from ..display import many
from ..errors import Faults
from ..network import Network
from ..reading.rows import bits_of
from .by_rows import row_line, shown, under
from .files import BadWord, Source, about, first_of, kind_in, network_in, tell, warn_of
from .networks import cells_held
from .options import check_read_once, ordered


class Head(NamedTuple):
    """A file, and its network."""

    source: Source
    network: Network


def same(given: argparse.Namespace) -> int:
    """Tells that two files' networks are the same, or else where they differ; then the status is 1."""
    check_read_once(given.file, given.other)
    other = Source(given.other, given.other_read_as, "--other-from")
    heads = Head(first_of(given), ordered(given)), Head(other, network_in(other, Faults()))
    sizes = [size_told(head.network) for head in heads]
    if sizes[0] != sizes[1]:
        tell(f"different: {heads[0].source.called} has {sizes[0]}, and {other.called} {sizes[1]}")
        return 1
    warn_of_names(*heads)
    with about(other.called):
        put_in_order(*heads, is_given=given.order is not None)
    found = heads[0].network.difference(heads[1].network)
    if found is None:
        tell(f"same: {cells_held(heads[0].network)}")
        return 0
    tell(*lines_of(found, heads))
    return 1


def size_told(network: Network) -> str:
    return f"{many(len(network.inputs), 'input')} and {many(len(network.outputs), 'output')}"


def warn_of_names(first: Head, second: Head) -> None:
    """Notes the same names in another sequence: whoever goes by the names would take the answer for another."""
    if any(kind_in(head.source) in formats.BINARY for head in (first, second)):
        # Such a file has no names, and those that it is given here say nothing.
        return
    for what, ours, others in (
        ("inputs", first.network.inputs, second.network.inputs), ("outputs", first.network.outputs, second.network.outputs),
    ):
        if ours != others and sorted(ours) == sorted(others):
            sequences = f"its {what} are {' '.join(others)}, and the first file's {' '.join(ours)}"
            warn_of(f"{second.source.called}: {sequences}: they go by position, whatever their names")


def put_in_order(first: Head, second: Head, is_given: bool) -> None:
    """Puts the second in the order given, which the first is in already. Without one it has to be in the first's own."""
    names, orders = first.network.inputs, [head.network.order for head in (first, second)]
    if is_given:
        second.network.reorder(orders[0])
    elif orders[0] != orders[1]:
        there, here = (" ".join(names[number] for number in order) for order in orders)
        by = "" if second.network.inputs == names else ", both by the first file's names"
        raise BadWord(f"its order is {here}, and the first file's {there}{by}; --order names one for both")


# Where they differ.


def lines_of(found: Difference, heads: Sequence[Head]) -> list[str]:
    """The row of a difference, with what each file's network gives there, and which of that is free."""
    inputs, outputs = shown(heads[0].network.inputs), shown(heads[0].network.outputs)
    lines = [f"different: first at this row, in the output {outputs[found.output]}", " ".join([*inputs, "|", *outputs])]
    for source, network in heads:
        free = f", where {outputs[found.output]} is free" if is_free(found, network) else ""
        bits = under(built(network).evaluate([found.row])[0], outputs)
        lines.append(row_line(found.row, inputs, [*bits, f" in {source.called}{free}"]))
    networks = [head.network for head in heads]
    return [*lines, cared_line(networks)] if any(is_free(found, network) for network in networks) else lines


def is_free(found: Difference, network: Network) -> bool:
    """Whether the table leaves a bit free, so that the filling has chosen it."""
    return network.table.columns[found.output][found.row] is None


def built(network: Network) -> Network:
    """The network, which is built where none is held."""
    if not network.is_built:
        network.build()
    return network


def cared_line(networks: Sequence[Network]) -> str:
    """Whether a bit differs that both tables care for: behind one that is free there may be such a one, or none."""
    columns = [network.table.columns for network in networks]
    for row, output, _ in differences(*map(built, networks)):
        if all(marks[output][row] is not None for marks in columns):
            bits = "".join(map(str, bits_of(row, len(networks[0].inputs))))
            return f"where both are cared, {networks[0].outputs[output]} differs first{f' at {bits}' if bits else ''}"
    return "where both are cared, nothing differs"
