"""What `print` and `cells` must write, byte for byte, by the reference.

    PYTHONPATH=tests python3 -m programs.expected print < TABLE
    PYTHONPATH=tests python3 -m programs.expected cells < TABLE

show it to a person.

Decisions where the texts leave room:
- `cells` writes a table file's network file, document 02's 2.2, built in the
  file's order with 2,159 cells; a refusal is the one line that `print` gives.
- Input over 65,536 bytes is refused with 1 by both.
"""

import sys

from paper import network_file, reference

LONGEST_INPUT = 65536
MOST_CELLS = 2159


class Built:
    """A table file loaded and built, in buffers that are always long enough; `refusal` is
    the number of what was refused, or 0."""

    def __init__(self, file):
        self.state = reference.State()
        self.values = bytearray(reference.TABLE_BYTES)
        self.care = bytearray(reference.TABLE_BYTES)
        self.work = bytearray(reference.WORK_BYTES)
        self.roots = [0] * reference.ROOTS
        self.cells = [0] * (3 * MOST_CELLS)
        self.refusal = self.load(file) or self.build()

    def load(self, file):
        if len(file) > LONGEST_INPUT:
            return 1
        return reference.load(self.state, file, self.values, self.care)[0]

    def build(self):
        table = self.values, self.care, self.work
        return reference.build(self.state, *table, self.roots, self.cells)[0]

    def order_line(self):
        return " ".join(["order"] + [str(i) for i in reference.used_order(self.state)])

    def cared_line(self):
        _, bits = reference.cared(self.state, self.care)
        return f"cared {bits}"

    def cell_lines(self):
        lines = []
        for i in range(self.state.count):
            place, zero_arrow, one_arrow = self.cells[3 * i : 3 * i + 3]
            lines.append(f"cell {i + 1} {place} {zero_arrow} {one_arrow}")
        for j in range(self.state.m):
            lines.append(f"root {j} {self.roots[j]}")
        return lines

    def written(self):
        """The writer's number, and the file it wrote."""
        space = bytearray(network_file.FILE_BYTES)
        refusal, _ = network_file.write_cells(
            self.state, self.roots, self.cells, self.work, space
        )
        blocks = network_file.blocks_for(self.state.count)
        return refusal, bytes(space[: reference.BLOCK_BYTES * blocks])


def refused(number):
    return f"refused {number}\n"


def print_text(file):
    built = Built(file)
    if built.refusal:
        return refused(built.refusal)
    lines = [f"inputs {built.state.n}", f"outputs {built.state.m}"]
    lines += [built.order_line(), built.cared_line(), f"cells {built.state.count}"]
    return "".join(line + "\n" for line in lines + built.cell_lines())


def cells_output(file):
    """The network file, or the line of a refusal, as bytes."""
    built = Built(file)
    refusal, written = (built.refusal, b"") if built.refusal else built.written()
    return refused(refusal).encode() if refusal else written


def output_of(program, file):
    """All that a program must write, as bytes."""
    return cells_output(file) if program == "cells" else print_text(file).encode()


def main():
    sys.stdout.buffer.write(output_of(sys.argv[1], sys.stdin.buffer.read()))


if __name__ == "__main__":
    main()
