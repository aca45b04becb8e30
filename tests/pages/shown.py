"""What a page shows: commands with what they write, programs in Python with what they print, and texts of a format.

On a page a block is indented by four blanks, behind an empty line. It is one of
these:

- a transcript: commands, each behind `$ `, and below each what it writes;
- a program, which begins with an import; the block behind a line that ends in
  `prints:` is what it prints;
- anything else, which a test has to know.

In a manual page a transcript stands between `.nf` and `.fi`. A text of a format
stands between lines of three backticks, with the format's name behind the first.
"""

import dataclasses
import itertools
import re

INDENT = "    "
PROMPT = "$ "
PRINTS = "prints:"


@dataclasses.dataclass(frozen=True)
class Command:
    line: int
    text: str
    writes: str


@dataclasses.dataclass(frozen=True)
class Program:
    line: int
    text: str
    writes: str


@dataclasses.dataclass(frozen=True)
class Other:
    line: int
    text: str


@dataclasses.dataclass(frozen=True)
class Fence:
    line: int
    kind: str


@dataclasses.dataclass(frozen=True)
class Block:
    """The lines of a block, without their indent, the number of the first, and the last line of text before it."""

    line: int
    lines: tuple
    above: str


def shown_on(lines):
    """All that a page shows, in sequence."""
    blocks, fences = blocks_of(lines)
    found, output = list(fences), None
    for block, after in zip(blocks, [*blocks[1:], None]):
        if block is output:
            continue
        if block.lines[0].startswith(PROMPT):
            found += transcript(block)
        elif re.match(r"import |from \w+ import ", block.lines[0]):
            output = after if after is not None and after.above.endswith(PRINTS) else None
            found.append(Program(block.line, joined(block.lines), joined(output.lines) if output else ""))
        else:
            found.append(Other(block.line, joined(block.lines)))
    return sorted(found, key=lambda each: each.line)


def blocks_of(lines):
    """The indented blocks of a page, and its fences."""
    blocks, fences, above, at = [], [], "", 0
    while at < len(lines):
        line = lines[at]
        if line.startswith("```"):
            end = next(number for number in range(at + 1, len(lines)) if lines[number].startswith("```"))
            fences.append(Fence(at + 1, line[3:]))
            at = end + 1
        elif line.startswith(INDENT) and (at == 0 or not lines[at - 1].strip()):
            end = at
            while end < len(lines) and (lines[end].startswith(INDENT) or not lines[end].strip()):
                end += 1
            inside = [each[len(INDENT) :] for each in lines[at:end]]
            while not inside[-1].strip():
                inside.pop()
            blocks.append(Block(at + 1, tuple(inside), above))
            at = end
        else:
            above = line.strip() or above
            at += 1
    return blocks, fences


def transcript(block):
    """The commands of a block, each with the lines below it."""
    starts = [at for at, line in enumerate(block.lines) if line.startswith(PROMPT)]
    for at, end in zip(starts, [*starts[1:], len(block.lines)]):
        yield Command(block.line + at, block.lines[at][len(PROMPT) :], joined(block.lines[at + 1 : end]))


def joined(lines):
    return "".join(f"{line}\n" for line in lines)


def shown_in_manual(lines):
    """The commands that a manual page shows with a prompt."""
    plain = [re.sub(r"\\-", "-", line) for line in lines]
    for at, line in enumerate(plain):
        if line.startswith(PROMPT):
            below = itertools.takewhile(lambda each: each != ".fi" and not each.startswith(PROMPT), plain[at + 1 :])
            yield Command(at + 1, line[len(PROMPT) :], joined(below))
