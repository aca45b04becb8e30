"""BLIF, read: one combinational model of `.names`; docs/FORMATS.md says what is taken."""

from __future__ import annotations

from collections.abc import Callable, Collection
from typing import NoReturn, Optional

from . import MOST_INPUTS, MOST_OUTPUTS, Content
from ..errors import Faults, Malformed
from .directives import argument, content_of, in_sequence, noted_places
from .logic import Cover, Logic
from .row_sets import marks_of, rows_where
from .words import BLANKED, Word, check_distinct, order_of, second_places, shortened, split_lines, words_of

GOES_ON = "\\"
INPUT_MARKS, OUTPUT_MARKS = "01-", ("0", "1")
KINDS = {".inputs": ("input", MOST_INPUTS), ".outputs": ("output", MOST_OUTPUTS)}
# What is said of times, loads and area, for other tools: no output depends on it.
SKIPPED = frozenset(
    ".area .delay .wire_load_slope .wire .input_arrival .default_input_arrival .output_required .default_output_required .input_drive"
    " .default_input_drive .output_load .default_output_load .max_input_load .default_max_input_load .and_gate_delay".split()
)
NOT_TAKEN = {
    ".latch": "a latch holds a state, and a table has none",
    ".subckt": "it stands for another model; flatten the model first",
    ".gate": "it stands for a gate of a library; have the model written with .names",
}


def read(text: str, faults: Optional[Faults] = None) -> Content:
    """The content of a BLIF file. What the network behind .exdc gives is free, and nothing else."""
    reader = _Reader(Faults() if faults is None else faults)
    with in_sequence(reader.faults):
        reader.take_lines(text)
        reader.check()
    inputs, n = tuple(reader.main.inputs), len(reader.main.inputs)
    columns = {name: rows_where(number, n) for number, name in enumerate(inputs)}
    ones, free = reader.main.evaluate(columns, n), reader.free.evaluate(columns, n)
    marks = (marks_of(ones[name], free[name] if name in reader.free.covers else 0, n) for name in reader.main.outputs)
    return Content(tuple(marks), inputs, tuple(reader.main.outputs), reader.order)


class _Reader:
    """A BLIF file as far as it is read: the model, the network of its don't-cares, and the cover whose cubes are being read, if any.

    `is_lost` tells that a second model begins, of which nothing is read.
    """

    def __init__(self, faults: Faults) -> None:
        self.faults, self.is_lost = faults, False
        self.main, self.free = Logic(), Logic()
        self.logic = self.main
        self.cover: Optional[Cover] = None
        # Whether cubes are below a directive that isn't taken, and whether there was any such, which may have driven signals.
        self.skips, self.misses = False, False
        self.once: dict[str, Word] = {}
        self.places: list[Word] = []
        self.order: tuple[int, ...] = ()
        self._begun: list[Word] = []

    # Lines.

    def take_lines(self, text: str) -> None:
        for number, line in enumerate(split_lines(text), 1):
            with self.faults:
                self._take_line(line, number)
            if self.is_lost:
                break
        with self.faults:
            self._take_words([])

    def _take_line(self, line: str, number: int) -> None:
        """Takes a line, or keeps its words where it goes on in the next."""
        content = content_of(line).rstrip()
        if content.endswith(GOES_ON):
            self._begun += words_of(content[: -len(GOES_ON)], number, BLANKED)
        elif content or self._begun:
            self._take_words(words_of(content, number, BLANKED))
        else:
            self._take_comment(noted_places(line, number))

    def _take_words(self, more: list[Word]) -> None:
        words, self._begun = self._begun + more, []
        if not words:
            return
        if words[0].text == ".model":
            self._take_model(words)
        elif ".end" in self.once:
            raise words[0].wrong("text after the end")
        elif words[0].text.startswith("."):
            self._take_directive(words)
        else:
            self._take_cube(words)

    def _take_comment(self, places: list[Word]) -> None:
        if places and self.places:
            raise second_places(places, self.places)
        self.places = places or self.places

    # Directives.

    def _take_directive(self, words: list[Word]) -> None:
        name = words[0].text
        self.cover, self.skips = None, name not in TAKEN and name not in SKIPPED
        self.misses |= self.skips
        if name in TAKEN:
            TAKEN[name](self, words)
        elif self.skips:
            reason = NOT_TAKEN.get(name, "what is read is one combinational model of .names")
            raise words[0].wrong(f"{shortened(name)} is not taken here: {reason}")

    def _take_once(self, words: list[Word]) -> None:
        word = words[0]
        first = self.once.setdefault(word.text, word)
        if first is not word:
            raise word.wrong(f"{word.text} stands twice, in lines {first.line} and {word.line}")

    def _take_model(self, words: list[Word]) -> None:
        if ".model" in self.once or ".end" in self.once:
            self.is_lost = True
            raise words[0].wrong("a second model: a file has one here; flatten the models first, or leave the others out")
        self._take_once(words)
        argument(words)

    def _take_names(self, words: list[Word]) -> None:
        *reads, driven = words
        if not reads:
            raise driven.wrong(".names takes the signals that are read, if any, and the one that is driven")
        self.cover = Cover(reads[1:], driven)
        name, known = shortened(driven.text), self.logic.covers.get(driven.text)
        if known:
            raise driven.wrong(f"{name} is driven twice, in lines {known.driven.line} and {driven.line}")
        if driven.text in self.logic.inputs:
            raise driven.wrong(f"{name} is an input, so nothing can drive it")
        self.logic.covers[driven.text] = self.cover

    def _take_ends(self, words: list[Word]) -> None:
        """Takes inputs or outputs. Several lines add up; behind .exdc there are none but the model's own."""
        word, *names = words
        kind, most = KINDS[word.text]
        held = self.main.inputs if kind == "input" else self.main.outputs
        if self.logic is self.free:
            self._take_free_ends(kind, names, held)
            return
        before = list(held.values())
        held.update((name.text, name) for name in names if name.text not in held)
        check_distinct(kind, [*before, *names])
        if names and len(held) > most:
            raise names[max(most - len(before), 0)].wrong(f"there are more than {most} {kind}s")
        if kind == "input":
            self._check_undriven(names)

    def _take_free_ends(self, kind: str, names: list[Word], known: Collection[str]) -> None:
        for name in names:
            if name.text not in known:
                raise name.wrong(f"there is no {kind} {shortened(name.text)}")
        check_distinct(kind, names)

    def _check_undriven(self, inputs: list[Word]) -> None:
        for name in inputs:
            if name.text in self.main.covers:
                line = self.main.covers[name.text].driven.line
                raise name.wrong(f"{shortened(name.text)} is driven in line {line}, so it can't be an input")

    def _take_exdc(self, words: list[Word]) -> None:
        self._take_once(words)
        self.logic = self.free
        self.free.inputs.update(self.main.inputs)

    def _take_end(self, words: list[Word]) -> None:
        self._take_once(words)
        if len(words) > 1:
            raise words[1].wrong("text after the end")

    # Cubes.

    def _take_cube(self, words: list[Word]) -> None:
        if self.skips:
            return
        if self.cover is None:
            raise words[0].wrong("this is no directive, and no cube below .names")
        width = len(self.cover.reads)
        *inputs, output = (word.text for word in words)
        marks = "".join(inputs)
        if len(inputs) != min(width, 1) or len(marks) != width or marks.strip(INPUT_MARKS) or output not in OUTPUT_MARKS:
            _tell_wrong(words, width)
        value = self.cover.value or output
        if output != value:
            raise words[-1].wrong(f"a cube of {output} among cubes of {value}: those of one signal are all of 1 or all of 0")
        self.cover.value = value
        self.cover.cubes.append(marks)

    # What is known when all is read.

    def check(self) -> None:
        if ".end" not in self.once:
            self.faults.note(Malformed("there is no .end: the file may have been cut short", 1))
        if not self.main.outputs:
            with self.faults:
                raise Malformed("there are no outputs", 1)
        self.main.check(self.faults, self.misses)
        self.free.check(self.faults, self.misses, " behind .exdc")
        with self.faults:
            self.order = order_of(self.places, tuple(self.main.inputs)) if self.places else tuple(range(len(self.main.inputs)))


def _tell_wrong(words: list[Word], width: int) -> NoReturn:
    """Raises what is wrong with a cube."""
    marks = [Word(mark, word.line, word.column + at) for word in words for at, mark in enumerate(word.text)]
    for mark in marks:
        if mark.text not in INPUT_MARKS:
            raise mark.wrong(f"{mark.text} is not a mark of a cube, which are 0, 1 and -")
    if len(marks) == width + 1 and len(words) == 1 + min(width, 1):
        raise marks[-1].wrong("an output's mark is 0 or 1")
    raise words[0].wrong(f"the marks of a cube are {width} for the inputs and 1 for the output, with a blank between")


TAKEN: dict[str, Callable[[_Reader, list[Word]], None]] = {
    ".inputs": _Reader._take_ends,
    ".outputs": _Reader._take_ends,
    ".names": _Reader._take_names,
    ".exdc": _Reader._take_exdc,
    ".end": _Reader._take_end,
}
