"""PLAs: a truth table as a list of cubes, as espresso has it; docs/FORMATS.md says what is taken."""

from __future__ import annotations

import re
from collections.abc import Callable
from typing import TYPE_CHECKING, Optional

from . import MOST_INPUTS, MOST_OUTPUTS, Content
from ..errors import Faults, Malformed
from .cubes import TYPES, Contradictions, Cubes, column, contradicted
from .directives import argument, content_of, in_sequence, noted_places
from .words import (
    BLANKED, COMMENT, Word, check_distinct, check_names, order_of, places_line, row_digits, second_places, shortened, split_lines, words_of,
)

if TYPE_CHECKING:
    from ..table import Table

NAME = re.compile(r"[^\s#]+")
NUMBER = re.compile(r"[0-9]{1,9}")
END = ".e"
USUAL_TYPE = "fd"
# How many inputs and outputs there may be.
LIMITS = {".i": (0, MOST_INPUTS), ".o": (1, MOST_OUTPUTS)}
# Directives that are judged by a number, before or behind which they may stand.
JUDGED_BY = {".ilb": ".i", ".ob": ".o", ".phase": ".o"}
KINDS = {".ilb": "input", ".ob": "output"}
PHASE_0 = (
    "0 is not taken as a phase: in some tools the cubes are the complement's then, in others they aren't; "
    "write the cubes of the output itself, and 1"
)


def read(text: str, faults: Optional[Faults] = None) -> Content:
    """The content of a PLA."""
    reader = _Reader(Faults() if faults is None else faults)
    with in_sequence(reader.faults):
        reader.take_lines(text)
        if reader.has_counts():
            reader.check(text)
    return reader.content()


def numbered(letter: str, count: int) -> tuple[str, ...]:
    """Names where a PLA has none, those that ABC gives, so that it finds the same: x0 to x9, but x00 to x10."""
    digits = len(str(count - 1))
    return tuple(f"{letter}{number:0{digits}}" for number in range(count))


class _Reader:
    """A PLA as far as it is read: the words of each directive, what they say, which is judged as soon as it can be, and the cubes.

    `is_lost` tells that no cube can be judged, since .i or .o is wrong, or isn't there before the first.
    """

    def __init__(self, faults: Faults) -> None:
        self.faults, self.is_lost = faults, False
        self.directives: dict[str, list[Word]] = {}
        self.places: list[Word] = []
        self.order: tuple[int, ...] = ()
        self.counts: dict[str, int] = {}
        self.names: dict[str, tuple[str, ...]] = {}
        self._waiting: list[str] = []
        self.type = USUAL_TYPE
        self.cubes: Optional[Cubes] = None
        # The same from the first cube to the end, where further ones may stand.
        self._open: Optional[Cubes] = None

    # Lines.

    def take_lines(self, text: str) -> None:
        for number, line in enumerate(split_lines(text), 1):
            if self._open is None or not self._open.take(line):
                with self.faults:
                    self._take_other(line, number)
                self._judge_waiting()
                if self.is_lost:
                    break

    def _take_other(self, line: str, number: int) -> None:
        words = words_of(content_of(line), number, BLANKED)
        if not words:
            self._take_comment(line, number)
        elif END in self.directives:
            raise words[0].wrong("text after the end")
        elif words[0].text.startswith("."):
            self._take_directive(words)
        else:
            self._take_first_cube(line, words[0])

    def _take_comment(self, line: str, number: int) -> None:
        places = noted_places(line, number)
        if places and self.places:
            raise second_places(places, self.places)
        if places:
            self.places = places
            self._judge_places()

    def _take_first_cube(self, line: str, first: Word) -> None:
        """Takes the first cube; of those after it only the wrong ones come here."""
        missing = [name for name in LIMITS if name not in self.counts]
        if missing:
            self.is_lost = True
            raise first.wrong(f"{missing[0]} is missing before the first cube")
        if self.cubes is None:
            self.cubes = self._open = Cubes(self.counts[".i"], self.counts[".o"])
        if not self.cubes.take(line):
            self.cubes.tell_wrong(line, first.line)

    # Directives.

    def _take_directive(self, words: list[Word]) -> None:
        word = words[0]
        name = END if word.text == ".end" else word.text
        if name not in TAKEN:
            raise word.wrong(f"{shortened(name)} is not a directive that is taken here")
        if name in self.directives:
            raise word.wrong(f"{name} stands twice, in lines {self.directives[name][0].line} and {word.line}")
        self.directives[name] = words
        if JUDGED_BY.get(name) in {None, *self.counts}:
            TAKEN[name](self, words)
        else:
            self._waiting.append(name)

    def _judge_waiting(self) -> None:
        """Takes the directives that stand before the number by which they are judged, once that is known."""
        known = [name for name in self._waiting if JUDGED_BY[name] in self.counts]
        for name in known:
            self._waiting.remove(name)
            with self.faults:
                TAKEN[name](self, self.directives[name])

    def _take_count(self, words: list[Word]) -> None:
        """How many inputs or outputs there are."""
        name = words[0].text
        self.is_lost = True
        least, most = LIMITS[name]
        word = argument(words)
        count = _number(word)
        if not least <= count <= most:
            raise word.wrong(f"{name} is {least} to {most}, not {count}")
        self.counts[name] = count
        self.is_lost = False

    def _take_names(self, words: list[Word]) -> None:
        word, *names = words
        count = self.counts[JUDGED_BY[word.text]]
        if len(names) != count:
            at = names[count] if len(names) > count else word
            raise at.wrong(f"the number of names is {len(names)}, not {count}")
        check_distinct(KINDS[word.text], names)
        self.names[word.text] = tuple(name.text for name in names)
        self._judge_places()

    def _take_type(self, words: list[Word]) -> None:
        if self.cubes is not None:
            raise words[0].wrong(".type stands after a cube; it goes before the first")
        word = argument(words)
        if word.text not in TYPES:
            raise word.wrong(f"{shortened(word.text)} is not a type, which is {', '.join(TYPES)}")
        self.type = word.text

    def _take_phase(self, words: list[Word]) -> None:
        """Every output's phase is 1, which changes nothing."""
        word, count = argument(words), self.counts[".o"]
        if len(word.text) != count:
            raise word.wrong(f"the number of phases is {len(word.text)}, not {count}")
        other = re.search("[^1]", word.text)
        if other:
            reason = PHASE_0 if other[0] == "0" else f"{other[0]} is not a phase, which is 1"
            raise word._replace(column=word.column + other.start()).wrong(reason)

    def _take_total(self, words: list[Word]) -> None:
        self.counts[".p"] = _number(argument(words))

    def _take_model(self, words: list[Word]) -> None:
        """A name for the whole, which ABC takes; nothing here has a place for it."""
        argument(words)

    def _take_end(self, words: list[Word]) -> None:
        self._open = None
        if len(words) > 1:
            raise words[1].wrong("text after the end")

    # What is known when all is read.

    def has_counts(self) -> bool:
        """Whether .i and .o are known. It tells where one is missing; there is nothing else to judge then."""
        missing = [name for name in LIMITS if name not in self.counts]
        for name in missing:
            if not self.is_lost:
                with self.faults:
                    raise Malformed(f"{name} is missing", 1)
        return not missing

    def check(self, text: str) -> None:
        """Tells what is wrong with the whole of the text, whose lines were taken."""
        n, m = self.counts[".i"], self.counts[".o"]
        self.cubes = self.cubes or Cubes(n, m)
        with self.faults:
            self._check_total(self.cubes.count)
        for directive, usual in ((".ilb", numbered("x", n)), (".ob", numbered("z", m))):
            self.names.setdefault(directive, usual)
        if ".ilb" not in self.directives:
            with self.faults:
                self._judge_places()
        kind = TYPES[self.type]
        rows = {output: contradicted(said, kind) for output, said in enumerate(self.cubes.said(kind.meant))}
        if any(rows.values()):
            self._compare_lines(text, Contradictions(self.cubes, rows, kind.meant, self.names[".ob"]))

    def _check_total(self, count: int) -> None:
        """Tells where .p isn't the number of cubes. It is taken all the same, unless cubes and the end are missing."""
        if self.counts.get(".p", count) == count:
            return
        word = argument(self.directives[".p"])
        wrong = f"the number of cubes is {count}, not {word.text}"
        if END not in self.directives and count < self.counts[".p"]:
            raise word.wrong(f"{wrong}, and there is no {END}: the file was cut short; if it is whole, end it with {END}")
        self.faults.note(word.wrong(wrong))

    def _judge_places(self) -> None:
        if self.places and ".ilb" in self.names:
            self.order = order_of(self.places, self.names[".ilb"])

    def _compare_lines(self, text: str, contradictions: Contradictions) -> None:
        """Walks over the cubes again, up to the end, and tells the lines that contradict others."""
        last = self.directives[END][0].line if END in self.directives else None
        for number, line in enumerate(split_lines(text), 1):
            if number == last:
                break
            with self.faults:
                contradictions.compare(line, number)

    def content(self) -> Content:
        """What the text says, if nothing is wrong with it."""
        n, kind = self.counts[".i"], TYPES[self.type]
        said = self.cubes.said(kind.meant) if self.cubes else []
        columns = tuple(column(sets, kind, n) for sets in said)
        return Content(columns, self.names[".ilb"], self.names[".ob"], self.order or tuple(range(n)))


TAKEN: dict[str, Callable[[_Reader, list[Word]], None]] = {
    ".i": _Reader._take_count,
    ".o": _Reader._take_count,
    ".ilb": _Reader._take_names,
    ".ob": _Reader._take_names,
    ".type": _Reader._take_type,
    ".phase": _Reader._take_phase,
    ".p": _Reader._take_total,
    ".model": _Reader._take_model,
    END: _Reader._take_end,
}


def _number(word: Word) -> int:
    if not NUMBER.fullmatch(word.text):
        raise word.wrong(f"{shortened(word.text)} is not a number of up to nine digits")
    return int(word.text)


# Writing.


def write(table: Table) -> str:
    """The PLA of a table, of type fr, with a minterm for every row that is not wholly free.

    A name in it is a word without #, else ValueError is raised.
    """
    check_names(table, NAME, "a PLA")
    n, places = len(table.inputs), places_line(table)
    cubes = [f"{row_digits(row, n)} {marks}".lstrip() for row, marks in enumerate(table.rows) if set(marks) != {"-"}]
    lines = [f".i {n}", f".o {len(table.outputs)}"]
    lines += [" ".join([".ilb", *table.inputs])] if n else []
    lines.append(" ".join([".ob", *table.outputs]))
    lines += [] if places is None else [f"{COMMENT} {places}"]
    lines += [".type fr", f".p {len(cubes)}", *cubes, END]
    return "".join(f"{line}\n" for line in lines)
