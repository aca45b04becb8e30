"""PLAs: what each type and mark means, every error with its place, one by one and all together, and what is written."""

from __future__ import annotations

import itertools
import random
import unittest
import unittest.mock

from tests.places import EXAMPLES, ROOT
from tests.reading.random_tables import random_table
from yavdocsil import Malformed, Table
from yavdocsil.errors import MOST_GATHERED, Faults
from yavdocsil.reading import pla as reader
from yavdocsil.reading import table_file
from yavdocsil.reading.words import split_lines

# What each output mark says in each type; nothing where it has no meaning.
SAYS = {
    "f": {"1": "1", "4": "1"},
    "fd": {"1": "1", "4": "1", "-": "-", "2": "-"},
    "fr": {"1": "1", "4": "1", "0": "0", "3": "0"},
    "fdr": {"1": "1", "4": "1", "0": "0", "3": "0", "-": "-", "2": "-"},
}
REST = {"f": "0", "fd": "0", "fr": "-", "fdr": "-"}


def together(kind: str, said: set) -> str:
    """What marks that have a meaning say together; nothing where they contradict each other."""
    if not said:
        return REST[kind]
    if kind == "fd" and said == {"1", "-"}:
        return "-"
    return said.copy().pop() if len(said) == 1 else ""


def pla(cubes: str, n: int = 2, m: int = 1, kind: str = "fr") -> str:
    return f".i {n}\n.o {m}\n.type {kind}\n{cubes}\n.e\n"


class Reading(unittest.TestCase):
    def check(self, text: str, *rows: str, **others) -> None:
        with self.subTest(text):
            table = Table.from_pla(text)
            self.assertEqual(table.rows, list(rows))
            for field, wanted in others.items():
                self.assertEqual(getattr(table, field), wanted)

    def test_exclusive_or(self) -> None:
        text = "# a lamp\n.i 2\n.o 1\n.ilb left right\n.ob lamp\n.p 2\n01 1\n10 1\n.e\n"
        self.check(text, *"0110", inputs=("left", "right"), outputs=("lamp",), order=(0, 1))

    def test_every_mark_of_every_type(self) -> None:
        for kind, mark in itertools.product(SAYS, "01-~234"):
            said = SAYS[kind].get(mark, REST[kind])
            self.check(pla(f"10 {mark}", kind=kind), REST[kind], REST[kind], said, REST[kind])

    def test_the_usual_type_is_fd(self) -> None:
        self.check(".i 2\n.o 4\n01 1-0~\n", "0000", "1-00", "0000", "0000")

    def test_input_marks(self) -> None:
        for cube, rows in (("0-", "11--"), ("02", "11--"), ("-1", "-1-1"), ("22", "1111"), ("10", "--1-")):
            self.check(pla(f"{cube} 1"), *rows)

    def test_between_the_parts(self) -> None:
        for cube in ("01 10", "01|10", "0110", "01 | 10", "01\t10", " 01  |10 ", "0 1 1 0", "0 1 10", "01 1 0", "0 1|1 0", "01 10 # so"):
            self.check(pla(cube, m=2), "--", "10", "--", "--")

    def test_overlaps_that_agree(self) -> None:
        self.check(pla("0- 1\n-1 1\n01 1\n10 0"), *"1101")
        self.check(pla("-- 1-\n1- 1~\n-1 ~-", m=2, kind="fdr"), *["1-"] * 4)

    def test_both_1_and_free_is_free_in_fd(self) -> None:
        for cubes in ("0- 1\n-1 -", "-1 -\n0- 1", "-1 2\n0- 4\n01 -"):
            self.check(pla(cubes, kind="fd"), *"1-0-")

    def test_phases_of_1_change_nothing(self) -> None:
        for text in (".i 1\n.o 3\n.phase 111\n1 101\n", ".phase 111\n.i 1\n.o 3\n1 101\n", ".i 1\n.o 3\n1 101\n.phase 111\n.e"):
            self.check(text, "000", "101")

    def test_a_model_has_a_name_that_is_not_kept(self) -> None:
        self.check(".model lamp\n.i 1\n.o 1\n1 1\n.e\n", *"01")

    def test_marks_without_a_meaning_contradict_nothing(self) -> None:
        self.check(pla("-- 1\n1- 0\n-1 -\n-- ~", kind="f"), *"1111")
        self.check(pla("-- 1\n1- 0\n-- ~", kind="fd"), *"1111")
        self.check(pla("0- 1\n1- 0\n-- -\n-- ~"), *"1100")
        self.check(pla("0- 1\n1- 0\n-- ~", kind="fdr"), *"1100")

    def test_names(self) -> None:
        self.check(".i 2\n.o 1\n", *"0000", inputs=("x0", "x1"), outputs=("z0",))
        self.check(".ob z\n.ilb a|b .c\n.o 1\n.i 2\n", *"0000", inputs=("a|b", ".c"), outputs=("z",))

    def test_missing_names_are_those_that_abc_gives(self) -> None:
        """With ten they have one digit, and with eleven two."""
        for count, first, last in ((1, "0", "0"), (10, "0", "9"), (11, "00", "10"), (14, "00", "13"), (16, "00", "15")):
            with self.subTest(count):
                names = reader.numbered("z", count)
                self.assertEqual((len(names), names[0], names[-1]), (count, f"z{first}", f"z{last}"))
                self.assertEqual(Table.from_pla(f".i 1\n.o {count}\n").outputs, names)
        self.assertEqual(Table.from_pla(".i 10\n.o 1\n").inputs, tuple(f"x{number}" for number in range(10)))

    def test_names_after_the_cubes(self) -> None:
        self.check(".i 1\n.o 1\n1 1\n.ilb a\n.ob y\n.p 1\n.end", "0", "1", inputs=("a",), outputs=("y",))

    def test_places(self) -> None:
        heading = ".i 3\n.o 1\n.ilb a b c\n"
        for text in (heading + "# places c a b\n", "#places c a b\n" + heading, heading + ".e\n  #  places c a b \n"):
            self.check(text, *"00000000", order=(2, 0, 1))
        self.check("# places x1 x0\n.i 2\n.o 1\n", *"0000", order=(1, 0))
        self.check(heading + "000 1 # places c a b\n# Places of c\n## places c\n.p 1 # places\n", *"10000000", order=(0, 1, 2))

    def test_no_inputs(self) -> None:
        for cube, row in (("10", "10"), ("| 10", "10"), ("|1 0", "10"), ("1 -", "1-"), ("~0", "-0"), ("", "--")):
            self.check(pla(cube, n=0, m=2), row, inputs=(), order=())
        self.check(pla("1\n1", n=0), "1")
        self.check("# places\n.ilb\n" + pla("1", n=0), "1")

    def test_most_inputs_and_outputs(self) -> None:
        self.check(pla("1---------" + "1" * 16, 10, 16), *["-" * 16] * 512, *["1" * 16] * 512)

    def test_line_ends_and_numbers(self) -> None:
        for end in ("\n", "\r\n", "\r"):
            self.check(end.join([".i 01", ".o 1", "# comment", ".p 001", "1 1", ".end", "", "# more"]), "0", "1")

    def test_random_cubes_row_by_row(self) -> None:
        """Against a reading that looks at one row after the other."""
        chance = random.Random(4)
        read = 0
        for _ in range(600):
            n, m, kind = chance.randint(0, 4), chance.randint(1, 3), chance.choice(list(SAYS))
            cubes = [
                ("".join(chance.choice("01-2") for _ in range(n)), "".join(chance.choice("01-~~234") for _ in range(m)))
                for _ in range(chance.randint(0, 4))
            ]
            text = pla("\n".join(" ".join(cube).strip() for cube in cubes), n, m, kind)
            rows = self.row_by_row(cubes, n, m, kind)
            if rows is None:
                with self.subTest(text), self.assertRaises(Malformed) as caught:
                    Table.from_pla(text)
                self.assertIn("contradict", caught.exception.reason)
            else:
                self.check(text, *rows)
                read += 1
        self.assertTrue(200 < read < 590, read)

    @staticmethod
    def row_by_row(cubes, n, m, kind):
        """Each row's marks, or none where cubes contradict each other."""
        rows = []
        for bits in itertools.product("01", repeat=n):
            row = ""
            for output in range(m):
                hit = [marks[output] for inputs, marks in cubes if all(mark in ("-", "2", bit) for mark, bit in zip(inputs, bits))]
                row += together(kind, {SAYS[kind][mark] for mark in hit if mark in SAYS[kind]}) or "!"
            rows.append(row)
        return None if any("!" in row for row in rows) else rows


class Contradictions(unittest.TestCase):
    def check(self, text: str, line: int, column: int, *reasons: str) -> None:
        with self.subTest(text), self.assertRaises(Malformed) as caught:
            Table.from_pla(text)
        self.assertEqual((caught.exception.line, caught.exception.column), (line, column), caught.exception.reason)
        for reason in reasons:
            self.assertIn(reason, caught.exception.reason)

    def test_every_pair_of_marks(self) -> None:
        for kind, first, second in itertools.product(SAYS, "01-~234", "01-~234"):
            said = {SAYS[kind][mark] for mark in (first, second) if mark in SAYS[kind]}
            text, both = pla(f"0- {first}\n-1 {second}", kind=kind), together(kind, said)
            if both:
                self.assertEqual(Table.from_pla(text).rows[1], both, text)
            else:
                self.check(text, 5, 4, "lines 4 and 5 contradict each other", "row 01", "output z0")

    def test_the_lines_the_row_and_the_output(self) -> None:
        text = ".i 3\n.o 2\n.ob y z\n.type fr\n000 11\n1-- 1-\n\n-1- -1 # so\n-11 -0\n"
        self.check(text, 9, 6, "lines 8 and 9", "row 011", "output z is 1 and 0")

    def test_the_first_line_that_says_otherwise(self) -> None:
        self.check(pla("0- 1\n11 0\n-1 1\n"), 6, 4, "lines 5 and 6", "row 11", "is 0 and 1")

    def test_free_against_a_value(self) -> None:
        self.check(pla("0- -\n-- 1", kind="fdr"), 5, 4, "row 00", "is - and 1")
        self.check(pla("0- 0\n00 2", kind="fdr"), 5, 4, "row 00", "is 0 and -")

    def test_no_inputs(self) -> None:
        self.check(pla("1\n0", n=0), 5, 1, "lines 4 and 5", "the only row")

    def test_the_lowest_row_of_those_that_contradict(self) -> None:
        """Whichever of the two marks before was said first."""
        for cubes in ("1- 1\n0- -\n-1 0", "0- -\n1- 1\n-1 0"):
            self.check(pla(cubes, kind="fdr"), 6, 4, "row 01", "output z0 is - and 0")

    def test_the_first_line_goes_before_the_first_output(self) -> None:
        self.check(pla("-- 11\n-- ~0\n-- 0~", m=2), 5, 5, "lines 4 and 5 contradict each other: in row 00 output z1 is 1 and 0")

    def test_blanks_within_the_parts(self) -> None:
        self.check(pla("0 - | 1 1 1 1 1 1\n - 1  1 1 1 1 0 1 # so", m=6), 5, 15, "output z4 is 1 and 0")

    def test_marks_behind_many_others(self) -> None:
        """Far more cubes than there are kinds of them."""
        many = "".join(f"{bits} {marks}\n" for bits in ("0-", "-0") for marks in map("".join, itertools.product("1~", repeat=9)))
        self.check(pla(many + "00 ~~~~~~~~0", m=9), 4 + 2 * 2**9, 12, f"lines 4 and {4 + 2 * 2**9}", "row 00", "output z8 is 1 and 0")


class Errors(unittest.TestCase):
    check = Contradictions.check

    def test_directives(self) -> None:
        for name in (".pair", ".mv", ".symbolic", ".symbolic-output", ".kiss", ".label", ".lb", ".inputs"):
            self.check(f".i 2\n.o 1\n  {name} 1\n", 3, 3, f"{name} is not a directive that is taken here")
        self.check(".i 2\n.o 1\n.\n", 3, 1, "not a directive")
        self.check(".i 2\n.o 1\n.I 2\n", 3, 1, "not a directive")
        for line in (".i 2", ".o 1", ".ilb a b", ".ob y", ".p 0", ".type f"):
            name = line.split()[0]
            text = f".i 2\n.o 1\n{'' if name in ('.i', '.o') else line}\n {line}\n"
            self.check(text, 4, 2, f"{name} stands twice", "and 4")

    def test_missing(self) -> None:
        self.check("", 1, 0, ".i is missing")
        self.check("\n.o 1\n.e\n", 1, 0, ".i is missing")
        self.check(".i 1\n.e\n", 1, 0, ".o is missing")
        self.check(".o 1\n\n  01 1\n.e\n", 3, 3, ".i is missing")
        self.check(".i 2\n01 1\n.e\n", 2, 1, ".o is missing")

    def test_after_a_cube(self) -> None:
        self.check(".o 1\n 01 1\n .i 2\n", 2, 2, ".i is missing before the first cube")
        self.check(".i 2\n01 1\n.o 1\n", 2, 1, ".o is missing before the first cube")
        self.check(".i 2\n.o 1\n01 1\n.type fr\n", 4, 1, ".type stands after a cube")

    def test_numbers(self) -> None:
        self.check(".i 11\n.o 1\n", 1, 4, ".i is 0 to 10, not 11")
        self.check(".i 2\n.o  0\n", 2, 5, ".o is 1 to 16, not 0")
        self.check(".i 2\n.o 17\n", 2, 4, ".o is 1 to 16, not 17")
        for word in ("-1", "x", "2.0", "+2", "²", "1" * 5000):
            self.check(f".i {word}\n.o 1\n", 1, 4, "not a number")
        self.check(".i 2\n.o\n", 2, 1, ".o takes a word")
        self.check(".i 2\n.o 1 1\n", 2, 6, ".o takes one word")

    def test_names(self) -> None:
        heading = ".i 2\n.o 2\n"
        self.check(heading + ".ilb a\n", 3, 1, "the number of names is 1, not 2")
        self.check(heading + ".ilb a b  c d\n", 3, 11, "the number of names is 4, not 2")
        self.check(heading + ".ilb a a\n", 3, 8, "the input a is named twice")
        self.check(heading + " .ob y # z\n", 3, 2, "the number of names is 1, not 2")
        self.check(heading + ".ob x y z\n", 3, 9, "the number of names is 3, not 2")
        self.check(heading + ".ob  y y\n", 3, 8, "the output y is named twice")

    def test_type(self) -> None:
        self.check(".i 2\n.o 1\n.type r\n", 3, 7, "r is not a type")
        self.check(".i 2\n.o 1\n.type\n", 3, 1, ".type takes a word")
        self.check(".i 2\n.o 1\n.type f d\n", 3, 9, ".type takes one word")

    def test_cut_short(self) -> None:
        reason = "the number of cubes is 2, not 3, and there is no .e: the file was cut short; if it is whole, end it with .e"
        self.check(".i 2\n.o 1\n.p 3\n01 1\n10 1\n", 3, 4, reason)

    def test_phase(self) -> None:
        heading = ".i 2\n.o 3\n"
        reason = (
            "0 is not taken as a phase: in some tools the cubes are the complement's then, in others they aren't; "
            "write the cubes of the output itself, and 1"
        )
        self.check(heading + ".phase 101\n", 3, 9, reason)
        self.check(heading + ".phase 1x1\n", 3, 9, "x is not a phase, which is 1")
        self.check(heading + ".phase 11\n", 3, 8, "the number of phases is 2, not 3")
        self.check(heading + ".phase  1111\n", 3, 9, "the number of phases is 4, not 3")
        self.check(heading + ".phase 1 1 1\n", 3, 10, ".phase takes one word")
        self.check(heading + ".phase\n", 3, 1, ".phase takes a word")
        self.check(".phase 011\n" + heading, 1, 8, reason)
        self.check(heading + ".phase 111\n.phase 111\n", 4, 1, ".phase stands twice, in lines 3 and 4")

    def test_model(self) -> None:
        self.check(".model\n", 1, 1, ".model takes a word")
        self.check(".model a b\n", 1, 10, ".model takes one word")

    def test_number_of_cubes(self) -> None:
        self.check(".i 2\n.o 1\n.p\n", 3, 1, ".p takes a word")
        self.check(".i 2\n.o 1\n.p two\n", 3, 4, "not a number")

    def test_lengths(self) -> None:
        reason = "the marks of a cube are 2 for the inputs and 2 for the outputs"
        for cube, column in (
            ("011", 1), (" 01101", 2), ("01", 1), ("01 1", 4), ("01 111", 4), ("0 11", 1), ("010 1", 1), ("0|11", 1),
            ("01|", 1), ("01|1", 4), ("|11", 1), ("01 |  111", 7), ("0 1 1", 5), ("0 111", 1), ("01 1 1 1", 4), ("0110|", 1),
            ("|0110", 1), ("|", 1),
        ):
            self.check(pla(cube, m=2), 4, column, reason)
        self.check(pla("11", n=0), 4, 1, "are 0 for the inputs and 1 for the outputs")
        self.check(pla("1|", n=0), 4, 1, "are 0 for the inputs")
        self.check(pla("|", n=0), 4, 1, "are 0 for the inputs")

    def test_two_bars(self) -> None:
        self.check(pla("01|1|"), 4, 5, "second bar")
        self.check(pla("01 || 1"), 4, 5, "second bar")

    def test_marks(self) -> None:
        self.check(pla("0x 1"), 4, 2, "x is not a mark")
        self.check(pla("01 1\n00 5"), 5, 4, "5 is not a mark")
        for mark in "34~":
            self.check(pla(f"0{mark} 1"), 4, 2, f"{mark} is not an input's mark")
        self.check(pla("cube 1"), 4, 1, "c is not a mark")

    def test_after_the_end(self) -> None:
        self.check(".i 2\n.o 1\n.e\n\n 01 1\n", 5, 2, "text after the end")
        self.check(".i 2\n.o 1\n.end\n.e\n", 4, 1, "text after the end")
        self.check(".i 2\n.o 1\n.e now\n", 3, 4, "text after the end")

    def test_places(self) -> None:
        heading = ".i 2\n.o 1\n.ilb a b\n"
        self.check(heading + "# places a y\n", 4, 12, "there is no input y")
        self.check(heading + " # places a  a\n", 4, 14, "the input a is named twice")
        self.check(heading + "# places b\n", 4, 3, "a missing")
        self.check(heading + "#places\n", 4, 2, "a b missing")
        self.check("# places a b\n" + heading + "# places b a\n", 5, 3, "lines 1 and 5")


class Notes(unittest.TestCase):
    """A number of cubes that is wrong, in a file that isn't cut short."""

    def check(self, text: str, *notes: tuple) -> None:
        for gathers in (False, True):
            faults = Faults(gathers)
            with self.subTest(text, gathers=gathers):
                self.assertEqual(reader.read(text, faults).columns, ((0, 1, 1, 0),))
                self.assertEqual([(note.line, note.column, note.reason) for note in faults.notes], [*notes])

    def test_with_the_end(self) -> None:
        self.check(".i 2\n.o 1\n.p 2\n01 1\n10 1\n.e\n")
        self.check(".i 2\n.o 1\n.p 3\n01 1\n10 1\n.e\n", (3, 4, "the number of cubes is 2, not 3"))
        self.check(".i 2\n.o 1\n.p 1\n01 1\n10 1\n.end\n", (3, 4, "the number of cubes is 2, not 1"))
        self.check(".i 2\n.o 1\n01 1\n10 1\n .p  003\n.e\n", (5, 6, "the number of cubes is 2, not 003"))

    def test_without_the_end(self) -> None:
        self.check(".i 2\n.o 1\n.p 2\n01 1\n10 1\n")
        self.check(".i 2\n.o 1\n.p 1\n01 1\n10 1\n", (3, 4, "the number of cubes is 2, not 1"))


class All(unittest.TestCase):
    """All errors of a text, each line's by itself, in the sequence of the lines."""

    def check(self, text: str, *wanted: str) -> None:
        faults = Faults(gathers=True)
        with self.subTest(text), self.assertRaises(Malformed) as caught:
            reader.read(text, faults)
        self.assertEqual([str(fault) for fault in faults.found], [*wanted])
        self.assertIs(caught.exception, faults.found[0])

    def test_cubes_and_directives(self) -> None:
        self.check(
            ".i 2\n.o 1\n.foo\n.type fr\n.ilb a\n0x 1\n01 1\n011\n0 1\n.type f\n.e\n01 1\n",
            "line 3, column 1: .foo is not a directive that is taken here",
            "line 5, column 1: the number of names is 1, not 2",
            "line 6, column 2: x is not a mark of a cube",
            "line 9, column 1: the marks of a cube are 2 for the inputs and 1 for the outputs",
            "line 10, column 1: .type stands twice, in lines 4 and 10",
            "line 12, column 1: text after the end",
        )

    def test_what_is_known_later_stands_at_its_line(self) -> None:
        self.check(
            "# places a c\n.ob y y\n.phase 0\n.ilb a b\n.p 9\n.o 2\n.i 2\n.type fr\n-- 1~\nxx xx\n00 0~\n",
            "line 1, column 12: there is no input c",
            "line 2, column 7: the output y is named twice",
            "line 3, column 8: the number of phases is 1, not 2",
            "line 5, column 4: the number of cubes is 3, not 9, and there is no .e: the file was cut short; if it is whole, end it with .e",
            "line 10, column 1: x is not a mark of a cube",
            "line 11, column 4: lines 9 and 11 contradict each other: in row 00 output z0 is 1 and 0",
        )

    def test_every_line_that_contradicts_those_before(self) -> None:
        self.check(
            ".i 2\n.o 2\n.type fr\n0- 11\n00 0~\n01 00\n1- 00\n11 ~1\n10 0~\n",
            "line 5, column 4: lines 4 and 5 contradict each other: in row 00 output z0 is 1 and 0",
            "line 6, column 4: lines 4 and 6 contradict each other: in row 01 output z0 is 1 and 0",
            "line 8, column 5: lines 7 and 8 contradict each other: in row 11 output z1 is 0 and 1",
        )

    def test_a_cube_that_contradicts_is_left_out(self) -> None:
        self.check(
            ".i 1\n.o 1\n.type fr\n0 1\n- 0\n1 1\n1 0\n",
            "line 5, column 3: lines 4 and 5 contradict each other: in row 0 output z0 is 1 and 0",
            "line 7, column 3: lines 6 and 7 contradict each other: in row 1 output z0 is 1 and 0",
        )

    def test_cubes_after_the_end_contradict_nothing(self) -> None:
        self.check(
            ".i 1\n.o 1\n.type fr\n0 1\n0 0\n.e\n1 1\n1 0\n",
            "line 5, column 3: lines 4 and 5 contradict each other: in row 0 output z0 is 1 and 0",
            "line 7, column 1: text after the end",
            "line 8, column 1: text after the end",
        )

    def test_no_cube_is_judged_without_numbers(self) -> None:
        unknown = "line 1, column 1: .foo is not a directive that is taken here"
        self.check(".foo\n.i 11\n.o 0\n01 1\n.e\n", unknown, "line 2, column 4: .i is 0 to 10, not 11")
        self.check(".i 2\n.o x\n01 1\n", "line 2, column 4: x is not a number of up to nine digits")
        self.check(".o 1\n01 1\nx\n.i 2\n.bar\n", "line 2, column 1: .i is missing before the first cube")
        self.check(".ilb a\n.e\n", "line 1: .i is missing", "line 1: .o is missing")

    def test_no_more_than_are_gathered(self) -> None:
        """The last one may be told of a line before the others, and none is told twice."""
        for text, first in (
            (".ilb a\n" + ".foo\n" * (MOST_GATHERED - 1) + ".i 2\n.o 1\n.bar\n", "line 1, column 1: the number of names is 1, not 2"),
            (pla("-- 1\n" + "-- 0\n" * 3 + "x\n" * (MOST_GATHERED - 2)), "line 5, column 4: lines 4 and 5 contradict"),
        ):
            faults = Faults(gathers=True)
            with self.subTest(text), self.assertRaises(Malformed):
                reader.read(text, faults)
            lines = [fault.line for fault in faults.found]
            self.assertEqual((len(lines), lines), (MOST_GATHERED, sorted(set(lines))))
            self.assertIn(first, str(faults.found[0]))

    def test_a_wrong_cube_counts_as_one(self) -> None:
        self.check(".i 2\n.o 1\n.p 2\n01 1\n0x 1\n", "line 5, column 2: x is not a mark of a cube")


class Lines(unittest.TestCase):
    """Lines are looked at one by one, so a wrong one among the first is told at once however many follow."""

    def taken(self, text: str, faults: Faults) -> list[str]:
        """The lines that were looked at before an error was raised."""
        lines = []

        def one_by_one(text: str):
            for line in split_lines(text):
                lines.append(line)
                yield line

        with unittest.mock.patch.object(reader, "split_lines", one_by_one), self.assertRaises(Malformed):
            reader.read(text, faults)
        return lines

    def test_the_first_error_ends_the_reading(self) -> None:
        cubes = "01 1\n10 1\n" * 3
        for heading in (
            ".i 2\n.o 1\n.foo", ".i 2\n.o 1\n0x 1", ".i 2\n.o 1\n.ilb a", ".ilb a\n.o 1\n.i 2", ".i 2\n.ob a b\n.o 1",
            ".i 2\n.o 1\n.phase 0", ".phase 0\n.i 2\n.o 1", ".i 2\n.o 1\n.p x", ".o 1\n.i 11", ".i 2\n.ilb a b\n# places a c",
            "# places a\n.i 2\n.ilb a b", ".i 2\n01 1",
        ):
            with self.subTest(heading):
                self.assertEqual(self.taken(f"{heading}\n{cubes}", Faults()), heading.split("\n"))

    def test_wrong_numbers_end_it_in_any_case(self) -> None:
        self.assertEqual(self.taken(".i 2\n.o 17\n01 1\n", Faults(gathers=True)), [".i 2", ".o 17"])
        self.assertEqual(self.taken(".i 2\n01 1\n10 1\n", Faults(gathers=True)), [".i 2", "01 1"])

    def test_a_contradiction_is_looked_for_only_where_there_is_one(self) -> None:
        lines = self.taken(".i 1\n.o 1\n.type fr\n0 1\n- 0\n1 0\n", Faults())
        self.assertEqual(lines[7:], [".i 1", ".o 1", ".type fr", "0 1", "- 0"])
        with unittest.mock.patch.object(reader, "split_lines", wraps=split_lines) as split:
            reader.read(".i 1\n.o 1\n.type fr\n0 1\n1 0\n")
        self.assertEqual(split.call_count, 1)


class Example(unittest.TestCase):
    """The decoder among the examples."""

    # The digits that light each segment.
    LIT = {"a": "02356789", "b": "01234789", "c": "013456789", "d": "0235689", "e": "0268", "f": "045689", "g": "2345689"}

    def test_every_digit_and_what_is_none(self) -> None:
        text = (EXAMPLES / "seven-segment.pla").read_text(encoding="utf-8")
        faults = Faults()
        table = Table(*reader.read(text, faults))
        self.assertEqual((faults.notes, table.inputs, table.outputs), ([], ("b3", "b2", "b1", "b0"), (*self.LIT,)))
        for name, column in zip(table.outputs, table.columns):
            lit = [int(str(digit) in self.LIT[name]) for digit in range(10)]
            self.assertEqual(column, (*lit, *[None] * 6), name)


class Writing(unittest.TestCase):
    def test_a_table(self) -> None:
        table = Table.from_rows(["0-", "--", "10", "-1"], ["left", "b"], ["lamp", "y"], [1, 0])
        self.assertEqual(
            table.to_pla(), ".i 2\n.o 2\n.ilb left b\n.ob lamp y\n# places b left\n.type fr\n.p 3\n00 0-\n10 10\n11 -1\n.e\n"
        )

    def test_free_tables(self) -> None:
        self.assertEqual(Table.from_rows(["-", "-"]).to_pla(), ".i 1\n.o 1\n.ilb x0\n.ob y0\n.type fr\n.p 0\n.e\n")

    def test_no_inputs(self) -> None:
        self.assertEqual(Table.from_rows(["1-"]).to_pla(), ".i 0\n.o 2\n.ob y0 y1\n.type fr\n.p 1\n1-\n.e\n")

    def test_round_trips(self) -> None:
        chance = random.Random(6)
        for n in [*range(7)] * 20 + [7, 8, 9, 10]:
            table = random_table(chance, n, 16 if n > 6 else 4)
            text = table.to_pla()
            with self.subTest(text):
                self.assertEqual(Table.from_pla(text), table)
                self.assertTrue(all(line == line.rstrip() for line in text.split("\n")))

    def test_drawing_to_pla_to_drawing(self) -> None:
        chance = random.Random(7)
        for n in [*range(7)] * 20 + [8, 10]:
            drawing = random_table(chance, n).to_drawing()
            with self.subTest(drawing):
                text = Table.from_drawing(drawing).to_pla()
                self.assertEqual(Table.from_pla(text).to_drawing(), drawing)
                self.assertEqual(Table.from_drawing(Table.from_pla(text).to_drawing()).to_pla(), text)

    def test_full_tables(self) -> None:
        for row in ("0" * 16, "1" * 16, "01" * 8, "-" * 16):
            table = Table.from_rows([row] * 1024)
            self.assertEqual(Table.from_pla(table.to_pla()), table)

    def test_a_cut_file_is_refused(self) -> None:
        lines = Table.from_rows(["0", "1", "1", "0"]).to_pla().splitlines(keepends=True)
        for kept in range(6, len(lines) - 1):
            with self.subTest(kept), self.assertRaises(Malformed):
                Table.from_pla("".join(lines[:kept]))

    def test_names(self) -> None:
        table = Table.from_rows(["0", "1"], ["a|b"], ["|"])
        self.assertEqual(Table.from_pla(table.to_pla()), table)
        for name in ("", "a b", "#", "a#b", "\t", "a\n", "a\u2028b"):
            for names in ({"inputs": [name]}, {"outputs": [name]}):
                with self.subTest(name), self.assertRaises(ValueError):
                    Table.from_rows(["0", "1"], **names).to_pla()


class Documented(unittest.TestCase):
    """The examples of docs/FORMATS.md are what is read and written."""

    def setUp(self) -> None:
        self.text = (ROOT / "docs" / "FORMATS.md").read_text(encoding="utf-8")
        self.table = Table.from_rows("0110", ["left", "right"], ["lamp"], [1, 0])

    def example(self, kind: str) -> str:
        return self.text.split(f"```{kind}\n")[1].split("```")[0]

    def blocks(self, file: bytes) -> list[str]:
        """Each block's number, bytes up to the last that isn't zero, and check, as a table of the text has them."""
        blocks = [file[at : at + 512] for at in range(0, len(file), 512)]
        return [
            f"| {number} | `{block[:510].rstrip(bytes(1)).hex(' ')}` | {int.from_bytes(block[510:], 'little')}, `{block[510:].hex(' ')}` |"
            for number, block in enumerate(blocks)
        ]

    def test_drawing_and_pla(self) -> None:
        self.assertEqual(self.table.to_drawing(), self.example("drawing"))
        self.assertEqual(self.table.to_pla(), self.example("pla"))
        self.assertEqual(Table.from_drawing(self.example("drawing")), Table.from_pla(self.example("pla")))

    def test_table_file(self) -> None:
        blocks = self.blocks(self.table.reordered([0, 1]).to_file())
        self.assertEqual(len(blocks), 3)
        for block in blocks:
            self.assertIn(block, self.text)

    def test_network_file(self) -> None:
        heading = table_file.sealed(4, 0, [2, 1, 0, 1, *[0] * 8, 2, 0, 2, 0])
        cells = table_file.sealed(5, 1, [0, 0, 4, 0, 5, 0, 1, 0, 0, 0, 1, 0])
        for block, parts in ((heading, [(0, 8), (16, 20)]), (cells, [(0, 16)])):
            shown = "; ".join(f"from {begin}: `{block[begin:end].hex(' ')}`" for begin, end in parts)
            self.assertIn(f"| {shown} | {int.from_bytes(block[510:], 'little')}, `{block[510:].hex(' ')}` |", self.text)
