"""Tests of the word same: files of every format that are alike, where others differ, orders, names, and errors told of the right file."""

import itertools
import random
from collections import Counter

from tests.command.running import CROSSED, GUARD, PAIRS, WithFolder, yav
from tests.places import EXAMPLES, ROOT
from yavdocsil import Network, Table

READ = "drawing, pla, csv, table, blif, cells"
ONCE = "yav: standard input: it can be read only once, and - names it twice\n"
LAMP = "a b | y\n0 0 | 0\n0 1 | 1\n1 0 | 1\n1 1 | 0\n"


class Comparing(WithFolder):
    def drawing(self, name, rows, inputs=None, outputs=None, order=None):
        """The file of a drawing."""
        return self.file(name, Table.from_rows(rows, inputs, outputs, order).to_drawing())

    def same(self, told, *words, beside=""):
        self.assertEqual(self.written("same", *words, beside=beside), f"same: {told}\n")

    def different(self, lines, *words, given="", beside=""):
        """What is told on standard output, and status 1."""
        run = self.run_by("same", *words, given=given)
        self.assertEqual((run.stdout, run.stderr, run.returncode), ("".join(f"{line}\n" for line in lines), beside, 1))


class Same(Comparing):
    def test_all_pairs_of_formats(self):
        paths = [self.folder / f"guard.{ending}" for ending in ("txt", "pla", "csv", "table", "blif", "cells")]
        for path in paths:
            self.written("convert", GUARD, path)
        for one, other in itertools.product(paths, repeat=2):
            order = "x4 x0 x1 x2 x3" if one.suffix in (".table", ".cells") else "held a b c d"
            self.same(f"7 cells in the order {order}", one, other)

    def test_as_a_person_calls_it(self):
        run = yav("same", GUARD, "examples/bounce-guard.cells")
        self.assertEqual((run.returncode, run.stdout, run.stderr), (0, "same: 7 cells in the order held a b c d\n", ""))
        run = yav("same", "examples/xor.txt", self.file("other.txt", LAMP.replace("1 1 | 0", "1 1 | 1")))
        self.assertEqual((run.returncode, run.stderr), (1, ""))
        self.assertTrue(run.stdout.startswith("different: first at this row, in the output lamp\nleft right | lamp\n"), run.stdout)

    def test_a_file_and_itself(self):
        for path in sorted(EXAMPLES.glob("*.txt")):
            self.assertTrue(self.written("same", path, path).startswith("same: "))

    def test_free_rows_drawn_in_other_ways(self):
        whole = "a b | y z\n0 0 | 0 1\n0 1 | - -\n1 0 | 1 -\n1 1 | - -\n"
        for other in ("a b | y z\n1 0 | 1 -\n0 0 | 0 1\n", "a b | y z\n0 0 | 0 1\n- 1 | - -\n1 0 | 1 -\n"):
            self.same("1 cell in the order a b", self.file("whole.txt", whole), self.file("other.txt", other))

    def test_tables_unlike_that_are_filled_alike(self):
        """A row that is drawn as the filling chooses it anyway."""
        free, drawn = self.drawing("free.txt", ["0", "1", "-", "1"]), self.drawing("drawn.txt", ["0", "1", "0", "1"])
        self.same("1 cell in the order x0 x1", free, drawn)

    def test_no_inputs_and_the_most_of_all(self):
        none = self.file("none.txt", "| y z\n| 1 0\n")
        self.same("0 cells in the order", none, none)
        rows = ["".join(random.Random(81 * 1024 + row).choices("01", k=16)) for row in range(1024)]
        table = Table.from_rows(rows)
        cells = Network(table).count()
        one, other = self.file("one.table", table.to_file()), self.file("other.pla", table.to_pla())
        self.same(f"{cells} cells in the order x0 x1 x2 x3 x4 x5 x6 x7 x8 x9", one, other)

    def test_names_do_not_matter(self):
        one, other = self.drawing("one.txt", "0111", "ab", ["up"]), self.drawing("other.txt", "0111", "cd", ["down"])
        self.same("2 cells in the order a b", one, other)
        self.same("2 cells in the order c d", other, one)


class Different(Comparing):
    def test_one_bit_of_a_cared_table(self):
        """It is found at exactly its row and output, whichever it is."""
        rows = ["01", "10", "11", "00"]
        one = self.drawing("one.txt", rows, "ab", ["up", "on"])
        for row, output in itertools.product(range(4), range(2)):
            changed = list(rows)
            bit = int(rows[row][output])
            changed[row] = rows[row][:output] + str(1 - bit) + rows[row][output + 1 :]
            other = self.file("other.table", Table.from_rows(changed).to_file())
            head, bits, new = " ".join(f"{row:02b}"), rows[row], changed[row]
            self.different([
                f"different: first at this row, in the output {('up', 'on')[output]}", "a b | up on",
                f"{head} | {bits[0]}  {bits[1]}   in {one}", f"{head} | {new[0]}  {new[1]}   in {other}",
            ], one, other)

    def test_two_outputs_exchanged(self):
        one, other = self.drawing("one.txt", ["00", "01", "01", "11"]), self.drawing("other.txt", ["00", "10", "10", "11"])
        self.different([
            "different: first at this row, in the output y0", "x0 x1 | y0 y1",
            f"0  1  | 0  1   in {one}", f"0  1  | 1  0   in {other}",
        ], one, other)

    def test_an_output_and_its_inverse(self):
        """Their cells are the same, and the roots are not."""
        one, other = self.drawing("one.txt", "0110", "ab", "y"), self.drawing("other.txt", "1001", "ab", "y")
        lines = ["different: first at this row, in the output y", "a b | y", f"0 0 | 0  in {one}", f"0 0 | 1  in {other}"]
        self.different(lines, one, other)
        self.assertEqual(*(Network.from_path(path).diagram.cells for path in (one, other)))

    def test_no_inputs(self):
        one, other = self.file("one.txt", "| y z\n| 1 0\n"), self.file("other.txt", "| y z\n| 1 1\n")
        self.different(["different: first at this row, in the output z", "| y z", f"| 1 0  in {one}", f"| 1 1  in {other}"], one, other)

    def test_ten_inputs_and_sixteen_outputs(self):
        rows = ["".join(random.Random(82 * 1024 + row).choices("01", k=16)) for row in range(1024)]
        one = self.file("one.table", Table.from_rows(rows).to_file())
        bit = int(rows[-1][-1])
        rows[-1] = rows[-1][:-1] + str(1 - bit)
        other = self.file("other.pla", Table.from_rows(rows).to_pla())
        lines = self.run_by("same", one, other).stdout.splitlines()
        self.assertEqual(lines[0], "different: first at this row, in the output y15")
        self.assertEqual([line.split() for line in lines[2:]], [
            [*"1111111111", "|", *rows[-1][:-1], str(last), "in", str(path)] for last, path in ((bit, one), (1 - bit, other))
        ])

    def test_other_numbers_of_inputs_and_outputs(self):
        self.different(
            [f"different: {PAIRS} has 4 inputs and 1 output, and examples/xor.cells 2 inputs and 1 output"], PAIRS, "examples/xor.cells",
        )
        one, none = self.drawing("one.txt", ["01", "10"]), self.file("none.txt", "| y\n| 1\n")
        self.different([f"different: {one} has 1 input and 2 outputs, and {none} 0 inputs and 1 output"], one, none)
        # The inputs are as many.
        three = self.drawing("three.txt", ["011", "100"])
        self.different([f"different: {one} has 1 input and 2 outputs, and {three} 1 input and 3 outputs"], one, three, "--order", "x0")

    def test_names_as_a_terminal_shows_them(self):
        one = self.file("wide.txt", "組 b | 経糸\n0 0 | 1\n0 1 | 0\n1 0 | 0\n1 1 | 0\n")
        other = self.file("other.txt", "a b | y\n0 0 | 1\n0 1 | 0\n1 0 | 0\n1 1 | 1\n")
        self.different([
            "different: first at this row, in the output 経糸", "組 b | 経糸", f"1  1 |  0    in {one}", f"1  1 |  1    in {other}",
        ], one, other)
        red = self.file("red.pla", ".i 2\n.o 1\n.ilb a\x1b[31m b\u202e\n.ob y\a\n11 1\n.e\n")
        told = self.run_by("same", red, other).stdout
        self.assertTrue(all(sign.isprintable() or sign == "\n" for sign in told), told)
        self.assertIn("different: first at this row, in the output y\\x07\na\\x1b[31m b\\u202e | y\\x07\n", told)


class Free(Comparing):
    """A bit that is free in a table was chosen by the filling."""

    def test_filled_unlike_where_nothing_cared_differs(self):
        one, other = self.drawing("one.txt", ["0", "-"], "a", "y"), self.drawing("other.txt", ["-", "1"], "a", "y")
        self.different([
            "different: first at this row, in the output y", "a | y", f"0 | 0  in {one}", f"0 | 1  in {other}, where y is free",
            "where both are cared, nothing differs",
        ], one, other)
        self.different([
            "different: first at this row, in the output y", "a | y", f"0 | 1  in {other}, where y is free", f"0 | 0  in {one}",
            "where both are cared, nothing differs",
        ], other, one)

    def test_free_in_both(self):
        one = self.drawing("one.txt", ["--", "00", "--", "--"], "ab", "yz")
        other = self.drawing("other.txt", ["--", "10", "--", "--"], "ab", "yz")
        self.different([
            "different: first at this row, in the output y", "a b | y z",
            f"0 0 | 0 0  in {one}, where y is free", f"0 0 | 1 0  in {other}, where y is free",
            "where both are cared, y differs first at 01",
        ], one, other)

    def test_another_output_may_be_free_there(self):
        """It is not told: the bit that is named is cared in both."""
        one, other = self.drawing("one.txt", ["0-", "01"], "a", "yz"), self.drawing("other.txt", ["1-", "01"], "a", "yz")
        lines = ["different: first at this row, in the output y", "a | y z", f"0 | 0 1  in {one}", f"0 | 1 1  in {other}"]
        self.different(lines, one, other)

    def test_no_inputs(self):
        one, other = self.file("one.txt", "| y z\n| - 1\n"), self.file("other.txt", "| y z\n| 1 0\n")
        self.different([
            "different: first at this row, in the output y", "| y z", f"| 0 1  in {one}, where y is free", f"| 1 0  in {other}",
            "where both are cared, z differs first",
        ], one, other)

    def test_at_random(self):
        """The first difference is free where no cared one comes before it, and the last line is what both tables say."""
        chance, kinds = random.Random(83), Counter()
        for _ in range(200):
            rows = ["".join(chance.choices("01-", k=2)) for _ in range(8)]
            near = ["".join(mark if chance.random() < 0.9 else chance.choice("01-") for mark in row) for row in rows]
            tables = [Table.from_rows(each) for each in (rows, near)]
            paths = [self.file(f"{number}.table", table.to_file()) for number, table in enumerate(tables)]
            lines = self.run_by("same", *paths).stdout.splitlines()
            both_cared = [
                f"y{output} differs first at {row:03b}" for row in range(8) for output in range(2)
                if {table.columns[output][row] for table in tables} == {0, 1}
            ]
            if len(lines) == 5:
                self.assertEqual(lines[-1], f"where both are cared, {[*both_cared, 'nothing differs'][0]}")
            elif len(lines) == 4:
                self.assertEqual(f"{lines[0].split()[-1]} differs first at {''.join(lines[2].split()[:3])}", both_cared[0])
            self.assertEqual(any(line.endswith(" is free") for line in lines), len(lines) == 5)
            kinds[len(lines), bool(both_cared)] += 1
        self.assertEqual(set(kinds), {(1, False), (4, True), (5, False), (5, True)})
        self.assertGreater(min(kinds.values()), 5, kinds)


class Orders(Comparing):
    def test_others_are_an_error(self):
        wanted = "its order is a c b d, and the first file's a b c d; --order names one for both\n"
        self.refused(f"yav: {CROSSED}: {wanted}", "same", PAIRS, CROSSED)
        wanted = "its order is a b c d, and the first file's a c b d; --order names one for both\n"
        self.refused(f"yav: {PAIRS}: {wanted}", "same", CROSSED, PAIRS)
        cells = "examples/and-or-crossed.cells"
        wanted = "its order is a c b d, and the first file's a b c d, both by the first file's names; --order names one for both\n"
        self.refused(f"yav: {cells}: {wanted}", "same", PAIRS, cells)

    def test_one_for_both(self):
        pairs = [PAIRS, CROSSED, "examples/and-or.cells", "examples/and-or-crossed.cells"]
        table = Table.from_path(ROOT / PAIRS)
        for order in itertools.permutations("abcd"):
            cells = Network(table.reordered(order)).count()
            for other in pairs:
                self.same(f"{cells} cells in the order {' '.join(order)}", PAIRS, other, "--order", ",".join(order))
        self.same("4 cells in the order x3 x2 x1 x0", "examples/and-or-crossed.cells", PAIRS, "--order", "x3,x2,x1,x0")

    def test_it_stands_anywhere(self):
        for words in (("--order", "d,c,b,a", PAIRS, CROSSED), (PAIRS, "--order", "d,c,b,a", CROSSED), (PAIRS, CROSSED, "--order=d,c,b,a")):
            self.same("4 cells in the order d c b a", *words)

    def test_the_names_are_those_of_the_first_file(self):
        other = self.drawing("other.txt", Table.from_path(ROOT / PAIRS).rows, "pqrs", ["t"])
        self.same("4 cells in the order b a c d", PAIRS, other, "--order", "b,a,c,d")
        self.refused(f"yav: {PAIRS}: --order q,p,r,s: there is no input q, ", "same", PAIRS, other, "--order", "q,p,r,s")

    def test_a_difference_in_another_order(self):
        other = self.file("other.table", Table.from_rows(["0"] * 15 + ["1"], order=[3, 2, 1, 0]).to_file())
        self.different([
            "different: first at this row, in the output stop", "a b c d | stop",
            f"0 0 1 1 |  1    in {PAIRS}", f"0 0 1 1 |  0    in {other}",
        ], PAIRS, other, "--order", "b,d,a,c")

    def test_free_rows_are_filled_in_the_order_given(self):
        rows, order = "00--0--1", [1, 0, 2]
        path = self.drawing("free.txt", rows, "abc", "y")
        self.written("convert", path, self.folder / "free.cells")
        self.same("1 cell in the order a b c", path, self.folder / "free.cells")
        fresh, held = Network(Table.from_rows(rows, order=order)), Network.from_path(self.folder / "free.cells")
        held.reorder(order)
        found = fresh.difference(held)
        lines = self.run_by("same", path, self.folder / "free.cells", "--order", "b,a,c").stdout.splitlines()
        self.assertEqual("".join(lines[2].split()[:3]), f"{found.row:03b}")
        self.assertEqual((lines[2].split()[4], lines[3].split()[4]), tuple(map(str, found.bits)))
        self.assertEqual(lines[4], "where both are cared, nothing differs")

    def test_wrong_ones_are_told(self):
        for order, wanted in (("a,b,c", "d missing"), ("a,b,c,d,a", "a stands more than once"), ("", "a b c d missing")):
            for other in (CROSSED, "examples/xor.txt", "examples/and-or.cells"):
                self.refused(f"yav: {PAIRS}: --order {order}: {wanted}\n", "same", PAIRS, other, "--order", order)

    def test_what_makes_no_sense_is_no_option(self):
        for words in (("--sift",), ("--sift-to-rest",), ("--pass", "3"), ("--sift-input", "a"), ("--board", "9"), ("-o", "x")):
            self.misused(f"unrecognized arguments: {' '.join(words)}", "same", PAIRS, CROSSED, *words)


class Names(Comparing):
    def note(self, other, what, names, ours):
        return f"yav: {other}: its {what} are {names}, and the first file's {ours}: they go by position, whatever their names\n"

    def test_inputs_in_another_sequence(self):
        """By name both are the same, and by position they are not."""
        one = self.file("one.txt", "a b | y\n0 0 | 0\n0 1 | 1\n1 0 | 0\n1 1 | 0\n")
        other = self.file("other.txt", "b a | y\n0 0 | 0\n0 1 | 0\n1 0 | 1\n1 1 | 0\n")
        lines = ["different: first at this row, in the output y", "a b | y", f"0 1 | 1  in {one}", f"0 1 | 0  in {other}"]
        self.different(lines, one, other, beside=self.note(other, "inputs", "b a", "a b"))

    def test_outputs_in_another_sequence(self):
        one, other = self.drawing("one.txt", ["01", "10"], "a", "yz"), self.drawing("other.txt", ["01", "10"], "a", "zy")
        self.same("1 cell in the order a", one, other, beside=self.note(other, "outputs", "z y", "y z"))

    def test_both(self):
        one, other = (self.drawing(f"{ins}.txt", ["01", "10", "11", "00"], ins, outs) for ins, outs in (("ab", "yz"), ("ba", "zy")))
        notes = self.note(other, "inputs", "b a", "a b") + self.note(other, "outputs", "z y", "y z")
        self.assertIn("same: ", self.written("same", one, other, beside=notes))

    def test_it_is_told_where_the_orders_differ(self):
        one, other = self.file("one.txt", LAMP), self.file("other.txt", f"places a b\n{LAMP.replace('a b |', 'b a |')}")
        run = self.run_by("same", one, other)
        orders = "its order is b a, and the first file's a b, both by the first file's names; --order names one for both"
        self.assertEqual((run.returncode, run.stdout), (1, ""))
        self.assertEqual(run.stderr, f"{self.note(other, 'inputs', 'b a', 'a b')}yav: {other}: {orders}\n")

    def test_other_names_and_none_are_no_note(self):
        one = self.drawing("one.txt", ["01", "10", "11", "00"], ["x1", "x0"], ["y1", "y0"])
        for other in ("other.table", "other.cells"):
            self.written("convert", one, self.folder / other)
            self.assertIn("same: ", self.written("same", one, self.folder / other))
            self.assertIn("same: ", self.written("same", self.folder / other, one))
        named = self.drawing("named.txt", ["01", "10", "11", "00"], ["x1", "x2"], ["y1", "y2"])
        self.assertIn("same: ", self.written("same", one, named))


class Files(Comparing):
    def test_errors_name_the_file_they_are_about(self):
        bad = self.file("bad.txt", "a b | y\n0 0 | 1\n0 2 | 1\n")
        for wanted, path in (
            (f"{bad}:3:3: 2 is not an input's mark", bad), ("/nowhere/a.txt: No such file or directory\n", "/nowhere/a.txt"),
            (f"{self.folder}: ", self.folder), ("bad.cells: refused 1: ", self.file("bad.cells", b"\1" * 100)),
            ("bad.table: refused 2: ", self.file("bad.table", b"\1" * 512)),
            ("latin.txt:1:3: ", self.file("latin.txt", "a é | y\n".encode("latin-1"))),
        ):
            for words in ((path, PAIRS), (PAIRS, path)):
                self.refused(wanted, "same", *words)
                self.refused(f"yav: {path}:", "same", *words)

    def test_the_first_file_is_read_first(self):
        self.refused("yav: /nowhere/a.txt: ", "same", "/nowhere/a.txt", "/nowhere/b.txt")
        self.refused(f"yav: {PAIRS}: --order z: ", "same", PAIRS, "/nowhere/b.txt", "--order", "z")

    def test_endings_and_named_formats(self):
        lamp = self.file("lamp", LAMP)
        known = f"its ending tells no format: known are .txt, .drawing, .pla, .csv, .table, .blif, .cells; or OPTION names one of {READ}\n"
        self.refused(f"yav: {lamp}: {known}".replace("OPTION", "--from"), "same", lamp, "examples/xor.txt")
        self.refused(f"yav: {lamp}: {known}".replace("OPTION", "--other-from"), "same", "examples/xor.txt", lamp)
        self.same("2 cells in the order a b", lamp, "examples/xor.txt", "--from", "drawing")
        self.same("2 cells in the order left right", "examples/xor.txt", lamp, "--other-from", "drawing")
        self.same("2 cells in the order a b", lamp, lamp, "--from", "drawing", "--other-from", "drawing")
        # Each option is for its own file alone.
        self.refused(f"yav: {lamp}: its ending", "same", lamp, "examples/xor.txt", "--other-from", "drawing")
        self.refused(f"yav: {lamp}: its ending", "same", "examples/xor.txt", lamp, "--from", "drawing")
        self.misused("argument --other-from: invalid choice: 'svg'", "same", PAIRS, CROSSED, "--other-from", "svg")

    def test_standard_input(self):
        for words in (("-", "examples/xor.cells", "--from", "drawing"), ("examples/xor.cells", "-", "--other-from", "drawing")):
            names = "a b" if words[0] == "-" else "x0 x1"
            self.assertEqual(self.written("same", *words, given=LAMP), f"same: 2 cells in the order {names}\n")
        known = f"it has no ending that tells its format; OPTION names one of {READ}\n"
        self.refused(f"yav: standard input: {known}".replace("OPTION", "--from"), "same", "-", PAIRS, given=LAMP)
        self.refused(f"yav: standard input: {known}".replace("OPTION", "--other-from"), "same", PAIRS, "-", given=LAMP)
        bad = LAMP.replace("1 1 |", "1 2 |")
        for words in (("-", PAIRS, "--from", "drawing"), (PAIRS, "-", "--other-from", "drawing")):
            self.refused("yav: standard input:5:3: 2 is not an input's mark", "same", *words, given=bad)

    def test_standard_input_is_told_as_such(self):
        self.different([
            "different: first at this row, in the output lamp", "left right | lamp",
            " 1     1   |  0    in examples/xor.txt", " 1     1   |  1    in standard input",
        ], "examples/xor.txt", "-", "--other-from", "drawing", given=LAMP.replace("1 1 | 0", "1 1 | 1"))
        self.different(
            [f"different: standard input has 2 inputs and 1 output, and {PAIRS} 4 inputs and 1 output"],
            "-", PAIRS, "--from", "drawing", given=LAMP,
        )

    def test_it_is_read_once(self):
        self.refused(ONCE, "same", "-", "-", given=LAMP)
        self.refused(ONCE, "same", "-", "-", "--from", "drawing", "--other-from", "drawing", given=LAMP)

    def test_what_is_odd_is_told_of_each(self):
        note = "the number of cubes is 1, not 3 (it is taken as it is)\n"
        odd, other = (self.file(f"{name}.pla", ".i 1\n.o 1\n.p 3\n1 1\n.e\n") for name in ("odd", "other"))
        plain = self.drawing("plain.txt", "01")
        self.same("1 cell in the order x0", odd, plain, beside=f"yav: {odd}:3:4: {note}")
        self.same("1 cell in the order x0", plain, odd, beside=f"yav: {odd}:3:4: {note}")
        self.same("1 cell in the order x0", odd, other, beside=f"yav: {odd}:3:4: {note}yav: {other}:3:4: {note}")

    def test_files_that_are_missing(self):
        self.misused("required: OTHER", "same", PAIRS)
        self.misused("required: FILE, OTHER", "same")
        self.misused("argument OTHER: the file's name is empty", "same", PAIRS, "")
        self.misused("unrecognized arguments: examples/xor.txt", "same", PAIRS, CROSSED, "examples/xor.txt")
