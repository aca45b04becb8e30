"""Tests of networks over the library: every call, its refusals by number and word, files there and back, copies, and the library's file."""

import concurrent.futures
import copy
import itertools
import os
import pathlib
import pickle
import platform
import random
import re
import subprocess
import sys
import tempfile
import unittest
import unittest.mock

try:
    import numpy
except ImportError:
    numpy = None

import yavdocsil
from tests.places import PYTHON, ROOT
from yavdocsil import Cell, Error, Malformed, Network, NotBuilt, Refused, Table, library, pictures
from yavdocsil.errors import REFUSALS
from yavdocsil.exports import blif, verilog
from yavdocsil.pictures import dot, svg
from yavdocsil.reading.rows import BadRow
from yavdocsil.reading.table_file import sealed

EXCLUSIVE_OR = Table.from_rows(["0", "1", "1", "0"])
# Input 0 and 1, or 2 and 3, in the order that takes six cells.
CROSSED = Table.from_rows([[a and b or c and d] for a, b, c, d in itertools.product((0, 1), repeat=4)], order=[0, 2, 1, 3])


def drawn(name):
    return Table.from_drawing((ROOT / "examples" / f"{name}.txt").read_text(encoding="utf-8"))


def random_table(rng, n, m=2):
    """With no free rows, some, or hardly any others, in some order."""
    free = rng.choice((0, 0.2, 0.6, 0.9))
    rows = ["".join("-" if rng.random() < free else rng.choice("01") for _ in range(m)) for _ in range(2**n)]
    return Table.from_rows(rows, order=rng.sample(range(n), n))


def buffers(network):
    """The bytes of each buffer."""
    return network._lent.__getstate__()


class Counted:
    """An integer of another kind, as NumPy has them."""

    def __init__(self, number):
        self.number = number

    def __index__(self):
        return self.number


class Calls(unittest.TestCase):
    def test_a_build_is_the_papers(self):
        network = Network(EXCLUSIVE_OR)
        self.assertFalse(network.is_built)
        self.assertEqual((network.cells, network.roots), ((), ()))
        self.assertEqual((network.cared(), network.build()), (4, 2))
        self.assertEqual(network.cells, (Cell(1, 0, 4, 5), Cell(2, 1, 0, 1)))
        self.assertEqual(network.roots, (2,))

    def test_sifting_one_input_and_all(self):
        network = Network(CROSSED)
        self.assertEqual(network.count(), 6)
        self.assertEqual(network.sift("x1"), 4)
        self.assertEqual(network.order, (1, 0, 2, 3))
        again = Network(CROSSED)
        self.assertEqual(again.sift_all(), 16)
        self.assertEqual((again.order, again.count()), ((1, 0, 2, 3), 4))

    def test_moves_are_signed(self):
        network = Network(CROSSED)
        self.assertEqual(network.moves(), [[0, 0, 0, 0], [-2, -2, 0, 0], [0, 0, -2, -2], [0, 0, 0, 0]])
        network.sift(1)
        self.assertEqual(network.moves()[2], [2, 2, 0, 0])
        self.assertEqual(Network(Table.from_rows(["1"])).moves(), [])

    def test_swaps_of_the_order_and_in_the_cells(self):
        network = Network(CROSSED)
        network.build()
        network.swap_cells(1)
        self.assertEqual((network.order, len(network.cells), network.is_built), ((0, 1, 2, 3), 4, True))
        network.swap(1)
        self.assertEqual((network.order, network.is_built), ((0, 2, 1, 3), False))

    def test_any_order_can_be_taken(self):
        for order in itertools.permutations(range(4)):
            network = Network(CROSSED)
            network.reorder(order)
            self.assertEqual(network.table, CROSSED.reordered(order))
        network.reorder(["x1", 0, "x2", 3])
        self.assertEqual((network.order, network.count()), ((1, 0, 2, 3), 4))
        network.build()
        network.reorder(network.order)
        self.assertTrue(network.is_built)
        for wrong in ([0, 1, 2], [0, 1, 2, 2], [0, 1, 2, 4], ["x0", "x1", "x2", "y0"], []):
            with self.assertRaises(ValueError):
                network.reorder(wrong)
        self.assertEqual((network.order, network.is_built), ((1, 0, 2, 3), True))
        Network(Table.from_rows(["1"])).reorder([])

    def test_a_board_holds_the_network_that_is_built_there(self):
        network = Network(CROSSED)
        self.assertEqual(network.on_board(6).diagram, network.diagram)
        with self.assertRaises(Refused) as caught:
            network.on_board(5)
        self.assertEqual((caught.exception.number, caught.exception.value, caught.exception.board), (23, 6, 5))
        self.assertEqual((network.board, network.on_board(6).board), (library.MOST_CELLS, 6))

    def test_a_board_changes_nothing_else(self):
        network = Network(EXCLUSIVE_OR)
        network.log([0, 0])
        other = network.on_board(10)
        self.assertEqual((other.seen, other.table), (network.seen, network.table))
        for each in (network, other):
            each.log([1])
            self.assertEqual(each.table.rows, ["0", "1", "-", "-"])

    def test_a_log_makes_the_care(self):
        network = Network(CROSSED)
        network.log([0, 0, 3, 5, 12, 12])
        self.assertEqual([row for row, mark in enumerate(network.table.columns[0]) if mark is not None], [0, 3, 5, 12])
        self.assertEqual([(row, count) for row, count in enumerate(network.seen) if count], [(0, 2), (3, 1), (5, 1), (12, 2)])
        network.log([], least=2)
        self.assertEqual([row for row, mark in enumerate(network.table.columns[0]) if mark is not None], [0, 12])


class Files(unittest.TestCase):
    def test_table_files_there_and_back(self):
        for name in ("xor", "and-or", "and-or-crossed", "bounce-guard"):
            table = drawn(name)
            file = table.to_file()
            self.assertEqual(file, (ROOT / "examples" / f"{name}.table").read_bytes())
            read = Table.from_file(file)
            self.assertEqual((read.columns, read.order), (table.columns, table.order))

    def test_network_files_there_and_back(self):
        network = Network(drawn("bounce-guard"))
        network.build()
        file = network.to_file()
        self.assertEqual(file, (ROOT / "examples" / "bounce-guard.cells").read_bytes())
        read = Network.from_file(file)
        self.assertTrue(read.is_built)
        self.assertEqual((read.cells, read.roots, read.order, read.to_file()), (network.cells, network.roots, network.order, file))
        self.assertEqual(read.table.cared, 64)

    def test_the_table_held_is_the_table_given(self):
        for name in ("xor", "bounce-guard"):
            self.assertEqual(Network(drawn(name)).table, drawn(name))


class Refusals(unittest.TestCase):
    def refused(self, number, function, *arguments, value=0):
        with self.assertRaises(Refused) as caught:
            function(*arguments)
        self.assertEqual((caught.exception.number, caught.exception.value), (number, value))
        self.assertIn(REFUSALS[number], str(caught.exception))

    def test_each_has_its_number(self):
        network = Network(EXCLUSIVE_OR)
        self.refused(9, network.sift, 2)
        self.refused(9, network.swap, 1)
        self.refused(22, network.evaluate, [0])
        self.refused(22, network.to_file)
        self.refused(8, network.log, [4])
        network.build()
        self.refused(8, network.evaluate, [0, 4])
        self.refused(8, network.evaluate, [65536])
        self.refused(8, network.log, [0, -1])
        self.refused(23, Network(EXCLUSIVE_OR, board=1).build, value=2)
        network._lent.counts[0] = 2**32 - 1
        self.refused(33, network.log, [0])

    def test_bad_table_files(self):
        self.refused(1, Table.from_file, b"")
        self.refused(2, Table.from_file, b"\1" * 512)
        self.refused(3, Table.from_file, (ROOT / "examples" / "bounce-guard.cells").read_bytes())
        for number, heading in (
            (4, [11, 1]), (5, [2, 0, 0, 1]), (5, [2, 17, 0, 1]), (6, [2, 1, 0, 0]), (7, [2, 1, 0, 1, 9]), (1, [2, 1, 0, 1]),
        ):
            self.refused(number, Table.from_file, sealed(1, 0, heading))

    def test_bad_network_files(self):
        self.refused(2, Network.from_file, b"\1" * 512)
        # One input and one output; the count stands at bytes 16 and 17, the first root behind it.
        heading = [1, 1, 0] + [0] * 9
        self.refused(24, Network.from_file, sealed(4, 0, heading + [0, 0, 5]))
        alike = sealed(4, 0, heading + [1, 0, 2]) + sealed(5, 1, [0, 0, 0, 0, 0, 0])
        self.refused(32, Network.from_file, alike)
        self.refused(23, Network.from_file, alike, 0, value=1)

    def test_every_number_of_the_header_has_words(self):
        header = (ROOT / "include" / "yavdocsil.h").read_text(encoding="utf-8")
        numbers = header[header.index("YAV_DONE = 0") :]
        found = {int(number) for number in re.findall(r"^ +YAV_\w+ = (\d+)", numbers[: numbers.index("};")], re.MULTILINE)}
        self.assertEqual(found, set(REFUSALS))

    def test_numbers_that_fit_nowhere(self):
        network = Network(EXCLUSIVE_OR)
        for wrong in (
            lambda: network.sift_all(-1), lambda: network.log([0], least=2**32), lambda: network.sift(-1), lambda: network.sift("y0"),
        ):
            with self.assertRaises(ValueError):
                wrong()
        self.assertEqual(network.table, EXCLUSIVE_OR)

    def test_the_cells_wanted_are_told(self):
        with self.assertRaisesRegex(Refused, "refused 23: the board has too few cells: 2 are wanted, it has 1$"):
            Network(EXCLUSIVE_OR, board=1).build()
        with self.assertRaisesRegex(Refused, "1 is wanted, it has 0$"):
            Network(Table.from_rows("01"), board=0).build()


class Evaluation(unittest.TestCase):
    def setUp(self):
        self.network = Network(drawn("bounce-guard"))
        self.network.build()

    def refused(self, wanted, row, kind=ValueError):
        for call in (self.network.outputs_at, lambda row: self.network.evaluate([0, row]), lambda row: self.network.log([row])):
            with self.assertRaises(kind) as caught:
                call(row)
            self.assertEqual((type(caught.exception), str(caught.exception)), (kind, wanted))

    def test_many_rows(self):
        network, rows = self.network, range(32)
        self.assertEqual(network.evaluate(rows), [network.diagram.evaluate(row) for row in rows])
        for row, outputs in enumerate(network.evaluate(list(rows))):
            for column, bit in zip(network.table.columns, outputs):
                self.assertIn(column[row], (bit, None))
        self.assertEqual(network.evaluate([]), [])

    def test_rows_by_number_by_bits_and_by_names(self):
        wanted = self.network.evaluate(range(32))
        for row in range(32):
            digits = f"{row:05b}"
            named = {name: int(digit) for name, digit in zip(self.network.inputs, digits)}
            backwards = {name: bool(bit) for name, bit in reversed(named.items())}
            given = [row, Counted(row), digits, f" {digits[:3]} {digits[3:]} ", named, backwards]
            self.assertEqual(self.network.evaluate(given), [wanted[row]] * len(given))
            self.assertEqual(self.network.evaluate(iter(given)), [wanted[row]] * len(given))

    def test_one_row_by_names_gives_outputs_by_names(self):
        row = {"a": 1, "b": 1, "c": 1, "d": 1, "held": 0}
        for given in (row, "1111 0", 30, Counted(30)):
            self.assertEqual(self.network.outputs_at(given), {"hold": 1, "advance": 1})
        self.assertEqual(self.network.outputs_at(dict.fromkeys("abcd", 0) | {"held": 1}), {"hold": 0, "advance": 0})
        constant = Network(Table.from_rows(["01"]))
        constant.build()
        for given in ({}, "", 0):
            self.assertEqual(constant.outputs_at(given), {"y0": 0, "y1": 1})

    @unittest.skipIf(numpy is None, "NumPy isn't there")
    def test_numpy(self):
        self.assertEqual(self.network.evaluate(numpy.arange(32)), self.network.evaluate(range(32)))
        named = dict(zip(self.network.inputs, numpy.array([1, 1, 1, 1, 0]) > 0))
        self.assertEqual(self.network.outputs_at(named), {"hold": 1, "advance": 1})
        self.assertEqual(self.network.sift(numpy.int64(2)), 7)

    def test_wrong_rows(self):
        row = {"a": 1, "b": 1, "c": 1, "d": 1, "held": 0}
        self.refused("not every input has a bit: c held missing", {"a": 1, "b": 1, "d": 1})
        self.refused("there is no input e; there are a b c d held", {**row, "e": 1})
        self.refused("there is no input 0; there are a b c d held", {0: 1})
        self.refused("input d: 2 is neither 0 nor 1", {**row, "d": 2})
        self.refused("input d: 1.0 is neither 0 nor 1", {**row, "d": 1.0})
        self.refused("input d: None is neither 0 nor 1", {**row, "d": None})
        self.refused("1110 is no row: it takes 5 bits, for a b c d held", "1110", BadRow)
        self.refused("'float' object cannot be interpreted as an integer", 1.0, TypeError)
        self.refused(f"refused 8: {REFUSALS[8]}", 32, Refused)
        self.refused(f"refused 8: {REFUSALS[8]}", -1, Refused)
        self.refused(f"refused 8: {REFUSALS[8]}", 2**16, Refused)
        for alone in ("11110", row):
            for call in (self.network.evaluate, self.network.log):
                with self.assertRaisesRegex(TypeError, "^rows are a list; one row alone is a list of one$"):
                    call(alone)

    def test_a_log_takes_them_too(self):
        self.network.log(["11110", 30, {"a": 1, "b": 1, "c": 1, "d": 1, "held": 0}, "00000"])
        self.assertEqual([(row, count) for row, count in enumerate(self.network.seen) if count], [(0, 1), (30, 3)])

    def test_without_a_network_there_is_nothing_to_evaluate(self):
        self.network.swap(0)
        for call in (lambda: self.network.outputs_at(0), lambda: self.network.evaluate(["00000"]), lambda: self.network.evaluate([])):
            with self.assertRaises(Refused) as caught:
                call()
            self.assertEqual(caught.exception.number, 22)


class Passes(unittest.TestCase):
    def test_progress_changes_nothing(self):
        """Every limit, with a network held before or not, and on boards that hold none: order, answer and state are the pass's."""
        rng = random.Random(61)
        for number, n in enumerate([*range(8), *range(7), *range(6), *range(6)]):
            table, board = random_table(rng, n), rng.choice((0, library.MOST_CELLS))
            for limit in (*range(n * n + 2), 2**32 - 1, 2**70):
                plain, told = Network(table, board), Network(table, board)
                if number % 2 and board:
                    plain.build(), told.build()
                turns = []
                self.assertEqual(told.sift_all(limit, lambda *turn: turns.append(turn)), plain.sift_all(limit))
                self.assertEqual(buffers(told), buffers(plain))
                self.assertEqual([turn for turn, _ in turns], list(range(1, min(n, limit // n if n else 0) + 1)))

    def test_the_cells_after_each_sift_are_told(self):
        turns, after = [], []
        Network(CROSSED).sift_all(progress=lambda *turn: turns.append(turn))
        for limit in (4, 8, 12, 16):
            network = Network(CROSSED)
            network.sift_all(limit)
            after.append((limit // 4, network.count()))
        self.assertEqual(turns, after)

    def test_progress_costs_one_call_more_a_turn(self):
        called = []
        network = Network(CROSSED)
        with unittest.mock.patch.object(library, "call", side_effect=lambda name, **_: called.append(name) or 0):
            network.sift_all(11, lambda turn, cells: None)
            network.sift_all()
        self.assertEqual(called, ["build", "sift", "build", "sift", "pass"])

    def test_a_limit_that_is_none(self):
        for progress in (None, lambda *_: self.fail("no sift is allowed")):
            for wrong in (-1, -(2**40)):
                with self.assertRaisesRegex(ValueError, f"^limit: {wrong} is out of range$"):
                    Network(CROSSED).sift_all(wrong, progress)

    def test_passes_until_one_brings_nothing(self):
        rng, lengths = random.Random(62), set()
        for n in (0, 1, *[5, 6, 7] * 12):
            table = random_table(rng, n)
            rested, passed, turns = Network(table), Network(table), []
            cells = rested.sift_to_rest(lambda *turn: turns.append(turn))
            before = [passed.count()]
            for wanted in cells:
                order = passed.order
                passed.sift_all()
                self.assertEqual(passed.count(), wanted)
                before.append(wanted)
            self.assertEqual((rested.order, rested.order), (passed.order, order))
            self.assertEqual(before[-1], before[-2])
            self.assertEqual(sorted(before[:-1], reverse=True), before[:-1])
            self.assertEqual(len(set(before)), len(before) - 1)
            self.assertEqual([turn for turn, _ in turns], [*range(1, n + 1)] * len(cells))
            self.assertEqual(Network(table).sift_to_rest(), cells)
            lengths.add(len(cells))
        self.assertTrue({1, 2, 3} <= lengths, lengths)


class Threads(unittest.TestCase):
    """The library works while other threads run, so a network that they share has to keep them apart."""

    def test_a_network_that_threads_share(self):
        chance = random.Random(9)
        table = Table.from_rows(["".join(chance.choice("01-") for _ in range(8)) for _ in range(256)])
        network = Network(table)
        wanted = (network.count(), network.moves(), network.diagram, network.build())
        asked = (network.count, network.moves, lambda: network.diagram, network.build)
        with concurrent.futures.ThreadPoolExecutor(4) as threads:
            answers = [[threads.submit(ask) for ask in asked] for _ in range(40)]
        for turn in answers:
            self.assertEqual(tuple(answer.result() for answer in turn), wanted)
        for row, marks in enumerate(table.rows):
            self.assertTrue(all(mark in ("-", str(bit)) for mark, bit in zip(marks, network.evaluate([row])[0])))

    def test_a_pass_is_not_interrupted(self):
        wanted = Network(CROSSED)
        wanted.sift_all()
        for _ in range(20):
            network = Network(CROSSED)
            with concurrent.futures.ThreadPoolExecutor(2) as threads:
                threads.submit(network.sift_all, progress=lambda *_: None)
                threads.submit(network.build)
            self.assertEqual(network.order, wanted.order)


class Copies(unittest.TestCase):
    def made(self):
        """Networks of all stages and boards, with logs."""
        for board in (0, 7, 100, library.MOST_BOARD):
            network = Network(drawn("bounce-guard"), board)
            yield network
            if board:
                network.build()
                yield network
            network.log([0, 0, 31], least=0)
            yield network
        yield Network.from_file((ROOT / "examples" / "bounce-guard.cells").read_bytes())

    def test_a_copy_has_all_and_shares_nothing(self):
        for network in self.made():
            for again in (copy.copy(network), copy.deepcopy(network), pickle.loads(pickle.dumps(network))):
                self.assertIs(type(again), Network)
                self.assertEqual((again.inputs, again.outputs), (network.inputs, network.outputs))
                self.assertEqual(buffers(again), buffers(network))
                self.assertEqual(set(buffers(again)), {"state", "values", "care", "work", "roots", "cells", "counts"})
                self.assertEqual((again.table, again.seen), (network.table, network.seen))
                self.assertEqual((again.cells, again.roots), (network.cells, network.roots))
                before = buffers(network)
                self.assertIsNot(again._lent.lock, network._lent.lock)
                for name in before:
                    lent = vars(again._lent)[name]
                    self.assertIs(type(lent), type(vars(network._lent)[name]))
                    for at in range(min(len(lent), 1)):
                        lent[at] ^= 1
                        self.assertNotEqual(bytes(lent), before[name])
                self.assertEqual(buffers(network), before)

    def test_a_copy_goes_its_own_way(self):
        network = Network(CROSSED)
        network.build()
        for again in (copy.copy(network), copy.deepcopy(network), pickle.loads(pickle.dumps(network, protocol=2))):
            self.assertEqual((again.sift_all(), again.build()), (16, 4))
            again.log([1])
            self.assertEqual((len(network.cells), network.order, sum(network.seen), network.cared()), (6, (0, 2, 1, 3), 0, 16))

    def test_another_process_takes_it(self):
        network = Network(CROSSED, board=6)
        network.log([3, 3, 12, 5])
        network.build()
        code = (
            "import pickle, sys; network = pickle.load(sys.stdin.buffer);"
            "print(network.evaluate([3, 5, 12]), network.seen[3], network.cells == network.on_board(6).cells)"
        )
        environment = {**os.environ, "PYTHONPATH": str(PYTHON)}
        run = subprocess.run([sys.executable, "-c", code], env=environment, input=pickle.dumps(network), capture_output=True)
        self.assertEqual((run.stdout, run.stderr), (b"[(1,), (0,), (1,)] 2 True\n", b""))

    def test_errors_are_pickled_whole(self):
        refused = [Refused(23, 6, 5), Refused(8), Refused(99)]
        for error in (*refused, Malformed("a second bar", 3, 4), Malformed("no heading", 1), NotBuilt("x"), Error("y")):
            for protocol in range(pickle.HIGHEST_PROTOCOL + 1):
                for again in (pickle.loads(pickle.dumps(error, protocol)), copy.copy(error), copy.deepcopy(error)):
                    self.assertIs(type(again), type(error))
                    self.assertEqual((str(again), vars(again)), (str(error), vars(error)))


class Shown(unittest.TestCase):
    def test_in_a_line(self):
        network = Network(drawn("bounce-guard"))
        self.assertEqual(repr(network), "<Network of 5 inputs, 2 outputs: not built, in the order held a b c d>")
        self.assertFalse(network.is_built)
        network.build()
        self.assertEqual(repr(network), "<Network of 5 inputs, 2 outputs: 7 cells, in the order held a b c d>")
        network.swap(0)
        self.assertEqual(repr(network), "<Network of 5 inputs, 2 outputs: not built, in the order a held b c d>")
        one = Network(Table.from_rows("01", inputs=["\x1b[31m"]))
        one.build()
        self.assertEqual(repr(one), "<Network of 1 input, 1 output: 1 cell, in the order \\x1b[31m>")
        none = Network(Table.from_rows(["1"]))
        none.build()
        self.assertEqual(repr(none), "<Network of 0 inputs, 1 output: 0 cells>")

    def test_in_a_line_where_there_is_no_table(self):
        half = Network.__new__(Network)
        self.assertEqual(repr(half), "<Network without a table>")
        half._lent = library.Buffers()
        self.assertEqual(repr(half), "<Network without a table>")

    def test_in_a_notebook(self):
        network = Network(drawn("bounce-guard"))
        before = buffers(network)
        picture = network._repr_svg_()
        self.assertEqual(buffers(network), before)
        network.build()
        self.assertEqual(network._repr_svg_(), picture)
        self.assertEqual(picture, svg.write(network.diagram))
        self.assertIsNone(Network(drawn("bounce-guard"), board=6)._repr_svg_())

    def test_in_a_notebook_only_if_it_can_be_read(self):
        network = Network(drawn("bounce-guard"))
        for most, shown in ((7, True), (6, False)):
            with unittest.mock.patch.object(pictures, "MOST_READABLE", most):
                self.assertEqual(network._repr_svg_() is not None, shown)
        self.assertEqual(pictures.MOST_READABLE, 200)

    def test_written(self):
        for network in (Network(drawn("bounce-guard")), Network.from_file((ROOT / "examples" / "bounce-guard.cells").read_bytes())):
            diagram = copy.copy(network).diagram
            for made, wanted in (
                (network.to_svg(), svg.write(diagram)), (network.to_svg("a guard"), svg.write(diagram, "a guard")),
                (network.to_dot(), dot.write(diagram)), (network.to_dot("a guard"), dot.write(diagram, "a guard")),
                (network.to_blif(), blif.write(diagram)), (network.to_blif("guard"), blif.write(diagram, "guard")),
                (network.to_verilog(), verilog.write(diagram)), (network.to_verilog("guard"), verilog.write(diagram, "guard")),
            ):
                self.assertEqual(made, wanted)
            self.assertEqual((network.to_svg("a guard").count("a guard") > 0, ".model guard\n" in network.to_blif("guard")), (True, True))


class TheLibrary(unittest.TestCase):
    def setUp(self):
        folder = tempfile.TemporaryDirectory()
        self.addCleanup(folder.cleanup)
        self.folder = pathlib.Path(folder.name).resolve()

    def put(self, name, content=b""):
        path = self.folder / name
        path.write_bytes(content)
        return path

    def found(self, named, installed, built):
        """The library's file where these are looked for; an environment that names none has an empty name."""
        with unittest.mock.patch.multiple(library, INSTALLED=self.folder / installed, BUILT=self.folder / built):
            with unittest.mock.patch.dict(os.environ, {library.VARIABLE: named}):
                return library.path()

    def test_where_it_is_looked_for(self):
        named, installed, built = (self.put(name) for name in ("named", "installed", "built"))
        self.assertEqual(self.found(str(named), "installed", "built"), named)
        self.assertEqual(self.found("", "installed", "built"), installed)
        self.assertEqual(self.found("", "nowhere", "built"), built)
        before = os.getcwd()
        self.addCleanup(os.chdir, before)
        os.chdir(self.folder)
        self.assertEqual(self.found("named", "installed", "built"), named)
        self.assertEqual((library.INSTALLED, library.BUILT), (
            PYTHON / "yavdocsil" / "libyavdocsil.so", ROOT / "target" / "lib" / "libyavdocsil.so",
        ))

    def test_one_that_is_nowhere(self):
        self.put("installed")
        end = "./build makes it, or YAVDOCSIL_LIBRARY says where it is"
        for arguments, where in (
            (("", "nowhere", "there"), f"it should be {self.folder}/nowhere or {self.folder}/there"),
            (("/nowhere/library.so", "installed", "there"), "YAVDOCSIL_LIBRARY names /nowhere/library.so"),
            ((str(self.folder), "installed", "there"), f"YAVDOCSIL_LIBRARY names {self.folder}"),
        ):
            with self.assertRaises(NotBuilt) as caught:
                self.found(*arguments)
            self.assertEqual(str(caught.exception), f"the library isn't there: {where}; {end}")

    def test_one_that_is_none_or_anothers(self):
        ours, foreign = library.path().read_bytes(), f"it is for another machine than this, {platform.machine()}"
        for name, content, reason in (
            ("empty.so", b"", "can't be loaded: file too short"),
            ("text.so", b"no library\n" * 100, "can't be loaded: invalid ELF header"),
            ("narrow.so", ours[:4] + b"\1" + ours[5:], "can't be loaded: wrong ELF class: ELFCLASS32"),
            ("foreign.so", ours[:18] + b"\xfe\xff" + ours[20:], f"can't be loaded: {foreign}"),
            ("older.so", ours.replace(b"\0yav_moves\0", b"\0yav_mores\0"), "is another one, or older: it has no yav_moves"),
        ):
            path = self.put(name, content)
            with self.assertRaises(NotBuilt) as caught:
                library.calls_of(path)
            end = "./build makes it anew, or YAVDOCSIL_LIBRARY says where it is"
            self.assertEqual(str(caught.exception), f"the library {path} {reason}; {end}")

    def test_each_call_takes_its_own_kinds_alone(self):
        calls = library.calls_of(library.path())
        self.assertEqual(set(calls), set(library.CALLS))
        state, care, roots = (library.buffer(name, 2048) for name in ("state", "care", "roots"))
        self.assertEqual(calls["cared"](state, 2048, care, 2048), 21 * 2**32)
        for wrong in ((care, 2048, state, 2048), (state, 2048, roots, 2048), (state, 2048, care, 1.5)):
            with self.assertRaises(library.ctypes.ArgumentError):
                calls["cared"](*wrong)

    def test_a_program_is_told(self):
        path = self.put("text.so", b"no library\n" * 100)
        code = "import yavdocsil; yavdocsil.Network(yavdocsil.Table.from_rows(['1']))"
        environment = {**os.environ, "PYTHONPATH": str(PYTHON), "YAVDOCSIL_LIBRARY": str(path)}
        run = subprocess.run([sys.executable, "-c", code], env=environment, capture_output=True, text=True)
        self.assertIn(f"NotBuilt: the library {path} can't be loaded: invalid ELF header; ./build makes", run.stderr.splitlines()[-1])

    def test_a_board_is_of_some_size(self):
        for wrong in (-1, library.MOST_BOARD + 1):
            with self.assertRaisesRegex(ValueError, f"^a board has 0 to 32767 cells, not {wrong}$"):
                Network(EXCLUSIVE_OR, board=wrong)
        self.assertEqual(Network(EXCLUSIVE_OR, board=Counted(2)).build(), 2)

    def test_the_version_is_a_plain_line(self):
        lines = (PYTHON / "yavdocsil" / "__init__.py").read_text(encoding="utf-8").splitlines()
        self.assertIn(f'__version__ = "{yavdocsil.__version__}"', lines)


class Examples(unittest.TestCase):
    """The examples in Python; docs/LIBRARY.md shows what they print, which tests/pages holds."""

    def setUp(self):
        folder = tempfile.TemporaryDirectory()
        self.addCleanup(folder.cleanup)
        self.folder = pathlib.Path(folder.name)

    def run_by(self, *words):
        environment = {**os.environ, "PYTHONPATH": str(PYTHON)}
        run = subprocess.run([sys.executable, *map(str, words)], cwd=ROOT, env=environment, capture_output=True, text=True)
        return run.returncode, run.stdout, run.stderr

    def test_a_network_file(self):
        new = self.folder / "new.cells"
        status, _, told = self.run_by("examples/cells.py", "examples/and-or-crossed.table", new)
        self.assertEqual((status, told), (0, ""))
        self.assertEqual(new.read_bytes(), (ROOT / "examples" / "and-or-crossed.cells").read_bytes())

    def test_other_formats_and_no_inputs(self):
        path = self.folder / "one.pla"
        path.write_text(".i 0\n.o 1\n1\n.e\n")
        shown = "order\ncells 0\nroot 0 1\n"
        self.assertEqual(self.run_by("examples/sift.py", path), (0, f"{shown}tried 0\n{shown}", ""))

    def test_wrong_usage(self):
        for script, words, usage in (
            ("sift.py", ([], ["a", "b"]), "FILE, where FILE is a table"),
            ("cells.py", (["a"], ["a", "b", "c"]), "FILE NEW, where FILE is a table and NEW the network file to write"),
        ):
            for wrong in words:
                self.assertEqual(self.run_by(f"examples/{script}", *wrong), (2, "", f"usage: {script} {usage}\n"))

    def test_refused_files(self):
        bad, new = self.folder / "bad.table", self.folder / "new.cells"
        bad.write_bytes(b"\1" * 512)
        for script, more in (("sift.py", []), ("cells.py", [new])):
            self.assertEqual(self.run_by(f"examples/{script}", bad, *more), (1, "", f"{bad}: refused 2: a block's check differs\n"))
            missing = f"[Errno 2] No such file or directory: '{self.folder}/no.table'\n"
            self.assertEqual(self.run_by(f"examples/{script}", self.folder / "no.table", *more), (1, "", missing))
        self.assertFalse(new.exists())


if __name__ == "__main__":
    unittest.main()
