"""Tests of the command's files: endings, standard input and output, and what is told where something can't be read or written."""

import array
import fcntl
import os
import signal
import subprocess
import termios

from tests.command.running import GUARD, PAIRS, PLAIN, WithFolder, yav
from tests.places import EXAMPLES, ROOT
from yavdocsil import Table

XOR = (EXAMPLES / "xor.txt").read_text(encoding="utf-8")
READ = "drawing, pla, csv, table, blif, cells"


class Endings(WithFolder):
    def test_a_picture_goes_by_its_ending(self):
        for ending, option in ((".svg", "--svg"), (".dot", "--dot"), (".gv", "--dot"), (".txt", "--text"), (".SVG", "--svg")):
            out = self.folder / f"guard{ending}"
            self.assertEqual(self.written("show", GUARD, "-o", out), "")
            self.assertEqual(out.read_text(encoding="utf-8"), self.written("show", GUARD, option), ending)
            self.written("show", GUARD, option, "-o", out)

    def test_an_export_goes_by_its_ending(self):
        for ending, option in ((".blif", "--blif"), (".v", "--verilog"), (".sv", "--verilog"), (".V", "--verilog")):
            out = self.folder / f"guard{ending}"
            self.assertEqual(self.written("export", GUARD, "-o", out), "")
            self.assertEqual(out.read_text(encoding="utf-8"), self.written("export", GUARD, option), ending)

    def test_convert_writes_every_format(self):
        for ending, word, option in (
            (".svg", "show", "--svg"), (".dot", "show", "--dot"), (".blif", "export", "--blif"), (".v", "export", "--verilog"),
        ):
            out = self.folder / f"out{ending}"
            self.written("convert", GUARD, out)
            self.assertEqual(out.read_text(encoding="utf-8"), self.written(word, GUARD, option))

    def test_endings_in_any_case(self):
        path = self.file("GUARD.TXT", (ROOT / GUARD).read_text(encoding="utf-8"))
        for ending in (".PLA", ".Table", ".CELLS", ".Csv"):
            self.written("convert", path, self.folder / f"out{ending}")
            self.assertIn("cells   7\n", self.written("info", self.folder / f"out{ending}"))

    def test_one_that_contradicts_an_option(self):
        for word, option, name, told in (
            ("show", "--svg", "out.dot", "its ending tells dot, and svg is asked for"),
            ("show", "--svg", "out.txt", "its ending tells text, and svg is asked for"),
            ("show", "--text", "out.table", "its ending tells table, and text is asked for"),
            ("export", "--blif", "out.v", "its ending tells verilog, and blif is asked for"),
            ("show", "--svg", "out.png", "a .png can't be written, and svg is asked for"),
            ("show", "--dot", "out.PDF", "a .pdf can't be written, and dot is asked for"),
            ("export", "--verilog", "out.vhdl", "a .vhdl can't be written, and verilog is asked for"),
        ):
            out = self.folder / name
            self.refused(f"yav: {out}: {told}\n", word, GUARD, option, "-o", out)
        out = self.folder / "out.pla"
        self.refused(f"yav: {out}: its ending tells pla, and table is asked for\n", "convert", GUARD, out, "--to", "table")
        self.refused(f"yav: {out}: its ending tells pla, and cells is asked for\n", "log", PAIRS, "0000", "-o", out, "--to", "cells")

    def test_one_that_tells_nothing(self):
        known = "known are .svg, .dot, .gv, .txt; or --to names one of svg, dot, text, summary"
        for name in ("out.png", "out.xyz", "out"):
            self.refused(f"yav: {self.folder / name}: its ending tells no format: {known}\n", "show", GUARD, "-o", self.folder / name)
        for name in ("out", "out.bin"):
            self.written("show", GUARD, "--svg", "-o", self.folder / name)
        known = "known are .blif, .v, .sv; or --to names one of blif, verilog"
        for name, told in (("x.txt", "a format that can't be had here"), ("x.foo", "no format")):
            self.refused(f"yav: {self.folder / name}: its ending tells {told}: {known}\n", "export", GUARD, "-o", self.folder / name)
        self.written("show", GUARD, "--summary", "-o", self.folder / "out.txt")

    def test_a_table_is_not_written_over_by_another_text(self):
        path = self.file("page.txt", "A page.\n\n" + "".join(f"    {line}\n" for line in Table.from_rows("0110").to_drawing().splitlines()))
        before = path.read_bytes()
        link = self.folder / "link.txt"
        link.symlink_to(path)
        told = "it is the file that is read, and what stands in it would be lost; name another\n"
        for word, *more in (("show", path, "-o", path), ("convert", path, path), ("convert", link, path), ("log", path, "00", "-o", link)):
            self.refused(f"yav: {more[-1]}: {told}", word, *more)
        self.assertEqual(path.read_bytes(), before)
        cells = self.file("in.cells", (EXAMPLES / "xor.cells").read_bytes())
        self.written("convert", cells, cells, "--order", "x1,x0")
        self.assertEqual(self.written("order", cells), "2 cells in the order x1 x0\n")

    def test_names_that_a_format_does_not_take(self):
        sheet = self.file("clerk.csv", "left lamp,|,y\n0,|,0\n1,|,1\n")
        for name, kind in (("out.txt", "drawing"), ("out.pla", "PLA")):
            out = self.folder / name
            self.refused(f"yav: {out}: the name 'left lamp' can't stand in a {kind}\n", "convert", sheet, out)


class Standard(WithFolder):
    def test_output(self):
        for kind in ("drawing", "pla", "csv", "svg", "dot", "blif", "verilog"):
            out = self.folder / "out"
            self.written("convert", GUARD, out, "--to", kind)
            self.assertEqual(self.run_by("convert", GUARD, "-", "--to", kind).stdout.encode(), out.read_bytes())
        self.assertEqual(self.written("show", GUARD, "-o", "-"), self.written("show", GUARD))
        self.assertEqual(self.written("export", GUARD, "--blif", "-o", "-"), self.written("export", GUARD, "--to", "blif"))
        self.assertFalse((ROOT / "-").exists())

    def test_binary_files_too(self):
        for kind in ("table", "cells"):
            command = [str(ROOT / "yav"), "convert", "examples/xor.txt", "-", "--to", kind]
            run = subprocess.run(command, cwd=ROOT, capture_output=True, check=True)
            self.assertEqual(run.stdout, (EXAMPLES / f"xor.{kind}").read_bytes())

    def test_input_in_every_word(self):
        for word, *more in (
            ("show",), ("export", "--blif"), ("order",), ("info",), ("check",), ("moves",), ("evaluate", "11"), ("swap", "0"),
            ("log", "00"),
        ):
            wanted = self.written(word, "examples/xor.txt", *more)
            told = self.written(word, "-", *more, "--from", "drawing", given=XOR)
            self.assertEqual(told.replace(".model network", ".model xor"), wanted)
        self.assertEqual(self.written("convert", "-", "-", "--from", "drawing", "--to", "pla", given=XOR), Table.from_drawing(XOR).to_pla())
        with open(EXAMPLES / "xor.cells", "rb") as file:
            command = [str(ROOT / "yav"), "order", "-", "--from", "cells"]
            run = subprocess.run(command, stdin=file, capture_output=True, text=True, check=True)
        self.assertEqual(run.stdout, "2 cells in the order x0 x1\n")

    def test_a_file_beside_what_is_told(self):
        run = self.run_by("log", PAIRS, "0000", "-o", "-", "--to", "drawing")
        self.assertEqual(Table.from_drawing(run.stdout).cared, 1)
        self.assertIn("now     0 cells in the order a b c d; 1 mark cared, 15 free\n", run.stderr)
        run = self.run_by("swap", PAIRS, "1", "-o", "-", "--to", "blif")
        self.assertTrue(run.stdout.startswith(".model and-or\n"))
        self.assertEqual(run.stderr, "4 cells in the order a b c d\n6 cells in the order a c b d\n")

    def test_a_format_has_to_be_named(self):
        self.refused(f"yav: standard input: it has no ending that tells its format; --from names one of {READ}\n", "show", "-", given=XOR)
        written = "drawing, pla, csv, table, cells, svg, dot, blif, verilog"
        wanted = f"yav: standard output: it has no ending that tells a format; --to names one of {written}\n"
        self.refused(wanted, "convert", GUARD, "-")
        wanted = "yav: standard output: it has no ending that tells a format; --to names one of blif, verilog\n"
        self.refused(wanted, "export", GUARD)

    def test_a_file_of_that_name(self):
        (self.folder / "-").write_text(XOR, encoding="utf-8")
        command = [str(ROOT / "yav"), "order", "./-", "--from", "drawing"]
        run = subprocess.run(command, cwd=self.folder, env=PLAIN, capture_output=True, text=True)
        self.assertEqual((run.stdout, run.stderr), ("2 cells in the order left right\n", ""))

    def test_names_with_a_leading_dash_and_none(self):
        path = self.file("-x.txt", XOR)
        for words in (("order", "--", "-x.txt"), ("order", "--sift", "--", "-x.txt"), ("order", "./-x.txt")):
            run = subprocess.run([str(ROOT / "yav"), *words], cwd=self.folder, env=PLAIN, capture_output=True, text=True)
            self.assertEqual((run.stdout, run.stderr), ("2 cells in the order left right\n", ""), path)
        self.misused("argument FILE: the file's name is empty", "order", "")
        self.misused("argument -o: the file's name is empty", "show", GUARD, "-o", "")

    def test_errors_name_it(self):
        self.refused("yav: standard input:2:3: 2 is not an input's mark", "show", "-", "--from", "drawing", given="a b | y\n0 2 | 1\n")
        wanted = "yav: standard input: it can be read only once, and - names it twice\n"
        self.refused(wanted, "evaluate", "-", "--from", "drawing", "--rows", "-", given="00\n")
        self.refused(wanted, "log", PAIRS, "--rows", "-", "--rows", "-", given="0000\n")

    def test_a_terminal_gets_no_bytes(self):
        leader, follower = os.openpty()
        command = [str(ROOT / "yav"), "convert", GUARD, "-", "--to", "cells"]
        run = subprocess.run(command, cwd=ROOT, stdout=follower, stderr=subprocess.PIPE, text=True)
        os.close(follower), os.close(leader)
        wanted = "yav: standard output: it is a terminal, and this is no text; name a file, or write it on into one\n"
        self.assertEqual((run.returncode, run.stderr), (1, wanted))


class Broken(WithFolder):
    """What the system does to a program: each is told in a line, or not at all, and never as a traceback."""

    run_by = staticmethod(yav)

    def shell(self, line):
        run = subprocess.run(["bash", "-c", line], cwd=ROOT, env=PLAIN, capture_output=True, text=True)
        return run.returncode, run.stderr

    def test_a_reader_that_has_read_enough(self):
        rows = self.file("rows", "11111\n" * 20000)
        self.assertEqual(self.shell(f"./yav evaluate {GUARD} --rows {rows} | head -1; exit ${{PIPESTATUS[0]}}"), (141, ""))
        for words in (f"convert {GUARD} - --to svg", "--help", f"evaluate {GUARD}"):
            status, told = self.shell(f"./yav {words} | true; exit ${{PIPESTATUS[0]}}")
            self.assertEqual((status in (0, 141), told), (True, ""), words)

    def test_no_space(self):
        for words in ("info", "show --svg", "show", "evaluate", "export --blif", "check"):
            told = self.shell(f"./yav {words} {GUARD} > /dev/full")
            self.assertEqual(told, (1, "yav: standard output: No space left on device\n"), words)
        self.assertEqual(self.shell(f"./yav convert {GUARD} /dev/full --to pla"), (1, "yav: /dev/full: No space left on device\n"))
        for words in ("--help", "--version", "show --help", "completion bash"):
            self.assertEqual(self.shell(f"./yav {words} > /dev/full"), (1, "yav: standard output: No space left on device\n"), words)

    def test_a_standard_error_that_fails(self):
        """What is told there is lost, and nothing else."""
        for end in ("2>/dev/full", "2>&-", "2> >(true)"):
            self.assertEqual(self.shell(f"./yav info nowhere.txt {end}"), (1, ""), end)
            told = f"$(./yav order {PAIRS} --sift-to-rest {end})"
            self.assertEqual(self.shell(f"test \"{told}\" = '4 cells in the order a b c d'"), (0, ""), end)
        told = self.shell(f"./yav swap {PAIRS} 1 -o - --to blif 2>/dev/full >/dev/null")
        self.assertEqual(told, (1, ""))

    def test_a_file_that_can_not_be_written_whole(self):
        """The old one stays, and nothing is left beside it."""
        old, link = self.file("old.csv", "a,|,y\n"), self.folder / "link.csv"
        old.chmod(0o640)
        link.symlink_to(old)
        for out in (old, link, self.folder / "new.csv"):
            told = self.shell(f"ulimit -f 0; ./yav convert {GUARD} {out}")
            self.assertEqual(told, (1, f"yav: {out}: File too large\n"))
        self.assertEqual(old.read_text(encoding="utf-8"), "a,|,y\n")
        self.assertEqual(sorted(path.name for path in self.folder.iterdir()), ["link.csv", "old.csv"])
        self.written("convert", GUARD, link)
        self.assertEqual((link.is_symlink(), old.stat().st_mode & 0o777, len(old.read_bytes()) > 100), (True, 0o640, True))

    def test_a_closed_output(self):
        for words in ("info", "show --svg", "show", "evaluate", "convert --to pla"):
            file = f"{GUARD} -" if words.startswith("convert") else GUARD
            told = self.shell(f"./yav {words} {file} >&-")
            self.assertEqual(told, (1, "yav: standard output: it is closed\n"), words)
        self.assertEqual(self.shell("./yav show - --from drawing <&-"), (1, "yav: standard input: it is closed\n"))
        self.assertEqual(self.shell("./yav show nowhere.txt 2>&-"), (1, ""))

    def test_an_interrupt(self):
        command, pipe = [str(ROOT / "yav"), "show", "-", "--from", "drawing"], subprocess.PIPE
        # Whoever runs the tests in the background may have the signal ignored, which a program inherits.
        run = subprocess.Popen(
            command, cwd=ROOT, stdin=pipe, stdout=pipe, stderr=pipe, preexec_fn=lambda: signal.signal(signal.SIGINT, signal.SIG_DFL),
        )
        run.stdin.write(b"#")
        run.stdin.flush()
        waiting = array.array("i", [1])
        while waiting[0] and run.poll() is None:
            # It has begun to read once nothing is left in the pipe.
            fcntl.ioctl(run.stdin, termios.FIONREAD, waiting)
        run.send_signal(signal.SIGINT)
        _, told = run.communicate(timeout=60)
        self.assertEqual((run.returncode, told), (130, b""))

    def test_folders_and_files_that_are_not_there(self):
        self.refused(f"yav: {self.folder}/none.txt: No such file or directory\n", "show", self.folder / "none.txt")
        folder = self.folder / "folder.txt"
        folder.mkdir()
        self.refused(f"yav: {folder}: Is a directory\n", "show", folder)
        self.refused("yav: /nowhere/out.pla: No such file or directory\n", "convert", GUARD, "/nowhere/out.pla")

    def test_a_library_that_is_not_ours(self):
        for library in (self.file("text.so", "no library"), "/nowhere/library.so", "/proc/self/exe"):
            run = yav("show", GUARD, YAVDOCSIL_LIBRARY=str(library))
            self.assertEqual((run.returncode, run.stdout, run.stderr.count("\n")), (1, "", 1), run.stderr)
            self.assertIn(str(library), run.stderr)
            self.assertTrue(run.stderr.endswith("YAVDOCSIL_LIBRARY says where it is\n"), run.stderr)


class Shown(WithFolder):
    """Names that a terminal can't show, would obey, or that are wider than they are long."""

    def test_a_terminal_that_is_not_utf_8(self):
        path = self.file("wide.txt", "組 é | ü\n0 0 | 1\n")
        for words, wanted in (
            (("info",), "inputs  \\u7d44 \\xe9\noutputs \\xfc\n"), (("order",), "0 cells in the order \\u7d44 \\xe9\n"),
            (("show",), "\\xfc  -> const 1\n"),
        ):
            run = yav(*words, path, PYTHONIOENCODING="ascii")
            self.assertEqual((run.returncode, run.stderr), (0, ""))
            self.assertTrue(run.stdout.startswith(wanted), run.stdout)
        run = yav("order", path, "--order", "z", PYTHONIOENCODING="ascii")
        self.assertIn("\\u7d44 \\xe9 missing\n", run.stderr)
        self.assertIn("組", yav("convert", path, "-", "--to", "pla", PYTHONIOENCODING="ascii").stdout)

    def test_names_that_a_terminal_would_obey(self):
        path = self.file("red.pla", ".i 2\n.o 1\n.ilb a\x1b[31m b\u202e\n.ob y\a\n11 1\n.e\n")
        for word, *more in (
            ("info",), ("show",), ("order",), ("moves",), ("evaluate",), ("log", "00"), ("swap", "0"), ("check",), ("show", "--summary"),
        ):
            told = self.written(word, path, *more)
            self.assertTrue(all(sign.isprintable() or sign == "\n" for sign in told), told)
            self.assertIn("a\\x1b[31m", told)
        self.refused("there is no input z; there are a\\x1b[31m b\\u202e\n", "show", path, "--sift-input", "z")

    def test_wide_names_are_aligned(self):
        path = self.file("wide.txt", "組 b | 経糸\n0 0 | 1\n0 1 | 0\n1 0 | 0\n1 1 | 0\n")
        self.assertEqual(self.written("evaluate", path, "00", "11"), "組 b | 経糸\n0  0 |  1\n1  1 |  0\n")
        self.assertEqual(self.written("moves", path).splitlines()[1:], ["       組      b", "組      0      0", "b       0      0"])
        self.assertEqual(self.written("log", path, "00").splitlines()[:2], ["組 b | seen", "0  0 |    1 cared"])


class Encodings(WithFolder):
    def test_a_byte_order_mark_is_skipped(self):
        for name, text in (("bom.txt", XOR), ("bom.pla", Table.from_drawing(XOR).to_pla())):
            path = self.file(name, b"\xef\xbb\xbf" + text.encode())
            self.assertEqual(self.written("info", path).splitlines()[0], "inputs  left right")
        rows = self.file("rows", b"\xef\xbb\xbf11\n")
        self.assertEqual(self.written("evaluate", "examples/xor.txt", "--rows", rows), self.written("evaluate", "examples/xor.txt", "11"))

    def test_others_are_told(self):
        path = self.file("other.txt", XOR.encode("utf-16"))
        self.refused(f"yav: {path}: it is UTF-16", "show", path)
        path = self.file("latin.txt", "a é | y\n".encode("latin-1"))
        self.refused(f"yav: {path}:1:3: ", "show", path)
