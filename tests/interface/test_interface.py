"""A test of the header, the library's names, the example in C, ./run and a program.

It needs what ./build makes. The example in C must print what the one in Python does, the header must declare what the
library exports and no more.
"""

import os
import pathlib
import re
import shutil
import subprocess
import sys
import tempfile
import unittest

from calls import library

ROOT = pathlib.Path(__file__).resolve().parent.parent.parent
sys.path.insert(0, str(ROOT / "python"))

from yavdocsil.errors import REFUSALS

HEADER = ROOT / "include" / "yavdocsil.h"
STATIC = ROOT / "target" / "lib" / "libyavdocsil.a"
SHARED = ROOT / "target" / "lib" / "libyavdocsil.so"
SONAME = "libyavdocsil.so.1"
CELLS = ROOT / "target" / "bin" / "cells"
PRINT = ROOT / "target" / "bin" / "print"
TABLE = "examples/and-or-crossed.table"
WARNINGS = ["-Wall", "-Wextra", "-Werror", "-pedantic"]
STRICT = [*WARNINGS, f"-I{HEADER.parent}"]
# Prints every number's words, and those of numbers that aren't one.
MESSAGES = """
#include <stdio.h>
#include <yavdocsil.h>

int main(void)
{
    for (uint32_t number = 0; number < 100; number++)
        printf("%s\\n", yav_message(number));
    printf("%s\\n", yav_message(UINT32_MAX));
    return 0;
}
"""


def ran(*command, **others):
    """A program run in the checkout, with its status and what it writes; others are further variables of its environment."""
    return subprocess.run([str(word) for word in command], cwd=ROOT, env={**os.environ, **others}, capture_output=True, text=True)


def printed(*command, **others):
    """What a program prints that goes well."""
    run = ran(*command, **others)
    if run.returncode != 0:
        raise AssertionError(f"{command}: {run.returncode}\n{run.stdout}{run.stderr}")
    return run.stdout


class WithFolder(unittest.TestCase):
    def setUp(self):
        folder = tempfile.TemporaryDirectory()
        self.addCleanup(folder.cleanup)
        self.folder = pathlib.Path(folder.name)

    def file(self, name, content):
        path = self.folder / name
        path.write_bytes(content)
        return path


class Examples(WithFolder):
    def setUp(self):
        super().setUp()
        self.program = self.folder / "sift"
        self.shown = printed(sys.executable, "examples/sift.py", TABLE, PYTHONPATH="python")

    def compile(self, *words):
        printed("cc", "-std=c99", *WARNINGS, "examples/sift.c", *words, "-o", self.program)

    def test_a_network_is_shown(self):
        self.assertIn("\ncells 4\n", self.shown)

    def test_c_with_the_static_library(self):
        self.compile(f"-I{HEADER.parent}", STATIC)
        self.assertEqual(printed(self.program, TABLE), self.shown)

    def test_c_with_the_shared_library(self):
        self.compile(f"-I{HEADER.parent}", f"-L{SHARED.parent}", "-lyavdocsil", f"-Wl,-rpath,{SHARED.parent}")
        self.assertEqual(printed(self.program, TABLE), self.shown)

    @unittest.skipUnless(shutil.which("pkg-config"), "there is no pkg-config")
    def test_c_with_what_is_installed(self):
        """The program asks for the library by its soname, and finds the link of that name; the static one needs no library to run."""
        prefix = self.folder / "prefix"
        printed(ROOT / "install", prefix, DESTDIR="")
        flags = self.flags(prefix)
        self.assertEqual(flags, [f"-I{prefix}/include", f"-L{prefix}/lib", "-lyavdocsil"])
        self.compile(*flags)
        self.assertIn(f"NEEDED               {SONAME}\n", printed("objdump", "-p", self.program))
        self.assertEqual(printed(self.program, TABLE, LD_LIBRARY_PATH=f"{prefix}/lib"), self.shown)
        self.compile("-Wl,-Bstatic", *self.flags(prefix, "--static"), "-Wl,-Bdynamic")
        self.assertEqual(printed(self.program, TABLE), self.shown)

    def flags(self, prefix, *words):
        return printed("pkg-config", *words, "--cflags", "--libs", "yavdocsil", PKG_CONFIG_PATH=f"{prefix}/lib/pkgconfig").split()

    def test_c_refused(self):
        self.compile(f"-I{HEADER.parent}", STATIC)
        run = ran(self.program, "examples/xor.txt")
        told = "load refused 1: the file is empty, not of whole blocks, or not of as many as its heading asks for\n"
        self.assertEqual((run.returncode, run.stdout, run.stderr), (1, "", told))


class Programs(WithFolder):
    def test_cells_writes_the_example(self):
        with open(ROOT / "examples/bounce-guard.table", "rb") as file:
            run = subprocess.run([CELLS], stdin=file, capture_output=True, check=True)
        self.assertEqual(run.stdout, (ROOT / "examples/bounce-guard.cells").read_bytes())

    def test_run_prints_what_the_program_prints(self):
        with open(ROOT / TABLE, "rb") as file:
            wanted = subprocess.run([PRINT], stdin=file, capture_output=True, check=True, text=True).stdout
        run = ran("./run", TABLE)
        self.assertEqual((run.returncode, run.stdout, run.stderr), (0, wanted, ""))

    def test_run_refuses(self):
        """The line is the program's own, and the status 1; nothing else is told of a name that is a table file's, or nobody's."""
        table = (ROOT / TABLE).read_bytes()
        for number, content in ((1, b""), (1, table[:-1]), (2, table[:-1] + bytes([table[-1] ^ 1])), (1, b"a | y\n")):
            for name in ("refused.table", "refused"):
                run = ran("./run", self.file(name, content))
                self.assertEqual((run.returncode, run.stdout, run.stderr), (1, f"refused {number}\n", ""))

    def test_run_tells_other_formats(self):
        drawing, cells = (ROOT / "examples/xor.txt").read_bytes(), (ROOT / "examples/xor.cells").read_bytes()
        for name, content, number, kind, new in (
            ("guard.txt", drawing, 1, "a drawing", "guard.table"), ("guard.drawing", drawing, 1, "a drawing", "guard.table"),
            ("guard.v2.PLA", b".i 1\n", 1, "a PLA", "guard.v2.table"), ("guard.csv", b"a,|,y\n", 1, "a spreadsheet", "guard.table"),
            ("guard.blif", b".model guard\n", 1, "a BLIF file", "guard.table"), ("guard.cells", cells, 3, "a network file", "guard.table"),
        ):
            path = self.file(name, content)
            run = ran("./run", path)
            wanted = f"./run: {path} is {kind}; the program reads table files: ./yav convert {path} {new} makes one\n"
            self.assertEqual((run.returncode, run.stdout, run.stderr), (1, f"refused {number}\n", wanted))

    def test_run_takes_a_table_file_by_any_name(self):
        run = ran("./run", self.file("guard.txt", (ROOT / TABLE).read_bytes()))
        self.assertEqual((run.returncode, run.stdout), (0, printed("./run", TABLE)))

    def test_what_run_tells_is_so(self):
        made = self.folder / "xor.table"
        told = ran("./run", "examples/xor.txt").stderr
        command = told.split("table files: ")[1].split(" makes one")[0].replace("xor.table", str(made))
        printed(*command.split())
        self.assertEqual(made.read_bytes(), (ROOT / "examples/xor.table").read_bytes())

    def test_run_misused(self):
        usage = "usage: ./run FILE, where FILE is a table file, as examples/xor.table\n"
        for words in ((), (TABLE, TABLE)):
            run = ran("./run", *words)
            self.assertEqual((run.returncode, run.stdout, run.stderr), (2, "", usage))
        for file, why in (("examples", "Is a directory"), ("nothing.table", "No such file")):
            run = ran("./run", file)
            self.assertEqual((run.returncode, run.stdout, run.stderr), (1, "", f"./run: {file}: {why}\n"))


class Names(unittest.TestCase):
    def test_soname(self):
        self.assertIn(f"SONAME               {SONAME}\n", printed("objdump", "-p", SHARED))

    def test_one_file(self):
        """It has the name that programs are linked by, the one that they ask for, and its version's. None is a link: rt takes none."""
        names = sorted(path.name for path in SHARED.parent.glob(f"{SHARED.name}*"))
        self.assertEqual(names[:2], [SHARED.name, SONAME])
        self.assertRegex(" ".join(names[2:]), r"^libyavdocsil\.so\.1\.\d+\.\d+$")
        for name in names:
            self.assertTrue((SHARED.parent / name).samefile(SHARED), name)
        self.assertEqual([path for path in (ROOT / "target").rglob("*") if path.is_symlink()], [])


class Header(WithFolder):
    def test_it_declares_what_the_library_exports(self):
        declared = re.findall(r"^uint64_t (\w+)\(", HEADER.read_text(encoding="utf-8"), re.MULTILINE)
        exported = re.findall(r" T (\w+)", printed("nm", "-D", "--defined-only", str(SHARED)))
        self.assertEqual(sorted(declared), sorted(name for name in exported if name.startswith("yav_")))
        self.assertEqual(sorted(declared), sorted(f"yav_{name}" for name in library.CALLS))

    def test_it_is_c_and_cplusplus(self):
        for compiler, language in (("cc", "c"), ("c++", "c++")):
            printed(compiler, "-fsyntax-only", "-x", language, *STRICT, HEADER)

    def test_messages(self):
        """In both languages the words are those of the package."""
        words = {0: "done", **REFUSALS}
        wanted = [words.get(number, "for a reason unknown here") for number in (*range(100), 2**32 - 1)]
        source, program = self.file("messages.c", MESSAGES.encode("utf-8")), self.folder / "messages"
        for compiler, language in (("cc", "c"), ("c++", "c++")):
            printed(compiler, f"-std={'c99' if language == 'c' else 'c++11'}", "-x", language, *STRICT, source, "-o", program)
            self.assertEqual(printed(program).splitlines(), wanted)

    def test_every_number_has_words(self):
        text = HEADER.read_text(encoding="utf-8")
        numbers = re.findall(r"^    (YAV_\w+) = \d+", text.split("/* The number of an answer. */")[1].split("};")[0], re.MULTILINE)
        self.assertEqual(re.findall(r"\{ (YAV_\w+), \"", text), numbers)


if __name__ == "__main__":
    unittest.main()
