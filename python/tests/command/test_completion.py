"""What is made of the parser, the completions, asked in each shell that is here; and what is held to it, the manual page."""

import argparse
import contextlib
import os
import pathlib
import pty
import re
import select
import shlex
import shutil
import subprocess
import unittest

from tests.command.running import WithFolder
from tests.places import ROOT
from yavdocsil.command.completion import SHELLS, script
from yavdocsil.command.parser import parser

PAGE = ROOT / "docs" / "yav.1"
# Seconds after which a shell is taken to wait for an answer that it won't get.
LONG = 10
ODD = "it's [odd]: 100%, `so` and \\"


def toy():
    """A parser with what a word can have: choices, files, flags, options with two strings, places that repeat, odd signs in a help."""
    whole = argparse.ArgumentParser(prog="toy")
    whole.add_argument("--version", action="version", version="1")
    words = whole.add_subparsers()
    show = words.add_parser("show", help=ODD.replace("%", "%%"))
    show.add_argument("file", metavar="FILE", help="of %(prog)s")
    show.add_argument("rows", metavar="ROW", nargs="*")
    show.add_argument("--from", dest="read_as", choices=["drawing", "dot", "pla"], help=ODD.replace("%", "%%"))
    show.add_argument("-o", "--out", type=pathlib.Path)
    show.add_argument("--flag", action="store_true")
    show.add_argument("--many", metavar="N", action="append", help="so many")
    show.add_argument("--hidden", help=argparse.SUPPRESS)
    paint = words.add_parser("paint", help="paint it")
    paint.add_argument("first")
    paint.add_argument("colours", nargs="+", choices=["red", "green"])
    return whole


# A line that is asked, and what completes its last word.
ASKED = {
    "toy sh": {"show"},
    "toy ": {"show", "paint"},
    "toy --v": {"--version"},
    "toy show --fr": {"--from"},
    "toy show --hid": set(),
    "toy show --from d": {"drawing", "dot"},
    "toy show --from=d": {"drawing", "dot"},
    "toy show --from=pla fi": {"file.txt", "fi le.txt"},
    "toy show --from pla fi": {"file.txt", "fi le.txt"},
    "toy show --flag fi": {"file.txt", "fi le.txt"},
    "toy show --many f": set(),
    "toy show file.txt f": set(),
    "toy show file.txt 01 -o fi": {"file.txt", "fi le.txt"},
    "toy show - --out fi": {"file.txt", "fi le.txt"},
    "toy paint r": set(),
    "toy paint it r": {"red"},
    "toy paint it red gr": {"green"},
    "toy paint it red green --h": {"--help"},
}
REAL = {
    "yav comp": {"completion"},
    "yav completion ": {"bash", "zsh", "fish"},
    "yav show --sv": {"--svg"},
    "yav show --from c": {"csv", "cells"},
    "yav evaluate fi": {"file.txt", "fi le.txt"},
    "yav evaluate file.txt fi": set(),
    "yav log file.txt 01 --rows fi": {"file.txt", "fi le.txt"},
    "yav convert file.txt fi": {"file.txt", "fi le.txt"},
    "yav same file.txt fi": {"file.txt", "fi le.txt"},
    "yav same file.txt --other-from c": {"csv", "cells"},
    "yav same file.txt --si": set(),
}


class Shell:
    """Each shell is given the script and asked the lines above."""

    shell = ""

    def setUp(self):
        super().setUp()
        if shutil.which(self.shell) is None:
            self.skipTest(f"there is no {self.shell}")
        for name in ("file.txt", "fi le.txt", "other"):
            self.file(name, "")

    def given(self, whole, program):
        return self.file(f"_{program}", script(self.shell, whole, program))

    def test_syntax(self):
        for whole, program in ((toy(), "toy"), (parser(), "yav")):
            run = subprocess.run([self.shell, "-n", self.given(whole, program)], capture_output=True, text=True)
            self.assertEqual((run.returncode, run.stdout, run.stderr), (0, "", ""))

    def test_toy(self):
        self.assertEqual(self.found(self.given(toy(), "toy"), list(ASKED)), ASKED)

    def test_command(self):
        self.assertEqual(self.found(self.given(parser(), "yav"), list(REAL)), REAL)

    def lines_of(self, *command):
        run = subprocess.run([self.shell, *command], cwd=self.folder, capture_output=True, text=True)
        self.assertEqual((run.returncode, run.stderr), (0, ""))
        return run.stdout.splitlines()


class Bash(Shell, WithFolder):
    shell = "bash"

    def found(self, path, lines):
        """As readline does, a line is put as its words, of which = is one."""
        asked = [f"source {shlex.quote(str(path))}"]
        for line in lines:
            words = line.replace("=", " = ").split(" ")
            asked.append(f"COMP_WORDS=({' '.join(map(shlex.quote, words))}) COMP_CWORD={len(words) - 1}; _{words[0]}")
            asked.append("for one in \"${COMPREPLY[@]}\"; do echo \"$one\"; done; echo =")
        return by_line(lines, self.lines_of("-c", "\n".join(asked)))

    def test_it_is_registered(self):
        self.assertEqual(self.lines_of("-c", f"source {self.given(toy(), 'toy')}; complete -p toy"), ["complete -F _toy toy"])


class Fish(Shell, WithFolder):
    shell = "fish"

    def found(self, path, lines):
        asked = [f"complete -C {shlex.quote(line)}; echo =" for line in lines]
        said = self.lines_of("-N", "-c", "\n".join([f"source {shlex.quote(str(path))}", *asked]))
        return by_line(lines, [re.sub("^--from=|\t.*", "", line).replace("\\ ", " ") for line in said])

    def test_descriptions(self):
        path = self.given(toy(), "toy")
        said = self.lines_of("-N", "-c", f"source {path}; complete -C 'toy sh'; complete -C 'toy show --fr'; complete -C 'toy show --ma'")
        self.assertEqual(said, [f"show\t{ODD}", f"--from\t{ODD}", "--many\tso many"])


# Completion is a matter of zsh's line editor, so it is asked on a terminal of its own: a tab, and a key that notes the end of the answer.
ZSHRC = r"""
setopt no_beep
autoload -U compinit && compinit -D -u
INTRODUCED
compadd() {
    if [[ ${@[1,(i)(-|--)]} == *-(O|A|D)\ * ]]; then
        builtin compadd "$@"
        return
    fi
    local -a found
    builtin compadd -A found "$@"
    (($#found)) && print -l -- "${found[@]}" >> FOUND
    builtin compadd "$@"
}
next() { print = >> FOUND; BUFFER= }
zle -N next
bindkey '^I' complete-word '^]' next
"""


class Zsh(Shell, WithFolder):
    shell = "zsh"

    def found(self, path, lines, introduced=None):
        answers = self.file("answers", "")
        introduced = introduced or f"source {path}"
        self.file(".zshrc", ZSHRC.replace("INTRODUCED", introduced).replace("FOUND", shlex.quote(str(answers))))
        terminal, its_end = pty.openpty()
        typed = "".join(f"{line}\t\x1d" for line in lines) + "exit\n"
        environment = {**os.environ, "ZDOTDIR": str(self.folder), "TERM": "dumb"}
        shell = subprocess.Popen(
            ["zsh", "-d", "-i"], stdin=its_end, stdout=its_end, stderr=its_end, cwd=self.folder, env=environment, start_new_session=True,
        )
        self.addCleanup(shell.wait)
        self.addCleanup(shell.kill)
        os.close(its_end)
        os.write(terminal, typed.encode("utf-8"))
        self.shown = read_out(terminal)
        os.close(terminal)
        self.assertEqual(shell.wait(LONG), 0)
        return by_line(lines, answers.read_text(encoding="utf-8").splitlines())

    def test_descriptions(self):
        self.found(self.given(toy(), "toy"), ["toy ", "toy show --"])
        told = dict(re.findall(r"^(\S+) +-- (.*?) *\r?$", self.shown, re.MULTILINE))
        self.assertEqual({name: told.get(name) for name in ("show", "--from", "--many")}, {"show": ODD, "--from": ODD, "--many": "so many"})

    def test_from_a_folder_of_completions(self):
        """As it is installed: zsh reads the file when it is first asked."""
        path = self.given(toy(), "toy")
        introduced = f"fpath=({path.parent} $fpath); compinit -D -u"
        asked = ["toy sh", "toy paint it r"]
        self.assertEqual(self.found(path, asked, introduced), {line: ASKED[line] for line in asked})


def read_out(terminal):
    """Reads a terminal until nothing has it open any more, or nothing has come for long."""
    parts = []
    with contextlib.suppress(OSError):
        while select.select([terminal], [], [], LONG)[0]:
            parts.append(os.read(terminal, 4096))
    return b"".join(parts).decode("utf-8", "replace")


def by_line(lines, said):
    """What was found for each line asked; a = stands behind each."""
    answers = "\n".join(["", *said]).split("\n=")
    return {line: set(answer.split("\n")) - {""} for line, answer in zip(lines, answers)}


class Bare(unittest.TestCase):
    def test_parser_without_words(self):
        bare = argparse.ArgumentParser(prog="bare")
        bare.add_argument("file", metavar="FILE")
        for shell in SHELLS:
            self.assertIn("bare", script(shell, bare, "bare"))


class ManualPage(unittest.TestCase):
    def setUp(self):
        text = PAGE.read_text(encoding="utf-8")
        self.text = re.sub(r"\\f.", "", text).replace("\\-", "-")
        words = next(action for action in parser()._actions if isinstance(action, argparse._SubParsersAction))
        self.parsers = {"": parser(), **words.choices}

    def actions(self):
        return [action for each in self.parsers.values() for action in each._actions]

    def test_words(self):
        section = self.text.split(".SH WORDS\n")[1].split(".SH")[0]
        told = re.findall(r'^\.TP\n\.BI (\S+) "', section, re.MULTILINE)
        self.assertEqual(sorted(told), sorted(filter(None, self.parsers)))

    def test_options(self):
        told = set(re.findall(r"(?<![\w-])--?[a-z][a-z-]*", self.text))
        self.assertEqual(told, {string for action in self.actions() for string in action.option_strings})

    def test_every_option_has_its_place(self):
        headings = " ".join(re.findall(r"^\.TP\n\.BR?I? (.*)$", self.text, re.MULTILINE))
        told = set(re.findall(r"(?<![\w-])--?[a-z][a-z-]*", headings))
        self.assertEqual(told, {string for action in self.actions() for string in action.option_strings})

    def test_choices(self):
        choices = {choice for action in self.actions() if action.option_strings for choice in action.choices or ()}
        self.assertEqual({choice for choice in choices if not re.search(rf"^\.BR? {choice}\b", self.text, re.MULTILINE)}, set())

    @unittest.skipUnless(shutil.which("groff"), "there is no groff")
    def test_it_can_be_set(self):
        run = subprocess.run(["groff", "-man", "-ww", "-Tutf8", str(PAGE)], capture_output=True, text=True)
        self.assertEqual((run.returncode, run.stderr), (0, ""))
        self.assertIn("yav - the smallest selector networks", run.stdout)
