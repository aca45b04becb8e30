#!/usr/bin/env python3
"""Counts, in the sources at a commit or in the working tree, the places of each point of docs/DESIGN-PASS.md:

    python3 tools/places.py [--list] [COMMIT]

Each line is a point's letter, what is counted, and how many places there are; with --list the places follow. It reads
crates/*/src alone, but for point 8, which counts proofs; comments and clauses (`ghost use`, `requires`, `ensures`) count
only where a line says so.
"""
import collections
import re
import subprocess
import sys


def read(commit):
    if commit:
        names = subprocess.run(
            ["git", "ls-tree", "-r", "--name-only", commit, "crates"], capture_output=True, text=True, check=True
        ).stdout.split()
        names = [n for n in names if n.endswith((".rt", ".antt"))]
        batch = subprocess.run(
            ["git", "cat-file", "--batch"], input="".join(f"{commit}:{n}\n" for n in names).encode(),
            capture_output=True, check=True,
        ).stdout
        texts, at = {}, 0
        for name in names:
            end = batch.index(b"\n", at)
            size = int(batch[at:end].split()[2])
            texts[name] = batch[end + 1:end + 1 + size].decode()
            at = end + 1 + size + 1
        return texts
    names = subprocess.run(
        ["git", "ls-files", "-co", "--exclude-standard", "crates"], capture_output=True, text=True, check=True
    ).stdout.split()
    texts = {}
    for name in names:
        if name.endswith((".rt", ".antt")):
            try:
                texts[name] = open(name, encoding="utf-8").read()
            except FileNotFoundError:
                pass
    return texts


def code_lines(text):
    """The lines of the code itself: no comment, no `ghost use`, no clause, no test."""
    text = text.split("#[cfg(test)]")[0]
    clause = False
    for number, line in enumerate(text.split("\n"), 1):
        bare = line.strip()
        if clause:
            clause = bare != "{"
            continue
        if re.match(r"(requires|ensures)\b", bare):
            clause = True
            continue
        if bare.startswith("//") or bare.startswith("ghost use"):
            continue
        yield number, line


def functions(text):
    """Each function's name, its parameters, and the text of its clauses."""
    for match in re.finditer(r"\bfn (\w+)(?:<[^>]*>)?\((.*?)\)([^{]*?(?:\n +(?:requires|ensures).*?)*?)\n *\{\n", text, re.S):
        yield match.group(1), match.group(2), match.group(3), text[:match.start()].count("\n") + 1


def facts(clauses):
    """The facts of the `requires` clauses, one for each part of a product, spelt without blanks."""
    for body in re.findall(r"requires(?: \w+)? \{(.*?)\}(?=\n|$)", clauses, re.S):
        for part in re.split(r" × ", " ".join(body.split())):
            yield part.strip().strip("()")


def main():
    listed = "--list" in sys.argv
    commits = [a for a in sys.argv[1:] if not a.startswith("--")]
    texts = read(commits[0] if commits else None)
    sources = {n: t for n, t in texts.items() if "/src/" in n and n.endswith(".rt")}
    found = collections.OrderedDict()

    def grep(point, what, pattern, keep=lambda name: True):
        found[(point, what)] = [
            f"{name}:{number}: {line.strip()}" for name, text in sorted(sources.items()) if keep(name)
            for number, line in code_lines(text) if re.search(pattern, line)
        ]

    grep("1", "own enums and structs that hold an answer or a flag beside a value",
         r"^\s*(pub(\(crate\))? )?(enum (Answer|Numbered)|struct (Outcome|Levels))\b")
    grep("1", "lines that make, test or number a refusal by hand",
         r"Answer::|Outcome \{|is_done\(|number_of\(|value_of\(|Numbered::|refused\(")
    found[("2", "pairs of functions of one name in two crates")] = twins(sources)
    grep("2", "loops or functions that copy, fill or clear by hand", r"\bfn (copy\w*|zero|put\w*|write_words|shorter)\b")
    grep("3", "`while` loops", r"^\s*while ")
    grep("3", "`for` loops, chains and the library's walks over slices",
         r"^\s*for |\.iter\(|\.iter_mut\(|\.fill\(|copy_from_slice|\.sum\(|\.contains\(|\.swap\(", )
    grep("4", "conversions of kinds and stages by hand", r"\bfn (stage_from|stage_word|number_of|value_of|flipped|min\w*)\b")
    grep("4", "printing by hand", r"\bfn put_?\w*\(out|\bfn (put\w*|\w*_line|\w*_text)\b", lambda n: "/text/" in n or "/printed/" in n)
    found[("5", "facts that three or more functions of a crate require")] = shared(sources)
    found[("5", "functions that take four or more of state, values, care, work, roots, cells, count, order, n, m")] = [
        f"{name}:{line}: {fn}" for name, text in sorted(sources.items()) for fn, params, _, line in functions(text)
        if len(re.findall(r"\b(state|values|care|work|roots|cells|count|order|n|m):", params)) >= 4
    ]
    found[("6", "functions that take a slice and its length or count beside it")] = [
        f"{name}:{line}: {fn}" for name, text in sorted(sources.items()) for fn, params, _, line in functions(text)
        if re.search(r"\b(list|seen|cells|map|from|to): &(mut )?\[.*?\],\s*(len|count|e|k): usize", params, re.S)
    ]
    grep("7", "switches on a kind or a step", r"^\s*match ")
    proofs = {n: t for n, t in texts.items() if "/proofs/" in n}
    answers = {n: t for n, t in proofs.items() if n.endswith("/Answers.antt")}
    found[("8", "files of answers")] = sorted(answers)
    found[("8", "lines of answers")] = [n for n, t in sorted(answers.items()) for _ in t.split("\n")]
    found[("8", "helper lemmas that stand again with a number behind their name")] = [
        f"{n}: {m}" for n, t in sorted(proofs.items()) for m in re.findall(r"^ *([a-z][\w-]*-[2-9]) :", t, re.M)
        if not m.startswith("returns") and "-requires-" not in m
    ]
    for (point, what), places in found.items():
        print(f"{point}  {what}: {len(places)}")
        if listed and "lines of" not in what:
            for place in places:
                print("     ", place)


def twins(sources):
    where = collections.defaultdict(set)
    for name, text in sources.items():
        crate = name.split("/")[1]
        if crate in ("yavdocsil", "print", "cells"):
            continue
        for fn, _, _, _ in functions(text.split("#[cfg(test)]")[0]):
            where[fn].add(name)
    return [f"{fn}: {', '.join(sorted(names))}" for fn, names in sorted(where.items())
            if len({n.split('/')[1] for n in names}) > 1]


def shared(sources):
    where = collections.defaultdict(list)
    for name, text in sorted(sources.items()):
        crate = name.split("/")[1]
        for fn, _, clauses, _ in functions(text):
            for fact in set(facts(clauses)):
                where[(crate, fact)].append(fn)
    return [f"{crate}: {fact} ({len(fns)})" for (crate, fact), fns in sorted(where.items()) if len(fns) >= 3]


main()
