#!/usr/bin/env python3
"""Brings the repository's own definitions and lemmas to the spelling of today's Rattle, once, after the kit's port.py.

usage: python3 tools/respell.py        at the top of the repository

Words are in snake case, modules in camel case: `goodCheck` is `good_check`, `map-upTo-cong` is `map-up_to-cong`, and the
folder specs/inner is specs/Inner. Types and facts keep their capitals, also in a lemma's name. Functions of src/, exported
names and the kit's own names keep theirs. A second run changes nothing.

Names that would have fallen together, and what they are instead:

    networkFile   network_file is a crate             network_file_bytes
    sumBelow      the lemma sum_below is of it        sum_below, and the lemma sum_below-part
    countLeft     the lemma count_left is of it       count_left, and the lemma count_left-done

Where a definition and a lemma, or a name inside a proof, differ by their spelling alone and no file speaks of both, they
are one name now, as partAt and part-at.
"""

import os
import re
import subprocess

TOKEN = re.compile(r"[A-Za-z_][A-Za-z0-9_']*(?:-[A-Za-z0-9_'ℕ<>≤≡+*]+)*")
CAMEL = re.compile(r"[a-z][A-Za-z0-9_']*[A-Z]")
FIRST = {"sum_below": "sum_below-part", "count_left": "count_left-done"}
APART = {"networkFile": "network_file_bytes"}
# Words of the kit, of Python and of other tools that look like ours.
OTHERS = re.compile(r".*_T$|setUp\w*|tearDown\w*|assert[A-Z]\w*|maxDiff|subTest|skip(Test|If|Unless)|addCleanup|logName|viewBox")


def respelled_part(part):
    if part in APART:
        return APART[part]
    if not CAMEL.match(part) or OTHERS.fullmatch(part):
        return part
    part = re.sub(r"^getD", "get_or", part)
    return re.sub(r"(?<=[a-z0-9])([A-Z]+)", lambda m: "_" + m.group(1).lower(), part)


def respelled(token):
    return "-".join(respelled_part(part) for part in token.split("-"))


def own_words():
    """The words in camel case that the crates' sources have: those alone are turned, wherever they stand."""
    words = set()
    for path in sources("crates", (".rt", ".antt")):
        with open(path, encoding="utf-8") as f:
            words.update(TOKEN.findall(f.read()))
    return {word for word in words if respelled(word) != word}


def sources(top, endings):
    for folder, folders, files in os.walk(top):
        folders[:] = sorted(f for f in folders if f not in ("out", "target", "__pycache__"))
        yield from (os.path.join(folder, name) for name in sorted(files) if name.endswith(endings))


def rewrite(path, turn):
    with open(path, encoding="utf-8") as f:
        old = f.read()
    new = turn(old)
    if new != old:
        with open(path, "w", encoding="utf-8") as f:
            f.write(new)


def inner_modules():
    for crate in sorted(os.listdir("crates")):
        for name in ("inner", "inner.antt"):
            old = os.path.join("crates", crate, "specs", name)
            if os.path.exists(old):
                subprocess.run(["git", "mv", old, os.path.join("crates", crate, "specs", "I" + name[1:])], check=True)


def main():
    words = own_words()
    if not words:
        return
    inner_modules()

    def in_crates(text):
        text = TOKEN.sub(lambda m: FIRST.get(m.group(), m.group()), text)
        text = TOKEN.sub(lambda m: respelled(m.group()) if m.group() in words else m.group(), text)
        return re.sub(r"\.specs\.inner(?=[.\s{])|(?<=pub mod )inner(?=\s)", lambda m: m.group().replace("inner", "Inner"), text)

    def in_pages(text):
        text = TOKEN.sub(lambda m: respelled(m.group()) if m.group() in words else m.group(), text)
        return re.sub(r"(?<=specs/)inner\b", "Inner", text)

    for path in sources("crates", (".rt", ".antt", ".edit")):
        rewrite(path, in_crates)
    for path in [*sources("tests", (".edit",))]:
        rewrite(path, in_crates)
    for path in ["README.md", *sources("docs", (".md",)), *sources("tests", (".md", ".py")), *sources("bench", (".md",))]:
        rewrite(path, in_pages)


if __name__ == "__main__":
    main()
