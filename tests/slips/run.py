"""Tries the comparison of the calls on deliberate slips.

    PYTHONPATH=tests python3 -m slips.run --library PATH [--seed S] [--part PART] [--named TEXT]

Each slip is made in a copy of all these folders, in one file of paper/, and the comparison
there must find a difference. A line says after how many calls, counted in the sequence of
the chunks.
The exit status is 1 if one slip is not found. Run by hand: when the calls of the
comparison change.
`--part PART` makes one part of the calls alone, to see what it finds: `fixed`,
`scripts` or `random`;
`--named TEXT` tries those alone whose name has the text in it.
"""

import argparse
import os
import re
import shutil
import subprocess
import sys
import tempfile
from pathlib import Path

from slips import cell_swaps, filling, moves, network_files, reference, row_logs, same_cells

# The file of paper/ that the slips of each module are made in.
MADE_IN = [
    (reference, "reference.py"), (filling, "reference.py"), (network_files, "network_file.py"),
    (row_logs, "row_log.py"), (cell_swaps, "cell_swap.py"), (moves, "moves.py"),
    (same_cells, "same_cells.py"),
]
SLIPS = [(file, *slip) for module, file in MADE_IN for slip in module.SLIPS]

TESTS = Path(__file__).resolve().parent.parent
LAST_LINE = re.compile(r"compared (\d+) calls, (\d+) differences")
# The line of a difference that tells where it is.
PLACE = re.compile(r"^  (\w+): \d+ differ,", re.MULTILINE)
LAW = re.compile(r"^  (law): ", re.MULTILINE)
ANSWER = re.compile(r"^  answer: expected (.*), came (.*)$", re.MULTILINE)


def edited(text, old, new):
    found = text.count(old)
    if found != 1 or old == new:
        raise ValueError(f"a slip's text stands {found} times in its file: {old!r}")
    return text.replace(old, new)


def make_copy(folder, name, old, new):
    shutil.copytree(TESTS, folder, ignore=shutil.ignore_patterns("must-fail", "__pycache__"))
    slipped = folder / "paper" / name
    slipped.write_text(edited(slipped.read_text(), old, new))


def places_in(shown):
    """What differed in the first difference: the answer, which buffers, or a law alone."""
    wanted, came = ANSWER.search(shown).groups()
    places = [f"answer {wanted} for {came}"] if wanted != came else []
    return ", ".join(places + PLACE.findall(shown) + LAW.findall(shown))


def run_slip(slip, given):
    """Whether a difference was found, and after how many calls and where."""
    name, _, old, new = slip
    with tempfile.TemporaryDirectory() as made:
        folder = Path(made) / "tests"
        make_copy(folder, name, old, new)
        command = [sys.executable, "-m", "calls.compare", "--first"]
        command += ["--library", given.library, "--seed", str(given.seed)]
        command += ["--part", given.part] if given.part else []
        # The folder that it is run in is the first in which Python looks for a module.
        run = subprocess.run(command, cwd=folder, capture_output=True, text=True)
    ended = LAST_LINE.search(run.stdout)
    if ended is None:
        return False, "the comparison broke off: " + run.stderr.strip().split("\n")[-1]
    total, differences = ended.groups()
    if run.returncode != 1 or differences == "0":
        return False, f"not found in {total} calls"
    return True, f"found after {total} calls ({places_in(run.stdout)})"


def arguments():
    parser = argparse.ArgumentParser(description=__doc__.splitlines()[0])
    parser.add_argument("--library", required=True, type=os.path.abspath)
    parser.add_argument("--seed", type=int, default=1)
    parser.add_argument("--part", help="the one part of the calls to make")
    parser.add_argument("--named", default="", metavar="TEXT", help="a part of the slips' names")
    return parser.parse_args()


def main():
    given = arguments()
    missed = 0
    chosen = [slip for slip in SLIPS if given.named in slip[1]]
    for slip in chosen:
        found, told = run_slip(slip, given)
        missed += not found
        print(f"{slip[1]}: {told}", flush=True)
    print(f"{len(chosen)} slips, {missed} not found")
    sys.exit(1 if missed else 0)


if __name__ == "__main__":
    main()
