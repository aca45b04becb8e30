"""Compares every call of the shared library with the reference.

    PYTHONPATH=tests python3 -m calls.compare --library PATH [--seed S] [--calls N]

Each call is made once on the library and once on the reference, on copies of
the same state words and buffers. The answer, every word of the state and every
element of each buffer must be the same, also past what is lent. A difference
is shown with its seed and chunk, and the exit status is 1; a chunk ends at its
first difference. So it is too if a number that a call can give never came up, or an
effect that it can have. Some calls have a law besides, which is asked after them; of
some laws every kind of what they are asked of should come up too.
`--only CHUNK` runs one chunk again; `--first` ends at the first difference;
`--part fixed`, `--part scripts` and `--part random` make one part of the calls alone.
"""

import argparse
import faulthandler
import multiprocessing
import os
import sys
from collections import Counter, namedtuple
from concurrent.futures import ProcessPoolExecutor
from concurrent.futures.process import BrokenProcessPool

from calls import by_reference, chunks, library, show
from calls.lent import moves, same_cells

WORKERS = 2
MOST_SHOWN = 3
# A call that never ends would hold up all; the worker then ends as in a crash.
SECONDS_IN_CHUNK = 120

# The numbers that the paper lets each call give.
POSSIBLE = {
    "load": (0, 1, 2, 3, 4, 5, 6, 7, 10), "cared": (0, 10, 21), "count": (0, 10, 21),
    "build": (0, 10, 21, 23), "evaluate": (0, 8, 10, 22, 24),
    "evaluate_rows": (0, 8, 10, 22, 24, 31), "swap": (0, 9, 10, 21), "sift": (0, 9, 10, 21),
    "pass": (0, 10, 21), "write_cells": (0, 10, 22, 24, 32),
    "read_cells": (0, 1, 2, 3, 4, 5, 6, 7, 10, 23, 24, 32), "log_rows": (0, 8, 10, 21, 33),
    "swap_cells": (0, 9, 10, 22, 23, 24, 32), "moves": (0, 10, 21, 34),
}
# What successes of a call do to the cells, or say of them, where all of it should come up.
CHANGES = ("more cells", "fewer cells", "as many cells")
EFFECTS = {"swap_cells": CHANGES, "moves": CHANGES}
# What the laws of a call are asked of, where all of it should come up as well.
KINDS = same_cells.KINDS

# `calls` were compared; `given` counts (call, number), (call, effect) and (call, kind);
# `text` shows a difference.
Result = namedtuple("Result", "chunk calls given text")
# What a call is to give: the number, and the effects and kinds, if any.
Wanted = namedtuple("Wanted", "number effects")

# For each chunk the call that is being made, 0 before and after: in shared
# memory, so that it is known when a worker is no more.
begun = None


def share(array):
    global begun
    begun = array


def wanted_answer(call, lent):
    """A reference that breaks off is told as an answer that no call gives."""
    try:
        return by_reference.answer(call, lent)
    except (ArithmeticError, LookupError, TypeError, ValueError) as error:
        return "the reference broke off", repr(error)


def changes_in(name, before, after):
    """The cells that a success leaves minus those it found, or that moves would bring."""
    if name == "moves":
        return moves.elsewhere(after)
    return [after.contents["state"][library.COUNT] - before.contents["state"][library.COUNT]]


def effects_of(name, number, before, after):
    """Of a success, whether there are more cells, fewer, or as many."""
    if number != 0 or name not in EFFECTS:
        return set()
    found = changes_in(name, before, after)
    return {CHANGES[0 if more > 0 else 1 if more < 0 else 2] for more in found}


def kinds_of(law):
    """The kinds that a law was asked of, if it notes any."""
    return getattr(law, "kinds", set())


def run_call(opened, call):
    """What was wanted, and the text of the difference or None."""
    names = library.slices_of(call.name)
    before, wanted = call.lent.copy(names), call.lent.copy(names)
    wanted_pair = wanted_answer(call, wanted)
    came_pair = opened.call(call.name, call.numbers, call.lent)
    alike = all(wanted.contents[name] == call.lent.contents[name] for name in names)
    broken = call.law(came_pair) if wanted_pair == came_pair and alike else None
    effects = effects_of(call.name, wanted_pair[0], before, wanted)
    found = Wanted(wanted_pair[0], effects | kinds_of(call.law))
    if wanted_pair == came_pair and alike and broken is None:
        return found, None
    answers = wanted_pair, came_pair
    return found, show.difference_text(call, before, wanted, answers, broken)


def run_chunk(job):
    """In a worker: all calls of a chunk, or those up to a difference."""
    seed, chunk, path = job
    faulthandler.dump_traceback_later(SECONDS_IN_CHUNK, exit=True)
    opened = library.Library(path)
    done, given, text = 0, Counter(), None
    for done, call in enumerate(chunks.chunk_calls(seed, chunk), 1):
        begun[chunk] = done
        wanted, text = run_call(opened, call)
        given[call.name, wanted.number] += 1
        given.update((call.name, effect) for effect in wanted.effects)
        if text:
            text = f"difference: seed {seed}, chunk {chunk}, call {done}\n{text}"
            break
    begun[chunk] = 0
    faulthandler.cancel_dump_traceback_later()
    return Result(chunk, done, given, text)


def run_all(jobs, until_first):
    """The results in the sequence of the chunks."""
    results = []
    with ProcessPoolExecutor(WORKERS, initializer=share, initargs=(begun,)) as workers:
        for result in workers.map(run_chunk, jobs):
            results.append(result)
            if until_first and result.text:
                workers.shutdown(wait=False, cancel_futures=True)
                break
    return results


# Crashes.


def call_at(seed, chunk, index):
    """The call of that number, made again with the reference alone."""
    for number, call in enumerate(chunks.chunk_calls(seed, chunk), 1):
        if number == index:
            return call
        by_reference.answer(call, call.lent)


def run_alone(array, job):
    share(array)
    run_chunk(job)


def show_crashes(seed, path):
    """Each chunk that was left unfinished is run again, in a process of its own."""
    unfinished = [chunk for chunk in range(len(begun)) if begun[chunk]]
    print(f"crash: a worker ended in the midst of one of the chunks {unfinished}", flush=True)
    for chunk in unfinished:
        job = seed, chunk, path
        process = multiprocessing.Process(target=run_alone, args=(begun, job))
        process.start()
        process.join()
        if process.exitcode == 0:
            continue
        index = begun[chunk]
        print(f"crash, status {process.exitcode}: seed {seed}, chunk {chunk}, call {index}")
        call = call_at(seed, chunk, index)
        print(show.call_text(call, call.lent))


# The numbers that came up.


def words_of(name):
    """What successes of a call should show besides their number."""
    return EFFECTS.get(name, ()) + KINDS.get(name, ())


def print_table(given):
    numbers = sorted({number for _, number in given if isinstance(number, int)})
    width = max(len(name) for name in library.CALLS)
    print(f"{'call':{width}}" + "".join(f"{number:>7}" for number in numbers))
    for name in library.CALLS:
        counts = [str(given[name, number] or "") for number in numbers]
        print(f"{name:{width}}" + "".join(f"{count:>7}" for count in counts))
    for name in filter(words_of, library.CALLS):
        told = [f"{word} {given[name, word]}" for word in words_of(name)]
        print(f"{name}: " + ", ".join(told))


def wrong_numbers(given):
    """What a call can give but never gave, and what it gave but cannot."""
    wrong = []
    for name in library.CALLS:
        possible = POSSIBLE[name] + words_of(name)
        came = {number for each, number in given if each == name}
        wrong += [f"{name} never gave {number}" for number in possible if number not in came]
        wrong += [f"{name} gave {number}" for number in came if number not in possible]
    return wrong


def arguments():
    parser = argparse.ArgumentParser(description=__doc__.splitlines()[0])
    parser.add_argument("--library", required=True, help="the shared library's path")
    parser.add_argument("--seed", type=int, default=1)
    parser.add_argument("--calls", type=int, default=100000, help="random calls")
    parser.add_argument("--only", type=int, metavar="CHUNK", help="the one chunk to run")
    parser.add_argument("--first", action="store_true", help="end at the first difference")
    parser.add_argument("--part", choices=chunks.PARTS, help="the one part to run")
    return parser.parse_args()


def chunks_of(given):
    if given.only is not None:
        return range(given.only, given.only + 1)
    return chunks.chunks_of(given.part, given.calls)


def main():
    given = arguments()
    path = os.path.abspath(given.library)
    if not os.path.isfile(path):
        sys.exit(f"no library at {path}")
    try:
        library.Library(path)
    except library.MissingCalls as missing:
        sys.exit(str(missing))
    asked = chunks_of(given)
    share(multiprocessing.RawArray("L", asked.stop))
    try:
        results = run_all([(given.seed, chunk, path) for chunk in asked], given.first)
    except BrokenProcessPool:
        show_crashes(given.seed, path)
        sys.exit("the library crashed, or a call did not end")
    # The shortest come first, since they are the easiest to follow.
    differences = sorted((result.text for result in results if result.text), key=len)
    for text in differences[:MOST_SHOWN]:
        print(text)
    numbers = sum((result.given for result in results), Counter())
    print_table(numbers)
    whole = given.only is None and given.part is None
    wrong = wrong_numbers(numbers) if whole and not differences else []
    for line in wrong:
        print(line)
    total = sum(result.calls for result in results)
    print(f"compared {total} calls, {len(differences)} differences")
    sys.exit(1 if differences or wrong else 0)


if __name__ == "__main__":
    main()
