"""Scenes of the reader of table files."""

from calls.lent import lending, refusals
from calls.library import Call
from calls.scenes.start import small_size
from making import table_files, tables


def some_file(rng):
    """Of any size: sound, damaged, or with random content in sound frames."""
    n, m = small_size(rng)
    if rng.random() < 0.1:
        n, m = rng.choice((0, 8, 9, 10)), rng.choice((1, 4, 15, 16))
    file = tables.random_table(rng, n, m)
    choice = rng.random()
    if choice < 0.35:
        return file
    if choice < 0.9:
        return refusals.damaged_file(rng, file)
    return in_sound_frames(rng, file)


def in_sound_frames(rng, file):
    """Random content in one of the blocks or in all."""
    blocks = table_files.blocks_of(file)
    for number in rng.sample(range(len(blocks)), rng.choice((1, len(blocks)))):
        blocks[number] = table_files.with_check(blocks[number][:4] + rng.randbytes(508))
    return b"".join(blocks)


def loads(rng):
    """Several files into the same state and buffers."""
    lent = lending.lent_for(rng, *small_size(rng))
    for _ in range(6):
        lending.lend_file(rng, lent, some_file(rng))
        call = Call("load", {}, lent, "files one after the other")
        lending.lengthen(rng, lent)
        if rng.random() < 0.1:
            refusals.spoil(rng, call, rng.choice(("state", "values", "care", refusals.WORDS)))
        yield call
