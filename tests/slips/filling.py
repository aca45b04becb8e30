"""Deliberate slips of document 02's 2.6, as in reference.py."""

AGREE = "agree(one_half, zero_half)"
SINGLE = "merged(one_half, zero_half)"
PAIRS = "for (f, c), (g, d) in zip(one_half, zero_half)"
INVERSE = "[(1 - g, d) for g, d in zero_half]"
TEST = f"    if HALVES_FIRST and {AGREE}:\n"
PLACED = f"        link = link_of({SINGLE}, entries)\n"
BOTH = "        return [link, link]\n"
OUTPUT = "link_of(output, entries)"
LEVEL_0 = f"    levels = [[{OUTPUT} for output in outputs]]\n"
FINISHED = "        finished, entries = entries, []\n"
BELOW = "        below = [links_of_halves(entry, entries) for entry in finished]\n"
LOOP = """\
    for _ in range(n):
        # The halves are taken only now that the level's entries are finished.
"""


def also(asked):
    """Halves that agree are one candidate if more is asked of them too."""
    return AGREE, f"{AGREE} and {asked}"


def linked(both):
    """An entry whose halves agree has these two links."""
    return BOTH, BOTH.replace("[link, link]", both)


def constant(half):
    return f"(is_constant({half}, 0) or is_constant({half}, 1))"


def cared(half):
    return f"any(c for _, c in {half})"


TEST_SLIPS = [
    ("halves: both are placed although they agree", "HALVES_FIRST = True", "HALVES_FIRST = False"),
    ("halves: one candidate also where they conflict", AGREE, "True"),
    ("halves: the first row is not compared", AGREE, "agree(one_half[1:], zero_half[1:])"),
    ("halves: the last row is not compared", AGREE, "agree(one_half[:-1], zero_half[:-1])"),
    ("halves: the first byte alone is compared", AGREE, "agree(one_half[:8], zero_half[:8])"),
    ("halves: the last byte alone is compared", AGREE, "agree(one_half[-8:], zero_half[-8:])"),
    ("halves: not where they are less than a byte", *also("len(zero_half) >= 8")),
    ("halves: not where they are a byte", *also("len(zero_half) != 8")),
    ("halves: not where they are more than a byte", *also("len(zero_half) <= 8")),
    ("halves: inverted ones agree too", AGREE, f"({AGREE} or agree(one_half, {INVERSE}))"),
    (
        "halves: inverted ones are one candidate, the 0-half inverted", TEST,
        f"    if not {AGREE} and agree(one_half, {INVERSE}):\n"
        f"        link = link_of(merged(one_half, {INVERSE}), entries)\n"
        "        return [link[:-1] + (1 - link[-1],), link]\n" + TEST,
    ),
    (
        "halves: values of free rows are compared", AGREE,
        "[f for f, _ in one_half] == [g for g, _ in zero_half]",
    ),
    (
        "halves: the same rows must be cared in both",
        *also("[c for _, c in one_half] == [d for _, d in zero_half]"),
    ),
    ("halves: some row must be cared in both", *also(f"any(c and d {PAIRS})")),
    (
        "halves: one candidate only where no row is cared in both",
        *also(f"not any(c and d and f == g {PAIRS})"),
    ),
    (
        "halves: a wholly free one is the constant 0",
        *also(f"{cared('zero_half')} and {cared('one_half')}"),
    ),
    (
        "halves: only a wholly free one follows the other",
        *also(f"not ({cared('zero_half')} and {cared('one_half')})"),
    ),
    (
        "halves: constants first, of either half",
        *also(f"not {constant('zero_half')} and not {constant('one_half')}"),
    ),
    (
        "halves: constants first, of both halves",
        *also(f"not ({constant('zero_half')} and {constant('one_half')})"),
    ),
    ("halves: constants first, of the 0-half", *also(f"not {constant('zero_half')}")),
    ("halves: constants first, of the 1-half", *also(f"not {constant('one_half')}")),
]

CANDIDATE_SLIPS = [
    ("halves: the 0-half's value where the 1-half is cared", SINGLE, f"[(g, c or d) {PAIRS}]"),
    ("halves: the 1-half's value where the 0-half is cared", SINGLE, f"[(f, c or d) {PAIRS}]"),
    ("halves: cared where the 1-half is", SINGLE, f"[(f if c else g, c) {PAIRS}]"),
    ("halves: cared where the 0-half is", SINGLE, f"[(f if c else g, d) {PAIRS}]"),
    ("halves: cared where both are", SINGLE, f"[(f if c else g, c and d) {PAIRS}]"),
    ("halves: cared everywhere", SINGLE, f"[(f if c else g if d else 0, 1) {PAIRS}]"),
    ("halves: the 0-half for both", SINGLE, "zero_half"),
    ("halves: the 1-half for both", SINGLE, "one_half"),
]

LINK_SLIPS = [
    ("halves: the 1-link is the 1-half's own", *linked("[link, link_of(one_half, entries)]")),
    ("halves: the 0-link is the 0-half's own", *linked("[link_of(zero_half, entries), link]")),
    ("halves: the 1-link is the constant 0", *linked('[link, ("constant", 0)]')),
    ("halves: the 0-link is the constant 0", *linked('[("constant", 0), link]')),
    ("halves: the 1-link is not inverted", *linked("[link, link[:-1] + (0,)]")),
    ("halves: the 0-link is not inverted", *linked("[link[:-1] + (0,), link]")),
    (
        "halves: always a new entry", PLACED,
        f"        entries.append({SINGLE})\n"
        '        link = "entry", len(entries) - 1, 0\n',
    ),
    (
        "halves: matched plain only", PLACED,
        f"        single, index = {SINGLE}, 0\n"
        "        while index < len(entries) and not agree(single, entries[index]):\n"
        "            index += 1\n"
        "        entries[index:] = [merged(single, (entries + [single])[index])]"
        " + entries[index + 1 :]\n"
        '        link = "entry", index, 0\n',
    ),
]

# Each level's links in two rounds: where this is true of an entry, its links come last.
ROUNDS = """\
        late = [{} for entry in finished]
        below = [None if last else links_of_halves(entry, entries)
                 for entry, last in zip(finished, late)]
        below = [both or links_of_halves(entry, entries) for entry, both in zip(finished, below)]
"""
# A list that keeps its entries as first made beside them as merged.
FIRST_MADE = """\
    class Entries(list):
        def append(self, candidate):
            self.first = getattr(self, "first", []) + [candidate]
            super().append(candidate)

    entries = Entries()
"""
AS_FIRST_MADE = """\
        below = [
            [link_of(merged(*halves(entry)[::-1]), entries)] * 2
            if agree(*halves(first)) else [link_of(half, entries) for half in halves(entry)]
            for entry, first in zip(finished, getattr(finished, "first", []))
        ]
"""
TWO_BY_TWO = """\
    levels = [[]]
    for at in range(0, len(outputs), 2):
        both = outputs[at : at + 2]
        if len(both) == 2:
            levels[0] += links_of_halves(both[0] + both[1], entries)
        else:
            levels[0].append(link_of(both[0], entries))
"""
OWN_HALVES = "merged(*halves(output)[::-1]) * 2 if n and agree(*halves(output)) else output"
ONE_BY_ONE = "[[link_of(half, entries) for half in halves(entry)] for entry in finished]"

LEVEL_SLIPS = [
    ("halves: outputs two by two as well", LEVEL_0, TWO_BY_TWO),
    (
        "halves: an output's own before it is a candidate", OUTPUT,
        f"link_of({OWN_HALVES}, entries)",
    ),
    (
        "halves: tested as the entry was first made",
        "    entries = []\n" + LEVEL_0 + LOOP + FINISHED + BELOW,
        FIRST_MADE + LEVEL_0 + LOOP + FINISHED.replace("[]", "Entries()") + AS_FIRST_MADE,
    ),
    ("halves: single candidates last", BELOW, ROUNDS.format("agree(*halves(entry))")),
    ("halves: single candidates first", BELOW, ROUNDS.format("not agree(*halves(entry))")),
    (
        "halves: those of outputs alone", LOOP + FINISHED + BELOW,
        LOOP.replace("_ in", "level in") + FINISHED
        + BELOW + f"        below = below if level == 0 else {ONE_BY_ONE}\n",
    ),
    (
        "halves: not those of outputs", LOOP + FINISHED + BELOW,
        LOOP.replace("_ in", "level in") + FINISHED
        + BELOW + f"        below = below if level else {ONE_BY_ONE}\n",
    ),
]


def as_before(line):
    """A line of the reference, done with section 3 as it stood before."""
    start = "    global HALVES_FIRST\n    HALVES_FIRST = False\n    network.cache_clear()\n"
    return start + line + "    HALVES_FIRST = True\n    network.cache_clear()\n"


COUNTED = "    return 0, cost(lent_table(state, values, care), used_order(state))\n"
BUILT = "    new_cells, new_roots = network(table, tuple(used_order(state)))\n"
TRIED = "    cells = [cost(table, trial) for trial in tried]\n"
MOST = "    cells, _ = network(table, tuple(order))\n"

CALL_SLIPS = [
    (
        "halves: count as before", COUNTED,
        as_before(COUNTED.replace("return 0,", "counted =")) + "    return 0, counted\n",
    ),
    ("halves: build as before", BUILT, as_before(BUILT)),
    ("halves: sift as before", TRIED, as_before(TRIED)),
    ("halves: the next input of a pass as before", MOST, as_before(MOST)),
]

SLIPS = TEST_SLIPS + CANDIDATE_SLIPS + LINK_SLIPS + LEVEL_SLIPS + CALL_SLIPS
