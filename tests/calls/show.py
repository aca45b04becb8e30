"""Shows a call, and where two outcomes of it differ, as text for a person."""

from calls import library

# Of a long buffer so many elements are shown.
MOST_ELEMENTS = 48


def shown(elements):
    part = " ".join(str(element) for element in elements[:MOST_ELEMENTS])
    return part + (" .." if len(elements) > MOST_ELEMENTS else "")


def state_text(words):
    n = words[library.N]
    order = list(words[library.ORDER])
    used, past = (order[:n], order[n:]) if n <= len(order) else (order, [])
    return (
        f"n {n}, m {words[library.M]}, count {words[library.COUNT]}, "
        f"stage {words[library.STAGE]}, order {shown(used)}, past n {shown(past)}"
    )


def slice_text(name, lent, words):
    """How much is lent, and of what a person would look at the beginning."""
    content, length = lent.contents[name], lent.lengths[name]
    text = f"  {name}: {length} lent of {len(content)}"
    n, m, count = words[library.N], words[library.M], words[library.COUNT]
    if name == "state":
        return f"{text}: {state_text(words)}"
    if name in ("values", "care") and n <= 10 and m <= 16:
        return f"{text}: {shown(content[: (m * 2**n + 7) // 8])}"
    if name == "cells":
        return f"{text}: {shown(content[: 3 * min(count, length // 3)])}"
    if name == "roots":
        return f"{text}: {shown(content[:16])}"
    if name == "counts" and n <= 10:
        return f"{text}: {shown(content[: 2**n])}"
    if name == "gains" and n <= 10:
        return f"{text}: {shown(content[: n * n])}"
    if name in ("rows", "answers"):
        return f"{text}: {shown(content[:length])}"
    if name == "file":
        return f"{text}: byte 0 on {shown(content[:length])}"
    return text


def call_text(call, lent):
    """The call as it was made, on what was lent then."""
    words = lent.contents["state"]
    numbers = "".join(f", {name} {number}" for name, number in call.numbers.items())
    lines = [f"call: yav_{call.name}{numbers} ({call.note})"]
    lines += [slice_text(name, lent, words) for name in library.slices_of(call.name)]
    return "\n".join(lines)


def first_difference(name, wanted, came):
    """The first element that differs, and how many do; None if none does."""
    differing = [at for at in range(len(wanted)) if wanted[at] != came[at]]
    if not differing:
        return None
    at = differing[0]
    values = f"expected {wanted[at]}, came {came[at]}"
    return f"  {name}: {len(differing)} differ, first element {at}: {values}"


def difference_text(call, before, wanted, answers, broken=None):
    """The call, what was expected and what came of it, and of a law what does not hold."""
    (wanted_number, wanted_value), (number, value) = answers
    lines = [call_text(call, before)]
    lines.append(f"  answer: expected {wanted_number} {wanted_value}, came {number} {value}")
    for name in library.slices_of(call.name):
        line = first_difference(name, wanted.contents[name], call.lent.contents[name])
        if line:
            lines.append(line)
    if broken:
        lines.append(f"  law: {broken}")
    return "\n".join(lines)
