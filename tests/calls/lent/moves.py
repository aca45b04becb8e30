"""Makes what a report of moves is lent, document 02's 2.8, has the laws that are asked
after it, and the calls beside it that some of them go by.

As in lending.py all is random and dirty, and mostly not refused; `spoil_gains` makes 34
due, which wants an input.
"""

from calls import library
from calls.lent import lending
from calls.library import Call
from paper import reference

# The ends of 32 bits.
LEAST, MOST = -(2**31), 2**31 - 1


def order_of(lent):
    return reference.used_order(library.state_from(lent.contents["state"]))


# Lists.


def entries(lent):
    """The n x n entries that a report fills, by the state's n."""
    return lending.inputs_of(lent) ** 2


def lend_gains(rng, lent, length):
    """A dirty list, the ends of 32 bits in it; behind it there is always room for n x n."""
    content = lending.dirty(rng, "gains", max(length, entries(lent)) + lending.SPARE)
    for end in (LEAST, MOST, 0):
        content[rng.randrange(len(content))] = end
    lent.put("gains", content, length)


def lend_gains_near(rng, lent):
    """Mostly just enough or a little more, now and then too few."""
    more = rng.choice((0,) * 7 + (1, rng.randrange(lending.SPARE), -1))
    lend_gains(rng, lent, max(entries(lent) + more, 0))


def spoil_gains(rng, lent):
    """Fewer than n x n, mostly by one."""
    enough = entries(lent)
    lent.lengths["gains"] = lending.short_length(rng, enough) if enough else 0


# Laws of a report by itself.


def row_of(lent, variable):
    """What the report says of one variable, place by place."""
    n = lent.contents["state"][library.N]
    return list(lent.contents["gains"][n * variable : n * variable + n])


def elsewhere(lent):
    """All entries but those of the present places."""
    return [
        gain
        for present, variable in enumerate(order_of(lent))
        for place, gain in enumerate(row_of(lent, variable))
        if place != present
    ]


def broken_in(lent):
    """'Staying in place reads exactly 0', and of two neighbours it is the same move
    whether one goes down or the other one up."""
    order = order_of(lent)
    for place, variable in enumerate(order):
        if row_of(lent, variable)[place] != 0:
            return f"for input {variable} staying in place is not 0"
    for place, (above, below) in enumerate(zip(order, order[1:])):
        if row_of(lent, above)[place + 1] != row_of(lent, below)[place]:
            return f"inputs {above} and {below} bring unlike gains when they pass each other"
    return None


def asked(lent, note):
    """The report, with the laws that hold of every success."""
    return Call("moves", {}, lent, note, lambda answer: None if answer[0] else broken_in(lent))


def call_near(rng, lent, note):
    """A report on what is lent; the list is a new one."""
    lend_gains_near(rng, lent)
    return asked(lent, note)


# Laws beside a count, sifts and swaps.


class Beside:
    """What other calls say of the table and the order that a report was made of."""

    def __init__(self, lent):
        self.lent = lent
        self.now = None

    def counted(self, answer):
        """No law: the cells now, as a count of the library answers them."""
        self.now = answer[1]

    def sifted(self, variable, lent):
        """The law that the smallest entry is the sift's answer minus the cells now, and
        that the sift takes its place: the present one, or else the first."""
        row, present = row_of(self.lent, variable), order_of(self.lent).index(variable)
        smallest = min(row)
        place = present if row[present] == smallest else row.index(smallest)

        def law(answer):
            if answer[1] - self.now != smallest:
                return f"a sift brings {answer[1] - self.now}, the smallest entry is {smallest}"
            taken = order_of(lent).index(variable)
            return None if taken == place else f"a sift goes to {taken}, the report says {place}"

        return law

    def moved(self, variable, place):
        """The law that a count after the move is the entry more than the cells now."""
        gain = row_of(self.lent, variable)[place]

        def law(answer):
            brought = answer[1] - self.now
            return None if brought == gain else f"the move brings {brought}, the report says {gain}"

        return law


def with_sifts(lent, note):
    """A report, a count, and a sift of each input, all of the same."""
    yield asked(lent, note)
    beside = Beside(lent)
    yield Call("count", {}, lent, f"{note}, now", beside.counted)
    for variable in order_of(lent):
        copied = lent.copy(lent.contents)
        law = beside.sifted(variable, copied)
        yield Call("sift", {"input": variable}, copied, f"{note}, beside a report", law)


def swaps_to(order, variable, place):
    """The places of the swaps that move a variable to a place, the others in sequence."""
    present = order.index(variable)
    return list(range(present, place)) or list(range(present - 1, place - 1, -1))


def with_swaps(lent, note, chosen):
    """A report, a count, and each of the chosen moves done by swaps and counted."""
    yield asked(lent, note)
    beside = Beside(lent)
    yield Call("count", {}, lent, f"{note}, now", beside.counted)
    for variable, place in chosen:
        copied = lent.copy(lent.contents)
        told = f"{note}, input {variable} to {place}"
        for upper in swaps_to(order_of(lent), variable, place):
            yield Call("swap", {"place": upper}, copied, told)
        yield Call("count", {}, copied, told, beside.moved(variable, place))
