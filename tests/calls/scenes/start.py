"""What the scenes start from: small sizes and boards."""

from calls import library
from calls.lent import lending


def small_size(rng):
    n = rng.choices(range(6), (1, 2, 4, 5, 5, 2))[0]
    return n, rng.choice((1, 1, 2, 2, 3, rng.randint(1, 16 if n < 4 else 5)))


def lend_board(rng, lent):
    lent.lengths["cells"] = lending.board_near(rng, lending.cost_of(lent))


def lend_counted(rng, lent):
    """The counted cells and little more, now and then with the last one ragged."""
    count = lent.contents["state"][library.COUNT]
    length = 3 * min(count, lending.SMALL_BOARD // 3) + rng.choice((0, 0, 1, 2, 3, 9, -1))
    lent.lengths["cells"] = max(0, length)
