"""The exact chances of the totals, to so many digits that they may be called exact: each is found from below and is short of the true one
by less than SHORT, which is far below the smallest double. They come by direct convolution, from calculator/exact.py, and never by a
recursion; the convolutions of a table serve all laws."""
from fractions import Fraction

import exact
from limits import MOST_TOTALS

SCALE = 2 ** 1200
# Both factors of a product are rounded down by less than 1/SCALE, and a chance is a sum of MOST_TOTALS products at most. A chance of no
# claims that is no fraction is wrong in its 450th digit only; the 1 is for that.
SHORT = Fraction(2 * MOST_TOTALS + 1, SCALE)


def convolutions(weights, last):
    """For n from 0 to `last`: the chances that n claims come to 0, 1, .. `last`, in parts of SCALE."""
    return [[int(SCALE * chance) if chance else 0 for chance in row] for row in exact.convolutions(weights, last)]


def chances(law, rows):
    """The chances of the totals, from the convolutions of the table."""
    sums = [0] * len(rows[0])
    for n, row in enumerate(rows):
        count = int(SCALE * law.none * law.coefficient(n))
        if count:
            sums = [so_far + count * chance if chance else so_far for so_far, chance in zip(sums, row)]
    return [Fraction(so_far, SCALE ** 2) for so_far in sums]


def agree(law, weights, found, last):
    """Whether the chances found, up to the total `last`, are those of exact.py, but for SHORT."""
    return all(0 <= amount - chance < SHORT for amount, chance in zip(exact.amounts(law.coefficient, weights, law.none, last), found))
