"""Whether an accepted start holds the exact chance of no claims, and whether a curve takes it. And the chance that the total is zero where
a share q of the claims is: the law's generating function at q."""
from fractions import Fraction
from functools import cache
from itertools import cycle
from math import factorial, prod

from limits import UNIT

# To which term the partial sums of a product are taken, one after the other and over again. As the terms of these series fall and their
# signs turn, no product is below that of 13 throughout, and none above that of 14.
LAST_TERMS = [(13,), (14,), (13, 14, 20, 40), (40, 20, 14, 13)]

# For a mean of at most 20 the terms fall from the twentieth on, so that e to the minus mean lies between the sums to these two. In units
# they are less than a billionth apart.
BELOW, ABOVE = 99, 100


@cache
def partial_sum(power, last):
    """Of the exponential series, to the term `last`."""
    return sum(power ** j / factorial(j) for j in range(last + 1))


def product(mean, last_terms):
    """Of a partial sum for the mean's rest, turned negative, with one for -1 for each whole."""
    whole, rest = divmod(mean, 1)
    powers = [-rest] + [Fraction(-1)] * whole
    return prod(partial_sum(power, last) for power, last in zip(powers, cycle(last_terms)))


def not_held(said, what, exact):
    if not said.low <= UNIT * exact <= said.high:
        yield f"{what}, about {float(UNIT * exact)} units, is not from {said.low} to {said.high}"


def not_taken(said):
    """Check 4 of the curve."""
    if not 0 <= said.low <= said.high <= UNIT or said.high < 1:
        yield f"{said.low} and {said.high} are no start for a curve"


def zero_of_mean(mean, q):
    """Of a Poisson law: two fractions that it lies between, for a mean of at most 20."""
    return tuple(partial_sum(Fraction(mean) * (q - 1), last) for last in (BELOW, ABOVE))


def zero_of_trials(trials, chance, q):
    """Of a binomial law: the fraction itself, twice, in the place of two that it lies between."""
    return ((1 - chance + chance * q) ** trials,) * 2


def zero_of_shape(shape, ratio, q):
    """Of a negative binomial law whose shape is whole, likewise."""
    return (((1 - ratio) / (1 - ratio * q)) ** shape,) * 2


def outside_mean(said, upper, lower):
    mean = Fraction(upper, lower)
    yield from not_taken(said)
    for last_terms in LAST_TERMS:
        yield from not_held(said, f"the product of partial sums to the terms {last_terms}", product(mean, last_terms))
    for last in BELOW, ABOVE:
        yield from not_held(said, f"e to the minus mean, by the sum to term {last}", partial_sum(-mean, last))


def outside_trials(said, upper, lower, trials):
    yield from not_taken(said)
    yield from not_held(said, "the exact power", (1 - Fraction(upper, lower)) ** trials)


def outside_zero(said, zero):
    """The chance that the total is zero lies between two fractions."""
    yield from not_taken(said)
    for end in zero:
        yield from not_held(said, "the chance that the total is zero", end)
