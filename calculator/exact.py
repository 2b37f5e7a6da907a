"""Exact amounts by direct convolution, in exact fractions. Nothing here uses the recursion of the proved tool. Count coefficients come from
the closed forms of the laws; `by_terms` alone takes them from the paper's definition, for a law that is known by its terms."""
from fractions import Fraction
from functools import cache
from math import comb, factorial, prod


def poisson(mean):
    """Chances of n claims over the chance of none."""
    return lambda n: Fraction(mean) ** n / factorial(n)


def binomial(trials, chance):
    odds = Fraction(chance) / (1 - Fraction(chance))
    return lambda n: comb(trials, n) * odds ** n


def negative_binomial(shape, chance):
    """The shape need not be whole."""
    return lambda n: prod((Fraction(shape) + j) / (j + 1) for j in range(n)) * Fraction(chance) ** n


def geometric(ratio):
    """Not always a distribution: the ratio may be negative."""
    return lambda n: Fraction(ratio) ** n


def finite(*chances):
    """At most so many claims, by their chances over the chance of none: that of one claim, of two, .."""
    return lambda n: Fraction([1, *chances][n]) if n <= len(chances) else Fraction(0)


def together(first, *others):
    """Claims of independent laws in one year."""
    if not others:
        return first
    rest = together(*others)
    return cache(lambda n: sum(first(j) * rest(n - j) for j in range(n + 1)))


def bunches(size, law):
    """Claims that come `size` at a time, the bunches by another law."""
    return lambda n: law(n // size) if n % size == 0 else Fraction(0)


def by_terms(divisor, a, b):
    """P_0 = 1, and P_n is the sum over i from 1 to the smaller of k and n of (a_i + b_i/n) times P_(n-i)."""
    @cache
    def coefficient(n):
        if n == 0:
            return Fraction(1)
        terms = zip(a[:n], b[:n])
        return sum((Fraction(A, divisor) + Fraction(B, divisor) / n) * coefficient(n - i) for i, (A, B) in enumerate(terms, 1))

    return coefficient


def not_zero(a, b, q):
    """The clerk's terms, which are those of the law of the claims that are not zero: "terms a and b, each times (1 - q) over (1 - aq)",
    where q is the share of the claims that are zero."""
    factor = (1 - q) / (1 - a * q)
    return a * factor, b * factor


def convolutions(weights, last):
    """For n from 0 to `last`: the chances that n claims come to 0, 1, .. `last`."""
    whole = sum(weights)
    sizes = [(y, w) for y, w in enumerate(weights, 1) if w]
    row = [1] + [0] * last
    for n in range(last + 1):
        yield [Fraction(c, whole ** n) for c in row]
        row = [sum(w * row[x - y] for y, w in sizes if y <= x) for x in range(last + 1)]


def amounts(law, weights, start, last):
    """The exact amounts at the totals 0 to `last` for the starting chance `start`."""
    sums = [Fraction(0)] * (last + 1)
    for n, row in enumerate(convolutions(weights, last)):
        coefficient = law(n)
        sums = [so_far + coefficient * c if c else so_far for so_far, c in zip(sums, row)]
    return [Fraction(start) * amount for amount in sums]


def amount(law, weights, start, total):
    return amounts(law, weights, start, total)[total]
