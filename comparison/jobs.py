"""The laws and the tables that the program and actuar both compute, each law with what the program's sheet and actuar's call need."""
import math
from collections.abc import Callable
from decimal import Context, Decimal
from fractions import Fraction
from typing import NamedTuple

import exact
from limits import UNIT

DIGITS = Context(prec=450)
HALF, THIRD, TENTH = Fraction(1, 2), Fraction(1, 3), Fraction(1, 10)


class Law(NamedTuple):
    """The fractions a and b; the chance of no claims, to 450 digits where it is no fraction; the chances of n claims over it, by a closed
    form; and the arguments of actuar's call. For rounding.py: how far actuar's a and b, and its chance of no claims, may be from the
    true ones, as relative errors in parts of 2^-53. For actuar's method by convolutions, where it is tried: the chances of n claims, in
    R's words."""
    name: str
    a: Fraction
    b: Fraction
    none: Fraction
    coefficient: Callable
    arguments: str
    terms_error: float
    none_error: float
    counts: str = ""


def decimal(number):
    return DIGITS.divide(Decimal(number.numerator), Decimal(number.denominator))


def size_of_log(chance):
    return float(-DIGITS.ln(decimal(chance)))


def poisson(mean):
    """actuar has a = 0, b the mean, and exp(-mean)."""
    mean = Fraction(mean)
    none = Fraction(DIGITS.exp(-decimal(mean)))
    return Law(f"Poisson {mean}", Fraction(0), mean, none, exact.poisson(mean), f'model.freq = "poisson", lambda = {mean}',
               1, float(mean) + 2)


def binomial(trials, chance):
    """actuar has a = p/(p-1), b = -(n+1)a, and exp(n log1p(-p)). The error of p counts 1/(1-p) times, as it is taken from 1."""
    odds, none = chance / (1 - chance), (1 - chance) ** trials
    return Law(f"binomial {trials}, {chance}", -odds, (trials + 1) * odds, none, exact.binomial(trials, chance),
               f'model.freq = "binomial", size = {trials}, prob = {chance}',
               float(5 / (1 - chance)), float(trials * odds) + 3 * size_of_log(none) + 2,
               f"dbinom(0:{trials}, {trials}, {chance})" if chance > HALF else "")


def negative_binomial(shape, chance):
    """The shape is a number of halves, so that it is a double. actuar takes prob = 1-q, the chance of no further claim, and has
    a = 1-prob, b = (size-1)a, and exp(-size log1p(a/prob))."""
    shape = Fraction(shape)
    whole, halves = divmod(2 * shape, 2)
    none = (1 - chance) ** int(whole) * (Fraction(DIGITS.sqrt(decimal(1 - chance))) if halves else 1)
    return Law(f"negative binomial {shape}, {chance}", chance, (shape - 1) * chance, none, exact.negative_binomial(shape, chance),
               f'model.freq = "negative binomial", size = {shape}, prob = {1 - chance}',
               float(1 / chance) + 1, 3 * float(shape) + 3 * size_of_log(none) + 2)


LAWS = [
    poisson(Fraction(1, 1000)),
    poisson(HALF),
    poisson(Fraction(7, 3)),
    poisson(10),
    poisson(20),
    poisson(30),
    poisson(Fraction(1000, 7)),
    negative_binomial(1, HALF),
    negative_binomial(1, Fraction(9, 10)),
    negative_binomial(3, THIRD),
    negative_binomial(Fraction(5, 2), Fraction(2, 5)),
    negative_binomial(HALF, Fraction(99, 100)),
    negative_binomial(20, HALF),
    negative_binomial(50, HALF),
    negative_binomial(200, THIRD),
    binomial(12, TENTH),
    binomial(30, Fraction(1, 4)),
    binomial(100, Fraction(1, 100)),
    binomial(999, Fraction(1, 1000)),
    binomial(3, HALF),
    binomial(9, HALF),
    binomial(20, HALF),
    binomial(100, HALF),
    binomial(8, Fraction(2, 3)),
    binomial(30, Fraction(7, 10)),
    binomial(6, Fraction(8, 9)),
    binomial(9, Fraction(9, 10)),
    binomial(10, Fraction(9, 10)),
    binomial(20, Fraction(9, 10)),
]

TABLES = {
    "size 1": [1],
    "1 or 2": [1, 1],
    "1 or 10": [1, 0, 0, 0, 0, 0, 0, 0, 0, 1],
    "gaps": [0, 6, 0, 0, 3, 0, 0, 0, 1],
    "1 to 100": [1] * 100,
    "skewed": [600 // y ** 2 for y in range(1, 25)],
}


# Jobs with claims of size 0: w(0), the other weights, and the share of the claims that are zero. Each law comes with that of the claims
# that are not, whose chance of no claims is the chance that the total is zero.
ZERO, OTHERS = 2, [1, 1]
SHARE = Fraction(ZERO, ZERO + sum(OTHERS))


def with_zeros(law_of, number, chance):
    """A binomial law, or a negative binomial one."""
    kept = 1 - SHARE if law_of is binomial else (1 - SHARE) / (1 - chance * SHARE)
    return law_of(number, chance), law_of(number, chance * kept)


PAIRS = [
    *((poisson(mean), poisson(mean * (1 - SHARE))) for mean in (Fraction(7, 3), Fraction(10), Fraction(40))),
    with_zeros(negative_binomial, 3, THIRD),
    with_zeros(negative_binomial, Fraction(5, 2), Fraction(2, 5)),
    with_zeros(negative_binomial, 1, Fraction(9, 10)),
    with_zeros(binomial, 12, TENTH),
    with_zeros(binomial, 6, Fraction(8, 9)),
    with_zeros(binomial, 9, Fraction(9, 10)),
]


def start(law):
    """U times the chance of no claims, rounded down and up."""
    units = UNIT * law.none
    return math.floor(units), math.ceil(units)


def sheet(law, weights, last, zero=0, others=None):
    """With w(0) and the law of the claims that are not zero, where it is not 0."""
    divisor = math.lcm(law.a.denominator, law.b.denominator)
    lines = [("LAW", 1, divisor), ("TERM", int(law.a * divisor), int(law.b * divisor)), ("START", *start(others or law)), ("LAST", last),
             ("ZERO", zero), ("SEVERITY", len(weights)), *(("W", w) for w in weights)]
    return "".join(" ".join(map(str, line)) + "\n" for line in lines)


def severity(weights, zero=0):
    """As an argument of actuar's aggregateDist; its probabilities begin at size 0."""
    return f"model.sev = c({zero}, {', '.join(map(str, weights))}) / {zero + sum(weights)}"
