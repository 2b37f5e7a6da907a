"""Calls of the curve. The paper's limits are written out in the cases, for limits.py to be held to."""
from collections.abc import Callable
from dataclasses import replace
from fractions import Fraction
from typing import NamedTuple

import exact
from limits import MOST_ORDER, UNIT, WORK_COLUMNS
from outward import Job

HALF, THIRD, QUARTER = Fraction(1, 2), Fraction(1, 3), Fraction(1, 4)
MOST = 2 ** 64 - 1
SIGNED_LEAST, SIGNED_MOST = -2 ** 63, 2 ** 63 - 1


class Rows(NamedTuple):
    """What the four rows hold from total 0 to X, worked out by hand."""
    low: list
    high: list
    bound: list
    mark: list


class Case(NamedTuple):
    """What is tried, the number and place that the paper asks for, and the job. Where there is one: the closed form of the law's count
    coefficients, those of severity 0 counted among the claims; the rows by hand. How many places of the low, the high, the bound, the mark
    and the work row are lent (if nothing is said, two more than needed; no case lends more than 512 of the first four, or 6,014 for work),
    and up to which total exact amounts are worked out (if nothing is said, to X)."""
    name: str
    number: int
    place: int
    job: Job
    law: Callable = None
    rows: Rows = None
    lent: tuple = None
    exact_to: int = None


def four(*terms):
    return [*terms, *[0] * (MOST_ORDER - len(terms))]


def one(divisor, a, b, low, high, last, weights=(1,), zero=0):
    """A job of order 1, with one severity if nothing else is said."""
    return Job(1, divisor, four(a), four(b), low, high, list(weights), last, zero)


def no_claims(order, low, high, last, weights=(2,)):
    """A law with no terms: row 0 is zero from total 1 on. With one weight, of severity 1, row j at total j has the start; its bound is the
    start's gap, and j ones where the weight is above 1."""
    return Job(order, 1, four(), four(), low, high, list(weights), last)


def needed(last):
    """The places that the five rows must have."""
    return *[last + 1] * 4, WORK_COLUMNS * (last + 1)


P1 = one(1, 0, 1, 367879441, 367879442, 3, [1, 1])
ROWS_P1 = Rows([367879441, 183939720, 229924650, 99634015], [367879442, 183939721, 229924652, 99634016], [1, 2, 2, 2],
               [1, 0, 0, 0])
P2 = one(1, -1, 3, 250000000, 250000000, 4)
ROWS_P2 = Rows([250000000, 500000000, 250000000, 0, 0], [250000000, 500000000, 250000000, 0, 0], [0, 0, 1, 1, 2], [1] * 5)


def paper(**changed):
    """P1 with some of its parts changed."""
    return replace(P1, **changed)


def paper_terms(order, a, b):
    """P1 to total 5 with other terms; a divisor of 1,000 keeps the curve small."""
    return paper(order=order, divisor=1000, a=a, b=b, last=5)


def single_term(side, i, value):
    """The terms a and b, where all are 0 but one: A_i or B_i."""
    terms = {"A": four(), "B": four()}
    terms[side][i - 1] = value
    return terms["A"], terms["B"]


LAST_SIZE = [0] * 499 + [1]
SIDES = [(side, i) for i in range(1, 5) for side in "AB"]

PAPER = [
    Case("P1", 0, 0, P1, exact.poisson(1), ROWS_P1),
    Case("P2", 0, 0, P2, exact.binomial(2, HALF), ROWS_P2),
    Case("P3", 0, 0, one(2, -1, 0, 1, 2, 1), exact.geometric(-HALF), Rows([1, -1], [2, 0], [1, 2], [1, 0])),
    Case("P4", 0, 0, Job(2, 1, four(), four(0, 1), 400000001, 400000001, [1], 2), exact.bunches(2, exact.poisson(HALF)),
         Rows([400000001, 0, 200000000], [400000001, 0, 200000001], [0, 0, 1], [1, 1, 0])),
    Case("P5", 9, 1, one(1, 0, 3, UNIT, UNIT, 1)),
    Case("P5 with B 2", 0, 0, one(1, 0, 2, UNIT, UNIT, 1), exact.poisson(2), Rows([UNIT, 2 * UNIT], [UNIT, 2 * UNIT], [0, 0], [1, 1])),
    Case("P6", 0, 0, one(1, 0, 1, 0, UNIT, 1), exact.poisson(1), Rows([0, 0], [UNIT, UNIT], [UNIT, UNIT], [1, 1])),
    Case("P6 with weights 1 and 1 and B 2", 10, 1, one(1, 0, 2, 0, UNIT, 1, [1, 1])),
    Case("P6 with X 0", 0, 0, one(1, 0, 1, 0, UNIT, 0), exact.poisson(1), Rows([0], [UNIT], [UNIT], [1])),
    Case("P7, w(1) 1,000", 0, 0, replace(P2, weights=[1000]), exact.binomial(2, HALF), ROWS_P2._replace(bound=[0, 1, 2, 1, 2])),
    Case("P7, w(1) 1,001", 6, 0, replace(P2, weights=[1001])),
    Case("P8", 7, 0, replace(P2, last=501)),
    Case("also run: k 5", 1, 0, replace(P2, order=5)),
]

TEMPTING_AND_WRONG = [
    Case("rounded towards zero, low and high at 1 would be 0", 0, 0, one(2, -1, 0, 1, 1, 1), exact.geometric(-HALF),
         Rows([1, -1], [1, 0], [0, 1], [1, 0])),
    Case("with the low under a negative factor, low at 1 would be -10", 0, 0, one(1, -1, 0, 10, 20, 1), exact.geometric(-1),
         Rows([10, -20], [20, -10], [10, 10], [1, 0])),
    Case("each product rounded, high at 2 would be 2", 0, 0, one(1, 0, 1, 1, 1, 2, [1, 1]), exact.poisson(1),
         Rows([1, 0, 0], [1, 1, 1], [0, 1, 2], [1, 0, 0])),
    Case("lows cut to 0 would lose -500 and -125", 0, 0, one(2, -1, 0, 1000, 1000, 3), exact.geometric(-HALF),
         Rows([1000, -500, 250, -125], [1000, -500, 250, -125], [0, 1, 2, 2], [1] * 4)),
    Case("factors of both signs in one sum", 0, 0, one(1, -2, 3, 7, 9, 2, [1, 1]), rows=Rows([7, 3, 2], [9, 5, 4], [2, 2, 3], [1, 0, 0])),
    Case("a factor of 0", 0, 0, one(1, -1, 1, 7, 9, 2, [1, 1]), rows=Rows([7, 0, 0], [9, 0, 0], [2, 1, 2], [1, 1, 1])),
]

CHECKS = [
    # 1
    Case("k 0", 1, 0, paper(order=0)),
    *[Case(f"k {k}", 0, 0, paper(order=k), exact.poisson(1), ROWS_P1) for k in (2, 3, 4)],
    Case("k 5", 1, 0, paper(order=5)),
    Case("the greatest k", 1, 0, paper(order=MOST)),

    # 2
    Case("D 0", 2, 0, paper(divisor=0)),
    Case("D 1,000", 0, 0, paper(divisor=1000), exact.poisson(Fraction(1, 1000))),
    Case("D 1,001", 2, 0, paper(divisor=1001)),
    Case("the greatest D", 2, 0, paper(divisor=MOST)),

    # 3
    *[Case(f"{side}_{i} {value}", 0, 0, paper_terms(4, *single_term(side, i, value))) for side, i in SIDES for value in (1000, -1000)],
    *[Case(f"{side}_{i} {value}", 3, i, paper_terms(4, *single_term(side, i, value)))
      for side, i in SIDES for value in (1001, -1001, SIGNED_LEAST, SIGNED_MOST)],
    *[Case(f"k {i - 1}, {side}_{i} {value}", 3, i, paper_terms(i - 1, *single_term(side, i, value)))
      for side, i in SIDES if i > 1 for value in (1, -1, SIGNED_LEAST, SIGNED_MOST)],
    Case("A_2 and B_1 too large", 3, 1, paper_terms(4, four(0, 1001), four(1001))),
    Case("A_1 and B_1 too large", 3, 1, paper_terms(4, four(1001), four(-1001))),
    Case("A_4 and B_3 too large", 3, 3, paper_terms(4, four(0, 0, 0, 1001), four(0, 0, 1001))),
    Case("B_2 too large, A_3 past k", 3, 2, paper_terms(2, four(0, 0, 1), four(0, 1001))),
    Case("A_2 past k, A_4 past k and too large", 3, 2, paper_terms(1, four(0, 1, 0, 1001), four())),
    Case("all terms at the ends", 3, 1, paper_terms(4, [SIGNED_LEAST] * 4, [SIGNED_MOST] * 4)),

    # 4
    Case("s one above t", 4, 0, paper(low_start=1000, high_start=999)),
    Case("t 0", 4, 0, paper(low_start=0, high_start=0)),
    Case("s 1, t 0", 4, 0, paper(low_start=1, high_start=0)),
    Case("s 0, t 1", 0, 0, paper(low_start=0, high_start=1), exact.poisson(1)),
    Case("s 1, t 1", 0, 0, paper(low_start=1, high_start=1), exact.poisson(1)),
    Case("s U, t U", 0, 0, paper(low_start=UNIT, high_start=UNIT), exact.poisson(1)),
    Case("s U, t U+1", 4, 0, paper(low_start=UNIT, high_start=UNIT + 1)),
    Case("s U+1, t U+1", 4, 0, paper(low_start=UNIT + 1, high_start=UNIT + 1)),
    Case("s U+1, t U", 4, 0, paper(low_start=UNIT + 1, high_start=UNIT)),
    Case("the greatest t", 4, 0, paper(high_start=MOST)),
    Case("the greatest s and t", 4, 0, paper(low_start=MOST, high_start=MOST)),
    Case("the greatest s", 4, 0, paper(low_start=MOST)),

    # 5
    Case("m 0", 5, 0, paper(weights=[])),
    Case("m 1", 0, 0, paper(weights=[1]), exact.poisson(1)),
    Case("m 500", 0, 0, paper(weights=[1] * 500), exact.poisson(1)),
    Case("m 501", 5, 0, paper(weights=[1] * 501)),
    Case("m 512", 5, 0, paper(weights=[1] * 512)),
    Case("m 501, the last weight 0", 5, 0, paper(weights=[1] * 500 + [0])),

    # 6
    Case("W 0", 6, 0, paper(weights=[0])),
    Case("W 0 with 500 weights", 6, 0, paper(weights=[0] * 500)),
    Case("W 1, the last of 500 weights", 0, 0, paper(weights=LAST_SIZE), exact.poisson(1)),
    Case("W 1,000", 0, 0, paper(weights=[999, 1]), exact.poisson(1)),
    Case("W 1,001", 6, 0, paper(weights=[1000, 1])),
    Case("W 1,000 with 500 weights", 0, 0, paper(weights=[2] * 500), exact.poisson(1)),
    Case("W 1,001 with 500 weights", 6, 0, paper(weights=[2] * 499 + [3])),
    Case("the greatest weight", 6, 0, paper(weights=[MOST])),
    Case("weights whose sum is 0 modulo 2^64", 6, 0, paper(weights=[MOST, 1])),
    Case("weights whose sum is 1 modulo 2^64", 6, 0, paper(weights=[MOST, 2])),
    Case("weights whose sum is 5 modulo 2^64", 6, 0, paper(weights=[2 ** 63, 5, 2 ** 63])),
    Case("500 weights of the greatest", 6, 0, paper(weights=[MOST] * 500)),
    Case("500 weights whose sum is 4 modulo 2^64", 6, 0, paper(weights=[2 ** 62] * 4 + [0] * 495 + [4])),

    # 7
    Case("X 0", 0, 0, paper(last=0), exact.poisson(1)),
    Case("X 500", 0, 0, paper(weights=[1], last=500), exact.poisson(1)),
    Case("X 501", 7, 0, paper(last=501)),
    Case("the greatest X", 7, 0, paper(last=MOST)),
    Case("X 2^32", 7, 0, paper(last=2 ** 32)),

    # 8
    Case("no place too many", 0, 0, P1, exact.poisson(1), ROWS_P1, (4, 4, 4, 4, 48)),
    Case("a place less for lows", 8, 0, P1, lent=(3, 4, 4, 4, 48)),
    Case("a place less for highs", 8, 0, P1, lent=(4, 3, 4, 4, 48)),
    Case("a place less for bounds", 8, 0, P1, lent=(4, 4, 3, 4, 48)),
    Case("a place less for marks", 8, 0, P1, lent=(4, 4, 4, 3, 48)),
    Case("no place for marks, and many for the others", 8, 0, P1, lent=(512, 512, 512, 0, 6014)),
    Case("a place less for work", 8, 0, P1, lent=(4, 4, 4, 4, 47)),
    Case("9 times (X+1) places for work, as before there were marks", 8, 0, P1, lent=(4, 4, 4, 4, 36)),
    Case("no places", 8, 0, P1, lent=(0, 0, 0, 0, 0)),
    Case("rows of several lengths", 0, 0, P1, exact.poisson(1), ROWS_P1, (512, 4, 77, 9, 6014)),
    Case("rows of several lengths, the marks' the longest", 0, 0, P1, exact.poisson(1), ROWS_P1, (5, 6, 4, 512, 49)),
    Case("X 0, no place too many", 0, 0, paper(last=0), exact.poisson(1), lent=(1, 1, 1, 1, 12)),
    Case("X 0, no place for highs", 8, 0, paper(last=0), lent=(1, 0, 1, 1, 12)),
    Case("X 0, no place for marks", 8, 0, paper(last=0), lent=(1, 1, 1, 0, 12)),
    Case("X 0, 11 places for work", 8, 0, paper(last=0), lent=(1, 1, 1, 1, 11)),
    Case("X 0, 9 places for work", 8, 0, paper(last=0), lent=(1, 1, 1, 1, 9)),
    Case("X 500, no place too many", 0, 0, one(1, 0, 1, 367879441, 367879442, 500), exact.poisson(1), lent=(501, 501, 501, 501, 6012)),
    Case("X 500, a place less for bounds", 8, 0, paper(last=500), lent=(501, 501, 500, 501, 6012)),
    Case("X 500, a place less for marks", 8, 0, paper(last=500), lent=(501, 501, 501, 500, 6012)),
    Case("X 500, a place less for work", 8, 0, paper(last=500), lent=(501, 501, 501, 501, 6011)),
    Case("X 500, 9 times (X+1) places for work", 8, 0, paper(last=500), lent=(501, 501, 501, 501, 4509)),
]

# a fault for each of the refusals 1 to 7; the weights for 5 are too many and too heavy
FAULTS = [{"order": 5}, {"divisor": 0}, {"a": four(1001)}, {"low_start": 2, "high_start": 1}, {"weights": [2] * 501}, {"weights": [1001]},
          {"last": 501}]


def faulty(faults):
    """P1 with all these faults; where two change the same part, with the first one's."""
    job = P1
    for fault in reversed(faults):
        job = replace(job, **fault)
    return job


ORDER = [
    *[Case(f"faults of {number} to 8 at once", number, 1 if number == 3 else 0, faulty(FAULTS[number - 1:]), lent=(0, 0, 0, 0, 0))
      for number in range(1, 9)],
    Case("8 and 9", 8, 0, one(1, 0, 3, UNIT, UNIT, 1), lent=(2, 2, 2, 2, 23)),
    Case("8 and 9, by the marks", 8, 0, one(1, 0, 3, UNIT, UNIT, 1), lent=(2, 2, 2, 1, 24)),
    Case("8 and 10", 8, 0, one(1, 0, 2, 0, UNIT, 1, [1, 1]), lent=(1, 2, 2, 2, 24)),
]

# Row j >= 1 has averages of row j-1, rounded outwards to whole numbers, so that its lows and highs never are the first outside -2U to 2U;
# its bounds can be the first above U where W is above 1. With W 1 they are 0 and bounds of row j-1 at earlier totals.
RANGE_AND_BOUND = [
    # 9
    Case("2U", 0, 0, one(2, 0, 5, 800000000, 800000000, 1), exact.poisson(Fraction(5, 2))),
    Case("2U+1", 9, 1, one(1, 0, 3, 666666667, 666666667, 1)),
    Case("-2U", 0, 0, one(2, -5, 0, 800000000, 800000000, 1), exact.geometric(Fraction(-5, 2))),
    Case("-2U-1", 9, 1, one(1, -3, 0, 666666667, 666666667, 1)),
    Case("the high alone above 2U", 9, 1, one(1, 0, 3, 666666666, 666666667, 1)),
    Case("the low alone below -2U", 9, 1, one(1, -3, 0, 666666666, 666666667, 1)),
    Case("2U by rounding up", 0, 0, one(3, 0, 7, 857142857, 857142857, 1), exact.poisson(Fraction(7, 3))),
    Case("2U+1 by rounding up", 9, 1, one(4, 0, 9, 888888889, 888888889, 1)),
    Case("-2U-1 by rounding down", 9, 1, one(4, -9, 0, 888888889, 888888889, 1)),
    Case("9 at 4", 9, 4, one(1, 1, 1, 500000000, 500000000, 9)),
    Case("9 at 4, the last total", 9, 4, one(1, 1, 1, 500000000, 500000000, 4), lent=needed(4)),
    Case("and no 9 before it", 0, 0, one(1, 1, 1, 500000000, 500000000, 3), exact.negative_binomial(2, 1)),
    Case("9 at 500, from the largest product", 9, 500, one(1, 1000, 1000, UNIT, UNIT, 500, [0] * 499 + [1000])),
    Case("2U at 500, from the largest product", 0, 0, one(1000, 1000, 1000, UNIT, UNIT, 500, [0] * 499 + [1000]),
         exact.negative_binomial(2, 1)),
    Case("the largest terms", 9, 1, Job(4, 1, [1000] * 4, [1000] * 4, UNIT, UNIT, [1000], 500)),
    Case("the lowest terms", 9, 1, Job(4, 1, [-1000] * 4, [-1000] * 4, UNIT, UNIT, [1000], 500)),

    # 10
    Case("a bound of U, divisor 1", 0, 0, one(1, 0, 8, 0, 125000000, 1), exact.poisson(8),
         Rows([0, 0], [125000000, UNIT], [125000000, UNIT], [1, 1])),
    Case("a bound of U+1, divisor 1", 10, 1, one(1, 0, 7, 0, 142857143, 1)),
    Case("a bound of U by the one", 0, 0, one(2, 0, 2, 0, UNIT - 1, 1), exact.poisson(1),
         Rows([0, 0], [UNIT - 1, UNIT - 1], [UNIT - 1, UNIT], [1, 1])),
    Case("a bound of U+1 by the one", 10, 1, one(2, 0, 2, 0, UNIT, 1)),
    Case("a bound of U by the one, weights 1 and 1", 0, 0, one(1, 0, 2, 0, UNIT - 1, 1, [1, 1]), exact.poisson(2),
         Rows([0, 0], [UNIT - 1, UNIT - 1], [UNIT - 1, UNIT], [1, 1])),
    Case("10 at 2, after bounds of U at 0 and 1", 10, 2, one(1, 1, 0, 0, UNIT, 2)),
    Case("10 at 3, after a bound of U at 2", 10, 3, one(1, 1, 0, 0, UNIT - 1, 3)),
    Case("a bound of U at 2", 0, 0, one(1, 1, 0, 0, UNIT - 1, 2), exact.geometric(1),
         Rows([0, 0, 0], [UNIT - 1] * 3, [UNIT - 1, UNIT - 1, UNIT], [1, 1, 1])),
    Case("10 at 30, as bounds double; lows and highs reach 9 at 31", 10, 30, one(2, 4, 0, 1, 1, 31)),
    Case("10 at 30, the last total", 10, 30, one(2, 4, 0, 1, 1, 30), lent=needed(30)),
    Case("and no 10 before it", 0, 0, one(2, 4, 0, 1, 1, 29), exact.geometric(2),
         Rows([2 ** x for x in range(30)], [2 ** x for x in range(30)], [2 ** x - 1 for x in range(30)], [1] * 30)),
    Case("10 at 30, lows and highs of both signs", 10, 30, one(2, -4, 0, 1, 1, 31)),
    Case("10 at 500, by the one", 10, 500, one(1, 0, 1, 0, UNIT, 500, LAST_SIZE)),
    Case("a bound of U at 500", 0, 0, one(1, 0, 1, 0, UNIT - 1, 500, LAST_SIZE), exact.poisson(1),
         Rows([0] * 501, [UNIT - 1, *[0] * 499, UNIT - 1], [UNIT - 1, 0, *[1] * 498, UNIT], [1] * 501)),

    # both
    Case("9 and 10 at 1", 9, 1, one(1, 0, 3, 0, UNIT, 2)),
    Case("10 at 1, 9 at 2", 10, 1, one(1, 1, 1, 0, UNIT, 2)),

    # further rows
    Case("10 in row 0 alone, of four; row 1 has U", 10, 1, Job(4, 2, four(), four(2), 0, UNIT, [1], 2)),
    Case("a bound of U in row 0, of four", 0, 0, Job(4, 2, four(), four(2), 1, UNIT, [1], 2), exact.poisson(1),
         Rows([1, 1, 0], [UNIT, UNIT, 500000000], [UNIT - 1, UNIT, 500000001], [1, 1, 0])),
    Case("10 in row 1 alone, of four", 10, 1, no_claims(4, 0, UNIT, 3)),
    Case("10 in row 1", 10, 1, no_claims(2, 0, UNIT, 3)),
    Case("and not without row 1", 0, 0, no_claims(1, 0, UNIT, 3), exact.finite()),
    Case("a bound of U in row 1", 0, 0, no_claims(2, 0, UNIT - 1, 3), exact.finite()),
    Case("10 in row 2", 10, 2, no_claims(3, 0, UNIT - 1, 3)),
    Case("a bound of U in row 2", 0, 0, no_claims(3, 1, UNIT - 1, 3), exact.finite()),
    Case("10 in row 3", 10, 3, no_claims(4, 1, UNIT - 1, 3)),
    Case("10 in row 3, past the last total", 0, 0, no_claims(4, 1, UNIT - 1, 2), exact.finite()),
    Case("a bound of U in row 3", 0, 0, no_claims(4, 1, UNIT - 2, 3), exact.finite()),
    Case("10 in row 1 at 2, with weights 1 and 1; row 0 has U at 1 and 2", 10, 2, Job(2, 1, four(-2), four(4), 0, UNIT - 1, [1, 1], 2)),
    Case("bounds of U in row 0, with weights 1 and 1", 0, 0, one(1, -2, 4, 0, UNIT - 1, 2, [1, 1]), exact.finite(2),
         Rows([0, 0, 0], [UNIT - 1] * 3, [UNIT - 1, UNIT, UNIT], [1, 1, 1])),
    Case("a bound of U in row 1, with weights 1 and 1", 0, 0, Job(2, 1, four(-2), four(4), 0, UNIT - 2, [1, 1], 2), exact.finite(2),
         Rows([0, 0, 0], [UNIT - 2] * 3, [UNIT - 2, UNIT - 1, UNIT - 1], [1, 1, 1])),
    Case("10 in row 1 at 500", 10, 500, no_claims(2, 0, UNIT, 500, [0] * 499 + [2])),
    Case("9 in row 0 and 10 in row 1", 9, 1, Job(2, 1, four(), four(3), 0, UNIT, [2], 2)),
]


def repeated(k, divisor, weight, bounds, name):
    """All terms are 0 but A_k, which is D. Row 0 at total x is row k-1 at x-1, so that the start comes again at k; its bound is the bound
    there, plus one where D times x times W is above 1. Nothing is left in any row."""
    job = Job(k, divisor, four(*[0] * (k - 1), divisor), four(), 7, 9, [weight], k + 1)
    low, high = ([start, *[0] * (k - 1), start, 0] for start in (7, 9))
    return Case(f"k {k}, D {divisor}, W {weight}: {name}", 0, 0, job, exact.bunches(k, exact.geometric(1)),
                Rows(low, high, bounds, [1] * (k + 2)))


# Wish 4: the bound has the one where the divisor is above 1, be it by D, by x or by W, and only there.
ALLOWANCE = [
    # row 0 with D 1 and W 1: none at total 1
    Case("with the one at 1, bounds at 1 and 2 would be 3; with none at 2, less than the gap", 0, 0, one(1, 0, 1, 7, 9, 2),
         exact.poisson(1), Rows([7, 7, 3], [9, 9, 5], [2, 2, 2], [1, 1, 0])),
    Case("with the one at 1, it would be 10 at 1; the factor is -1", 0, 0, one(1, -1, 0, 0, UNIT, 1), exact.geometric(-1),
         Rows([0, -UNIT], [UNIT, 0], [UNIT, UNIT], [1, 0])),
    Case("with the one at 1, it would be 10 at 30, as bounds double; it is 9 and 10 at 31", 9, 31, one(1, 2, 0, 1, 1, 31)),
    Case("with the one at 1, it would be 10 at 30, the last total", 0, 0, one(1, 2, 0, 1, 1, 30), exact.geometric(2),
         Rows([2 ** x for x in range(31)], [2 ** x for x in range(31)], [0, *[2 ** (x - 1) - 1 for x in range(1, 31)]],
              [1] * 31)),
    Case("the 500th size alone: with the one at 1, the bound there would be 1", 0, 0, one(1, 0, 1, 7, 7, 500, LAST_SIZE), exact.poisson(1),
         Rows([7, *[0] * 499, 7], [7, *[0] * 499, 7], [0, 0, *[1] * 499], [1] * 501)),
    Case("by the number of weights, the bound at 1 would be 1", 0, 0, one(1, 0, 1, 7, 9, 4, [0, 1]), exact.poisson(1),
         Rows([7, 0, 7, 0, 3], [9, 0, 9, 0, 5], [2, 0, 3, 1, 3], [1, 1, 1, 1, 0])),

    # row 0 with a divisor above 1 by W alone, by D alone, by x alone
    Case("D 1, W 2: by D, or D times x, the bound at 1 would be 1, less than the gap", 0, 0, one(1, 0, 1, 7, 9, 2, [1, 1]),
         exact.poisson(1), Rows([7, 3, 4], [9, 5, 6], [2, 2, 3], [1, 0, 0])),
    Case("D 1, w(1) 2: by D, bounds at 1 and 2 would be 2 and 1; by D times x, 2 and 2", 0, 0, one(1, 0, 1, 7, 9, 2, [2]),
         exact.poisson(1), Rows([7, 7, 3], [9, 9, 5], [2, 3, 3], [1, 1, 0])),
    Case("D 2, W 1: by W, bounds at 1 and 2 would be 2 and 1; by x times W, or with 2/2 made 1/1, 2 and 2", 0, 0, one(2, 0, 2, 7, 9, 2),
         exact.poisson(1), Rows([7, 7, 3], [9, 9, 5], [2, 3, 3], [1, 1, 0])),
    Case("D 1, W 1: by D, W or both, bounds from 2 on would be 0", 0, 0, one(1, 1, 0, 9, 9, 4), exact.geometric(1),
         Rows([9] * 5, [9] * 5, [0, 0, 1, 2, 3], [1] * 5)),

    # further rows: their divisor is W, in row 0 it is D times x times W
    repeated(2, 1, 1, [2, 0, 3, 1], "by row 0's divisor, the bound at 3 would be 2"),
    repeated(3, 1, 1, [2, 0, 1, 3, 1], "by row 0's divisor, bounds at 3 and 4 would be 4 and 3"),
    repeated(4, 1, 1, [2, 0, 1, 1, 3, 1], "by row 0's divisor, bounds at 3, 4 and 5 would be 2, 5 and 4"),
    repeated(2, 2, 1, [2, 1, 3, 2], "by D, or with the one in row 1, bounds would be those of W 2"),
    repeated(3, 2, 1, [2, 1, 1, 3, 2], "by D, or with the one in rows 1 and 2, bounds would be those of W 2"),
    repeated(4, 2, 1, [2, 1, 1, 1, 3, 2], "by D, or with the one in rows 1 to 3, bounds would be those of W 2"),
    repeated(2, 1, 2, [2, 1, 4, 3], "without the one in row 1, bounds would be those of W 1 with D 2"),
    repeated(3, 1, 2, [2, 1, 2, 5, 4], "without the one in rows 1 and 2, bounds would be those of W 1 with D 2"),
    repeated(4, 1, 2, [2, 1, 2, 3, 6, 5], "without the one in rows 1 to 3, bounds would be those of W 1 with D 2"),
    Case("bounds of U in rows 1, 2 and 3; with the one there, it would be 10 at 1, 2 or 3", 0, 0, no_claims(4, 0, UNIT, 4, [1]),
         exact.finite(), Rows([0] * 5, [UNIT, 0, 0, 0, 0], [UNIT, 0, 1, 1, 1], [1] * 5)),
    Case("a bound of U in row 1 at 500; with the one there, it would be 10", 0, 0, no_claims(2, 0, UNIT, 500, LAST_SIZE), exact.finite(),
         Rows([0] * 501, [UNIT, *[0] * 500], [UNIT, 0, *[1] * 499], [1] * 501)),

    # a divisor above 1 that leaves nothing, in three pairs; the second job has another start, leaves something, and has the same bounds
    Case("by remainders, bounds at 1 and 2 would be 0", 0, 0, one(2, 0, 1, 8, 8, 2), exact.poisson(HALF),
         Rows([8, 4, 1], [8, 4, 1], [0, 1, 2], [1, 1, 1])),
    Case("by the bound's remainder, the bound at 1 would be 0, less than the gap", 0, 0, one(2, 0, 1, 9, 9, 2), exact.poisson(HALF),
         Rows([9, 4, 1], [9, 5, 2], [0, 1, 2], [1, 0, 0])),
    Case("by remainders, bounds at 1 and 2 would be 4 and 1", 0, 0, one(2, 0, 1, 8, 16, 2), exact.poisson(HALF),
         Rows([8, 4, 1], [16, 8, 2], [8, 5, 3], [1, 1, 1])),
    Case("by the bound's remainder, the bound at 1 would be 4, less than the gap", 0, 0, one(2, 0, 1, 9, 17, 2), exact.poisson(HALF),
         Rows([9, 4, 1], [17, 9, 3], [8, 5, 3], [1, 0, 0])),
    Case("by remainders in row 1, the bound at 2 would be 1", 0, 0, Job(2, 1, four(0, 2), four(), 8, 8, [1, 1], 2),
         exact.bunches(2, exact.geometric(2)), Rows([8, 0, 4], [8, 0, 4], [0, 1, 2], [1, 1, 1])),
    Case("by remainders in row 0, the bound at 2 would be 1", 0, 0, Job(2, 1, four(0, 2), four(), 9, 9, [1, 1], 2),
         exact.bunches(2, exact.geometric(2)), Rows([9, 0, 4], [9, 0, 5], [0, 1, 2], [1, 1, 0])),
    Case("by the low's remainder, the bound at 1 would be 1", 0, 0, one(2, 0, 1, 8, 9, 1), exact.poisson(HALF),
         Rows([8, 4], [9, 5], [1, 2], [1, 0])),
    Case("by the high's remainder, the bound at 1 would be 1", 0, 0, one(2, 0, 1, 7, 8, 1), exact.poisson(HALF),
         Rows([7, 3], [8, 4], [1, 2], [1, 0])),

    # nothing but zeros: the bound is 0 at totals 0 and 1 alone
    *[Case(f"k {k}, no terms; by remainders, bounds would all be 0", 0, 0, no_claims(k, 7, 7, 4, [1]), exact.finite(),
           Rows([7, 0, 0, 0, 0], [7, 0, 0, 0, 0], [0, 0, 1, 1, 1], [1] * 5)) for k in (1, 4)],
    *[Case(f"k {k}, no terms, W 2; by remainders, or D, bounds would all be 0", 0, 0, no_claims(k, 7, 7, 4), exact.finite(),
           Rows([7, 0, 0, 0, 0], [7, 0, 0, 0, 0], [0, 1, 1, 1, 1], [1] * 5)) for k in (1, 4)],
]


# Wish 7: a weight at 0. W has it too, and V is the sum of the others; row 0's divisor is D W - A w(0), times x.
ZERO = [
    # 6
    Case("w(0) 998, W 1,000", 0, 0, paper(zero=998), exact.poisson(1)),
    Case("w(0) 999, W 1,001", 6, 0, paper(zero=999)),
    Case("w(0) 999, V 1", 0, 0, paper(weights=[1], zero=999), exact.poisson(1)),
    Case("w(0) 1,000, V 1", 6, 0, paper(weights=[1], zero=1000)),
    Case("w(0) 1, V 999", 0, 0, paper(weights=[998, 1], zero=1), exact.poisson(1)),
    Case("w(0) 1, V 1,000", 6, 0, paper(weights=[999, 1], zero=1)),
    Case("w(0) 2 with 499 weights, W 1,000", 0, 0, paper(weights=[2] * 499, zero=2), exact.poisson(1)),
    Case("w(0) 1 with 500 weights, W 1,001", 6, 0, paper(weights=[2] * 500, zero=1)),
    Case("w(0) 1,001", 6, 0, paper(zero=1001)),
    Case("w(0) 2^32 and 1", 6, 0, paper(weights=[1], zero=2 ** 32 + 1)),
    Case("the greatest w(0)", 6, 0, paper(zero=MOST)),
    Case("the greatest w(0), W is 0 modulo 2^64", 6, 0, paper(weights=[1], zero=MOST)),
    Case("the greatest w(0), W is 1 modulo 2^64", 6, 0, paper(weights=[1, 1], zero=MOST)),
    Case("w(0) 2^63, W is 5 modulo 2^64", 6, 0, paper(weights=[5, 2 ** 63], zero=2 ** 63)),
    Case("the greatest w(0) with 500 weights of the greatest", 6, 0, paper(weights=[MOST] * 500, zero=MOST)),
    Case("w(0) 1 and the greatest weight", 6, 0, paper(weights=[MOST], zero=1)),

    # 11
    *[Case(f"k {k}, w(0) 1", 11, 0, paper(order=k, zero=1)) for k in (2, 3, 4)],
    *[Case(f"k {k}, w(0) 998", 11, 0, paper(order=k, zero=998)) for k in (2, 3, 4)],
    Case("k 1, w(0) 1", 0, 0, paper(zero=1), exact.poisson(1)),

    # 12: D W - A w(0) is 1, 0 or below
    Case("D 1, A 2, w(0) 1: 3 - 2", 0, 0, one(1, 2, 0, 3, 3, 3, [2], 1), exact.geometric(2),
         Rows([3, 12, 48, 192], [3, 12, 48, 192], [0, 0, 1, 5], [1] * 4)),
    Case("D 1, A 2, w(0) 1: 2 - 2", 12, 0, one(1, 2, 0, 3, 3, 3, [1], 1)),
    Case("D 1, A 2, w(0) 2: 3 - 4", 12, 0, one(1, 2, 0, 3, 3, 3, [1], 2)),
    Case("D 3, A 5, w(0) 1: 6 - 5", 0, 0, one(3, 5, 0, 3, 3, 2, [1], 1), exact.geometric(Fraction(5, 3)),
         Rows([3, 15, 75], [3, 15, 75], [0, 0, 1], [1] * 3)),
    Case("D 3, A 5, w(0) 3: 15 - 15", 12, 0, one(3, 5, 0, 3, 3, 2, [2], 3)),
    Case("D 3, A 5, w(0) 2: 9 - 10", 12, 0, one(3, 5, 0, 3, 3, 2, [1], 2)),
    Case("D 1, A 999, w(0) 1: 1,000 - 999", 0, 0, one(1, 999, -999, 7, 7, 2, [999], 1), exact.finite(),
         Rows([7, 0, 0], [7, 0, 0], [0, 0, 1], [1] * 3)),
    Case("D 1, A 1,000, w(0) 1: 1,000 - 1,000", 12, 0, one(1, 1000, -1000, 7, 7, 2, [999], 1)),
    Case("D 1, A 1,000, w(0) 2: 1,000 - 2,000", 12, 0, one(1, 1000, -1000, 7, 7, 2, [998], 2)),
    Case("D 1, A 1,000, w(0) 999, the lowest", 12, 0, one(1, 1000, -1000, 7, 7, 2, [1], 999)),
    Case("D 999, A 1,000, w(0) 999: 999,000 - 999,000", 12, 0, one(999, 1000, 0, 7, 7, 2, [1], 999)),
    Case("D 999, A 1,000, w(0) 998: 998,001 - 998,000", 0, 0, one(999, 1000, -1000, 7, 7, 3, [1], 998), exact.finite(),
         Rows([7, 0, 0, 0], [7, 0, 0, 0], [0, 0, 1, 668], [1] * 4)),
    Case("D 1,000, A 1,000, w(0) 999: 1,000,000 - 999,000", 0, 0, one(1000, 1000, 0, 7, 7, 1, [1], 999),
         rows=Rows([7, 7], [7, 7], [0, 1], [1, 1])),
    Case("by V, D 1, A 1, w(0) 2 would be 1 - 2", 0, 0, one(1, 1, 0, 9, 9, 4, [1], 2), exact.geometric(1),
         Rows([9] * 5, [9] * 5, [0, 0, 1, 2, 3], [1] * 5)),
    Case("by V, D 1, A 1, w(0) 1 would be 1 - 1", 0, 0, one(1, 1, 0, 9, 9, 4, [1], 1), exact.geometric(1),
         Rows([9] * 5, [9] * 5, [0, 0, 1, 2, 3], [1] * 5)),
    Case("by B, D 1, B 2, w(0) 1 would be 2 - 2", 0, 0, one(1, 0, 2, 9, 9, 2, [1], 1), exact.poisson(2),
         Rows([9, 9, 4], [9, 9, 5], [0, 1, 2], [1, 1, 0])),
    Case("k 2, A_1 2, w(0) 0: never 12", 0, 0, Job(2, 1, four(2), four(), 1, 1, [1], 3), exact.geometric(2),
         Rows([1, 2, 4, 8], [1, 2, 4, 8], [0, 0, 1, 3], [1] * 4)),
    *[Case(f"k {k}, A_1 1,000, w(0) 0: 9 and never 12", 9, 1, Job(k, 1, four(1000), four(), UNIT, UNIT, [1], 3)) for k in (1, 2, 3, 4)],

    # 13
    Case("w(0) 1, V 0", 13, 0, paper(weights=[0], zero=1)),
    Case("w(0) 1, 500 weights of 0", 13, 0, paper(weights=[0] * 500, zero=1)),
    Case("w(0) 1, the last of 500 weights 1", 0, 0, paper(weights=LAST_SIZE, zero=1), exact.poisson(1)),
    Case("w(0) 1,000, V 0", 13, 0, paper(weights=[0, 0], zero=1000)),
    Case("w(0) 1,001, V 0", 6, 0, paper(weights=[0, 0], zero=1001)),
    Case("the greatest w(0), V 0", 6, 0, paper(weights=[0], zero=MOST)),
    Case("w(0) 0, V 0", 6, 0, paper(weights=[0, 0, 0])),
    Case("w(0) 1, no weights", 5, 0, paper(weights=[], zero=1)),
    Case("w(0) 1, 501 weights of 0", 5, 0, paper(weights=[0] * 501, zero=1)),
    Case("D 2, A 1, V 0: 2 - 1", 13, 0, one(2, 1, 0, 7, 7, 2, [0], 1)),
    Case("D 1, A -1, V 0: 1 + 1", 13, 0, one(1, -1, 3, 7, 7, 2, [0], 1)),
    Case("D 1,000, A 999, V 0: 1,000,000 - 999,000", 13, 0, one(1000, 999, 0, 7, 7, 2, [0], 1000)),
]

# a fault for 6, for each of the refusals of Wish 7, and for 7, as they follow each other
ZERO_FAULTS = [{"zero": 1001}, {"order": 2}, {"a": four(2)}, {"weights": [0], "zero": 1}, {"last": 501}]

ZERO_ORDER = [
    Case("faults of 6, 11, 12, 13, 7 and 8 at once", 6, 0, faulty(ZERO_FAULTS), lent=(0, 0, 0, 0, 0)),
    Case("faults of 11, 12, 13, 7 and 8 at once", 11, 0, faulty(ZERO_FAULTS[1:]), lent=(0, 0, 0, 0, 0)),
    Case("faults of 12, 13, 7 and 8 at once", 12, 0, faulty(ZERO_FAULTS[2:]), lent=(0, 0, 0, 0, 0)),
    Case("faults of 13, 7 and 8 at once", 13, 0, faulty(ZERO_FAULTS[3:]), lent=(0, 0, 0, 0, 0)),
    # 1 to 5 come before
    Case("1 and 11", 1, 0, paper(order=5, zero=1)),
    Case("2 and 12: D 0", 2, 0, one(0, 1, 0, 7, 7, 2, [1], 1)),
    Case("3 and 12: A 1,001", 3, 1, one(1, 1001, 0, 7, 7, 2, [1], 1)),
    Case("3 and 11: A_3 past k", 3, 3, Job(2, 1, four(0, 0, 1), four(), 7, 7, [1], 2, 1)),
    Case("4 and 11", 4, 0, paper(order=2, low_start=2, high_start=1, zero=1)),
    Case("4 and 13", 4, 0, paper(low_start=0, high_start=0, weights=[0], zero=1)),
    Case("5 and 11", 5, 0, paper(order=2, weights=[], zero=1)),
    Case("5 and 12: no weights, A is D", 5, 0, one(1, 1, 0, 7, 7, 2, [], 1)),
    # 6
    Case("6 and 11, by w(0)", 6, 0, paper(order=2, zero=999)),
    Case("6 and 11, by w(1)", 6, 0, paper(order=2, weights=[1000], zero=1)),
    Case("6 and 12", 6, 0, one(1, 2, 0, 7, 7, 2, [1], 1000)),
    Case("6 and 13", 6, 0, paper(weights=[0], zero=1001)),
    # 11
    Case("11 and 12", 11, 0, Job(2, 1, four(2), four(), 7, 7, [1], 2, 1)),
    Case("11 and 13", 11, 0, paper(order=2, weights=[0], zero=1)),
    Case("11 and 7", 11, 0, paper(order=2, zero=1, last=501)),
    Case("11 and 8", 11, 0, paper(order=2, zero=1), lent=(3, 4, 4, 4, 48)),
    # 12
    Case("12 and 13: A is D, 1 - 1", 12, 0, one(1, 1, 0, 7, 7, 2, [0], 1)),
    Case("12 and 13: A is above D, 1 - 2", 12, 0, one(1, 2, 0, 7, 7, 2, [0], 1)),
    Case("12 and 13: A and D 1,000, 1,000,000 - 1,000,000", 12, 0, one(1000, 1000, 0, 7, 7, 2, [0], 1000)),
    Case("12 and 7", 12, 0, one(1, 2, 0, 7, 7, 501, [1], 1)),
    Case("12 and 8", 12, 0, one(1, 2, 0, 7, 7, 2, [1], 1), lent=(3, 3, 3, 3, 35)),
    # 13
    Case("13 and 7", 13, 0, paper(weights=[0], zero=1, last=501)),
    Case("13 and 8", 13, 0, paper(weights=[0], zero=1), lent=(4, 4, 4, 3, 48)),
    # 7 and 8
    Case("7 with w(0) 1", 7, 0, paper(zero=1, last=501)),
    Case("8 with w(0) 1, a place less for work", 8, 0, paper(zero=1), lent=(4, 4, 4, 4, 47)),
    Case("8 and 9 with w(0) 1", 8, 0, one(1, 2, 0, UNIT, UNIT, 1, [2], 1), lent=(2, 2, 2, 2, 23)),
]

ZERO_ROWS = [
    # two tosses, of which every other head comes to nothing: (3/4)^2, then 2 * 3/16 and 1/16
    Case("A below 0: 2 + 1 times x; by D W, the chance of 1 would be 562500000", 0, 0, one(1, -1, 3, 562500000, 562500000, 4, [1], 1),
         exact.binomial(2, HALF),
         Rows([562500000, 375000000, 62500000, 0, 0], [562500000, 375000000, 62500000, 0, 0], [0, 1, 2, 1, 2], [1] * 5)),
    # ratio 1/2 with half of the claims zero is ratio 1/3, and 2/3 have none
    Case("A above 0: 4 - 1 times x; by D W, the chance of 1 would be 166666666", 0, 0, one(2, 1, 0, 666666666, 666666667, 3, [1], 1),
         exact.negative_binomial(1, HALF),
         Rows([666666666, 222222222, 74074074, 24691358], [666666667, 222222223, 74074075, 24691359], [1, 2, 2, 2],
              [1, 0, 0, 0])),
    # P1 with half of the claims zero: e to the -1/2; then over 4, 8 and 12
    Case("A 0: by V, the chance of 1 would be 303265329", 0, 0, one(1, 0, 1, 606530659, 606530660, 3, [1, 1], 2), exact.poisson(1),
         Rows([606530659, 151632664, 170586747, 39487672], [606530660, 151632665, 170586749, 39487674], [1, 2, 2, 2],
              [1, 0, 0, 0])),
    # over 19: 6 times 0; over 38: 8 times 1, 6 times 0; over 57: 10 times 2, 7 times 1, 18 times 0
    Case("three sizes: 21 - 2 times x", 0, 0, one(3, 1, 2, 9000, 9019, 3, [2, 1, 2], 2), exact.negative_binomial(3, THIRD),
         Rows([9000, 2842, 2019, 3545], [9019, 2849, 2024, 3554], [19, 7, 6, 9], [1, 0, 0, 0])),
    # a sign that turns: over 3 and 6
    Case("no distribution: 2 + 1 times x", 0, 0, one(1, -1, 0, 1000, 1000, 2, [1], 1), exact.geometric(-1),
         Rows([1000, -334, 111], [1000, -333, 112], [0, 1, 2], [1, 0, 0])),
    # P2 with 999 in 1,000 zero: over 1,999 and 3,998
    Case("w(0) 999, A -1: 1,000 + 999 times x", 0, 0, one(1, -1, 3, 250000000, 250000000, 2, [1], 999), exact.binomial(2, HALF),
         Rows([250000000, 250125, 62], [250000000, 250126, 63], [0, 1, 2], [1, 0, 0])),
    Case("the largest divisor: 1,000,000 + 999,000, times 500", 0, 0, one(1000, -1000, 1000, UNIT, UNIT, 500, [1], 999), exact.finite(),
         Rows([UNIT, *[0] * 500], [UNIT, *[0] * 500], [0, 1, *[2] * 499], [1] * 501)),

    # Wish 4's one, by this divisor
    Case("a divisor of 1 at total 1; with the one, bounds at 1, 2 and 3 would be 5, 9 and 13", 0, 0, one(1, 1, 1, 7, 9, 3, [1], 2),
         exact.negative_binomial(2, 1), Rows([7, 14, 21, 28], [9, 18, 27, 36], [2, 4, 7, 11], [1] * 4)),
    Case("a bound of U, divisor 1; by D W, it would be less, and with the one 10 at 1", 0, 0, one(1, 1, 0, 0, UNIT, 1, [1], 1),
         exact.geometric(1), Rows([0, 0], [UNIT, UNIT], [UNIT, UNIT], [1, 1])),
    Case("10 at 2, after a bound of U at 1", 10, 2, one(1, 1, 0, 0, UNIT, 2, [1], 1)),
    Case("a divisor of 2 by w(0) alone; without the one, the bound at 1 would be less than the gap", 0, 0, one(1, 0, 1, 7, 9, 2, [1], 1),
         exact.poisson(1), Rows([7, 3, 0], [9, 5, 2], [2, 2, 2], [1, 0, 0])),
    Case("a divisor of 4 - 2; by remainders, the bound at 1 would be 0", 0, 0, one(1, 2, 0, 8, 8, 2, [3], 1),
         exact.geometric(2), Rows([8, 24, 72], [8, 24, 72], [0, 1, 4], [1, 1, 1])),

    # 9 and 10
    Case("2U, divisor 1 by w(0)", 0, 0, one(1, 2, 0, 500000000, 500000000, 1, [2], 1), exact.geometric(2),
         Rows([500000000, 2 * UNIT], [500000000, 2 * UNIT], [0, 0], [1, 1])),
    Case("2U+4, divisor 1 by w(0); by D W, it would be accepted", 9, 1, one(1, 2, 0, 500000001, 500000001, 1, [2], 1)),
    Case("2U with w(0) 1; without it, it would be 9 at 1", 0, 0, one(1, 0, 4, UNIT, UNIT, 1, [1], 1), exact.poisson(4),
         Rows([UNIT, 2 * UNIT], [UNIT, 2 * UNIT], [0, 1], [1, 1])),
    Case("9 at 4 with w(0) 1", 9, 4, one(1, 1, 1, 500000000, 500000000, 9, [1], 1)),
    Case("9 at 4 with w(0) 1, the last total", 9, 4, one(1, 1, 1, 500000000, 500000000, 4, [1], 1), lent=needed(4)),
    Case("and no 9 before it, with w(0) 1", 0, 0, one(1, 1, 1, 500000000, 500000000, 3, [1], 1), exact.negative_binomial(2, 1)),
    Case("10 at 1 with w(0) 1", 10, 1, one(1, 0, 4, 0, UNIT, 1, [1], 1)),
    Case("a bound of U by the one, with w(0) 1", 0, 0, one(1, 0, 2, 0, UNIT - 1, 1, [1], 1), exact.poisson(2),
         Rows([0, 0], [UNIT - 1, UNIT - 1], [UNIT - 1, UNIT], [1, 1])),
    Case("X 0 with w(0) 1", 0, 0, one(1, 0, 1, 0, UNIT, 0, [1], 1), exact.poisson(1), Rows([0], [UNIT], [UNIT], [1]), needed(0)),
]


# Wish 10: which entries are exact. P2 is the coin toss.
MARKS = [
    # times 3, 2/2 and 1/3, then a factor of 0; at 5 it is -1, and both ends of what it takes are 0
    Case("three tosses, from 0 to their start; at 3 the bound's division leaves 1, and the entry is exact", 0, 0,
         one(1, -1, 4, 0, 125000000, 5), exact.binomial(3, HALF),
         Rows([0] * 6, [125000000, 375000000, 375000000, 125000000, 0, 0], [125000000, 375000000, 375000001, 125000002, 1, 2], [1] * 6)),
    # 1953125 is odd, and so is 976563; at 12 nothing is left, but 11 is used
    Case("halves of U", 0, 0, one(2, 1, 0, 0, UNIT, 12), exact.geometric(HALF),
         Rows([0] * 13, [UNIT // 2 ** x for x in range(10)] + [976563, 488282, 244141],
              [UNIT, 500000001, 250000002, 125000002, 62500002, 31250002, 15625002, 7812502, 3906252, 1953127, 976565, 488284, 244143],
              [1] * 10 + [0] * 3)),
    Case("720 and 1,440 over factorials", 0, 0, one(1, 0, 1, 720, 1440, 7), exact.poisson(1),
         Rows([720, 720, 360, 120, 30, 6, 1, 0], [1440, 1440, 720, 240, 60, 12, 2, 1], [720, 720, 361, 122, 32, 8, 3, 2],
              [1] * 7 + [0])),
    Case("something is left at 500, and at no total before", 0, 0, one(2, 0, 1, 7, 7, 500, LAST_SIZE), exact.poisson(HALF),
         Rows([7, *[0] * 499, 3], [7, *[0] * 499, 4], [0, *[1] * 500], [1] * 500 + [0])),

    # thirds
    Case("the low sum alone leaves something, at 3", 0, 0, one(3, 1, 0, 9, 27, 3), exact.geometric(THIRD),
         Rows([9, 3, 1, 0], [27, 9, 3, 1], [18, 7, 4, 3], [1, 1, 1, 0])),
    Case("the high sum alone leaves something, at 2", 0, 0, one(3, 1, 0, 9, 12, 2), exact.geometric(THIRD),
         Rows([9, 3, 1], [12, 4, 2], [3, 2, 2], [1, 1, 0])),

    # 3/2; then 4 times 1 and 2, over 4
    Case("nothing is left at 2, but 1 is used", 0, 0, one(2, 3, -2, 3, 3, 2), exact.negative_binomial(THIRD, Fraction(3, 2)),
         Rows([3, 1, 1], [3, 2, 2], [0, 1, 2], [1, 0, 0])),

    # a negative factor
    Case("ends apart under a negative factor; 2 has the exact amounts again, and is not exact, as it uses 1", 0, 0,
         one(1, -1, 0, 4, 6, 2), exact.geometric(-1), Rows([4, -6, 4], [6, -4, 6], [2, 2, 3], [1, 0, 0])),
    Case("equal ends under a negative factor", 0, 0, one(1, -1, 0, 5, 5, 2), exact.geometric(-1),
         Rows([5, -5, 5], [5, -5, 5], [0, 0, 1], [1, 1, 1])),

    # what has a factor or a weight of 0 is not asked for: 1/2; then 0 times it, over 4; then -1 times 0, over 6
    Case("a factor of 0 at 2, where 1 is not exact", 0, 0, one(2, -1, 2, 1, 1, 3), exact.binomial(1, THIRD),
         Rows([1, 0, 0, 0], [1, 1, 0, 0], [0, 1, 1, 2], [1, 0, 1, 1])),
    # 0; then 2 times 1, over 4; then 2 times 0, over 6; then 2 times 0 and 1, over 8
    Case("a weight of 0 for size 1, so that 3 does not use 2, which is not exact", 0, 0, one(2, 0, 1, 1, 1, 4, [0, 1]), exact.poisson(HALF),
         Rows([1, 0, 0, 0, 0], [1, 0, 1, 0, 1], [0, 1, 1, 2, 2], [1, 1, 0, 1, 0])),
    # 2/4; then 0 times it and 4 times 2, over 8; then -1 times 1, 2 times 0 and 1, and 3 times 2, over 12
    Case("a factor of 0 beside another that is not", 0, 0, one(1, -1, 2, 2, 2, 3, [1, 2, 1]), exact.binomial(1, HALF),
         Rows([2, 0, 1, 0], [2, 1, 1, 1], [0, 1, 1, 2], [1, 0, 1, 0])),
    # 0; then -2 times 4 and 6, over 2; then -3 times 0, over 3
    Case("a weight of 0 beside a negative factor and ends apart, at 1; and 3 does not use 2", 0, 0, one(1, -1, 0, 4, 6, 3, [0, 1]),
         exact.geometric(-1), Rows([4, 0, -6, 0], [6, 0, -4, 0], [2, 0, 3, 1], [1, 1, 0, 1])),

    # Further rows; k 2 is in ALLOWANCE too. A_k alone is 2: row 0 at k is row k-1 at k-1, the start halved k-1 times, by a division that
    # leaves nothing.
    Case("k 3: 4, 2 in row 1, 1 in row 2", 0, 0, Job(3, 1, four(0, 0, 2), four(), 4, 4, [1, 1], 3), exact.bunches(3, exact.geometric(2)),
         Rows([4, 0, 0, 1], [4, 0, 0, 1], [0, 1, 2, 4], [1] * 4)),
    Case("k 3: 6, 3 in row 1, not exact in row 2", 0, 0, Job(3, 1, four(0, 0, 2), four(), 6, 6, [1, 1], 3),
         exact.bunches(3, exact.geometric(2)), Rows([6, 0, 0, 1], [6, 0, 0, 2], [0, 1, 2, 4], [1, 1, 1, 0])),
    Case("k 4: 8, 4 in row 1, 2 in row 2, 1 in row 3", 0, 0, Job(4, 1, four(0, 0, 0, 2), four(), 8, 8, [1, 1], 4),
         exact.bunches(4, exact.geometric(2)), Rows([8, 0, 0, 0, 1], [8, 0, 0, 0, 1], [0, 1, 2, 4, 6], [1] * 5)),
    Case("k 4: 12, 6 in row 1, 3 in row 2, not exact in row 3", 0, 0, Job(4, 1, four(0, 0, 0, 2), four(), 12, 12, [1, 1], 4),
         exact.bunches(4, exact.geometric(2)), Rows([12, 0, 0, 0, 1], [12, 0, 0, 0, 2], [0, 1, 2, 4, 6], [1] * 4 + [0])),
    # Row 0 at 3 is 4/6 of row 2 at 2, and at 4 it is row 2 at 3, as size 2 has a factor of 0 there. Row 1 at 1 and 2 is half of the start,
    # row 2 at 3 the mean of these two, and at 2 half of one.
    Case("k 3: 4 and 4 in row 1, 2 and 4 in row 2", 0, 0, Job(3, 1, four(0, 0, 4), four(0, 0, -8), 8, 8, [1, 1], 4),
         rows=Rows([8, 0, 0, 1, 4], [8, 0, 0, 2, 4], [0, 1, 1, 3, 4], [1, 1, 1, 0, 1])),
    Case("k 3: not exact in row 1 at 1 and 2, nor in row 2 at 3, where nothing is left", 0, 0,
         Job(3, 1, four(0, 0, 4), four(0, 0, -8), 9, 9, [1, 1], 4),
         rows=Rows([9, 0, 0, 1, 4], [9, 0, 0, 2, 5], [0, 1, 1, 3, 4], [1, 1, 1, 0, 0])),
    # where the factor of a further row is 0; row 1 has 9/2 at 1
    Case("k 2: row 1 is not exact at 1, and is never used", 0, 0, Job(2, 1, four(2), four(), 9, 9, [1, 1], 3), exact.geometric(2),
         Rows([9, 9, 18, 27], [9, 9, 18, 27], [0, 1, 2, 4], [1] * 4)),
    Case("k 2: row 1 is not exact at 1 and 2, and is used by 3, with factors of both signs, but not by 2", 0, 0,
         Job(2, 1, four(0, 1), four(0, -2), 9, 9, [1, 1], 3), exact.finite(),
         Rows([9, 0, 0, -1], [9, 0, 0, 1], [0, 1, 1, 2], [1, 1, 1, 0])),
    Case("k 4: no terms, and rows 1 to 3 are not exact", 0, 0, no_claims(4, 9, 9, 4, [1, 1]), exact.finite(),
         Rows([9, 0, 0, 0, 0], [9, 0, 0, 0, 0], [0, 1, 1, 1, 1], [1] * 5)),
    # 3/2; then 0 times it and 4 times 3 of row 1, over 4; then 6 times row 1 at 2, which is row 0 at 1
    Case("k 2: row 0 is not exact at 1, row 1 is; at 2 it is the other way about", 0, 0, Job(2, 2, four(-1, 2), four(2), 3, 3, [1], 3),
         rows=Rows([3, 1, 3, 0], [3, 2, 3, 2], [0, 1, 1, 3], [1, 0, 1, 0])),
    Case("k 2: ends apart in row 1 under a negative factor", 0, 0, Job(2, 1, four(0, -1), four(), 4, 6, [1], 4),
         exact.bunches(2, exact.geometric(-1)), Rows([4, 0, -6, 0, 4], [6, 0, -4, 0, 6], [2, 0, 3, 1, 4], [1, 1, 0, 1, 0])),
    Case("k 2: equal ends in row 1 under a negative factor", 0, 0, Job(2, 1, four(0, -1), four(), 5, 5, [1], 4),
         exact.bunches(2, exact.geometric(-1)), Rows([5, 0, -5, 0, 5], [5, 0, -5, 0, 5], [0, 0, 1, 1, 2], [1] * 5)),

    # a weight at 0: over 4 - 1 times x, and over 2 + 1 times x
    Case("w(0) 1: 9 and 27 to 1 and 3; the low sum alone leaves something, at 3", 0, 0, one(2, 1, 0, 9, 27, 3, [1], 1),
         exact.geometric(HALF), Rows([9, 3, 1, 0], [27, 9, 3, 1], [18, 7, 4, 3], [1, 1, 1, 0])),
    Case("w(0) 1: 3/3; by D W, something would be left", 0, 0, one(2, 1, 0, 3, 3, 1, [1], 1), exact.geometric(HALF),
         Rows([3, 1], [3, 1], [0, 1], [1, 1])),
    Case("w(0) 1: 4/3; by D W, nothing would be left", 0, 0, one(2, 1, 0, 4, 4, 1, [1], 1), exact.geometric(HALF),
         Rows([4, 1], [4, 2], [0, 1], [1, 0])),
    Case("w(0) 1: equal ends under a negative factor", 0, 0, one(1, -1, 0, 9, 9, 2, [1], 1), exact.geometric(-1),
         Rows([9, -3, 1], [9, -3, 1], [0, 1, 2], [1, 1, 1])),
    Case("w(0) 1: ends apart under a negative factor", 0, 0, one(1, -1, 0, 9, 12, 2, [1], 1), exact.geometric(-1),
         Rows([9, -4, 1], [12, -3, 2], [3, 2, 2], [1, 0, 0])),
    # each entry over -2, or over -5 with the weight at 0, so that every other one is exact and below 0
    Case("w(0) 0: 64 over -2 again and again", 0, 0, one(2, -1, 0, 64, 64, 6), exact.geometric(-HALF),
         Rows([64, -32, 16, -8, 4, -2, 1], [64, -32, 16, -8, 4, -2, 1], [0, 1, 2, 2, 2, 2, 2], [1] * 7)),
    Case("w(0) 1: 15625 over -5 again and again", 0, 0, one(2, -1, 0, 15625, 15625, 6, [1], 1), exact.geometric(-HALF),
         Rows([15625, -3125, 625, -125, 25, -5, 1], [15625, -3125, 625, -125, 25, -5, 1], [0, 1, 2, 2, 2, 2, 2], [1] * 7)),

    # 0 afterwards, although all entries before the fault are exact
    Case("9 at 4, with four more places for marks", 9, 4, one(1, 1, 1, 500000000, 500000000, 4), lent=(5, 5, 5, 9, 60)),
    Case("10 at 3, with the most places for marks", 10, 3, one(1, 1, 0, 0, UNIT - 1, 3), lent=(4, 4, 4, 512, 48)),
]


class Law(NamedTuple):
    """A divisor and terms by the formulas of the sources, the chance of no claims in units, and the closed form."""
    name: str
    divisor: int
    a: list
    b: list
    low: int
    high: int
    closed: Callable


LAWS = [
    # source document 000: Poisson, with a = 0 and b the mean
    Law("Poisson 3/2", 2, [0], [3], 223130160, 223130161, exact.poisson(Fraction(3, 2))),
    Law("Poisson 7/1000", 1000, [0], [7], 993024442, 993024443, exact.poisson(Fraction(7, 1000))),
    Law("Poisson 10", 1, [0], [10], 45399, 45400, exact.poisson(10)),
    # binomial, with a = -p/q and b = (N+1)p/q, since the first right-hand coefficient is the product Np
    Law("binomial 4 1/3", 2, [-1], [5], 197530864, 197530865, exact.binomial(4, THIRD)),
    Law("binomial 10 1/5", 4, [-1], [11], 107374182, 107374183, exact.binomial(10, Fraction(1, 5))),
    Law("binomial 12 1/1000", 999, [-1], [13], 988065780, 988065781, exact.binomial(12, Fraction(1, 1000))),
    Law("binomial 3 3/4", 1, [-3], [12], 15625000, 15625000, exact.binomial(3, Fraction(3, 4))),
    # negative binomial, with a = p and b = (alpha-1)p
    Law("negative binomial 2 1/3", 3, [1], [1], 444444444, 444444445, exact.negative_binomial(2, THIRD)),
    Law("negative binomial 1 1/2", 2, [1], [0], 500000000, 500000000, exact.negative_binomial(1, HALF)),
    Law("negative binomial 5/2 1/2", 4, [2], [3], 176776695, 176776696, exact.negative_binomial(Fraction(5, 2), HALF)),
    Law("negative binomial 1/2 1/2", 4, [2], [-1], 707106781, 707106782, exact.negative_binomial(HALF, HALF)),

    # source document 002, Corollary 4: two laws together, with a 1/2 and -1, b 1/2 and 3; with a 0 and 1/3, b 1 and 0
    Law("negative binomial 2 1/2 with binomial 2 1/2", 2, [-1, 1], [7, -2], 62500000, 62500000,
        exact.together(exact.negative_binomial(2, HALF), exact.binomial(2, HALF))),
    Law("Poisson 1 with negative binomial 1 1/3", 3, [1, 0], [3, -1], 245252960, 245252961,
        exact.together(exact.poisson(1), exact.negative_binomial(1, THIRD))),
    # Example 1: a Poisson law as one of order 2, with q = 1/2
    Law("Poisson 1 by order 2", 2, [-1, 0], [3, 1], 367879441, 367879442, exact.poisson(1)),
    # Equation (4): claims two at a time, so that b_2 is twice the mean
    Law("pairs by Poisson 1/2", 1, [0, 0], [0, 1], 606530659, 606530660, exact.bunches(2, exact.poisson(HALF))),
    # Theorem 3: at most k claims, with a_i = -P_i and b_i = 2iP_i
    Law("at most 2 claims", 3, [-2, -1], [4, 4], 500000000, 500000000, exact.finite(Fraction(2, 3), THIRD)),
    Law("at most 4 claims", 16, [-8, -4, -2, -1], [16, 16, 12, 8], 516129032, 516129033,
        exact.finite(HALF, QUARTER, Fraction(1, 8), Fraction(1, 16))),
    # Corollary 2: at most 3 claims, twice, with a_i = -P_i and b_i = 3iP_i for the P_i of one law
    Law("at most 3 claims, twice", 4, [-3, -2, -1], [9, 12, 9], 160000000, 160000000,
        exact.together(exact.finite(Fraction(3, 4), HALF, QUARTER), exact.finite(Fraction(3, 4), HALF, QUARTER))),
    # Theorem 8: three laws together, with a -1, 1/2 and 0, b 3, 0 and 1; four, with a 1/2, 1/3, -1/2 and -1/3, b 0, 1/3, 1 and 1
    Law("binomial 2 1/2 with negative binomial 1 1/2 and Poisson 1", 2, [-1, 1, 0], [8, -2, -1], 45984930, 45984931,
        exact.together(exact.binomial(2, HALF), exact.negative_binomial(1, HALF), exact.poisson(1))),
    Law("negative binomial 1 1/2 and 2 1/3 with binomial 1 1/3 and 2 1/4", 36, [0, 13, 0, -1], [84, -26, -16, 4], 83333333, 83333334,
        exact.together(exact.negative_binomial(1, HALF), exact.negative_binomial(2, THIRD), exact.binomial(1, THIRD),
                       exact.binomial(2, QUARTER))),
    # Equation (4): Poisson laws of claims one, two, three and four at a time, with means 1/2, 1/4, 1/6 and 1/8, so that each b_i is 1/2
    Law("one to four at a time", 2, [0, 0, 0, 0], [1, 1, 1, 1], 352866081, 352866082,
        exact.together(exact.poisson(HALF), exact.bunches(2, exact.poisson(QUARTER)), exact.bunches(3, exact.poisson(Fraction(1, 6))),
                       exact.bunches(4, exact.poisson(Fraction(1, 8))))),
    # Equation (4): claims three at a time, the bunches geometric
    Law("three at a time", 2, [0, 0, 1], [0, 0, 0], 500000000, 500000000, exact.bunches(3, exact.geometric(HALF))),
]

TABLES = {
    "one size": [1],
    "two sizes alike": [1, 1],
    "no size 2": [2, 0, 1],
    "no size 1 or 3": [0, 3, 0, 1],
    "a dozen sizes": [5, 9, 14, 3, 0, 7, 21, 1, 2, 8, 13, 4],
}


def law_case(law, table, weights, last=12, exact_to=None):
    job = Job(len(law.a), law.divisor, four(*law.a), four(*law.b), law.low, law.high, weights, last)
    return Case(f"{law.name}, {table}", 0, 0, job, law.closed, exact_to=exact_to)


LAWS_ON_TABLES = [law_case(law, table, weights) for law in LAWS for table, weights in TABLES.items()]

# Laws of order 1 with half of their claims zero: U times the chance that the total is zero, which for Poisson laws is that of half the
# mean, for binomial laws that of half the chance, and for negative binomial ones that of a ratio p/(2 - p).
HALF_ZERO = {
    "Poisson 3/2": (472366552, 472366553),  # e to the -3/4
    "Poisson 7/1000": (996506117, 996506118),  # e to the -7/2000
    "Poisson 10": (6737946, 6737947),  # e to the -5
    "binomial 4 1/3": (482253086, 482253087),  # 5/6 to the fourth
    "binomial 10 1/5": (348678440, 348678441),  # 9/10 to the tenth
    "binomial 12 1/1000": (994016472, 994016473),  # 1999/2000 to the twelfth
    "binomial 3 3/4": (244140625, 244140625),  # 5/8 to the third
    "negative binomial 2 1/3": (640000000, 640000000),  # 4/5 squared
    "negative binomial 1 1/2": (666666666, 666666667),  # 2/3
    "negative binomial 5/2 1/2": (362887369, 362887370),  # 2/3 squared, times its root
    "negative binomial 1/2 1/2": (816496580, 816496581),  # the root of 2/3
}


def zero_case(law, table, weights, zero, low, high, last=12, exact_to=None):
    job = Job(1, law.divisor, four(*law.a), four(*law.b), low, high, weights, last, zero)
    return Case(f"{law.name}, {table}, w(0) {zero}", 0, 0, job, law.closed, exact_to=exact_to)


# with half of the claims zero; and with fewer and with more, where the start stays the chance of no claims
ORDER_ONE = [law for law in LAWS if len(law.a) == 1]
OTHER_ZEROS = {"two sizes alike": 1, "no size 2": 17, "a dozen sizes": 3}
ZERO_LAWS = [
    *[zero_case(law, table, weights, sum(weights), *HALF_ZERO[law.name]) for law in ORDER_ONE for table, weights in TABLES.items()],
    *[zero_case(law, table, TABLES[table], zero, law.low, law.high) for law in ORDER_ONE for table, zero in OTHER_ZEROS.items()],
]

# a wide gap between the starts
WIDE = [Case(f"{case.name}, from half the start on", 0, 0, replace(case.job, low_start=case.job.low_start // 2), case.law)
        for case in LAWS_ON_TABLES + ZERO_LAWS if case.job.weights == TABLES["no size 2"]]

# up to X 500; with 500 sizes the exact amounts of the first totals only, as direct convolutions take their time
BY_NAME = {law.name: law for law in LAWS}
LONG = [
    law_case(BY_NAME["binomial 10 1/5"], "one size, X 500", [1], 500),
    law_case(BY_NAME["negative binomial 1 1/2"], "the 500th size alone, X 500", LAST_SIZE, 500),
    law_case(BY_NAME["Poisson 10"], "500 sizes alike, X 500", [1] * 500, 500, exact_to=40),
    law_case(BY_NAME["one to four at a time"], "500 sizes, X 500", [1 + y % 3 for y in range(500)], 500, exact_to=40),
    zero_case(BY_NAME["Poisson 10"], "500 sizes alike, X 500", [1] * 500, 500, *HALF_ZERO["Poisson 10"], 500, exact_to=20),
    zero_case(BY_NAME["binomial 3 3/4"], "one size, X 500", [1], 999, 15625000, 15625000, 500),
]

CASES = [*PAPER, *TEMPTING_AND_WRONG, *CHECKS, *ORDER, *RANGE_AND_BOUND, *ALLOWANCE, *LAWS_ON_TABLES, *WIDE, *LONG, *ZERO, *ZERO_ORDER,
         *ZERO_ROWS, *ZERO_LAWS, *MARKS]
