"""Calls for the start, of a mean and of a chance with a number of trials. The paper's limits are written out in the cases, for limits.py to
be held to. The starts are worked out apart from start.py, as the comments say, but for those that are None: these have the calculator and
the exact checks of started.py alone."""
from fractions import Fraction
from typing import NamedTuple

from cases_published import Known, binomial, negative_binomial, poisson
from limits import UNIT
from started import zero_of_mean, zero_of_shape, zero_of_trials

MOST = 2 ** 64 - 1
# Twenty times this is 4 more than 64 bits hold.
WRAPS = 922_337_203_685_477_581


class Case(NamedTuple):
    """What is tried, the number that the paper asks for, the call's numbers (the upper r and the lower s; for trials, N too), and the start
    (0 and 0 after a refusal)."""
    name: str
    number: int
    given: tuple
    low: int = 0
    high: int = 0


# The starts of the means 0 to 20. Each low is the last times 0.367879441, by long multiplication as the comment has it, without what stands
# behind the point; each high is the last times 0.367879442, and up to the next whole number.
WHOLE_MEANS = [
    (UNIT, UNIT),
    (367879441, 367879442),
    (135335283, 135335284),  # 135335283.110, 135335283.846
    (49787068, 49787069),  # 49787068.257, 49787068.760
    (18315638, 18315640),  # 18315638.744, 18315639.162
    (6737946, 6737948),  # 6737946.668, 6737947.423
    (2478751, 2478753),  # 2478751.807, 2478752.550
    (911881, 911883),  # 911881.532, 911882.270
    (335462, 335464),  # 335462.272, 335463.009
    (123409, 123411),  # 123409.573, 123410.309
    (45399, 45401),  # 45399.633, 45400.369
    (16701, 16703),  # 16701.358, 16702.094
    (6143, 6145),  # 6143.954, 6144.690
    (2259, 2261),  # 2259.883, 2260.619
    (831, 832),  # 831.039, 831.775
    (305, 307),  # 305.707, 306.075
    (112, 113),  # 112.203, 112.938
    (41, 42),  # 41.202, 41.570
    (15, 16),  # 15.083, 15.450
    (5, 6),  # 5.518, 5.886
    (1, 3),  # 1.839, 2.207
]

MEANS = [
    *(Case(f"mean {mean}", 0, (mean, 1), *start) for mean, start in enumerate(WHOLE_MEANS)),
    Case("mean 0 over 2", 0, (0, 2), UNIT, UNIT),
    Case("mean 0 over 1,000", 0, (0, 1000), UNIT, UNIT),
    Case("mean 1 as 2 over 2", 0, (2, 2), 367879441, 367879442),
    Case("mean 1 as 1,000 over 1,000", 0, (1000, 1000), 367879441, 367879442),
    Case("mean 2 as 14 over 7", 0, (14, 7), 135335283, 135335284),
    Case("mean 20 as 40 over 2", 0, (40, 2), 1, 3),
    Case("mean 20 as 20,000 over 1,000", 0, (20000, 1000), 1, 3),

    # Terms 0 to 3: U; 1000000; 500; 0 and 1. All later ones: 0 and 1.
    # Low: 1000000000 + 500 - 1000000, and 1 off for each of 3, 5, 7, 9, 11 and 13. High: the same, and 1 on for each of 4, 6, 8, 10 and 12.
    Case("mean 1/1,000, the smallest above 0", 0, (1, 1000), 999000494, 999000505),
    # Terms 0 to 6: U; 100000000; 5000000; 166666 and 166667; 4166 and 4167; 83 and 84; 1 and 2. All later ones: 0 and 1.
    # Low: 1005004167 - (100166751 + 4). High: (1005004169 + 3) - 100166749.
    Case("mean 1/10", 0, (1, 10), 904837412, 904837423),
    Case("mean 1/10 as 100 over 1,000", 0, (100, 1000), 904837412, 904837423),
    # Terms 0 to 9: U; 500000000; 125000000; 20833333 and 20833334; 2604166 and 2604167; 260416 and 260417; 21701 and 21702; 1550 and 1551;
    # 96 and 97; 5 and 6. All later ones: 0 and 1.
    # Low: 1127625963 - (521095308 + 2). High: (1127625966 + 2) - 521095304.
    Case("mean 1/2", 0, (1, 2), 606530653, 606530664),
    # The starts of 1/10 and of 1/2 times 0.367879441 and 0.367879442: 332871081.322, 332871086.273 and 223130157.575, 223130162.228.
    Case("mean 11/10", 0, (11, 10), 332871081, 332871087),
    Case("mean 3/2", 0, (3, 2), 223130157, 223130163),

    Case("mean 2/3", 0, (2, 3), None, None),
    Case("mean 37/10", 0, (37, 10), None, None),
    Case("mean 999/1,000, one below a whole", 0, (999, 1000), None, None),
    Case("mean 1,001/1,000, one above a whole", 0, (1001, 1000), None, None),
    Case("mean 19,999/1,000, one below the limit", 0, (19999, 1000), None, None),
    Case("mean 19,979/999, one below the limit", 0, (19979, 999), None, None),
    Case("mean 39/2, half below the limit", 0, (39, 2), None, None),

    # 41 for s
    Case("mean 0 over 0", 41, (0, 0)),
    Case("mean 1 over 0", 41, (1, 0)),
    Case("mean 0 over 1,001", 41, (0, 1001)),
    Case("mean 1 as 1,001 over 1,001", 41, (1001, 1001)),
    Case("s 2 to the 32, and 1", 41, (1, 2 ** 32 + 1)),
    Case("s 2 to the 63, 20s wraps to 0, r 0", 41, (0, 2 ** 63)),
    Case("s 2 to the 63, 20s wraps to 0, r 1", 41, (1, 2 ** 63)),
    Case("20s wraps to 4, r 0", 41, (0, WRAPS)),
    Case("20s wraps to 4, r 4", 41, (4, WRAPS)),
    Case("20s wraps to 4, r 5", 41, (5, WRAPS)),
    Case("the greatest s", 41, (0, MOST)),
    Case("the greatest s and r", 41, (MOST, MOST)),

    # 41 for the mean
    Case("mean 21", 41, (21, 1)),
    Case("mean 41/2, half above the limit", 41, (41, 2)),
    Case("mean 20,001/1,000, one above the limit", 41, (20001, 1000)),
    Case("mean 19,981/999, one above the limit", 41, (19981, 999)),
    Case("r 2 to the 32, and 1", 41, (2 ** 32 + 1, 1)),
    Case("r 2 to the 63", 41, (2 ** 63, 1000)),
    Case("the greatest r, s 1", 41, (MOST, 1)),
    Case("the greatest r, s 1,000", 41, (MOST, 1000)),

    # s and the mean at once
    Case("mean 20,021/1,001", 41, (20021, 1001)),
    Case("the greatest r over 0", 41, (MOST, 0)),
    Case("the greatest r over 1,001", 41, (MOST, 1001)),
]

TRIALS = [
    Case("chance 0, one trial", 0, (0, 1, 1), UNIT, UNIT),
    Case("chance 0 over 1,000, 1,000 trials", 0, (0, 1000, 1000), UNIT, UNIT),

    # U is 2 to the 9 times 5 to the 9, so that halves come out even for nine trials.
    Case("1/2, 1 trial", 0, (1, 2, 1), 500000000, 500000000),
    Case("1/2, 2 trials", 0, (1, 2, 2), 250000000, 250000000),
    Case("1/2, 3 trials", 0, (1, 2, 3), 125000000, 125000000),
    Case("1/2, 9 trials, the last without rounding", 0, (1, 2, 9), 1953125, 1953125),
    Case("1/2, 10 trials", 0, (1, 2, 10), 976562, 976563),
    Case("1/2 as 500 over 1,000, 10 trials", 0, (500, 1000, 10), 976562, 976563),
    # Where s - r is 1, rounding at each step comes to rounding once: U over s to the N. Here 2 to the 29 is 536870912.
    Case("1/2, 29 trials", 0, (1, 2, 29), 1, 2),
    Case("1/2, 30 trials", 0, (1, 2, 30), 0, 1),
    Case("1/2, 1,000 trials", 0, (1, 2, 1000), 0, 1),
    Case("9/10, 9 trials, the last without rounding", 0, (9, 10, 9), 1, 1),
    Case("9/10, 10 trials", 0, (9, 10, 10), 0, 1),
    Case("6/7, 1 trial", 0, (6, 7, 1), 142857142, 142857143),
    Case("6/7, 2 trials", 0, (6, 7, 2), 20408163, 20408164),
    Case("999/1,000, 1 trial", 0, (999, 1000, 1), 1000000, 1000000),
    Case("999/1,000, 3 trials", 0, (999, 1000, 3), 1, 1),
    Case("999/1,000, 4 trials", 0, (999, 1000, 4), 0, 1),
    Case("999/1,000, 1,000 trials", 0, (999, 1000, 1000), 0, 1),

    # 666666666.6; then lows without rounding, and highs of 444444444.6, 296296296.6, 197530864.6; then 131687242.6 and 131687243.3, where
    # the exact power, 131687242.8, rounded once would have a lower high
    Case("1/3, 1 trial", 0, (1, 3, 1), 666666666, 666666667),
    Case("1/3, 2 trials", 0, (1, 3, 2), 444444444, 444444445),
    Case("1/3, 3 trials", 0, (1, 3, 3), 296296296, 296296297),
    Case("1/3, 4 trials", 0, (1, 3, 4), 197530864, 197530865),
    Case("1/3, 5 trials, wider than the power rounded once", 0, (1, 3, 5), 131687242, 131687244),
    # two thirds of 2 are 1.3, which is 2 again when rounded up; and of 1 nothing remains when rounded down
    Case("1/3, 1,000 trials, a high that stays at 2", 0, (1, 3, 1000), 0, 2),

    # 9 to the 9 is 387420489; then 348678440.1; 313810596.0 and 313810596.9; 282429536.4 and 282429537.3
    Case("1/10, 9 trials, the last without rounding", 0, (1, 10, 9), 387420489, 387420489),
    Case("1/10, 10 trials", 0, (1, 10, 10), 348678440, 348678441),
    Case("1/10, 11 trials", 0, (1, 10, 11), 313810596, 313810597),
    Case("1/10, 12 trials", 0, (1, 10, 12), 282429536, 282429538),
    # nine tenths of 9 are 8.1, which is 9 again; and a high above 9 falls
    Case("1/10, 1,000 trials, a high that stays at 9", 0, (1, 10, 1000), 0, 9),

    # 999 to the third is 997002999; then 996005996.001
    Case("1/1,000, 3 trials, the last without rounding", 0, (1, 1000, 3), 997002999, 997002999),
    Case("1/1,000, 4 trials", 0, (1, 1000, 4), 996005996, 996005997),
    Case("1/1,000, 1,000 trials", 0, (1, 1000, 1000), None, None),
    Case("1/1,000, 999 trials", 0, (1, 1000, 999), None, None),
    Case("7/100, 40 trials", 0, (7, 100, 40), None, None),
    Case("333/1,000, 25 trials", 0, (333, 1000, 25), None, None),
    Case("2/999, 500 trials", 0, (2, 999, 500), None, None),

    # 41
    Case("s 0", 41, (0, 0, 1)),
    Case("s 1,001", 41, (0, 1001, 1)),
    Case("s 1,001, one below 1", 41, (1000, 1001, 1)),
    Case("s 2 to the 32, and 1", 41, (0, 2 ** 32 + 1, 1)),
    Case("s 2 to the 63", 41, (1, 2 ** 63, 1)),
    Case("20s wraps to 4", 41, (5, WRAPS, 1)),
    Case("the greatest s", 41, (0, MOST, 1)),
    Case("the greatest s, s - r is 1", 41, (MOST - 1, MOST, 1)),

    # 42; a mean above 20 is no matter here
    Case("1/1", 42, (1, 1, 1)),
    Case("2/1, s - r wraps to the greatest number", 42, (2, 1, 1)),
    Case("2/2", 42, (2, 2, 1)),
    Case("3/2", 42, (3, 2, 1)),
    Case("1,000/1,000", 42, (1000, 1000, 1)),
    Case("1,001/1,000", 42, (1001, 1000, 1)),
    Case("20/1", 42, (20, 1, 1)),
    Case("21/1", 42, (21, 1, 1)),
    Case("20,001/1,000", 42, (20001, 1000, 1000)),
    Case("r 2 to the 32", 42, (2 ** 32, 2, 1)),
    Case("r 2 to the 63", 42, (2 ** 63, 1000, 1)),
    Case("the greatest r, s - r wraps to 2", 42, (MOST, 1, 1)),
    Case("the greatest r, s - r wraps to 1,001", 42, (MOST, 1000, 1)),

    # 43
    Case("no trials", 43, (1, 2, 0)),
    Case("1,001 trials", 43, (1, 2, 1001)),
    Case("2 to the 32 trials, and 1", 43, (1, 2, 2 ** 32 + 1)),
    Case("2 to the 63 trials", 43, (1, 2, 2 ** 63)),
    Case("the greatest number of trials", 43, (1, 2, MOST)),
    Case("chance 0, no trials", 43, (0, 1, 0)),
    Case("chance 0, 1,001 trials", 43, (0, 1000, 1001)),

    # two conditions at once: the first in the list
    Case("41 and 42, s 0", 41, (1, 0, 1)),
    Case("41 and 42, s 1,001", 41, (1001, 1001, 1)),
    Case("41 and 42, the greatest numbers", 41, (MOST, MOST, 1)),
    Case("41 and 43, no trials", 41, (0, 1001, 0)),
    Case("41 and 43, 1,001 trials", 41, (0, 1001, 1001)),
    Case("42 and 43, no trials", 42, (1, 1, 0)),
    Case("42 and 43, 1,001 trials", 42, (1000, 1000, 1001)),
    Case("42 and 43, the greatest numbers", 42, (MOST, 1000, MOST)),
    Case("41, 42 and 43, all 0", 41, (0, 0, 0)),
    Case("41, 42 and 43, just outside", 41, (1001, 1001, 1001)),
    Case("41, 42 and 43, the greatest numbers", 41, (MOST, MOST, MOST)),
]


class Zeros(NamedTuple):
    """A law, the share of its claims that are zero, its chance of no claims and the chance that the total is zero, both by a closed form as
    two fractions that it lies between, and what a call for the start is given in order to hold the latter, by hand: a changed mean, or a
    changed chance with a number of trials."""
    name: str
    law: Known
    share: Fraction
    none: tuple
    zero: tuple
    given: tuple


def zero_mean(mean, share, *given):
    return Zeros(f"Poisson {mean}, zeros {share}", poisson(mean), share, zero_of_mean(mean, 0), zero_of_mean(mean, share), given)


def zero_trials(trials, chance, share, *given):
    return Zeros(f"binomial {trials} {chance}, zeros {share}", binomial(trials, chance), share, zero_of_trials(trials, chance, 0),
                 zero_of_trials(trials, chance, share), (*given, trials))


def zero_shape(shape, ratio, share, *given):
    return Zeros(f"negative binomial {shape} {ratio}, zeros {share}", negative_binomial(shape, ratio), share,
                 zero_of_shape(shape, ratio, 0), zero_of_shape(shape, ratio, share), (*given, shape))


# Wish 7: with a share q of zeros a mean, or the chance of a trial, changes by the factor 1 - q, and a ratio p becomes p(1 - q)/(1 - pq).
ZEROS = [
    zero_mean(3, Fraction(0), 3, 1),
    zero_mean(1, Fraction(1, 2), 1, 2),
    zero_mean(2, Fraction(1, 4), 3, 2),
    zero_mean(Fraction(37, 10), Fraction(3, 10), 259, 100),
    zero_mean(5, Fraction(999, 1000), 1, 200),
    zero_mean(20, Fraction(1, 1000), 999, 50),

    zero_trials(10, Fraction(1, 5), Fraction(0), 1, 5),
    zero_trials(2, Fraction(1, 2), Fraction(1, 2), 1, 4),
    zero_trials(4, Fraction(1, 3), Fraction(1, 4), 1, 4),
    zero_trials(12, Fraction(1, 10), Fraction(1, 3), 1, 15),
    zero_trials(3, Fraction(7, 10), Fraction(2, 5), 21, 50),
    zero_trials(999, Fraction(1, 2), Fraction(499, 500), 1, 1000),

    zero_shape(2, Fraction(2, 3), Fraction(0), 2, 3),
    zero_shape(1, Fraction(1, 2), Fraction(1, 2), 1, 3),
    zero_shape(2, Fraction(1, 3), Fraction(1, 4), 3, 11),  # 1/4 over 11/12
    zero_shape(3, Fraction(1, 3), Fraction(2, 5), 3, 13),  # 1/5 over 13/15
    zero_shape(3, Fraction(10, 11), Fraction(1, 2), 5, 6),  # 5/11 over 6/11
    zero_shape(40, Fraction(1, 10), Fraction(9, 10), 1, 91),  # 1/100 over 91/100
    zero_shape(7, Fraction(9, 10), Fraction(99, 100), 9, 109),  # 9/1000 over 109/1000
]
