"""Calls for a law as source documents 000 and 001 write it, each with the law made, by hand. The paper's limits are written out in the
cases, for limits.py to be held to."""
from collections.abc import Callable
from fractions import Fraction
from itertools import product
from typing import NamedTuple

import exact

HALF, THIRD = Fraction(1, 2), Fraction(1, 3)
LEAST, MOST = -2 ** 63, 2 ** 63 - 1
ENDS = (LEAST, MOST)


class Known(NamedTuple):
    """A law known by name: A/D and B/D as README.md's table has them, and the closed form of its count coefficients."""
    a: Fraction
    b: Fraction
    closed: Callable


class Case(NamedTuple):
    """What is tried, the number that the paper asks for, the call's four numbers, the law made (0, 0 and 0 after a refusal), and, where it
    has a name, what is known of it."""
    name: str
    number: int
    given: tuple
    divisor: int = 0
    a: int = 0
    b: int = 0
    known: Known = None


def poisson(mean):
    return Known(Fraction(0), Fraction(mean), exact.poisson(mean))


def binomial(trials, chance):
    return Known(-chance / (1 - chance), (trials + 1) * chance / (1 - chance), exact.binomial(trials, chance))


def negative_binomial(shape, chance):
    return Known(chance, (shape - 1) * chance, exact.negative_binomial(shape, chance))


# ---- laws known by name

class Named(NamedTuple):
    """A law's three numbers as 000 has them behind alpha_0 = 0, and as 001 has them behind b_0 = 0, both times a common denominator; and
    the law made."""
    name: str
    panjer_willmot: tuple
    hesselager: tuple
    made: tuple
    known: Known


NAMED = [
    # 000 has alpha_1 = 1, beta_0 the mean and beta_1 = 0.
    Named("Poisson 1", (1, 1, 0), (1, 1, 0), (1, 0, 1), poisson(1)),
    Named("Poisson 3/2", (2, 3, 0), (2, 3, 0), (2, 0, 3), poisson(Fraction(3, 2))),
    Named("Poisson 3/2 by fourths", (4, 6, 0), (4, 6, 0), (4, 0, 6), poisson(Fraction(3, 2))),
    Named("Poisson 3/2, signs turned", (-2, -3, 0), (-2, -3, 0), (2, 0, 3), poisson(Fraction(3, 2))),
    Named("Poisson 37/10", (10, 37, 0), (10, 37, 0), (10, 0, 37), poisson(Fraction(37, 10))),
    Named("Poisson 7/1000", (1000, 7, 0), (1000, 7, 0), (1000, 0, 7), poisson(Fraction(7, 1000))),
    Named("Poisson 1000", (1, 1000, 0), (1, 1000, 0), (1, 0, 1000), poisson(1000)),

    # 000 has alpha_1 = q, beta_0 = Np, where it prints N - p, and beta_1 = -p.
    Named("binomial 1 1/2", (1, 1, -1), (1, 2, -1), (1, -1, 2), binomial(1, HALF)),
    Named("binomial 2 1/2", (1, 2, -1), (1, 3, -1), (1, -1, 3), binomial(2, HALF)),
    Named("binomial 4 1/3", (2, 4, -1), (2, 5, -1), (2, -1, 5), binomial(4, THIRD)),
    Named("binomial 4 1/3 by sixths", (4, 8, -2), (4, 10, -2), (4, -2, 10), binomial(4, THIRD)),
    Named("binomial 12 1/10", (9, 12, -1), (9, 13, -1), (9, -1, 13), binomial(12, Fraction(1, 10))),
    Named("binomial 12 1/10, signs turned", (-9, -12, 1), (-9, -13, 1), (9, -1, 13), binomial(12, Fraction(1, 10))),
    Named("binomial 12 1/1000", (999, 12, -1), (999, 13, -1), (999, -1, 13), binomial(12, Fraction(1, 1000))),
    Named("binomial 3 7/10", (3, 21, -7), (3, 28, -7), (3, -7, 28), binomial(3, Fraction(7, 10))),
    Named("binomial 999 1/2", (1, 999, -1), (1, 1000, -1), (1, -1, 1000), binomial(999, HALF)),

    # 000 has alpha_1 = 1, beta_0 = p alpha and beta_1 = p, where alpha is the shape.
    Named("negative binomial 1 1/2", (2, 1, 1), (2, 0, 1), (2, 1, 0), negative_binomial(1, HALF)),
    Named("negative binomial 2 1/3", (3, 2, 1), (3, 1, 1), (3, 1, 1), negative_binomial(2, THIRD)),
    Named("negative binomial 3 1/3", (3, 3, 1), (3, 2, 1), (3, 1, 2), negative_binomial(3, THIRD)),
    Named("negative binomial 3 1/3 by ninths", (9, 9, 3), (9, 6, 3), (9, 3, 6), negative_binomial(3, THIRD)),
    Named("negative binomial 3 1/3, signs turned", (-3, -3, -1), (-3, -2, -1), (3, 1, 2), negative_binomial(3, THIRD)),
    Named("negative binomial 3 10/11", (11, 30, 10), (11, 20, 10), (11, 10, 20), negative_binomial(3, Fraction(10, 11))),
    Named("negative binomial 5/2 1/2", (4, 5, 2), (4, 3, 2), (4, 2, 3), negative_binomial(Fraction(5, 2), HALF)),
    Named("negative binomial 1/2 1/2", (4, 1, 2), (4, -1, 2), (4, 2, -1), negative_binomial(HALF, HALF)),
    Named("negative binomial 1001 1/2", (2, 1001, 1), (2, 1000, 1), (2, 1, 1000), negative_binomial(1001, HALF)),
    # where p is 1, which is no distribution; 000's Waring law would have this line with lambda 0
    Named("negative binomial 2 1", (1, 2, 1), (1, 1, 1), (1, 1, 1), negative_binomial(2, Fraction(1))),
]

# ---- the line of 000: alpha_0, alpha_1, beta_0, beta_1

# numbers that are not 0, though 32 bits would take some for it
NOT_ZERO = (1, -1, 1000, -1000, 2 ** 32, -2 ** 32, *ENDS)
# and too great ones, though 16 or 32 bits would take some for good ones
TOO_GREAT = (1001, -1001, 2 ** 16 + 1, 2 ** 32, -2 ** 32, 2 ** 32 + 1, -2 ** 32 - 1, *ENDS, -MOST)

PANJER_WILLMOT = [
    *[Case(f"{law.name}, as 000 has it", 0, (0, *law.panjer_willmot), *law.made, law.known) for law in NAMED],
    Case("binomial 12 1/10 with N - p, as 000 prints it, another law", 0, (0, 9, 119, -1), 9, -1, 120),
    Case("binomial 1000 1/2, as 000 has it", 53, (0, 1, 1000, -1)),
    Case("negative binomial 1002 1/2, as 000 has it", 53, (0, 2, 1002, 1)),
    # alpha_0 = lambda - 1, alpha_1 = 1, beta_0 = theta, beta_1 = 0
    Case("Hyper-Poisson, lambda 2, theta 1/2", 51, (2, 2, 1, 0)),
    Case("Hyper-Poisson, lambda 1/2, theta 1", 51, (-1, 2, 2, 0)),
    Case("Hyper-Poisson, lambda 1, theta 1/2, which is Poisson", 0, (0, 2, 1, 0), 2, 0, 1, poisson(HALF)),
    # alpha_0 = 1, alpha_1 = 1, beta_0 = theta, beta_1 = theta
    Case("Logarithmic, theta 1/2", 51, (2, 2, 1, 1)),
    # alpha_0 = lambda, alpha_1 = 1, beta_0 = a, beta_1 = 1
    Case("Waring, lambda 3, a 2", 51, (3, 1, 2, 1)),
    Case("Waring, lambda 1/2, a 1/4", 51, (2, 4, 1, 4)),
    # alpha_1 = M - N - m + 1, beta_0 = Nm and beta_1 = -(N + m - 1), with alpha_2 = beta_2 = 1 besides
    Case("Hypergeometric, M 10, N 3, m 2, its second coefficients left out, another law", 0, (0, 6, 6, -4), 6, -4, 10),

    # nothing is reduced
    Case("beta 10 and 4 over 2", 0, (0, 2, 10, 4), 2, 4, 6),
    Case("beta -10 and -4 over -2", 0, (0, -2, -10, -4), 2, 4, 6),
    Case("beta 0 and 0 over 1000", 0, (0, 1000, 0, 0), 1000, 0, 0),
    Case("beta 2000 and 1000 over 1000", 0, (0, 1000, 2000, 1000), 1000, 1000, 1000),
    Case("alpha_1 1002, where 501 would do", 53, (0, 1002, 2, 0)),
    Case("beta_1 1002 over 2, where 501 over 1 would do", 53, (0, 2, 1002, 1002)),
    Case("beta_0 1002 over 2, where 501 over 1 would do", 53, (0, 2, 1002, 0)),

    # signs
    Case("alpha_1 3, B below 0", 0, (0, 3, -2, 1), 3, 1, -3),
    Case("alpha_1 -3, A below 0", 0, (0, -3, -2, 1), 3, -1, 3),
    Case("alpha_1 -3, B below 0", 0, (0, -3, 2, -1), 3, 1, -3),
    Case("alpha_1 -3, A and B below 0", 0, (0, -3, 7, 2), 3, -2, -5),
    Case("alpha_1 -3, A and B above 0", 0, (0, -3, -7, -2), 3, 2, 5),
    Case("alpha_1 -1, A 0", 0, (0, -1, 1, 0), 1, 0, -1),
    Case("alpha_1 -1, B 0", 0, (0, -1, 1, 1), 1, -1, 0),
    Case("alpha_1 -1, A and B 0", 0, (0, -1, 0, 0), 1, 0, 0),

    # 51
    *[Case(f"alpha_0 {constant}", 51, (constant, 1, 1, 0)) for constant in NOT_ZERO],
    *[Case(f"alpha_0 {constant}, signs turned", 51, (constant, -1, 1, 1)) for constant in NOT_ZERO],

    # 52
    Case("alpha_1 0", 52, (0, 0, 1, 0)),
    Case("alpha_1 0, A and B at their limits", 52, (0, 0, -2000, -1000)),
    Case("all 0", 52, (0, 0, 0, 0)),

    # 53 for D
    *[Case(f"alpha_1 {size}", 0, (0, size, 3, 1), size, 1, 2) for size in (1, 2, 999, 1000)],
    *[Case(f"alpha_1 -{size}", 0, (0, -size, 3, 1), size, -1, -2) for size in (1, 2, 999, 1000)],
    *[Case(f"alpha_1 {divisor}", 53, (0, divisor, 3, 1)) for divisor in TOO_GREAT],

    # 53 for A, with B 0, and for B, with A 0
    *[Case(f"beta_1 {a}, B 0", 0, (0, 1, a, a), 1, a, 0) for a in (999, 1000, -999, -1000)],
    *[Case(f"beta_1 {a}, B 0, signs turned", 0, (0, -1, a, a), 1, -a, 0) for a in (999, 1000, -999, -1000)],
    *[Case(f"beta_1 {a}, B 0, alpha_1 {divisor}", 53, (0, divisor, a, a)) for divisor in (1, -1) for a in TOO_GREAT],
    *[Case(f"beta_0 {b}, A 0", 0, (0, 1, b, 0), 1, 0, b) for b in (999, 1000, -999, -1000)],
    *[Case(f"beta_0 {b}, A 0, signs turned", 0, (0, -1, b, 0), 1, 0, -b) for b in (999, 1000, -999, -1000)],
    *[Case(f"beta_0 {b}, A 0, alpha_1 {divisor}", 53, (0, divisor, b, 0)) for divisor in (1, -1) for b in TOO_GREAT],

    # 53 for B as a difference: beta_0 has no limit of its own
    Case("2000 - 1000", 0, (0, 1, 2000, 1000), 1, 1000, 1000),
    Case("2000 - 999", 53, (0, 1, 2000, 999)),
    Case("2001 - 1000", 53, (0, 1, 2001, 1000)),
    Case("2001 - 1001, A one too great", 53, (0, 1, 2001, 1001)),
    Case("1999 - 1000", 0, (0, 1, 1999, 1000), 1, 1000, 999),
    Case("1999 - 999", 0, (0, 1, 1999, 999), 1, 999, 1000),
    Case("1500 - 501", 0, (0, 1, 1500, 501), 1, 501, 999),
    Case("1500 - 500", 0, (0, 1, 1500, 500), 1, 500, 1000),
    Case("1500 - 499", 53, (0, 1, 1500, 499)),
    Case("1001 - 1", 0, (0, 1, 1001, 1), 1, 1, 1000),
    Case("1001 - 2", 0, (0, 1, 1001, 2), 1, 2, 999),
    Case("1000 - -1", 53, (0, 1, 1000, -1)),
    Case("999 - -1", 0, (0, 1, 999, -1), 1, -1, 1000),
    Case("500 - -500", 0, (0, 1, 500, -500), 1, -500, 1000),
    Case("501 - -500", 53, (0, 1, 501, -500)),
    Case("0 - -1000", 0, (0, 1, 0, -1000), 1, -1000, 1000),
    Case("1 - -1000", 53, (0, 1, 1, -1000)),
    Case("-2000 - -1000", 0, (0, 1, -2000, -1000), 1, -1000, -1000),
    Case("-2000 - -999", 53, (0, 1, -2000, -999)),
    Case("-2001 - -1000", 53, (0, 1, -2001, -1000)),
    Case("-2001 - -1001, A one too small", 53, (0, 1, -2001, -1001)),
    Case("-1001 - -1", 0, (0, 1, -1001, -1), 1, -1, -1000),
    Case("-1000 - 1", 53, (0, 1, -1000, 1)),
    Case("-999 - 1", 0, (0, 1, -999, 1), 1, 1, -1000),
    Case("-500 - 500", 0, (0, 1, -500, 500), 1, 500, -1000),
    Case("-501 - 500", 53, (0, 1, -501, 500)),
    Case("0 - 1000", 0, (0, 1, 0, 1000), 1, 1000, -1000),
    Case("-1 - 1000", 53, (0, 1, -1, 1000)),
    Case("2000 - 1000, signs turned", 0, (0, -1, 2000, 1000), 1, -1000, -1000),
    Case("2000 - 999, signs turned", 53, (0, -1, 2000, 999)),
    Case("-2000 - -1000, signs turned", 0, (0, -1, -2000, -1000), 1, 1000, 1000),
    Case("-2000 - -999, signs turned", 53, (0, -1, -2000, -999)),
    Case("0 - 1000, signs turned", 0, (0, -1, 0, 1000), 1, -1000, 1000),
    Case("-1 - 1000, signs turned", 53, (0, -1, -1, 1000)),
    Case("2000 - 1000, D at its limit, signs turned", 0, (0, -1000, 2000, 1000), 1000, -1000, -1000),

    # differences about and beyond the ends of 64 bits, such as these would take for -1, 1 and 1000, and small ones where A is great
    *[Case(f"{beta_0} - {beta_1}, alpha_1 {divisor}", 53, (0, divisor, beta_0, beta_1)) for divisor in (1, -1) for beta_0, beta_1 in (
        (MOST, -1), (MOST, -1000), (LEAST, 1), (LEAST, 1000), (0, LEAST), (-1, LEAST), (1, LEAST),
        (MOST, LEAST), (LEAST, MOST), (LEAST + 499, MOST - 500),
        (MOST, MOST - 1000), (LEAST, LEAST + 1000), (2 ** 32 + 1, 2 ** 32),
    )],
    # and differences that 32 bits would take for a good one
    *[Case(f"{beta_0} - {beta_1}", 53, (0, 1, beta_0, beta_1))
      for beta_0, beta_1 in ((2 ** 32 + 5, 4), (2 ** 32 + 2000, 1000), (-2 ** 32 - 5, -4), (2 ** 31, 0), (-2 ** 31 - 1, 0))],

    # two conditions at once: the first in the list
    *[Case(f"51 and 52, alpha_0 {constant}", 51, (constant, 0, 1, 0)) for constant in NOT_ZERO],
    *[Case(f"51 and 53 for D {divisor}", 51, (1, divisor, 3, 1)) for divisor in TOO_GREAT],
    *[Case(f"51 and 53 for A {a}", 51, (-1, 1, a, a)) for a in TOO_GREAT],
    *[Case(f"51 and 53 for B {b}", 51, (1, -1, b, 0)) for b in TOO_GREAT],
    *[Case(f"52 and 53 for A {a}", 52, (0, 0, a, a)) for a in TOO_GREAT],
    *[Case(f"52 and 53 for B {b}", 52, (0, 0, b, 0)) for b in TOO_GREAT],
    Case("52 and 53 for A and B", 52, (0, 0, 2002, 1001)),
    Case("53 for D and A", 53, (0, 1001, 1001, 1001)),
    Case("53 for D and B", 53, (0, -1001, 1001, 0)),
    Case("53 for A and B", 53, (0, 1, 2002, 1001)),
    Case("53 for D, A and B", 53, (0, 1001, 2002, 1001)),

    # and three
    Case("51, 52 and 53 for A", 51, (1, 0, 1001, 1001)),
    Case("51, 52 and 53 for B", 51, (-1, 0, 1001, 0)),
    Case("51, 52 and 53 for A and B", 51, (1, 0, 2002, 1001)),

    # the ends of 64 bits, in all places
    *[Case(f"ends {given}", 51, given) for given in product(ENDS, repeat=4)],
    *[Case(f"ends {given}, alpha_1 0", 51, (given[0], 0, *given[1:])) for given in product(ENDS, repeat=3)],
    *[Case(f"ends {given}, alpha_0 0", 53, (0, *given)) for given in product(ENDS, repeat=3)],
    *[Case(f"ends {given}, alpha_0 and alpha_1 0", 52, (0, 0, *given)) for given in product(ENDS, repeat=2)],
]

# ---- the line of 001: b_0, b_1, a_0, a_1

HESSELAGER = [
    *[Case(f"{law.name}, as 001 has it", 0, (0, *law.hesselager), *law.made, law.known) for law in NAMED],
    Case("binomial 1000 1/2, as 001 has it", 53, (0, 1, 1001, -1)),
    Case("negative binomial 1002 1/2, as 001 has it", 53, (0, 2, 1001, 1)),
    Case("Hyper-Poisson, lambda 2, theta 1/2, as 001 has it", 51, (2, 2, 1, 0)),
    Case("Hyper-Poisson, lambda 1/2, theta 1, as 001 has it", 51, (-1, 2, 2, 0)),
    # (1 + n) p_n = theta n p_(n-1)
    Case("Logarithmic, theta 1/2, as 001 has it", 51, (2, 2, 0, 1)),
    # b_0 = alpha + beta, b_1 = 1, a_0 = alpha - 1, a_1 = 1
    Case("Waring, alpha 2, beta 1, as 001 has it", 51, (3, 1, 1, 1)),
    Case("Waring, alpha 1/4, beta 1/4, as 001 has it", 51, (2, 4, -3, 4)),

    # nothing is reduced
    Case("a 6 and 4 over 2", 0, (0, 2, 6, 4), 2, 4, 6),
    Case("a -6 and -4 over -2", 0, (0, -2, -6, -4), 2, 4, 6),
    Case("a 0 and 0 over 1000", 0, (0, 1000, 0, 0), 1000, 0, 0),
    Case("a 1000 and 1000 over 1000", 0, (0, 1000, 1000, 1000), 1000, 1000, 1000),
    Case("b_1 1002, where 501 would do", 53, (0, 1002, 2, 0)),
    Case("a_1 1002 over 2, where 501 over 1 would do", 53, (0, 2, 0, 1002)),
    Case("a_0 1002 over 2, where 501 over 1 would do", 53, (0, 2, 1002, 0)),

    # signs
    Case("b_1 3, B below 0", 0, (0, 3, -2, 1), 3, 1, -2),
    Case("b_1 3, A below 0", 0, (0, 3, 5, -2), 3, -2, 5),
    Case("b_1 -3, A below 0", 0, (0, -3, -2, 1), 3, -1, 2),
    Case("b_1 -3, B below 0", 0, (0, -3, 2, -1), 3, 1, -2),
    Case("b_1 -3, A and B below 0", 0, (0, -3, 7, 2), 3, -2, -7),
    Case("b_1 -3, A and B above 0", 0, (0, -3, -7, -2), 3, 2, 7),
    Case("b_1 -1, A 0", 0, (0, -1, 1, 0), 1, 0, -1),
    Case("b_1 -1, B 0", 0, (0, -1, 0, 1), 1, -1, 0),
    Case("b_1 -1, A and B 0", 0, (0, -1, 0, 0), 1, 0, 0),

    # 51
    *[Case(f"b_0 {constant}", 51, (constant, 1, 1, 0)) for constant in NOT_ZERO],
    *[Case(f"b_0 {constant}, signs turned", 51, (constant, -1, 0, 1)) for constant in NOT_ZERO],

    # 52
    Case("b_1 0", 52, (0, 0, 1, 0)),
    Case("b_1 0, A and B at their limits", 52, (0, 0, -1000, -1000)),
    Case("all 0, as 001 has it", 52, (0, 0, 0, 0)),

    # 53 for D
    *[Case(f"b_1 {size}", 0, (0, size, 2, 1), size, 1, 2) for size in (1, 2, 999, 1000)],
    *[Case(f"b_1 -{size}", 0, (0, -size, 2, 1), size, -1, -2) for size in (1, 2, 999, 1000)],
    *[Case(f"b_1 {divisor}", 53, (0, divisor, 2, 1)) for divisor in TOO_GREAT],

    # 53 for A and for B, neither of which is a difference
    *[Case(f"a_1 {a}", 0, (0, 1, 3, a), 1, a, 3) for a in (999, 1000, -999, -1000)],
    *[Case(f"a_1 {a}, signs turned", 0, (0, -1, 3, a), 1, -a, -3) for a in (999, 1000, -999, -1000)],
    *[Case(f"a_1 {a}, b_1 {divisor}", 53, (0, divisor, 3, a)) for divisor in (1, -1) for a in TOO_GREAT],
    *[Case(f"a_0 {b}", 0, (0, 1, b, 3), 1, 3, b) for b in (999, 1000, -999, -1000)],
    *[Case(f"a_0 {b}, signs turned", 0, (0, -1, b, 3), 1, -3, -b) for b in (999, 1000, -999, -1000)],
    *[Case(f"a_0 {b}, b_1 {divisor}", 53, (0, divisor, b, 3)) for divisor in (1, -1) for b in TOO_GREAT],
    Case("a 1000 and -1000, which are 2000 apart", 0, (0, 1, 1000, -1000), 1, -1000, 1000),
    Case("a -1000 and 1000, which are 2000 apart", 0, (0, 1, -1000, 1000), 1, 1000, -1000),
    Case("a 2000 and 1000, which are 1000 apart", 53, (0, 1, 2000, 1000)),
    Case("a 1001 and 1001, which are equal", 53, (0, 1, 1001, 1001)),
    Case("a -1000 and -1000, D at its limit", 0, (0, 1000, -1000, -1000), 1000, -1000, -1000),
    Case("a -1000 and -1000, D at its limit, signs turned", 0, (0, -1000, -1000, -1000), 1000, 1000, 1000),

    # two conditions at once: the first in the list
    *[Case(f"51 and 52, b_0 {constant}", 51, (constant, 0, 1, 0)) for constant in NOT_ZERO],
    *[Case(f"51 and 53 for D {divisor}, as 001 has it", 51, (1, divisor, 2, 1)) for divisor in TOO_GREAT],
    *[Case(f"51 and 53 for A {a}, as 001 has it", 51, (-1, 1, 2, a)) for a in TOO_GREAT],
    *[Case(f"51 and 53 for B {b}, as 001 has it", 51, (1, -1, b, 1)) for b in TOO_GREAT],
    *[Case(f"52 and 53 for A {a}, as 001 has it", 52, (0, 0, 2, a)) for a in TOO_GREAT],
    *[Case(f"52 and 53 for B {b}, as 001 has it", 52, (0, 0, b, 1)) for b in TOO_GREAT],
    Case("52 and 53 for A and B, as 001 has it", 52, (0, 0, 1001, 1001)),
    Case("53 for D and A, as 001 has it", 53, (0, 1001, 1, 1001)),
    Case("53 for D and B, as 001 has it", 53, (0, -1001, 1001, 1)),
    Case("53 for A and B, as 001 has it", 53, (0, 1, 1001, 1001)),
    Case("53 for D, A and B, as 001 has it", 53, (0, 1001, 1001, 1001)),

    # and three
    Case("51, 52 and 53 for A, as 001 has it", 51, (1, 0, 1, 1001)),
    Case("51, 52 and 53 for B, as 001 has it", 51, (-1, 0, 1001, 1)),
    Case("51, 52 and 53 for A and B, as 001 has it", 51, (1, 0, 1001, 1001)),

    # the ends of 64 bits, in all places
    *[Case(f"ends {given}, as 001 has it", 51, given) for given in product(ENDS, repeat=4)],
    *[Case(f"ends {given}, b_1 0", 51, (given[0], 0, *given[1:])) for given in product(ENDS, repeat=3)],
    *[Case(f"ends {given}, b_0 0", 53, (0, *given)) for given in product(ENDS, repeat=3)],
    *[Case(f"ends {given}, b_0 and b_1 0", 52, (0, 0, *given)) for given in product(ENDS, repeat=2)],
]
