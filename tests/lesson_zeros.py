"""The sentences of part 6 of docs/CLASS.md that have numbers, as lesson_numbers.py has those of the other parts. What holds for every law
of order 1 is tried for many. Chances with claims of size 0 are counted by the record as it is, with claims of size 0 among the others."""
import math
from fractions import Fraction
from itertools import product
from typing import NamedTuple

from lesson import AND, Law, cut, entries, job, lines, numbers, rows, sheet
from lesson_numbers import E_1, FIFTH, HALF, QUARTER, THIRD, WINDOWS, e_term, where

import exact
import program
from layer import less_saved
from limits import UNIT
from nearest import nine_digits
from outward import Job, thinned_divisor
from summed import convolutions

CLOSED = "closed.txt"
# The record: so many claims a year on average, and the weights of size 0 and of the others.
MEAN, ZERO, WEIGHTS = 2, 2, (1, 1)
# Other lines: START as the chance of no claims, those of questions 6.2 and 6.3, and a weight of size 0 for two groups.
NO_CLAIMS, OTHER_6_2, ZERO_6_3, ZERO_GROUPS = Law(MEAN, 1).line(), f"{Law(21, 40, 3).line()}{AND}ZERO 1", "ZERO 0", "ZERO 2"


def remark(zero):
    """How the command's sentence about chances that do not add up to 1 ends where size 0 has this weight."""
    return (f"With a weight at ZERO, {zero} here, START is the chance that the total is zero, and not that of no claims: claimtotals start "
            f"--help says how to get it.")


# ---- chances, by the record as it is

def counted(law, none, zero, weights, count, last):
    """The chances of the totals, by up to `count` claims; `none` is that of no claims."""
    sums = [Fraction(0)] * (last + 1)
    for n, row in zip(range(count + 1), convolutions([zero, *weights], last)):
        sums = [so_far + none * law(n) * chance for so_far, chance in zip(sums, row)]
    return sums


def near(first, second):
    """E_1 has fifty digits; and of a Poisson law of mean 2 more than 60 claims have no chance that counts here."""
    return all(abs(one - other) < Fraction(1, 10 ** 40) for one, other in zip(first, second))


# ---- laws of order 1, with zeros and without

def without_zeros(read):
    """By the rule of the lesson, a and b times (1 - q)/(1 - a q); with the smallest numbers that say it."""
    q = Fraction(read.zero, read.zero + sum(read.weights))
    a, b = exact.not_zero(Fraction(read.a[0], read.divisor), Fraction(read.b[0], read.divisor), q)
    divisor = math.lcm(a.denominator, b.denominator)
    terms = ([int(divisor * term), 0, 0, 0] for term in (a, b))
    weights = [weight // math.gcd(*read.weights) for weight in read.weights]
    return Job(1, divisor, *terms, read.low_start, read.high_start, weights, read.last)


def some_jobs():
    """With zeros: A below 0, 0 and above, weights of one size and of several, starts with a gap and without."""
    tables = [1], [2], [3], [1, 1], [2, 1], [0, 1], [3, 0, 2]
    for divisor, a, zero, weights in product((1, 2, 3), range(-3, 4), (1, 2, 3), tables):
        for b, start in product((0, 1, 3, 6), ((UNIT // 4, UNIT // 4), (1_234_567, 1_234_569))):
            read = Job(1, divisor, [a, 0, 0, 0], [b, 0, 0, 0], *start, weights, 7, zero)
            if thinned_divisor(read) > 0:
                yield read


def pairs():
    """Each with the job without its zeros, and the entries of row 0 of both."""
    for read in some_jobs():
        other = without_zeros(read)
        yield read, other, *([entry for entry, in entries(of, of.last)] for of in (read, other))


def same_ends():
    """Low and high of each pair, to the unit."""
    return all([entry[:2] for entry in found] == [entry[:2] for entry in other] for _, _, found, other in pairs())


def bound_case():
    """Where A is below D, bounds are others just where the sheet without zeros has D and W 1: by the one at total 1, in some cases at later
    totals too, and never smaller."""
    later = False
    for read, other, found, without in pairs():
        more = [entry[2] - without[total][2] for total, entry in enumerate(found)]
        alone = other.divisor == sum(other.weights) == 1
        if read.a[0] < read.divisor:
            if thinned_divisor(read) < 2 or min(more) < 0 or more[1] != alone or any(more) != alone:
                return False
            later = later or any(more[2:])
    return later


# A law with its closed form, the chance of no claims, the weight of size 0 and the others; and the closed form without the zeros, with its
# chance of no claims. None has more than eight claims.
THINNED = [
    (exact.binomial(3, Fraction(7, 10)), Fraction(3, 10) ** 3, 1, [2, 1], exact.binomial(3, Fraction(21, 40)), Fraction(19, 40) ** 3),
    (exact.binomial(2, 2 * THIRD), THIRD ** 2, 1, [3], exact.binomial(2, HALF), HALF ** 2),
    (exact.together(exact.binomial(5, FIFTH), exact.binomial(3, THIRD)), (4 * FIFTH) ** 5 * (2 * THIRD) ** 3, 2, [3, 2, 1],
     exact.together(exact.binomial(5, Fraction(3, 20)), exact.binomial(3, QUARTER)), Fraction(17, 20) ** 5 * (3 * QUARTER) ** 3),
]


def same_chances():
    """Exactly, for laws with a greatest number of claims; for the windows as near as E_1 is known."""
    exactly = all(counted(law, none, zero, weights, 8, 24) == exact.amounts(other, weights, other_none, 24)
                  for law, none, zero, weights, other, other_none in THINNED)
    windows = counted(exact.poisson(MEAN), E_1 ** 2, ZERO, WEIGHTS, 60, 12)
    return exactly and near(windows, [amount / UNIT for amount in WINDOWS])


# ---- the sentences

def record():
    read, whole = job(CLOSED), ZERO + sum(WEIGHTS)
    as_typed = (read.zero, tuple(read.weights), read.divisor, read.a[0], read.b[0]) == (ZERO, WEIGHTS, 1, 0, MEAN)
    share = Fraction(ZERO, whole)
    yield where(as_typed and share == HALF,
                f"Two windows a year are reported on average, by a Poisson law, and half of these claims close at nothing: somebody else "
                f"pays, and they are settled for zero. Of every {whole} claims {ZERO} cost nothing, one costs 1 and one costs 2.")
    yield (f"The weight of size 0 counts in W, which is {ZERO} + {WEIGHTS[0]} + {WEIGHTS[1]} = {whole} here. So a claim closes at nothing "
           f"with chance q = {ZERO}/{whole} = {share}.")


def start():
    """The sum over n is taken to 60 claims."""
    share, terms = 1 - Fraction(ZERO, ZERO + sum(WEIGHTS)), [abs(e_term(n)) for n in range(61)]
    cancel = all(exact.poisson(MEAN)(n) * (1 - share) ** n == term for n, term in enumerate(terms))
    yield where(cancel, f"By the Poisson law of mean {MEAN} there are n claims with the chance e^-2 × 2^n / n!, and all n close at nothing "
                        f"with the chance ({1 - share})^n. Both together have the chance e^-2 / n!, as the powers of 2 cancel.")
    yield where(near([E_1 * sum(terms), E_1 ** 2 * sum(terms)], [1, E_1]),
                f"Add this up over all n: {' + '.join(map(str, terms[:5]))} and so on comes to e, and e^-2 × e is e^-1.")
    smaller = MEAN * share
    none = all(near(counted(exact.poisson(mean), exact_none, zero, [1], 90, 0), [smaller_none]) for mean, exact_none, zero, smaller_none in
               ((2, E_1 ** 2, 1, E_1), (3, E_1 ** 3, 2, E_1), (3, E_1 ** 3, 0, E_1 ** 3), (4, E_1 ** 4, 1, E_1 ** 2)))
    yield where(none and Law(int(smaller), 1).line() in sheet(CLOSED).decode().splitlines(),
                f"For every Poisson law this is the mean times the share of the claims that are not zero, here {MEAN} × (1 - {1 - share}) "
                f"= {smaller}. So ask for its start:")


def same_table():
    read, first = job(CLOSED), job("poisson.txt")
    yield where(rows(CLOSED) == rows("poisson.txt")[:read.last + 1], "You know these lines: they are those of part 1, digit for digit.")
    pair, other = ([(of.a[0] + of.b[0]) * of.weights[0], thinned_divisor(of)] for of in (read, first))
    yield where(Fraction(*pair) == Fraction(*other),
                "At total 1 the factor is {} and the divisor is {}, where part 1 has {} and {}: the same fraction,".format(*pair, *other))
    yield where(same_chances(), "By both sheets every total has the same chance, exactly and not nearly.")
    yield where(same_ends(), "So, from the same START line, low and high are the same to the unit.")
    yield where(bound_case(),
                "For a true law, where A is below D, the bounds are the same too, but in one case: D and W of the sheet without the zeros "
                "are both 1. Nothing is added to its bound at total 1 then, as in part 2. With the zeros the divisor there is above 1, and "
                "the one is added; it may go on to later bounds.")


class Typed(NamedTuple):
    """The record as it may be typed: the mean that START is of, the weight of size 0 and the others."""
    mean: int
    zero: int
    weights: tuple

    def sheet(self):
        weights = [f"SEVERITY {len(self.weights)}", *(f"W {weight}" for weight in self.weights)]
        typed = ["LAW 1 1", f"TERM 0 {MEAN}", Law(self.mean, 1).line(), f"LAST {job(CLOSED).last}", f"ZERO {self.zero}", *weights]
        return "".join(f"{line}\n" for line in typed).encode()

    def average(self):
        """Of a year's total."""
        sizes = sum(size * weight for size, weight in enumerate(self.weights, 1))
        return Fraction(MEAN * sizes, self.zero + sum(self.weights))

    def rows(self):
        return [numbers(line) for line in program.output(self.sheet()).decode().splitlines()[1:]]

    def cost(self, c, d):
        """Low and high of a layer."""
        _, low, high, _ = zip(*self.rows())
        return less_saved(high, c, d), less_saved(low, c, d)


WAYS = {
    "have their own weight": Typed(1, ZERO, WEIGHTS),
    "are left out": Typed(MEAN, 0, WEIGHTS),
    "are put into W 1": Typed(MEAN, 0, (ZERO + WEIGHTS[0], *WEIGHTS[1:])),
}


def way_cells(typed):
    """What the lesson's table says of it."""
    return [f"mean {typed.mean}", f"{typed.zero}", ", ".join(map(str, typed.weights)), f"{typed.average()}",
            *map(nine_digits, typed.cost(3, 5))]


def wrong_ways():
    right, out, inside = WAYS.values()
    yield where(right.sheet() == sheet(CLOSED) and out.average() == 2 * right.average(),
                "Who leaves the zeros out and keeps the mean prices two paid windows a year where there is one.")
    most = right.cost(3, 5)[1]
    (dear, _), (less_dear, _) = out.cost(3, 5), inside.cost(3, 5)
    yield where(dear > 3 * most and less_dear > 2 * most, "The layer gets more than three times as dear, or more than twice.")
    least = min(sum(low for _, low, _, _ in way.rows()) for way in (out, inside))
    yield where(least > UNIT * 999 // 1000,
                f"Nothing warns, as with the weight 10 in part 5: both tables are true, each of its own sheet, and up to total "
                f"{job(CLOSED).last} the chances of each come to more than {999 / 1000}.")


def slips():
    """The exact sums go to total 120, with the windows' chances by START as it is."""
    amounts = exact.amounts(exact.poisson(MEAN * HALF), WEIGHTS, 1, 120)
    yield where(near([E_1 ** 2 * sum(amounts)], [E_1]) and job(CLOSED, NO_CLAIMS).low_start == math.floor(UNIT * E_1 ** 2),
                f"That does not help here: every chance is e^-1 times the right one, so all of them come to e^-1 = {cut(E_1, 9)} and not "
                f"to 1.")
    yield f'The sentence ends with what is wrong: "{remark(ZERO)}"'
    number, place = lines("two_groups.txt", ZERO_GROUPS)[0].split()[1:]
    yield where(place == "0", f"Refusal {number} says just that: the weight of size 0 is not 0, and the order is above 1.")
    yield f"Someone writes `{ZERO_6_3}` in `{CLOSED}` and leaves all else."
    amounts = exact.amounts(exact.poisson(MEAN), WEIGHTS, E_1, 120)
    yield where(near([sum(amounts)], [1 / E_1]),
                f"By this sheet every claim costs something, so START should be e^-2, and it is e^-1. Every chance is e times too "
                f"large, and all of them come to e = {cut(1 / E_1, 9)}")


def pumps():
    """The chances of question 6.2, counted and by the table."""
    chance, share, read = Fraction(7, 10), 3 * QUARTER, job("binomial.txt", OTHER_6_2)
    amounts = [UNIT * each for each in counted(exact.binomial(3, chance), (1 - chance) ** 3, read.zero, read.weights, 3, read.last)]
    yield (f"For the pumps of part 2 the maker bears {read.zero} repair of every {read.zero + sum(read.weights)}, so that it costs "
           f"nothing; of the others {read.weights[0]} cost 1 and one costs 2.")
    yield f"A pump costs something with chance {chance} × {share} = {chance * share}, and the total is zero if none of the three does:"
    yield where([*zip(amounts, amounts)] == [row[1:3] for row in rows("binomial.txt", OTHER_6_2)],
                "Every division comes out even here, so low and high are the exact chance.")
    yield f"A is {read.a[0]}, so that {-read.a[0]} times the weight of size 0 is added to D × W."
    yield f"The repairs that cost something have a binomial law with N = 3 and p = {chance * share}."


def groups():
    weights, zero = job("two_groups.txt").weights, int(ZERO_GROUPS.split()[1])
    share = Fraction(sum(weights), zero + sum(weights))
    yield where(1 - share == QUARTER,
                f"Let a quarter of the claims of part 3 close at nothing, in both groups: weight {zero} of size 0, beside {weights[0]}, "
                f"{weights[1]} and {weights[2]}.")
    together = exact.together(exact.binomial(5, FIFTH * share), exact.binomial(3, THIRD * share))
    by_terms = exact.by_terms(51, [-26, -3], [122, 30])
    yield where(all(together(n) == by_terms(n) for n in range(12)),
                "The sheet begins with `LAW 2 51`, `TERM -26 122` and `TERM -3 30`, it has `ZERO 0`, and the weights stay 3, 2 and 1.")


PARTS = [record, start, same_table, wrong_ways, slips, pumps, groups]
