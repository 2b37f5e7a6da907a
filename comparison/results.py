"""What is found on a law and a table: the program's lows and highs, actuar's chances and the exact ones, side by side."""
import math
from fractions import Fraction
from itertools import accumulate
from typing import NamedTuple

import amounts
import jobs
import rounding
from limits import MOST_TOTALS, UNIT
from parties import Answer, Table

LEVEL = Fraction(99, 100)


class Outside(NamedTuple):
    """A total at which actuar's chance is not from low to high, and by how many units."""
    total: int
    low: int
    high: int
    units: Fraction


def quantile(chances):
    """The smallest total at which the chances, from total 0 on, add up to 0.99 or more, or None."""
    return next((total for total, so_far in enumerate(accumulate(chances)) if so_far >= LEVEL), None)


def not_enclosed(ours, exact):
    """Totals at which the exact amount is not from low to high, as far as SHORT lets it be known."""
    return [total for total, (low, high) in enumerate(ours.rows)
            if UNIT * (exact[total] + amounts.SHORT) < low or high < UNIT * exact[total]]


class Result(NamedTuple):
    """`chances` are those of actuar's recursion that is kept from stopping; where others of actuar's are asked about, they are given."""
    law: jobs.Law
    table: str
    ours: Table
    theirs: Answer
    chances: list
    exact: list
    limits: list

    def error(self, total, chances=None):
        """Actuar's chance less the exact one, in units, or None where actuar has no number."""
        chances = self.chances if chances is None else chances
        if total >= len(chances) or not math.isfinite(chances[total]):
            return None
        return UNIT * (Fraction(chances[total]) - self.exact[total])

    def off(self, totals, chances=None):
        """Those of the totals at which actuar is off by more than a unit, or has no number."""
        errors = ((total, self.error(total, chances)) for total in totals)
        return [total for total, error in errors if error is None or abs(error) > 1]

    def worst(self, totals, chances=None):
        """Actuar's greatest error at the totals, in units, or None where one is no number or there are none."""
        errors = [self.error(total, chances) for total in totals]
        return None if None in errors else max(map(abs, errors), default=None)

    def outside(self):
        for total, (low, high) in enumerate(self.ours.rows):
            units = UNIT * Fraction(self.chances[total])
            if not low <= units <= high:
                yield Outside(total, low, high, max(low - units, units - high))

    def not_enclosed(self):
        return not_enclosed(self.ours, self.exact)

    def part_of_limit(self):
        """The greatest of actuar's errors over what rounding can do; above 1, rounding does not explain it."""
        pairs = ((self.error(total), limit) for total, limit in enumerate(self.limits))
        return max(float(abs(error) / UNIT / Fraction(limit)) for error, limit in pairs if error is not None and math.isfinite(limit))

    def refused_totals(self):
        return range(len(self.ours.rows), MOST_TOTALS)


class ZerosResult(NamedTuple):
    """The same where a share of the claims is zero: the law, that of the claims that are not, the program's lows and highs, actuar's
    chances, and the exact ones."""
    law: jobs.Law
    others: jobs.Law
    ours: Table
    chances: list
    exact: list

    def outside(self):
        """Totals at which actuar's chance is not from low to high."""
        return [total for total, (low, high) in enumerate(self.ours.rows) if not low <= UNIT * Fraction(self.chances[total]) <= high]

    def error(self):
        """Actuar's greatest, in units."""
        return max(abs(UNIT * (Fraction(chance) - exact)) for chance, exact in zip(self.chances, self.exact))


def result(law, table, convolutions, ours, theirs):
    chances = theirs.chances("CHANCES")
    return Result(law, table, ours, theirs, chances, amounts.chances(law, convolutions),
                  rounding.limits(law, jobs.TABLES[table], chances))
