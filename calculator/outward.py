"""The outward rule and the curve call as the paper and Wishes 4, 7 and 10 have them, in Python's whole numbers."""
from dataclasses import dataclass
from typing import NamedTuple

from limits import LAST_TOTAL, MOST_BOUND, MOST_DIVISOR, MOST_END, MOST_ORDER, MOST_SUM, MOST_TERM, MOST_WEIGHTS, UNIT, WORK_COLUMNS


@dataclass
class Job:
    """k, D, A_1..A_4, B_1..B_4, s, t, the weights w(1)..w(m), X, and the weight w(0) of severity 0."""
    order: int
    divisor: int
    a: list
    b: list
    low_start: int
    high_start: int
    weights: list
    last: int
    zero: int = 0


@dataclass
class Lent:
    """The rows that a call is lent; it writes into them."""
    low: list
    high: list
    bound: list
    mark: list
    work: list


class Entry(NamedTuple):
    """Of any row, at one total. The mark is 1 where the entry is exact, and 0 otherwise."""
    low: int
    high: int
    bound: int
    mark: int


def down(n, d):
    """Divided and rounded towards minus infinity, which is what divmod does; and whether this left a remainder."""
    quotient, remainder = divmod(n, d)
    return quotient, remainder != 0


def up(n, d):
    quotient, left = down(-n, d)
    return -quotient, left


def whole(job):
    """W: the weight of severity 0 is counted too."""
    return job.zero + sum(job.weights)


def thinned_divisor(job):
    """What row 0 divides by at total 1, and x times as much at total x: "D times W - A times w(0)"."""
    return job.divisor * whole(job) - job.a[0] * job.zero


def first_entries(job):
    """The entries of rows 0 to k-1 at total 0: "An entry is exact at total 0"."""
    start = Entry(job.low_start, job.high_start, job.high_start - job.low_start, 1)
    return [start] + [Entry(0, 0, 0, 1)] * (job.order - 1)


def allowance(divisor):
    """One for the rounding of the two ends, and none where the divisor is 1, as nothing can be rounded there. The divisor alone decides:
    whether a larger one leaves a remainder plays no part."""
    return 1 if divisor > 1 else 0


def keeps_exact(factor, entry):
    """Whether an exact entry can come of this one: "every entry used with a nonzero factor and weight is exact and, under a negative
    factor, has equal ends". The weight is part of the factor here."""
    return factor == 0 or entry.mark == 1 and (factor > 0 or entry.low == entry.high)


def outward(products, divisor):
    """One entry from pairs of a factor and an entry, by the whole divisor of its row and total. What the bound's division leaves plays no
    part in the mark."""
    low_sum = sum(factor * (low if factor >= 0 else high) for factor, (low, high, _, _) in products)
    high_sum = sum(factor * (high if factor >= 0 else low) for factor, (low, high, _, _) in products)
    bound_sum = sum(abs(factor) * bound for factor, (_, _, bound, _) in products)
    low, low_left = down(low_sum, divisor)
    high, high_left = up(high_sum, divisor)
    bound, _ = up(bound_sum, divisor)
    exact = not low_left and not high_left and all(keeps_exact(factor, entry) for factor, entry in products)
    return Entry(low, high, bound + allowance(divisor), int(exact))


def next_entries(job, earlier):
    """The entries of rows 0 to k-1 at the next total x, from those at the totals 0 to x-1. The sums have severities from 1 on alone."""
    x = len(earlier)
    reached = list(enumerate(job.weights, 1))[:x]
    curve = [((job.a[i] * x + job.b[i] * y) * w, earlier[x - y][i]) for i in range(job.order) for y, w in reached]
    entries = [outward(curve, thinned_divisor(job) * x)]
    for j in range(1, job.order):
        entries.append(outward([(w, earlier[x - y][j - 1]) for y, w in reached], whole(job)))
    return entries


def check_law(job):
    """Refusals 1 to 3 as number and place, or None."""
    if not 1 <= job.order <= MOST_ORDER:
        return 1, 0
    if not 1 <= job.divisor <= MOST_DIVISOR:
        return 2, 0
    for i in range(MOST_ORDER):
        limit = MOST_TERM if i < job.order else 0
        if abs(job.a[i]) > limit or abs(job.b[i]) > limit:
            return 3, i + 1
    return None


def check_start(job):
    """Refusal 4, or None."""
    return None if 0 <= job.low_start <= job.high_start <= UNIT and job.high_start >= 1 else (4, 0)


def check_table(job):
    """Refusals 5, 6, 11, 12 and 13, in this order, or None."""
    if not 1 <= len(job.weights) <= MOST_WEIGHTS:
        return 5, 0
    if not 1 <= whole(job) <= MOST_SUM:
        return 6, 0
    if job.zero != 0 and job.order > 1:
        return 11, 0
    if thinned_divisor(job) <= 0:
        return 12, 0
    if sum(job.weights) == 0:
        return 13, 0
    return None


def check_places(job, lent):
    """Refusals 7 and 8, or None."""
    if not 0 <= job.last <= LAST_TOTAL:
        return 7, 0
    places = job.last + 1
    shortest = min(map(len, (lent.low, lent.high, lent.bound, lent.mark)))
    if shortest < places or len(lent.work) < WORK_COLUMNS * places:
        return 8, 0
    return None


def first_check(job, lent):
    """The refusals that write nothing, or None."""
    return check_law(job) or check_start(job) or check_table(job) or check_places(job, lent)


def fault(entries, x):
    """Refusal 9 or 10 at total x, or None."""
    if any(abs(end) > MOST_END for entry in entries for end in (entry.low, entry.high)):
        return 9, x
    if any(entry.bound > MOST_BOUND for entry in entries):
        return 10, x
    return None


def run(job):
    """What follows the checks: refusal 9 or 10 or None, and row 0 from total 0 to X, which is all 0 after a refusal."""
    totals = []
    for x in range(job.last + 1):
        totals.append(next_entries(job, totals) if totals else first_entries(job))
        refusal = fault(totals[x], x)
        if refusal:
            return refusal, [Entry(0, 0, 0, 0)] * (job.last + 1)
    return None, [entries[0] for entries in totals]


def curve(job, lent):
    """The call: its answer as number and place, (0, 0) for an acceptance. It writes into the lent rows."""
    refusal = first_check(job, lent)
    if refusal:
        return refusal
    refusal, row = run(job)
    places = job.last + 1
    lent.low[:places], lent.high[:places], lent.bound[:places], lent.mark[:places] = zip(*row)
    lent.work[:WORK_COLUMNS * places] = [0] * (WORK_COLUMNS * places)
    return refusal or (0, 0)
