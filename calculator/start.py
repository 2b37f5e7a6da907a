"""The start from a mean and from a chance with a number of trials, as Wish 1 has it, in Python's whole numbers."""
from typing import NamedTuple

from limits import MOST_LOWER, MOST_MEAN, MOST_TRIALS, UNIT


class Start(NamedTuple):
    """Number 0 for an acceptance, and the start (0 and 0 after a refusal)."""
    number: int
    low: int
    high: int


class Interval(NamedTuple):
    """In units. None here goes below 0."""
    low: int
    high: int


# "begin with U and U"
WHOLE = Interval(UNIT, UNIT)
# "multiply v times by 367879441 and 367879442 over U"
MEAN_ONE = Interval(367879441, 367879442)
# "for j 0 to 13"
LAST_TERM = 13


def refused(number):
    return Start(number, 0, 0)


def times(interval, factor, divisor):
    """Low times low and high times high, over the divisor, rounded down and up."""
    return Interval(interval.low * factor.low // divisor, -(-interval.high * factor.high // divisor))


def multiplied(interval, count, factor, divisor):
    """So many times, one after the other."""
    for _ in range(count):
        interval = times(interval, factor, divisor)
    return interval


def series(q, s):
    """The next term is the last times q, over (s times its index j)."""
    terms = [WHOLE]
    for j in range(1, LAST_TERM + 1):
        terms.append(times(terms[-1], Interval(q, q), s * j))
    return terms


def start_of_rest(q, s):
    """The low has the terms 0 to 13, the high those from 0 to 12."""
    terms = series(q, s)
    even, odd = terms[0::2], terms[1::2]
    return Interval(
        sum(term.low for term in even) - sum(term.high for term in odd),
        sum(term.high for term in even) - sum(term.low for term in odd[:-1]),
    )


def start_of_mean(upper, lower):
    if not 1 <= lower <= MOST_LOWER or upper > MOST_MEAN * lower:
        return refused(41)
    whole, rest = divmod(upper, lower)
    return Start(0, *multiplied(start_of_rest(rest, lower), whole, MEAN_ONE, UNIT))


def start_of_trials(upper, lower, trials):
    if not 1 <= lower <= MOST_LOWER:
        return refused(41)
    if upper >= lower:
        return refused(42)
    if not 1 <= trials <= MOST_TRIALS:
        return refused(43)
    return Start(0, *multiplied(WHOLE, trials, Interval(lower - upper, lower - upper), lower))
