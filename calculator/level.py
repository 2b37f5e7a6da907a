"""The calls sure and possible as the paper and Wish 5 list them, in Python's whole numbers."""
from itertools import accumulate
from typing import NamedTuple

from limits import MOST_END, MOST_TOTALS, UNIT


class Answer(NamedTuple):
    """Number 0 for an acceptance, the place, and the total (0 after a refusal)."""
    number: int
    place: int
    total: int


def refused(number, place=0):
    return Answer(number, place, 0)


def check_rows(low, high):
    """Refusal 31 as number and place, or None."""
    if not low or len(low) != len(high) or len(low) > MOST_TOTALS:
        return 31, 0
    return None


def check_level(level):
    """Refusal 32, or None."""
    return None if 1 <= level <= UNIT else (32, 0)


def check_entries(low, high):
    """Refusal 33, or None."""
    for x, entry in enumerate(zip(low, high)):
        if any(abs(end) > MOST_END for end in entry) or entry[0] > entry[1]:
            return 33, x
    return None


def first_check(low, high, level):
    """Refusals 31 to 33, which stay in both calls, or None."""
    refusal = check_rows(low, high) or check_level(level) or check_entries(low, high)
    return refused(*refusal) if refusal else None


def smallest_reaching(row, level, otherwise):
    """The smallest total whose sum, from 0 to it, is the level or more; where no total has one, the refusal `otherwise`."""
    totals = [total for total, so_far in enumerate(accumulate(row)) if so_far >= level]
    return Answer(0, 0, min(totals)) if totals else refused(otherwise)


def sure(low, high, level):
    """The smallest total whose sum of lows reaches the level."""
    return first_check(low, high, level) or smallest_reaching(low, level, 34)


def possible(low, high, level):
    """The smallest total whose sum of highs reaches the level."""
    return first_check(low, high, level) or smallest_reaching(high, level, 35)
