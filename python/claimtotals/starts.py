"""Starts: the chance that the total is zero as a sheet has it, from a law's mean, or from a chance and a number of trials. Both calls give
a law's chance of no claims, which is the start where the weight of size 0 is 0. With claims of size 0 they take the mean or the chance of
the law of the claims that are not zero. Where that is a fraction which in lowest terms is over more than 1,000, 41 refuses it: choose
weights with a smaller sum, or give a start from known digits."""
from __future__ import annotations

from typing import NamedTuple

from claimtotals.library import answered
from claimtotals.numbers import UNSIGNED, whole


class Start(NamedTuple):
    """The start of a job: the chance that the total is zero lies from low to high, in units of one billionth. `Job.of` takes it as it
    is."""
    low: int
    high: int

    def line(self) -> str:
        """The line of a sheet.

        >>> Start(367879441, 367879442).line()
        'START 367879441 367879442'
        """
        return f"START {self.low} {self.high}"


def part(name: str, number: int) -> int:
    """A number of a fraction."""
    return whole(name, number, advice="a fraction is given as two whole numbers, 3.7 as 37 and 10")


def start_of_mean(upper: int, lower: int = 1) -> Start:
    """The start of a Poisson law with the mean `upper` over `lower`: e to the minus mean lies in it. Refused where `lower` is not 1 to
    1,000 or the mean above 20.

    >>> start_of_mean(37, 10).line()
    'START 24723525 24723527'

    Where the share q of the claims closes at nothing, the mean r is given as r(1-q): of 3 claims a year, one in three such, as 2.

    >>> start_of_mean(2).line()
    'START 135335283 135335284'
    """
    given = part("upper", upper), part("lower", lower)
    return Start(*answered("claimtotals_start_mean", given, UNSIGNED, UNSIGNED))


def start_of_trials(upper: int, lower: int, trials: int) -> Start:
    """The start of a binomial law, where each of so many trials brings a claim with the chance `upper` over `lower`: (1 - chance)^trials
    lies in it. So it does for a negative binomial law whose chance of no claims is this, with its whole shape for the trials. Where the
    share q of the claims closes at nothing, the chance p of a binomial law is given as p(1-q), and the chance β of a negative binomial law
    as β(1-q)/(1-βq). Refused where `lower` is not 1 to 1,000, the chance is 1 or more, or the trials are not 1 to 1,000.

    >>> start_of_trials(1, 10, trials=12)
    Start(low=282429536, high=282429538)
    """
    given = part("upper", upper), part("lower", lower), whole("trials", trials)
    return Start(*answered("claimtotals_start_trials", given, UNSIGNED, UNSIGNED))
