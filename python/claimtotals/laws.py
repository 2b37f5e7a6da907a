"""Laws of order 1 as two publications write them: the divisor and the terms that a sheet has, from the four numbers of a line."""
from __future__ import annotations

from typing import NamedTuple

from claimtotals.library import answered
from claimtotals.numbers import SIGNED, UNSIGNED, whole


class Law(NamedTuple):
    """A law of order 1: the chance of n claims is (a/divisor + b/divisor/n) times that of n-1. `Job.of` takes its divisor and its terms."""
    divisor: int
    a: int
    b: int

    @property
    def terms(self) -> list[tuple[int, int]]:
        """The pair of terms, in a list, as `Job.of` takes it.

        >>> Law(9, -1, 13).terms
        [(-1, 13)]
        """
        return [(self.a, self.b)]

    def lines(self) -> str:
        """The two lines of a sheet, without a line end behind the second.

        >>> Law(9, -1, 13).lines()
        'LAW 1 9\\nTERM -1 13'
        """
        return f"LAW 1 {self.divisor}\nTERM {self.a} {self.b}"


def coefficient(name: str, number: int) -> int:
    """A number of a line."""
    return whole(name, number, SIGNED, "multiply all four numbers by the same number where they are not whole, and give each as an int")


def law_of_line(name: str, **given: int) -> Law:
    """The law that the call of this name makes of a line. The numbers stand in the order of its parameters."""
    numbers = [coefficient(*pair) for pair in given.items()]
    return Law(*answered(name, numbers, UNSIGNED, SIGNED, SIGNED))


def law_panjer_willmot(alpha_0: int, alpha_1: int, beta_0: int, beta_1: int) -> Law:
    """The law of (alpha_0 + alpha_1 n) p_n = (beta_0 + beta_1 (n-1)) p_(n-1), the line of Panjer and Willmot, for n from 1 on. Where the
    numbers are fractions, all four are given times the same number; nothing is reduced. Refused where alpha_0 is not 0, where alpha_1 is 0,
    or where the divisor would be above 1,000 or a term not from -1,000 to 1,000. What it cannot see: the authors print N - p as the beta_0
    of a binomial law, where Np is meant, and a line whose alpha_2 or beta_2 is left out is that of another law.

    >>> print(law_panjer_willmot(0, 9, 12, -1).lines())
    LAW 1 9
    TERM -1 13
    """
    return law_of_line("claimtotals_law_panjer_willmot", alpha_0=alpha_0, alpha_1=alpha_1, beta_0=beta_0, beta_1=beta_1)


def law_hesselager(b_0: int, b_1: int, a_0: int, a_1: int) -> Law:
    """The law of (b_0 + b_1 n) p_n = (a_0 + a_1 n) p_(n-1), the line of Hesselager, for n from 1 on. The numbers of the left come first.
    They are given and refused as those of Panjer and Willmot's line are; a line whose b_2 or a_2 is left out is that of another law here
    too.

    >>> law_hesselager(0, 9, 13, -1)
    Law(divisor=9, a=-1, b=13)
    """
    return law_of_line("claimtotals_law_hesselager", b_0=b_0, b_1=b_1, a_0=a_0, a_1=a_1)
