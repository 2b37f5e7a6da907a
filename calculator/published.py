"""Laws of order 1 as source documents 000 and 001 write them, turned into our terms as Wish 3 has it, in Python's whole numbers."""
from typing import NamedTuple

from limits import MOST_DIVISOR, MOST_TERM


class Made(NamedTuple):
    """Number 0 for an acceptance, and the law made: D, A and B (all 0 after a refusal)."""
    number: int
    divisor: int
    a: int
    b: int


def refused(number):
    return Made(number, 0, 0, 0)


def law_made(constant, divisor, a, b):
    """From the constant on the left, and D, A and B before signs are turned. Nothing is reduced."""
    if constant != 0:
        return refused(51)
    if divisor == 0:
        return refused(52)
    if divisor < 0:
        divisor, a, b = -divisor, -a, -b
    if divisor > MOST_DIVISOR or not -MOST_TERM <= a <= MOST_TERM or not -MOST_TERM <= b <= MOST_TERM:
        return refused(53)
    return Made(0, divisor, a, b)


def law_panjer_willmot(alpha_0, alpha_1, beta_0, beta_1):
    """Of (alpha_0 + alpha_1 n) p_n = (beta_0 + beta_1 (n-1)) p_(n-1), the line of 000."""
    return law_made(alpha_0, alpha_1, beta_1, beta_0 - beta_1)


def law_hesselager(b_0, b_1, a_0, a_1):
    """Of (b_0 + b_1 n) p_n = (a_0 + a_1 n) p_(n-1), the line of 001."""
    return law_made(b_0, b_1, a_1, a_0)
