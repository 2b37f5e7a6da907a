"""What a table's reader should look at although nothing was refused."""
from __future__ import annotations

from typing import Optional, Sequence

from claimtotals.layout import decimal
from claimtotals.library import UNIT

# The chances of all totals add up to 1. A table is remarked on that is further from it than this, in units.
SLACK = UNIT // 1000


def sums(low: Sequence[int], high: Sequence[int]) -> str:
    return f"the chances of this table add up to between {decimal(sum(low))} and {decimal(sum(high))}"


def about_excess(low: Sequence[int], high: Sequence[int]) -> Optional[str]:
    """Where the lines of a table add up to more than 1, between which numbers they do, and what to look at."""
    if sum(low) <= UNIT + SLACK:
        return None
    return f"{sums(low, high)}, more than 1. Look at START, the chance that the total is zero in billionths, and at the law."


def about_rest(low: Sequence[int], high: Sequence[int], rest: str) -> Optional[str]:
    """The same, also where they add up to less, with what the rest is."""
    if sum(high) >= UNIT - SLACK:
        return about_excess(low, high)
    return f"{sums(low, high)}, not to 1. {rest}; else look at START and at the law."


def about_sums(low: Sequence[int], high: Sequence[int]) -> Optional[str]:
    """What is said of a table."""
    return about_rest(low, high, "The rest is the chance of totals above the last, if there are such: make LAST larger to see them")


def about_layers(low: Sequence[int], high: Sequence[int]) -> Optional[str]:
    """What is said of a table whose layers are priced: a slip in START would not show in their prices."""
    return about_rest(low, high, "The rest counts as totals above the last, which pay every layer whole: make LAST larger to see whether"
                      " they are there")


def about_start(high: Sequence[int], zero: int) -> str:
    """What is said too where a table adds up to less than 1 and its sheet has this weight at ZERO: the chance of no claims as START is too
    low there, and never too high."""
    if not zero or sum(high) >= UNIT - SLACK:
        return ""
    return (f"With a weight at ZERO, {zero} here, START is the chance that the total is zero, and not that of no claims: claimtotals start"
            " --help says how to get it.")
