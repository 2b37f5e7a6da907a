"""Claim totals with proved bounds: the chance of each yearly claim total as a low and a high, with a bound on the gap between them.

    import claimtotals

    with open("poisson.txt", "rb") as file:
        sheet = claimtotals.read_sheet(file.read(claimtotals.MOST_BYTES + 1))
    chances = sheet.curve()
    for row in chances:
        print(row.total, row.digits())
    print(chances.sure(500_000_000), chances.possible(500_000_000))
    for cost in chances.layers([(1, 3)]):
        print(cost.attachment, cost.limit, cost.digits())

A sheet is plain text. This one has a Poisson law with mean 1 and claims of size 1 or 2, each as likely:

    LAW 1 1
    TERM 0 1
    START 367879441 367879442
    LAST 3
    ZERO 0
    SEVERITY 2
    W 1
    W 1

`start_of_mean(1)` gives the start of this law, and `start_of_trials` that of a binomial law or of a negative binomial law of whole shape.
The start is the chance that the total is zero. Where claims close at nothing, ZERO has their weight, and these calls take a changed mean or
chance, which README.md tells. `upgraded` gives the new sheet of one from before version 0.7.0, which has no line ZERO.
`law_panjer_willmot` and `law_hesselager` give the divisor and the terms of a law, from the numbers of a publication's line.

Where a row's `exact` is True, its low is the exact chance for the low end of the start, and its high that for the high end. Where they are
equal too, `chance_is_exact` is True, and there is no digit but those shown, if the start is true. False stands only where low is below
high, and does not say that they are wrong.

Chances are in units of one billionth, what a layer costs is in billionths of a money unit. Every number comes from a call of the proved
library; a call that refuses raises `Refused`, and what does not fit a call is a ValueError before it.
"""
from claimtotals.costs import LayerCost, layers
from claimtotals.curves import Curve, Job, Row, curve, possible, sure
from claimtotals.laws import Law, law_hesselager, law_panjer_willmot
from claimtotals.layout import digits
from claimtotals.library import MOST_BYTES, UNIT
from claimtotals.older import NotOlder, upgraded
from claimtotals.refusals import Refused
from claimtotals.sheets import Sheet, read_sheet
from claimtotals.starts import Start, start_of_mean, start_of_trials

__all__ = ["MOST_BYTES", "UNIT", "Curve", "Job", "Law", "LayerCost", "NotOlder", "Refused", "Row", "Sheet", "Start", "curve", "digits",
           "law_hesselager", "law_panjer_willmot", "layers", "possible", "read_sheet", "start_of_mean", "start_of_trials", "sure",
           "upgraded"]


def __getattr__(name: str) -> str:
    """The version is the library's, which is opened when it is first needed."""
    if name == "__version__":
        from claimtotals.library import version
        try:
            return version()
        except OSError as fault:
            raise AttributeError(f"there is no library that would tell its version: {fault}") from None
    raise AttributeError(f"module {__name__!r} has no attribute {name!r}")
