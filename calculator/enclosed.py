"""Whether the rows of an accepted curve hold the exact amounts."""
from fractions import Fraction

import exact


def starts(job):
    """Both starts and one between."""
    return sorted({job.low_start, Fraction(job.low_start + job.high_start, 2), job.high_start})


def clerk_law(job):
    """The count coefficients from the terms, where the table has a weight at 0 from those of the claims that are not zero."""
    if job.zero:
        q = Fraction(job.zero, job.zero + sum(job.weights))
        a, b = exact.not_zero(Fraction(job.a[0], job.divisor), Fraction(job.b[0], job.divisor), q)
        return exact.by_terms(1, [a], [b])
    return exact.by_terms(job.divisor, job.a[:job.order], job.b[:job.order])


def amounts_per_unit(job, law=None, last=None):
    """The exact amounts for a starting chance of one unit, from total 0 to `last` (or X). Where the table has a weight at 0, or no closed
    form of the law is given, the count coefficients come from the terms. The weights beside that at 0 are taken over their own sum."""
    law = clerk_law(job) if job.zero or not law else law
    return exact.amounts(law, job.weights, 1, job.last if last is None else last)


def outside(job, rows, amounts):
    """Exact amounts outside low to high, where `amounts` are those per unit of the start; and gaps above their bound."""
    for x, amount in enumerate(amounts):
        for start in starts(job):
            if not rows.low[x] <= start * amount <= rows.high[x]:
                yield f"at {x}: the exact amount {start * amount} for the start {start} is not from {rows.low[x]} to {rows.high[x]}"
    for x in range(job.last + 1):
        if rows.high[x] - rows.low[x] > rows.bound[x]:
            yield f"at {x}: {rows.low[x]} to {rows.high[x]} is wider than {rows.bound[x]}"
