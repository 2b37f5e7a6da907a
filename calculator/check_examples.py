"""Sets the sheets in examples/ beside the laws that examples/README.md and docs/CLASS.md name: the starts are U times the chance that the
total is zero, rounded down and up, the terms give the law's count coefficients, the exact amounts of the law lie from the lows to the
highs of the table that the program is to write, and the table is right where it says that they are exact. Every sheet there must be known
here."""
import math
import pathlib
import sys
from decimal import Context, Decimal
from fractions import Fraction

import exact
import program
from enclosed import amounts_per_unit
from limits import MOST_WEIGHTS, UNIT
from marked import wrong_marks
from sheet import read_job
from summed import beside_sums, sums_of_job

FOLDER = pathlib.Path(__file__).parent.parent / "examples"

HALF, THIRD, QUARTER, FIFTH = (Fraction(1, n) for n in (2, 3, 4, 5))
VANS = exact.binomial(5, FIFTH)


def e_to(power):
    """To fifty digits."""
    return Fraction(Context(prec=50).exp(Decimal(power)))


# The law of each sheet, by its closed form, and its chance of no claims. Claims of size 0 are claims here.
LAWS = {
    "poisson.txt": (exact.poisson(2), e_to("-2")),
    "binomial.txt": (exact.binomial(12, Fraction(1, 10)), Fraction(9, 10) ** 12),
    "negative_binomial.txt": (exact.negative_binomial(3, Fraction(1, 3)), Fraction(2, 3) ** 3),
    "coin_toss.txt": (exact.binomial(3, HALF), HALF ** 3),
    "closed_at_nothing.txt": (exact.poisson(3), e_to("-3")),
    "class/poisson.txt": (exact.poisson(1), e_to("-1")),
    "class/binomial.txt": (exact.binomial(3, Fraction(7, 10)), Fraction(3, 10) ** 3),
    # no distribution: each amount is -1/2 times the one before
    "class/no_law.txt": (exact.geometric(-HALF), Fraction(1000, UNIT)),
    "class/two_tosses.txt": (exact.binomial(2, HALF), HALF ** 2),
    "class/heads.txt": (exact.geometric(HALF), HALF),
    "class/two_groups.txt": (exact.together(VANS, exact.binomial(3, THIRD)), (4 * FIFTH) ** 5 * (2 * THIRD) ** 3),
    "class/bicycles.txt": (exact.together(VANS, exact.poisson(1)), (4 * FIFTH) ** 5 * e_to("-1")),
    "class/pairs.txt": (exact.together(exact.poisson(1), exact.bunches(2, exact.poisson(QUARTER))), e_to("-1.25")),
    "class/only_pairs.txt": (exact.bunches(2, exact.poisson(HALF)), e_to("-0.5")),
    "class/growing.txt": (exact.binomial(14, 4 * FIFTH), FIFTH ** 14),
    "class/turned.txt": (exact.binomial(14, 2 * FIFTH), (3 * FIFTH) ** 14),
    "class/barns.txt": (exact.poisson(2), e_to("-2")),
    "class/closed.txt": (exact.poisson(2), e_to("-2")),
}
# Where every chance is exact: "Coin-toss examples divide without remainder". Three tosses with sizes 1 and 2 come to 64ths of U, two with
# size 1 to quarters; and 1000 is halved three times.
EXACT = {"coin_toss.txt", "class/two_tosses.txt", "class/no_law.txt"}
REFUSED = {"refused.txt": b"REFUSED 24 9\n", "older.txt": b"REFUSED 23 5\n", "class/growing.txt": b"REFUSED 10 19\n"}


def term_faults(job, law):
    """The terms give the count coefficients of the law, as far as 20 claims."""
    by_terms = exact.by_terms(job.divisor, job.a[:job.order], job.b[:job.order])
    if any(by_terms(n) != law(n) for n in range(21)):
        yield "the TERM lines are not those of the law"


def zero_total(job, law, none):
    """The chance that the total is zero, by Theorem 9 of source document 002: the sum of p_n q^n."""
    return none * sums_of_job(job, law, 0)[0][0] if job.zero else none


def start_faults(job, start):
    if (job.low_start, job.high_start) != (math.floor(start), math.ceil(start)):
        yield f"START is not {math.floor(start)} {math.ceil(start)}"


def table_faults(job, table, law, start):
    heading, *lines = table.splitlines()
    if len(lines) != job.last + 1:
        yield f"no table, but {heading!r}"
        return
    rows, amounts = program.rows_of(table), amounts_per_unit(job, law)
    if job.zero:
        yield from beside_sums(job, law, amounts)[1]
    for total, amount in enumerate(amounts):
        if not rows.low[total] <= start * amount <= rows.high[total]:
            yield f"at {total}: the exact amount, about {float(start * amount)}, is not from {rows.low[total]} to {rows.high[total]}"
    yield from wrong_marks(job, rows, amounts)


def faults(name):
    sheet = (FOLDER / name).read_bytes()
    table = program.output(sheet)
    if table != REFUSED.get(name, table):
        yield f"the calculator says {table!r:.200}"
    if name in LAWS:
        law, none = LAWS[name]
        job = read_job(sheet, MOST_WEIGHTS)
        start = UNIT * zero_total(job, law, none)
        yield from term_faults(job, law)
        yield from start_faults(job, start)
        if name not in REFUSED:
            yield from table_faults(job, table, law, start)
            if (name in EXACT) == (b" N\n" in table):
                yield f"the calculator has {'an N' if name in EXACT else 'no N'} in the column EXACT"


def main():
    names = sorted(path.relative_to(FOLDER).as_posix() for path in FOLDER.rglob("*.txt"))
    if set(names) != LAWS.keys() | REFUSED.keys():
        sys.exit(f"not the sheets that are known here: {names}")
    found = [f"{name}: {fault}" for name in names for fault in faults(name)]
    print(*found, f"examples: {len(names)} sheets set beside the calculator, {len(found)} faults", sep="\n")
    if found:
        sys.exit(1)


main()
