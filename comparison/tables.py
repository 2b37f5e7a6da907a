"""What was found, as the tables of docs/COMPARISON.md. Each is a text of markdown lines; `found` are all results, law by law."""
from decimal import Context, Decimal
from fractions import Fraction
from itertools import groupby

import jobs
from limits import LAST_TOTAL, MOST_TOTALS, UNIT
from results import quantile

THREE_DIGITS = Context(prec=3)
ALL = range(MOST_TOTALS)


def about(number):
    """Three digits of a fraction of any size."""
    if number is None:
        return "no number"
    digits = THREE_DIGITS.divide(Decimal(number.numerator), Decimal(number.denominator))
    return f"{digits:.3g}" if digits == 0 or 0.001 <= abs(digits) < 1000 else f"{digits:.2e}"


def table(heading, rows):
    lines = [heading, ["---"] * len(heading), *rows]
    return "".join(f"| {' | '.join(map(str, line))} |\n" for line in lines)


def ranges(totals):
    """Totals in order, those that follow one another as one range: 0 to 3, 5."""
    texts = []
    for _, pairs in groupby(enumerate(totals), lambda pair: pair[1] - pair[0]):
        members = [total for _, total in pairs]
        texts.append(str(members[0]) if len(members) == 1 else f"{members[0]} to {members[-1]}")
    return ", ".join(texts)


def refusal(ours):
    return "{} at {}".format(*ours.refusal) if ours.refusal else ""


def by_law_and_table(found, cell):
    """A line for each law that has a cell with a text, and a column for each table."""
    rows = []
    for law, results in groupby(found, lambda result: result.law):
        cells = [cell(result) for result in results]
        if any(cells):
            rows.append((law.name, *cells))
    return table(("law", *jobs.TABLES), rows)


def relative(result, total):
    return abs(result.error(total)) / UNIT / result.exact[total]


def relative_error(found, least):
    """Actuar's greatest, at exact chances above the least."""
    return max(relative(result, total) for result in found for total in ALL if result.exact[total] > least)


# ---- the tables

def counts(found):
    """What is said first, in numbers."""
    usual = [result.theirs.chances("USUAL") for result in found]
    compared = sum(len(result.ours.rows) for result in found)
    enclosed = compared - sum(len(result.not_enclosed()) for result in found)
    outside = [at for result in found for at in result.outside()]
    usually = [at for result, chances in zip(found, usual) for at in result.outside() if at.total < len(chances)]
    not_zero = [(result, at.total) for result in found for at in result.outside() if result.exact[at.total]]
    quantiles = [(quantile(result.exact), float(result.theirs.said["QUANTILE"])) for result in found]
    known = [pair for pair in quantiles if pair[0] is not None]
    positive = [result for result in found if result.law.a >= 0]
    moderate = [result for result in found if -1 <= result.law.a < 0]
    rows = [
        ("jobs: a law and a table", len(found)),
        (f"jobs that the program accepts to total {LAST_TOTAL}", sum(result.ours.refusal is None for result in found)),
        ("totals with a low and a high", f"{compared:,}"),
        ("the exact amount is from low to high", f"{enclosed:,}"),
        ("actuar's chance is from low to high", f"{compared - len(outside):,}"),
        ("actuar's chance is outside", f"{len(outside):,}"),
        ("- and low and high are the same number", f"{sum(at.low == at.high for at in outside):,}"),
        ("- and the exact amount is 0", f"{len(outside) - len(not_zero):,}"),
        ("- and the exact amount is not 0", f"{len(not_zero):,}"),
        ("- - greatest relative error of actuar there", about(max((relative(*pair) for pair in not_zero), default=None))),
        ("- and actuar has the total with its defaults", f"{len(usually):,}"),
        ("- by more than 0.000001 unit", sum(at.units > Fraction(1, 1000000) for at in outside)),
        ("- by more than a unit", sum(at.units > 1 for at in outside)),
        ("actuar's greatest error as a part of what rounding can do", f"{max(result.part_of_limit() for result in found):.2f}"),
        ("actuar's greatest relative error, Poisson and negative binomial, chances above 1e-300", about(relative_error(positive, 1e-300))),
        ("actuar's greatest error in units, binomial with p up to 1/2", about(max(result.worst(ALL) for result in moderate))),
        (f"chances below 0 that actuar gives, to total {LAST_TOTAL}",
         f"{sum(chance < 0 for result in found for chance in result.chances):,}"),
        ("chances below 0 that actuar gives with its defaults", f"{sum(chance < 0 for chances in usual for chance in chances):,}"),
        (f"jobs whose exact quantile at 0.99 is {LAST_TOTAL} at most", len(known)),
        ("actuar, with its defaults, has another", sum(ours != theirs for ours, theirs in known)),
    ]
    return table(("", "number"), rows)


def right_and_wrong(found):
    """All totals: whether the program accepts them, and whether actuar is off by more than a unit."""
    def row(name, pairs):
        among = sum(len(totals) for _, totals in pairs)
        off = sum(len(result.off(totals)) for result, totals in pairs)
        return name, f"{among - off:,}", f"{off:,}"
    rows = [
        row("a low and a high", [(result, range(len(result.ours.rows))) for result in found]),
        row("a refusal", [(result, result.refused_totals()) for result in found]),
        row("a refusal, and START was 0 1", [(result, result.refused_totals()) for result in found if jobs.start(result.law) == (0, 1)]),
    ]
    return table(("the program has", "actuar right to a unit", "actuar off by more"), rows)


def compared_and_outside(found):
    """How many totals were compared, and how many of them are outside."""
    return by_law_and_table(found, lambda result: f"{len(result.ours.rows)} / {len(list(result.outside()))}")


def every_outside(found, zero):
    """Every total outside: where the exact amount is 0, or where it is not."""
    rows = []
    for result in found:
        some = [outside for outside in result.outside() if (result.exact[outside.total] == 0) == zero]
        if some:
            worst = max(some, key=lambda outside: outside.units)
            totals = ranges([outside.total for outside in some])
            rows.append((result.law.name, result.table, totals, len(some), f"{about(worst.units)} at {worst.total}"))
    return table(("law", "table", "totals", "number", "units outside, at most"), rows)


def wrong_by_default(found):
    """Jobs in which actuar, with its defaults, gives chances that are off by more than a unit."""
    rows = []
    for result in found:
        usual, convolution = result.theirs.chances("USUAL"), result.theirs.chances("CONVOLUTION")
        off = result.off(range(len(usual)), usual)
        if off:
            by_convolution = result.worst(range(min(len(convolution), MOST_TOTALS)), convolution)
            rows.append((result.law.name, result.table, ranges(off), len(usual) - 1, f"{min(usual):.3g}", f"{max(usual):.3g}",
                         result.theirs.said["QUANTILE"], quantile(result.exact), result.theirs.said.get("WARNING", "nothing"),
                         about(by_convolution)))
    return table(("law", "table", "totals off by more than a unit", "stops at", "least chance", "greatest chance", "quantile 0.99",
                  "exact quantile", "actuar says", "by convolution, units off"), rows)


def wrong_to_the_last(found):
    """From which total on actuar, kept from stopping, is off by more than a unit."""
    def cell(result):
        off = result.off(ALL)
        return f"{off[0]}; {refusal(result.ours)}" if off else ""
    return by_law_and_table(found, cell)


def small_starts(found):
    """Poisson laws with claims of size 1 whose chance of no claims is near the smallest double, or below."""
    rows = []
    for law, option, answer in found:
        mean, usual = int(law.b), answer.chances("USUAL")
        exact = [law.none * law.coefficient(n) for n in range(2 * mean)]
        theirs = (f"{usual[mean]:.6f}", len(usual) - 1, answer.said["QUANTILE"]) if usual else ("", "", "")
        rows.append((mean, option, theirs[0], f"{float(exact[mean]):.6f}", *theirs[1:], quantile(exact),
                     answer.said.get("ERROR", answer.said.get("WARNING", "nothing"))))
    return table(("mean", "option", "chance that the total is the mean", "exact", "stops at", "quantile 0.99", "exact quantile",
                  "actuar says"), rows)


def zeros(found):
    """Jobs with claims of size 0."""
    rows = [(result.law.name, result.others.name, "{} {}".format(*jobs.start(result.others)), len(result.ours.rows), len(result.outside()),
             about(result.error())) for result in found]
    return table(("law", "of the claims that are not zero", "START", "totals compared", "of them outside",
                  "actuar's greatest error, units"), rows)


def refusals(found):
    """Number and total of each refusal, and actuar's greatest error from there on, in units."""
    def cell(result):
        return f"{refusal(result.ours)}; {about(result.worst(result.refused_totals()))}" if result.ours.refusal else ""
    return by_law_and_table(found, cell)


def widths(found):
    """How wide the program's intervals get with the mean of a Poisson law, for claims of size 1."""
    rows = []
    for law, ours in found:
        gaps = [high - low for low, high in ours.rows]
        at = gaps.index(max(gaps))
        amount = float(UNIT * law.none * law.coefficient(at))
        rows.append((law.b, "{} {}".format(*jobs.start(law)), refusal(ours), f"{gaps[at]:,}", at, f"{amount:,.0f}"))
    return table(("mean", "START", "refused", "widest gap", "at total", "exact amount there"), rows)
