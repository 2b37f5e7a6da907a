"""The same recursion with one number for each total, rounded to the nearest billionth, as programs do that know no low and high. It is no
part of the paper: docs/CLASS.md sets it beside the tool's table. As a script, `nearest.py SHEET START` prints the chances of the sheet's
totals with nine digits; START is the chance that the total is zero in billionths, a whole number."""
import pathlib
import sys
from fractions import Fraction

from limits import MOST_WEIGHTS, UNIT
from outward import thinned_divisor, whole
from sheet import Refused, read_job


def next_values(job, earlier):
    """The values of rows 0 to k-1 at the next total x, from those at the totals 0 to x-1."""
    x = len(earlier)
    reached = list(enumerate(job.weights, 1))[:x]
    curve = sum((job.a[i] * x + job.b[i] * y) * w * earlier[x - y][i] for i in range(job.order) for y, w in reached)
    further = [round(Fraction(sum(w * earlier[x - y][j - 1] for y, w in reached), whole(job))) for j in range(1, job.order)]
    return [round(Fraction(curve, thinned_divisor(job) * x)), *further]


def nearest(job, start):
    """The values at the totals 0 to X, in units."""
    totals = [[start] + [0] * (job.order - 1)]
    while len(totals) <= job.last:
        totals.append(next_values(job, totals))
    return [values[0] for values in totals]


def nine_digits(units):
    sign = "-" if units < 0 else ""
    whole, part = divmod(abs(units), UNIT)
    return f"{sign}{whole}.{part:09}"


def table(job, start):
    return "TOTAL CHANCE\n" + "".join(f"{total} {nine_digits(units)}\n" for total, units in enumerate(nearest(job, start)))


def main():
    if len(sys.argv) != 3:
        sys.exit("usage: nearest.py SHEET START")
    path, start = sys.argv[1:]
    try:
        print(end=table(read_job(pathlib.Path(path).read_bytes(), MOST_WEIGHTS), int(start)))
    except Refused as refusal:
        sys.exit(f"the sheet is refused by {refusal.number} at line {refusal.line}")
    except (OSError, ValueError) as fault:
        sys.exit(f"nearest.py: {fault}")


if __name__ == "__main__":
    main()
