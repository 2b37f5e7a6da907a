"""What the program `curve` writes on a sheet, as the paper says it: the table of the sheet's curve, or one line that refuses it.
As a script it reads the sheet from standard input and writes this to standard output."""
import sys

from limits import MOST_TOTALS, MOST_WEIGHTS, WORK_COLUMNS
from outward import Lent, curve
from sheet import read_sheet


def long_enough():
    """Rows for every last total that the curve call accepts; a greater one is refused by 7 before their places count."""
    return Lent(*([0] * MOST_TOTALS for _ in range(4)), [0] * (WORK_COLUMNS * MOST_TOTALS))


def refusal(number, place):
    return f"REFUSED {number} {place}\n"


def table(lent, last):
    rows = zip(range(last + 1), lent.low, lent.high, lent.bound, lent.mark)
    lines = [f"{total} {low} {high} {bound} {'Y' if mark else 'N'}\n" for total, low, high, bound, mark in rows]
    return "TOTAL LOW HIGH BOUND EXACT\n" + "".join(lines)


def rows_of(printed):
    """The rows that a table shows, of which the work row is none."""
    lines = [line.split() for line in printed.splitlines()[1:]]
    low, high, bound = ([int(line[column]) for line in lines] for column in (1, 2, 3))
    return Lent(low, high, bound, [int(line[4] == b"Y") for line in lines], [])


def text(sheet):
    read = read_sheet(sheet, MOST_WEIGHTS)
    if read.number:
        return refusal(read.number, read.line)
    lent = long_enough()
    number, place = curve(read.job, lent)
    return refusal(number, place) if number else table(lent, read.job.last)


def output(sheet):
    """The program reads at most one byte more than a sheet may have; these are refused by 21, as are all the bytes of a longer sheet."""
    return text(sheet).encode()


if __name__ == "__main__":
    sys.stdout.buffer.write(output(sys.stdin.buffer.read()))
