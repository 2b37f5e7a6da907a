"""The table of a sheet and its totals for a level, by the package claimtotals. From the folder that has README.md:

    library/build
    PYTHONPATH=python python3 examples/calls/table.py examples/poisson.txt

The archive of a release has the library, and where the wheel is installed PYTHONPATH is not needed either. The table goes to standard
output, and after it the totals for the level below, or `none` for one that is refused. A refusal goes to standard error, and the exit
status is then 1; it is 2 where the file cannot be read or the table cannot be written."""
import sys

import claimtotals

# Which total do 99 percent of the years not exceed?
LEVEL = claimtotals.UNIT // 100 * 99


def ask(query):
    """The total that a query answers, or `none`; and the status."""
    try:
        return query(LEVEL), 0
    except claimtotals.Refused as refusal:
        print(refusal.sentence, file=sys.stderr)
        return "none", 1


def show(path):
    """The status: 1 where a total is refused."""
    # One byte more than a sheet may have: a longer file is refused as too long, and not cut to a sheet that might be good.
    with open(path, "rb") as file:
        sheet = file.read(claimtotals.MOST_BYTES + 1)
    chances = claimtotals.read_sheet(sheet).curve()
    # Output is written late: when it is closed, it is known whether it could be. Of sys.stdout Python would try to write the rest once more
    # at the end, and give another status.
    with open(1, "w") as output:
        print(chances.text(), end="", file=output)
        sure, no_sure = ask(chances.sure)
        possible, no_possible = ask(chances.possible)
        print(f"level {LEVEL / claimtotals.UNIT:.9g}: sure {sure}, possible {possible}", file=output)
    return max(no_sure, no_possible)


def main():
    if len(sys.argv) != 2:
        print(f"usage: {sys.argv[0]} SHEET", file=sys.stderr)
        return 2
    try:
        return show(sys.argv[1])
    except claimtotals.Refused as refusal:
        print(refusal.sentence, file=sys.stderr)
        return 1
    except OSError as fault:
        print(fault, file=sys.stderr)
        return 2


sys.exit(main())
