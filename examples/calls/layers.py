"""What layers of a stop-loss cover cost on the totals of a sheet, by the package claimtotals. From the folder that has README.md:

    library/build
    PYTHONPATH=python python3 examples/calls/layers.py examples/poisson.txt 5:10 10:20

A layer is written as its attachment and its limit, the totals where it begins and ends. README.md says what its cost means. The archive of
a release has the library, and where the wheel is installed PYTHONPATH is not needed either. The costs go to standard output, as billionths
of a money unit and as money units. A refusal goes to standard error, and the exit status is then 1; it is 2 for wrong use and where the
file cannot be read or the costs cannot be written."""
import re
import sys

import claimtotals

# Two numbers as on a sheet. int alone would take spaces, a sign, and digits of other scripts.
LAYER = "(0|[1-9][0-9]*):(0|[1-9][0-9]*)"


def layer(word):
    found = re.fullmatch(LAYER, word)
    if not found:
        raise ValueError("wrong use")
    return int(found[1]), int(found[2])


def show(path, *words):
    layers = [layer(word) for word in words]
    # One byte more than a sheet may have: a longer file is refused as too long, and not cut to a sheet that might be good.
    with open(path, "rb") as file:
        sheet = file.read(claimtotals.MOST_BYTES + 1)
    # A number of more than 64 bits is a ValueError too.
    costs = claimtotals.read_sheet(sheet).curve().layers(layers)
    # Output is written late: when it is closed, it is known whether it could be. Of sys.stdout Python would try to write the rest once more
    # at the end, and give another status.
    with open(1, "w") as output:
        for cost in costs:
            low, high = (end / claimtotals.UNIT for end in (cost.low, cost.high))
            print(f"layer {cost.attachment}:{cost.limit}: low {cost.low}, high {cost.high}, or {low:.9f} to {high:.9f}", file=output)


def main():
    try:
        if len(sys.argv) < 3:
            raise ValueError("wrong use")
        show(*sys.argv[1:])
    except ValueError:
        print(f"usage: {sys.argv[0]} SHEET ATTACHMENT:LIMIT ..; whole numbers from 0 up", file=sys.stderr)
        return 2
    except claimtotals.Refused as refusal:
        print(refusal.sentence, file=sys.stderr)
        return 1
    except OSError as fault:
        print(fault, file=sys.stderr)
        return 2
    return 0


sys.exit(main())
