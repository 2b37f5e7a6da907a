"""The START line of a law that is known by its mean, or by a chance and a number of trials, by the package claimtotals. From the folder
that has README.md:

    library/build
    PYTHONPATH=python python3 examples/calls/start.py mean 37 10
    PYTHONPATH=python python3 examples/calls/start.py trials 1 20 30

The first is a Poisson law of mean 37/10, the second a binomial law of 30 trials with chance 1/20. The archive of a release has the library,
and where the wheel is installed PYTHONPATH is not needed either. The line goes to standard output. A refusal goes to standard error, and
the exit status is then 1; it is 2 for wrong use and where the line cannot be written."""
import re
import sys

import claimtotals

# By the first word and the number of those behind it.
CALLS = {("mean", 2): claimtotals.start_of_mean, ("trials", 3): claimtotals.start_of_trials}

# As on a sheet. int alone would take spaces, a sign, and digits of other scripts.
NUMBER = "0|[1-9][0-9]*"


def show(name="", *words):
    call = CALLS.get((name, len(words)))
    if call is None or not all(re.fullmatch(NUMBER, word) for word in words):
        raise ValueError("wrong use")
    # A number of more than 64 bits is a ValueError too.
    low, high = call(*map(int, words))
    # Output is written late: when it is closed, it is known whether it could be. Of sys.stdout Python would try to write the rest once more
    # at the end, and give another status.
    with open(1, "w") as output:
        print(f"START {low} {high}", file=output)


def main():
    try:
        show(*sys.argv[1:])
    except ValueError:
        print(f"usage: {sys.argv[0]} mean UPPER LOWER, or trials UPPER LOWER TRIALS; whole numbers from 0 up", file=sys.stderr)
        return 2
    except claimtotals.Refused as refusal:
        print(refusal.sentence, file=sys.stderr)
        return 1
    except OSError as fault:
        print(fault, file=sys.stderr)
        return 2
    return 0


sys.exit(main())
