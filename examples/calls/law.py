"""The LAW and TERM lines of a law of order 1 that a publication writes in its own way, by the package claimtotals. From the folder that has
README.md:

    library/build
    PYTHONPATH=python python3 examples/calls/law.py panjer_willmot 0 9 12 -1
    PYTHONPATH=python python3 examples/calls/law.py hesselager 0 9 13 -1

The first is (0 + 9n) p_n = (12 - 1(n-1)) p_(n-1), as Panjer and Willmot write it; the second is (0 + 9n) p_n = (13 - 1n) p_(n-1), as
Hesselager does. Both are the law of examples/binomial.txt. The numbers stand in the order of the line, left and then right, and where it
has fractions, all four are given times their common denominator. The archive of a release has the library, and where the wheel is installed
PYTHONPATH is not needed either. The lines go to standard output. A refusal goes to standard error, and the exit status is then 1; it is 2
for wrong use and where the lines cannot be written."""
import re
import sys

import claimtotals

# By the first word and the number of those behind it.
CALLS = {("panjer_willmot", 4): claimtotals.law_panjer_willmot, ("hesselager", 4): claimtotals.law_hesselager}

# As on a sheet. int alone would take spaces, a plus, zeros in front, and digits of other scripts.
NUMBER = "0|-?[1-9][0-9]*"


def show(name="", *words):
    call = CALLS.get((name, len(words)))
    if call is None or not all(re.fullmatch(NUMBER, word) for word in words):
        raise ValueError("wrong use")
    # A number of more than 64 bits is a ValueError too.
    law = call(*map(int, words))
    # Output is written late: when it is closed, it is known whether it could be. Of sys.stdout Python would try to write the rest once more
    # at the end, and give another status.
    with open(1, "w") as output:
        print(law.lines(), file=output)


def main():
    try:
        show(*sys.argv[1:])
    except ValueError:
        print(f"usage: {sys.argv[0]} panjer_willmot ALPHA_0 ALPHA_1 BETA_0 BETA_1, or hesselager B_0 B_1 A_0 A_1; whole numbers of 64 bits",
              file=sys.stderr)
        return 2
    except claimtotals.Refused as refusal:
        print(refusal.sentence, file=sys.stderr)
        return 1
    except OSError as fault:
        print(fault, file=sys.stderr)
        return 2
    return 0


sys.exit(main())
