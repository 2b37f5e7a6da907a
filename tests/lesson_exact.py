"""The sentences of part 7 of docs/CLASS.md that have numbers, as lesson_numbers.py has those of the other parts. What holds for every sheet
is tried for many."""
import math
from fractions import Fraction
from itertools import product

from lesson import AND, entries, job, marks, rows
from lesson_numbers import E_1, HALF, PUMPS, THIRD, TOSSES, where

import exact
from limits import UNIT
from nearest import nine_digits
from outward import Job, run

TOSSES_SHEET, HEADS, PAIRS, GROWING = "two_tosses.txt", "heads.txt", "only_pairs.txt", "growing.txt"
# Other lines: those that the lesson shows, of the mowers and of amounts that change their sign.
LAST_GROWING, OTHER_SIGNS = "LAST 18", f"LAW 1 1{AND}START 4 6"
# e^-1 cut to a whole number of units
START_CUT = "START 367879441 367879441"

HEAD_AMOUNTS = exact.amounts(exact.geometric(HALF), [1], UNIT * HALF, 12)


def is_whole(amount):
    return Fraction(amount).denominator == 1


def for_both_starts(read, law):
    """The exact amounts for the low start and for the high one."""
    return [exact.amounts(law, read.weights, start, read.last) for start in (read.low_start, read.high_start)]


def right_for_starts(name, other, law):
    """The totals whose low and high are the exact amounts, each for its start."""
    pairs = zip(rows(name, other), *for_both_starts(job(name, other), law))
    return [total for (total, low, high, _), *ends in pairs if [low, high] == ends]


def marked(name, other=None):
    """The totals with Y."""
    return [total for total, mark in enumerate(marks(name, other)) if mark == "Y"]


# ---- the sentences

def coin():
    table = rows(TOSSES_SHEET)
    yield where(marked(TOSSES_SHEET) == [*range(len(table))],
                f"A coin is tossed twice in part 2, and every line of `{TOSSES_SHEET}` has Y.")
    _, low, high, _ = table[2]
    yield where(low == high == TOSSES[2],
                f"So two heads do not have a chance near {float(TOSSES[2] / UNIT)}. They have {nine_digits(low)}, and behind these nine "
                f"digits there are no others.")


def heads():
    """1,000,000,000 halved as often as it goes, and once more."""
    halvings = next(count for count in range(64) if UNIT % 2 ** (count + 1))
    last = marked(HEADS)[-1]
    yield where(all(amount == UNIT * HALF ** (total + 1) for total, amount in enumerate(HEAD_AMOUNTS)),
                f"No head comes with chance {HALF}, and each further head halves the chance: it is ({HALF} + 0/n) times the one before.")
    yield where(halvings == 9 == last + 1 and UNIT == 2 ** halvings * 5 ** 9 and marked(HEADS) == [*range(last + 1)],
                f"Chance 1 is {UNIT:,} units, and that is 2^9 × 5^9. So it can be halved nine times, down to 5^9 = "
                f"{HEAD_AMOUNTS[last]} at total {last}. The tenth time a rest is left:")
    yield where(is_whole(10 * HEAD_AMOUNTS[last + 1]) and not is_whole(HEAD_AMOUNTS[last + 1]),
                f"The exact amount is {float(HEAD_AMOUNTS[last + 1])} units: the chance has ten digits, and a line has room for nine.")
    yield (f"The low comes out even here. But it is made from a low that was rounded, and the exact amount is "
           f"{float(HEAD_AMOUNTS[last + 2])} units.")


def whole_units():
    def tosses(count):
        return [UNIT * math.comb(count, heads) * HALF ** count for heads in range(count + 1)]
    yield where(all(is_whole(amount) for count in range(10) for amount in tosses(count)) and not all(map(is_whole, tosses(10))),
                "The chances of a coin's heads are whole numbers of units up to nine tosses.")
    six = THIRD * HALF
    yield where(not is_whole(UNIT * six), f"That of a six with a die, {six}, is none.")


def two_numbers():
    """Of the mowers, where Y ends with the first negative factor."""
    read, last = job(GROWING, LAST_GROWING), marked(GROWING, LAST_GROWING)[-1]
    _, low, high, _ = rows(GROWING, LAST_GROWING)[last]
    law = exact.binomial(14, Fraction(4, 5))
    right = right_for_starts(GROWING, LAST_GROWING, law) == marked(GROWING, LAST_GROWING) == [*range(last + 1)]
    yield where(right, f"Look at the table of `{GROWING}` in part 4. The totals 0 to {last} have Y, and at total {last} low and high are "
                       f"{high - low} units apart. Y says that the low is right for the start {read.low_start} and the high for the start "
                       f"{read.high_start}.")
    negative = next(x for x in range(1, read.last) for y in (1, 2) if y <= x and read.a[0] * x + read.b[0] * y < 0)
    yield where(negative == last + 1, f"The first N is at total {negative}, where a factor is negative for the first time:")


def wrong_start():
    _, low, high, _ = rows("poisson.txt", START_CUT)[0]
    yield where(low == high == math.floor(UNIT * E_1) and marked("poisson.txt", START_CUT)[0] == 0,
                f"With `{START_CUT}` in `poisson.txt` total 0 has Y, and low and high are equal.")
    yield where(low != UNIT * E_1, "But e^-1 is not that number: the line is exact for a start that is wrong.")


def no_promise():
    read, law = job("no_law.txt", OTHER_SIGNS), exact.geometric(Fraction(-1))
    first, second = for_both_starts(read, law)
    written = ["{}, {}, {} and {}".format(*amounts) for amounts in (first, second)]
    yield where(right_for_starts("no_law.txt", OTHER_SIGNS, law) == [0, 2] and marked("no_law.txt", OTHER_SIGNS) == [0],
                f"From the start {read.low_start} the exact amounts are {written[0]}, and from {read.high_start} they are {written[1]}. At "
                f"total 1 the low is {second[1]}, which is right for the high start and not for the low one: Y would be wrong. At total 2 "
                f"low and high are turned about once more, to {first[2]} and {second[2]}, and Y would be right.")


def pumps():
    first, *others, last = marked("binomial.txt")
    yield where(all(PUMPS[total] == rows("binomial.txt")[total][1] for total in marked("binomial.txt")),
                f"Those of the totals {first}, {', '.join(map(str, others))} and {last}.")


def pairs():
    totals = entries(job(PAIRS), 3)
    yield where(marks(PAIRS)[2:4] == "NY", f"In the table of `{PAIRS}` (question 3.5) total 2 has N, and total 3 has Y.")
    yield where(totals[2][1] == totals[1][0] and marks(PAIRS)[1] == "Y",
                "Row 1 at total 2 is the table's total 1, moved down by 1, and that has Y.")


def some_jobs():
    """Of order 1 and 2, with factors of all signs, starts with a gap and without, that come out even or not."""
    tables, starts = ([1], [2], [1, 1], [2, 1], [0, 1]), ((7, 7), (60, 60), (4, 6), (5, 8))
    for order, divisor, a, b, weights, start in product((1, 2), (1, 2, 3), (-2, -1, 0, 1), (0, 1, 4), tables, starts):
        terms = ([term, order - 1, 0, 0] for term in (a, b))
        yield Job(order, divisor, *terms, *start, weights, 6)


def equal_ends():
    """Lines with equal ends and N, and from starts without a gap those with Y and ends apart; and whether both letters came."""
    faults, letters = 0, set()
    for read in some_jobs():
        refusal, found = run(read)
        for low, high, _, mark in [] if refusal else found:
            letters.add(mark)
            faults += mark == 0 and low == high or mark == 1 and low < high and read.low_start == read.high_start
    return faults, letters


def equal_and_marked():
    yield where(equal_ends() == (0, {0, 1}), "So from a start with s = t a line has Y just where its low and its high are equal.")


PARTS = [coin, heads, whole_units, two_numbers, wrong_start, no_promise, pumps, pairs, equal_and_marked]
