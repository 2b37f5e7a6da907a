"""The sentences of part 5 of docs/CLASS.md that have numbers, as lesson_numbers.py has those of the other parts. What holds for every layer
is tried for all layers of the windows' table."""
import re
from fractions import Fraction
from itertools import combinations

from lesson import Law, both_round_to, cost, cut, job, layers_asked, lines, rows, sheet
from lesson_numbers import E_1, HALF, START_WIDE, WINDOWS, where

import exact
from layer import less_saved, payment, saving
from limits import MOST_LAYERS, UNIT
from nearest import nine_digits

POISSON, BARNS = "poisson.txt", "barns.txt"

# What the command writes below its lines.
MEANING = ("Where all chances add up to 1, a layer pays in a year, on average, from low to high billionths of a money unit; the decimals "
           "are money units.")

# The last weight of the barns, as it was typed, and as it was read then; and the exact amounts by the first and by the last.
RIGHT, TYPED, READ = "105", "10n5", "10"
BARN_AMOUNTS = {f"W {weight}": exact.amounts(exact.poisson(2), job(BARNS, f"W {weight}").weights, UNIT * E_1 ** 2, 30)
                for weight in (RIGHT, READ)}


def columns(other=None):
    """The lows and the highs of the windows."""
    return [[row[side] for row in rows(POISSON, other)] for side in (1, 2)]


def ascending(count):
    """So many totals, each above the one before, where layers of the windows can begin and end; in all ways."""
    return combinations(range(job(POISSON).last + 2), count)


def average(c, d):
    """What a layer of the windows pays, in billionths: payment times exact amount. What is left of U belongs to later totals."""
    return sum(payment(x, c, d) * amount for x, amount in enumerate(WINDOWS)) + (d - c) * (UNIT - sum(WINDOWS))


def refused_by(layer, other=None):
    """The number, of the windows; 0 where the layer is taken."""
    (number, _), _ = layers_asked([layer], POISSON, other)
    return number


def cases():
    c, d = 3, 5
    yield f"and not how wide it is: the layer {c}:{d} is {d - c} wide."
    yield where({payment(x, c, d) for x in range(c + 1)} == {0} == {saving(x, c, d) for x in range(d, 9)},
                f"The layer {c}:{d} pays nothing up to total {c}. At total {c + 1} it pays {payment(c + 1, c, d)} and saves "
                f"{saving(c + 1, c, d)}. From total {d} on it pays {payment(d, c, d)} and saves nothing.")


def saving_rule():
    yield f"This uses that all chances add up to 1, which is U = {UNIT:,} units: then the average payment is (d - c) × U less"
    yield "and how likely they are together is what the totals below d leave of 1."
    no_law = Fraction(rows("no_law.txt")[0][1]) / (1 + HALF)
    yield where(no_law != UNIT,
                "That all chances add up to 1 is known from the law and not from the table, just as in part 2 that no chance is below zero."
                " The amounts of `no_law.txt` there do not add up to 1, and a price made from them would say nothing.")
    low, high = columns()
    enclosed = all(less_saved(high, *layer) <= average(*layer) <= less_saved(low, *layer) for layer in ascending(2))
    yield where(enclosed, "The saving comes off, so **the high takes the lows and the low takes the highs**.")


def small_layer():
    (low, high), exact_average = cost("3:5", POISSON), average(3, 5)
    yield f"The tool does this for you, for one layer or for a list of up to {MOST_LAYERS}:"
    yield f'Below its lines it says how to read them: "{MEANING}" A money unit is what a claim of 1 costs.'
    crowns = both_round_to((1000 * low, 1000 * high), 2)
    yield f"If that is {1000:,} crowns, the layer 3:5 pays {crowns} crowns in a year on average; both ends round to it."
    yield where(low <= exact_average <= high,
                f"The exact average is {cut(exact_average / UNIT, 9)} money units, and it does lie from low to high.")


def below_zero():
    last, c = job(POISSON).last, 18
    d = last + 1
    (low, high), exact_average = cost(f"{c}:{d}", POISSON), average(c, d)
    yield where(refused_by(f"{c}:{d + 1}") == 63,
                f"The table ends at total {last}, and the totals below d are enough. So the limit may be {d}, which is LAST + 1, and no "
                f"more:")
    yield where(saving(c, c, d) == 3,
                f"Up to total {c} this layer saves all of its {d - c} money units. So the width of each of these lines counts three times, "
                f"and low and high are {high - low} units apart.")
    yield where(low < 0 < exact_average < high,
                f"The exact average, {cut(exact_average, 2)} units, is less than this width, and lies between them. Read the low as in "
                f"part 2: no payment is below zero, so if your law is a true one, read a negative low as 0. Write down: at most "
                f"{nine_digits(high)}.")


def barns():
    yield f"### The weight `{TYPED}`"
    read = job(BARNS)
    *small, large = (f"{weight} of size {size}" for size, weight in enumerate(read.weights, 1) if weight)
    yield (f"with {read.b[0]} claims a year on average, by a Poisson law. Its records have {sum(read.weights):,} claims: "
           f"{', '.join(small)}, and {large}, where a barn burned down.")
    yield where(Law(2, 1).line() in sheet(BARNS).decode().splitlines(), "The START line is that of mean 2, from part 1.")
    yield "The neighbour wants to give away what a year costs above 10, in two layers. The mutual prices them from the curve:"
    yield where(READ == re.match(r"\d*", TYPED)[0] and RIGHT == TYPED.replace("n", ""),
                f"The sheet had been typed with `W {TYPED}` at its end, an n in the midst of {RIGHT}. The old tool read the word up to the "
                f"n, as {READ}, and went on.")


def too_cheap():
    (low, high), (other_low, other_high) = (cost("10:20", BARNS, line) for line in BARN_AMOUNTS)
    least, most = low - other_high, high - other_low
    yield where(5 * other_high < low,
                f"The layer 10:20 was too cheap by at least {low} - {other_high} = {least} units and at most {high} - {other_low} = {most}."
                f" So the mutual would have lost {both_round_to((least, most), 5)} money units a year on average, and asked for less than "
                f"a fifth of the right price.")
    (low, _), (_, other_high), (_, without) = (cost("20:30", BARNS, line) for line in (*BARN_AMOUNTS, "W 0"))
    yield where(40 * other_high < low and 500 * without < low,
                "For 20:30 it was less than a fortieth: hardly a year gets that far without a burned barn.")


def no_warning():
    beside = [pair for line, amounts in BARN_AMOUNTS.items() for pair in zip(amounts, rows(BARNS, line))]
    sums = [sum(job(BARNS, line).weights) for line in BARN_AMOUNTS]
    widths = [high - low for low, high in (cost("10:20", BARNS, line) for line in BARN_AMOUNTS)]
    yield where(all(low <= amount <= high for amount, (_, low, high, _) in beside),
                f"Both tables are true, each of its own sheet. {READ} is a weight like any other. With it the sum W is {sums[1]} in place "
                f"of {sums[0]:,}, so that the small claims get likelier, and the exact chances of that sheet do lie from its lows to its "
                f"highs. Nor does the width tell: for 10:20 it is {widths[1]} units by {READ} and {widths[0]} by {RIGHT}.")
    yield f"It makes no number out of `{TYPED}`:"
    yield "Refusal {1} at line {2}: a word is no number there.".format(*lines(BARNS, f"W {TYPED}")[0].split())
    yield (f"But had `W {READ}` been typed, nothing could refuse it. So add up the weights: they would come to {sums[1]}, and the records "
           f"have {sums[0]:,} claims.")


def width_one():
    yield "Work out the layer 5:6 of `poisson.txt` by hand."
    yield where([payment(x, 5, 6) for x in range(9)] == [int(x > 5) for x in range(9)],
                "This layer pays 1 where the total is above 5, and else nothing. So its price is the chance of a total above 5.")


def split():
    first, second, whole = (cost(layer, POISSON) for layer in ("3:5", "5:6", "3:6"))
    yield "Add up the prices of the layers 3:5 and 5:6, low to low and high to high. What does the tool say of 3:6, and why?"
    yield ("The lows add up to {} + {} = {}, and the highs to {} + {} = {}. That is what the tool says of 3:6, to the unit:"
           .format(*(number for ends in zip(first, second, whole) for number in ends)))
    tried = [(row, *totals) for other in (None, START_WIDE) for row in columns(other) for totals in ascending(3)]
    adds_up = all(less_saved(row, c, d) + less_saved(row, d, e) == less_saved(row, c, e) for row, c, d, e in tried)
    yield where(adds_up, "At every total the savings of 3:5 and 5:6 add up to that of 3:6, their widths too, and nothing is rounded. It is "
                         "so wherever one layer begins where the other ends: a layer may be split,")


def no_limit():
    """What the totals have above 5 is also added up to total 20, as far as the exact amounts are known here."""
    read = job(POISSON)
    sizes = sum(size * weight for size, weight in enumerate(read.weights, 1))
    mean = Fraction(read.b[0] * sizes, read.divisor * sum(read.weights))
    whole, (low, high) = mean * UNIT, cost("0:5", POISSON)
    yield (f"What does the layer 0:5 of `poisson.txt` cost? A year of part 1 costs {mean} on average. What does a layer cost that begins "
           f"at 5 and has no limit?")
    yield where(all(payment(x, 0, 5) == min(x, 5) for x in range(9)), "It pays the year's total up to 5:")
    least, most = whole - high, whole - low
    yield where(least <= sum((total - 5) * amount for total, amount in enumerate(WINDOWS) if total > 5) <= most,
                f"The rest of {mean}, which is {whole} billionths, is above 5: at least {whole} - {high} = {least} and at most {whole} - "
                f"{low} = {most} of them. Write down {both_round_to((least, most), 7)}.")


def short_table():
    last, one_more = "LAST 4", "LAST 5"
    yield f"Write `{last}` in `poisson.txt`. Which of the layers 3:5 and 3:6 can still be priced, and what helps for the other?"
    yield where(cost("3:5", POISSON, last) == cost("3:5", POISSON),
                "The layer 3:5 can, and its price is the same as before. It needs the totals below 5 alone, and these are there:")
    number, places = refused_by("3:6", last), len(rows(POISSON, last))
    yield f"For 3:6 total {places} is missing. The limit is above LAST + 1, which is {places}, and this is refusal {number}:"
    yield where(cost("3:6", POISSON, one_more) == cost("3:6", POISSON),
                f"A larger LAST helps, and `{one_more}` is enough; or a lower limit.")
    of_both, _ = layers_asked(["3:5", "3:6"], POISSON, last)
    yield where(of_both == (number, 1), "Where one layer of a list is refused, no line is printed, also none of the others.")


def not_below():
    yield ("A layer is to be 2 wide from 3 on, and `3:2` is typed. What does the tool say, and what of `5:5` and `6:5`? Another is to be 4 "
           "wide from 3 on, and `3:4` is typed.")
    number, *others = map(refused_by, ("3:2", "5:5", "6:5"))
    yield where(others == [number] * 2 and payment(9, 3, 5) == 2,
                f"It refuses `3:2` by {number}: the attachment is not below the limit. The limit is where the layer ends, so `3:5` is "
                f"meant. By {number} it also refuses `5:5`, which is not wide at all, and `6:5`, which ends before it begins.")
    yield where(not refused_by("3:4") and payment(9, 3, 7) == 4,
                f"But `3:4` is a layer, {payment(9, 3, 4)} wide, and the tool cannot know that `3:7` is meant.")


def wide_price():
    (low, high), narrow, exact_average = cost("3:5", POISSON, START_WIDE), cost("3:5", POISSON), average(3, 5)
    yield "Price the layer 3:5 by the START line of three digits of part 1."
    yield (f"Low and high are {high - low} units apart, where they were {narrow[1] - narrow[0]}. Write down "
           f"{both_round_to((low, high), 2)}.")
    yield where(low < exact_average <= high,
                f"that is enough on average, whatever the chances are between low and high, as they add up to 1. By the low it need not "
                f"be: the exact average, {cut(exact_average / UNIT, 9)}, is above it.")


PARTS = [cases, saving_rule, small_layer, below_zero, barns, too_cheap, no_warning, width_one, split, no_limit, short_table, not_below,
         wide_price]
