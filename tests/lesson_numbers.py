"""The sentences of docs/CLASS.md that have numbers, with the numbers worked out: each must stand there, word for word. Exact chances come
from the closed forms of the laws."""
import math
import re
from decimal import Context, Decimal
from fractions import Fraction
from itertools import accumulate, combinations, product

from lesson import Law, both_round_to, cut, entries, evaluate, job, lines, rows, up

import exact
from level import possible, sure
from limits import LAST_TOTAL, UNIT
from nearest import nearest, nine_digits
from outward import Job
from start import LAST_TERM

# the lines that questions 2.4, 2.5 and 4.2 ask for
START_2_4, W_2_5, LAST_4_2 = "START 1001 1001", "W 2", "LAST 500"
# e^-1 to three digits, and a wide start for what is missing
START_WIDE, START_TURNED = "START 367000000 368000000", "START 400000 790000"

HALF, THIRD, QUARTER, FIFTH = (Fraction(1, n) for n in (2, 3, 4, 5))
E_1, E_HALF, E_QUARTER, E_4 = (Fraction(Context(prec=50).exp(Decimal(power))) for power in ("-1", "-0.5", "-0.25", "-4"))

# The exact amounts of the lesson's laws, in units.
PUMPS = exact.amounts(exact.binomial(3, Fraction(7, 10)), [2, 1], UNIT * Fraction(3, 10) ** 3, 48)
TOSSES = exact.amounts(exact.binomial(2, HALF), [1], UNIT * HALF ** 2, 4)
GROUPS = exact.amounts(exact.together(exact.binomial(5, FIFTH), exact.binomial(3, THIRD)), [3, 2, 1],
                       UNIT * (4 * FIFTH) ** 5 * (2 * THIRD) ** 3, 26)
WINDOWS = exact.amounts(exact.poisson(1), [1, 1], UNIT * E_1, 20)
ONLY_PAIRS = exact.amounts(exact.bunches(2, exact.poisson(HALF)), [1], UNIT * E_HALF, 6)
MOWERS = exact.amounts(exact.binomial(14, 4 * FIFTH), [1, 3], UNIT * FIFTH ** 14, 28)
TURNED = exact.amounts(exact.binomial(14, 2 * FIFTH), [1, 1], UNIT * (3 * FIFTH) ** 14, 28)


def where(holds, sentence):
    """A sentence that says what was found to hold; else one that does not stand in the text."""
    return sentence if holds else f"(does not hold) {sentence}"


def e_term(place):
    """Of the sums that come near to e^-1."""
    return Fraction((-1) ** place, math.factorial(place))


def e_sum(last):
    return sum(map(e_term, range(last + 1)))


def column(name, place):
    return [row[place] for row in rows(name)]


def greatest(amounts):
    """The greatest total that can come up."""
    return max(total for total, amount in enumerate(amounts) if amount)


def poisson_table():
    low, high, bound = (column("poisson.txt", place) for place in (1, 2, 3))
    widths = {end - start for start, end in zip(low, high)}
    yield f"{low[7]} is the chance {nine_digits(low[7])}."
    yield (f"The enclosures are {min(widths)} or {max(widths)} units wide from the first line to the last, and no bound is above "
           f"{max(bound)}.")
    digits = [len(str(int(both_round_to((low[total], high[total]), 8)[2:]))) for total in (2, 14, 18)]
    yield where(digits == [8, 3, 1] and both_round_to((low[20], high[20]), 8) == "0.00000000",
                "fewer of their digits are left: eight at total 2, three at total 14, one at total 18. At total 20 none is left,")
    sums = [list(accumulate(column)) for column in (low, high)]
    to_ten = sums[0][10], sums[1][10]
    beyond = UNIT - to_ten[1], UNIT - to_ten[0]
    yield (f"The lows add up to {to_ten[0]} and the highs to {to_ten[1]}. The chance of a total above 10 is what is missing to "
           f"{UNIT:,}: from {beyond[0]} to {beyond[1]} units. Write down {both_round_to(beyond, 7)}; to one digit more the two differ.")


# The levels of the lesson, in units.
LEVEL_99, LEVEL_999, LEVEL_1 = UNIT * 99 // 100, UNIT * 999 // 1000, UNIT // 100


def quantile(amounts, level):
    """The first total where the sum of exact amounts reaches the level."""
    return next(total for total, so_far in enumerate(accumulate(amounts)) if so_far >= level)


def sure_and_possible(level, name, other=None):
    """The two totals; a refusal in words."""
    _, low, high, _ = map(list, zip(*rows(name, other)))
    said = [call(low, high, level) for call in (sure, possible)]
    return [f"refused by {answer.number}" if answer.number else answer.total for answer in said]


def sums_to(total, name, other=None):
    """Of the lows and of the highs."""
    return [sum(row[side] for row in rows(name, other)[:total + 1]) for side in (1, 2)]


def from_possible_to_sure(level):
    """Whether the quantile of the windows lies there, by both starts; there may be no sure total."""
    exact_total = quantile(WINDOWS, level)
    pairs = [sure_and_possible(level, "poisson.txt", other) for other in (None, START_WIDE)]
    return all(least <= exact_total and (most == "refused by 34" or exact_total <= most) for most, least in pairs)


def poisson_levels():
    table, (most, least) = rows("poisson.txt"), sure_and_possible(LEVEL_99, "poisson.txt")
    yield f"add them up from total {table[0][0]} until the sum reaches the level {LEVEL_99 / UNIT}, which is {LEVEL_99} units."
    inside = all(low <= amount <= high for (_, low, high, _), amount in zip(table, WINDOWS))
    yield where(inside, f"**Sure** is the first total where the sum of lows reaches the level: {most}. No exact chance is below its low. "
                        f"So whatever the chances are between low and high, their sum up to total {most} reaches the level too.")
    before = least - 1
    yield where(inside, f"**Possible** is the first total where the sum of highs reaches the level: {least} again. No exact chance is "
                        f"above its high. So up to total {before} the chances add up to at most {sums_to(before, 'poisson.txt')[1]}, "
                        f"which is less than the level: no total below {least} can be the quantile.")
    yield where(all(map(from_possible_to_sure, range(UNIT // 1000, UNIT, UNIT // 1000))), "The quantile lies from possible to sure.")
    yield where(most == least == quantile(WINDOWS, LEVEL_99), f"Here both are {most}, so it is known: it is {most}.")
    most, least = sure_and_possible(LEVEL_999, "poisson.txt")
    yield where(most == least == quantile(WINDOWS, LEVEL_999),
                f"Up to total {most}. Up to total {least - 1} even the highs add up to less than {LEVEL_999}, up to total {most} even the "
                f"lows to more: sure and possible are {most}.")


def short_table():
    """Both totals are refused."""
    last = 5
    low, high = sums_to(last, "poisson.txt")
    neither = sure_and_possible(LEVEL_99, "poisson.txt", f"LAST {last}") == ["refused by 34", "refused by 35"]
    yield f"Write `LAST {last}` in `poisson.txt`, and ask for the level {LEVEL_99 / UNIT}."
    yield where(neither, "Possible is refused too, by 35, where the sum of highs reaches the level at no total of the table "
                         "(question 1.5).")
    yield where(neither, f"The lows of the whole table add up to {low}, so sure is refused by 34. The highs add up to {high}, so possible "
                         f"is refused by 35. That says more: whatever the chances are between low and high, their sum reaches the level "
                         f"at no total of this table.")
    yield where(quantile(WINDOWS, LEVEL_99) > last,
                f"So the quantile is above {last}. The table ends too early, and a larger LAST helps.")


def wide_start():
    """The two totals differ."""
    (most, least), read = sure_and_possible(LEVEL_99, "poisson.txt", START_WIDE), job("poisson.txt", START_WIDE)
    yield where(read.low_start < UNIT * E_1 < read.high_start,
                f"Let only three digits of e^-1 be known, {cut(E_1, 3)} The START line gets wider then, and so does the table:")
    low, high = sums_to(least, "poisson.txt", START_WIDE)
    yield where(low < LEVEL_99 < high,
                f"Take the level {LEVEL_99 / UNIT}. Up to total {least} the lows now add up to {low} and the highs to {high}: the one is "
                f"below the level, the other above it. So the quantile is {least} or {most}, and this table cannot tell which.")
    yield (f"**The mutual reserves by sure**, {most}: that is enough in both cases. **Pricing asks for possible**, {least}, the smallest "
           f"that the quantile could be: a price that counts on less is too low in both cases. But possible is a lower end and no promise.")
    yield f"The mutual can pay up to {least}."
    yield where(sure_and_possible(LEVEL_99, "poisson.txt")[0] == least,
                f"By the first START line it is: {least} is sure. By that of three digits nobody can say: {least} is possible, but only "
                f"{most} is sure.")


def wide_start_short():
    """Sure alone is refused."""
    (none, least), read = sure_and_possible(LEVEL_999, "poisson.txt", START_WIDE), job("poisson.txt", START_WIDE)
    exact_total = quantile(WINDOWS, LEVEL_999)
    lows = [total[0][0] for total in entries(read, LAST_TOTAL)]
    yield where(none == "refused by 34" and least <= exact_total,
                f"At the level {LEVEL_999 / UNIT} no total is sure. The lows of the whole table add up to {sum(lows[:read.last + 1])}, "
                f"which is below the level. This is refusal 34. It does not say that the level is not reached: the exact chances reach it "
                f"at total {exact_total}. It says that these lows do not show it, at any total of the table.")
    yield where(not any(lows[read.last + 1:]) and sure_and_possible(LEVEL_999, "poisson.txt")[0] == exact_total,
                "More totals would not help, as all later lows are 0; a better start does. Possible has its answer all the same.")


def mowers_level():
    none, least = sure_and_possible(LEVEL_99, "growing.txt", "LAST 18")
    yield where(none == "refused by 34" and max(row[1] for row in rows("growing.txt", "LAST 18")) == 0,
                "No low is above 0, so no total is sure: refusal 34.")
    exact_total, share = quantile(MOWERS, LEVEL_99), sum(MOWERS[:least + 1]) / UNIT
    yield where(least <= exact_total and share < QUARTER,
                f"Possible is true: the exact chances reach the level at total {exact_total}, which is not below {least}. But up to total "
                f"{least} they add up to {cut(share, 9)}, so with a reserve of {least} the mutual is safe in not even one year of four. "
                f"Never reserve by possible.")
    (most, missing), whole = sure_and_possible(LEVEL_1, "turned.txt"), greatest(MOWERS)
    low, high = sums_to(missing, "turned.txt")[0], sums_to(missing - 1, "turned.txt")[1]
    yield f"and that may happen in {100 * LEVEL_1 // UNIT} year of 100. So ask for the level {LEVEL_1 / UNIT}:"
    yield where(most == missing == whole - exact_total and high < LEVEL_1 < low,
                f"Up to total {missing - 1} even the highs add up to no more than {high}. So with a chance above {LEVEL_99 / UNIT} at "
                f"least {missing} is missing, and the year costs at most {whole} - {missing} = {exact_total}. To be able to pay "
                f"{exact_total - 1} is not enough: up to total {missing} the lows add up to {low}, so the year costs {exact_total} or more "
                f"with a chance of at least {nine_digits(low)}.")
    most, least = sure_and_possible(LEVEL_1, "turned.txt", START_TURNED)
    by_sure, by_possible = (sum(MOWERS[:whole - missing + 1]) for missing in (most, least))
    yield where(by_sure < LEVEL_99 <= by_possible,
                f"Where the two differ they change places here, as the table counts what is missing: a reserve of {whole} less possible is "
                f"safe, and one of {whole} less sure need not be.")


def poisson_start():
    """Of the sums those to term 40 are looked at; e^-1 is known to fifty digits here."""
    yield "as one likes: {} - {} + {} - {} + {} and so on.".format(*(abs(e_term(place)) for place in range(5)))
    low, high = Law(1, 1).start()
    first, second = e_sum(LAST_TERM - 1), e_sum(LAST_TERM)
    enclosed = UNIT * first <= high and low <= UNIT * second
    yield where(enclosed, f"Take those to the terms {LAST_TERM - 1} and {LAST_TERM}, which are {first} and {second}. In units the one is "
                          f"at most {high} and the other at least {low}, so these two enclose e^-1.")
    between = all(second <= number <= first for number in [*map(e_sum, range(LAST_TERM - 1, 41)), E_1])
    smaller = all(abs(e_term(place + 1)) < abs(e_term(place)) for place in range(1, 40))
    yield where(between and smaller, "by steps that get ever smaller. So no later sum gets out from between two that follow each other,")
    yield f"Begin with {UNIT:,}, for chance 1, and multiply twice, outward:"
    mean = Fraction(5, 2)
    yield f"A mean such as {mean} has a rest, {mean % 1}, beside its wholes."
    yield f"each term is the one before it times {mean % 1}, divided by its own number, with the other sign, and rounded outward."
    yield f"one for the rest times one for each whole, all of them to term {LAST_TERM} or further, lies from s to t in units."
    start, before = Law(4, 1).start(), Law(3, 1).start()
    once = math.floor(UNIT * E_4), math.ceil(UNIT * E_4)
    yield where(start != once and before[1] > UNIT * E_1 ** 3,
                f"e^-4 is {cut(UNIT * E_4, 2)} units. But high 3 is above e^-3, as it was rounded up, and with it high 4 comes to "
                f"{cut(Fraction(before[1] * high, UNIT), 2)} before it is rounded up itself.")


def binomial_law():
    chance = Fraction(7, 10)
    odds = chance / (1 - chance)
    yield (f"with chance {chance} each. A repair costs 1 or 2, the 1 twice as likely, so no year costs more than {greatest(PUMPS)}. "
           f"This is a binomial law with N = 3 and p = {chance}: A/D is -p/(1-p) = {-odds}, B/D is (N+1)p/(1-p) = {4 * odds},")


def binomial_table():
    table = rows("binomial.txt")
    yield f"No total above {greatest(PUMPS)} can come up, and no chance is below zero."
    _, low, high, _ = table[8]
    yield f"At total 8 the table says: from {low} to {high}. The exact chance, {PUMPS[8]}, is there."
    amount = exact.amount(exact.geometric(-HALF), [1], 1000, 1)
    yield f"Here each amount is {-HALF} times the one before, so that of total 1 is {amount} exactly"
    yield (f"For total 5, {both_round_to(table[5][1:3], 8)}: both ends round to it. For total 7, that it is at most "
           f"{nine_digits(table[7][2])}; from the law you know that it is {PUMPS[7]}.")
    sums = [sum(column("binomial.txt", place)[:7]) for place in (1, 2)]
    yield f"the lows of the totals 0 to 6 add up to {sums[0]} and the highs to {sums[1]}."
    yield (f"It is 7/3 for the pumps of part 2, where they go up from {table[8][3]} to {table[12][3]} though the start was exact, and "
           f"{-job('growing.txt').a[0]} here.")
    refusal = lines("binomial.txt", LAST_4_2)[0]
    total = int(refusal.split()[2])
    low, high, bound = entries(job("binomial.txt"), total)[total][0]
    yield where(bound > UNIT, f"`{refusal}`. No year costs more than 6, so the exact chance of total {total} is {PUMPS[total]}. It is the "
                              f"bound that is refused; the enclosure itself would be from {low} to {high}, too wide to be of use.")


def allowance(divisor):
    """What the calculator adds to the bound, beside the bound sum over the divisor, rounded up."""
    bound_sum = 7
    read = Job(1, divisor, [0] * 4, [bound_sum, 0, 0, 0], 4, 5, [1], 1)
    return entries(read, 1)[1][0][2] - up(bound_sum, divisor)


def widening(divisor):
    """What rounding can add to the gap at most, beside that of the sums over the divisor, rounded up; for all rests."""
    rests = range(divisor)
    return max(up(low + gap, divisor) - low // divisor - up(gap, divisor) for low in rests for gap in rests)


def nothing_added(most):
    """The D, x and W from 1 to `most` where a bound of 0 stays 0; without terms nothing but the one can add to it."""
    numbers = range(1, most + 1)
    tables = {(d, w): entries(Job(1, d, [0] * 4, [0] * 4, 7, 7, [w], most), most) for d, w in product(numbers, repeat=2)}
    return [(d, x, w) for (d, w), totals in tables.items() for x in numbers if totals[x][0][2] == 0]


def bound_rule():
    yield where(all(allowance(divisor) == 1 for divisor in range(2, 1001)),
                "added up, divided, rounded up, plus one. The one is for the rounding of low and high.")
    yield where(allowance(1) == widening(1) == 0,
                "Where the divisor is 1, nothing is rounded and nothing is added: part 2 has such a line.")
    yield where(all(widening(divisor) == 1 for divisor in range(2, 25)),
                "one unit more than the bound sum over the divisor, rounded up, is always enough.")


def from_starts(name, gap):
    """Starts with this gap, and the tables from them: those that are tried where something holds for every start."""
    for low in [*range(1, 100), *range(UNIT // 4 - 9, UNIT // 4 + 9)]:
        yield (low, low + gap), rows(name, f"START {low} {low + gap}")


def tosses_law():
    odds = HALF / (1 - HALF)
    yield (f"This is a binomial law with N = 2 and p = {HALF}: A/D is {-odds}, B/D is {3 * odds}, and the chance of no claims is "
           f"(1/2)^2 = {float(TOSSES[0] / UNIT)}, again a whole number of units.")


def tosses_table():
    table, read = rows("two_tosses.txt"), job("two_tosses.txt")
    yield where(all(low == high == amount for (_, low, high, _), amount in zip(table, TOSSES)),
                f"Low and high are the same at every total, and they are the exact chance. But the bound is {table[1][3]} at total 1, and "
                f"{table[2][3]} at total 2.")
    divisors = [read.divisor * total * sum(read.weights) for total in (1, 2, 3)]
    yield (f"The divisor is {divisors[0]}. A whole number divided by {divisors[0]} stays as it is: nothing can be rounded, so nothing is "
           f"added to the bound.")
    yield where(nothing_added(4) == [(1, 1, 1)],
                "In the table this can be so at total 1 alone, and where ZERO is 0 only if D and W are both 1, as the divisor is D × x × "
                "W then.")
    yield f"The divisor is {divisors[1]}, so low and high may have to be rounded."
    no_rest = all(tried[1][1:3] == (2 * low, 2 * high) and tried[2][1:3] == (low, high)
                  for gap in (0, 1) for (low, high), tried in from_starts("two_tosses.txt", gap))
    factor = read.a[0] * 3 + read.b[0]
    yield where(no_rest, f"For the two tosses no start leaves a rest at total 2, as total 1 is twice the start; and at total 3 the factor "
                         f"is {factor}. But their divisors are {divisors[1]} and {divisors[2]}, so both bounds have the one.")
    other = rows("two_tosses.txt", W_2_5)
    *first, last = (bound for *_, bound in other)
    yield f"Write `{W_2_5}` in place of `W 1` in `two_tosses.txt`."
    yield where([row[:3] for row in other] == [row[:3] for row in table],
                f"The bounds are {', '.join(map(str, first))} and {last}; lows and highs stay.")


def rest_table():
    """The same law from two starts, and the bounds from many."""
    even, odd = rows("no_law.txt"), rows("no_law.txt", START_2_4)
    gaps, other_gaps = ([high - low for _, low, high, _ in table] for table in (even, odd))
    yield where(not any(gaps) and other_gaps[0] == 0,
                f"where total 1 is the start times {-HALF}. From {even[0][1]} it comes out even. From {odd[0][1]} it does not, and low and "
                f"high are {other_gaps[1]} apart there (question 2.4). Both starts have the gap 0, so the bounds must be the same,")
    bounds = [{tuple(bound for *_, bound in table) for _, table in from_starts("no_law.txt", gap)} for gap in (0, 1)]
    yield where([*map(len, bounds)] == [1, 1], "That is why the rule does not look whether a rest was left. It looks at the divisor alone, "
                                               "which is the same for every start.")
    yield f"Write `{START_2_4}` in `no_law.txt`, and work out total 1 by hand."
    amount = exact.amount(exact.geometric(-HALF), [1], odd[0][1], 1)
    yield where(other_gaps[1] == odd[1][3], f"The exact amount, {float(amount)}, is no whole number of units. So low and high are "
                                            f"{other_gaps[1]} apart, and the bound of {odd[1][3]} is needed.")
    yield where({*other_gaps[1:]} == {1} and [row[3] for row in even] == [row[3] for row in odd],
                "From total 1 on low and high are 1 apart, where before they were the same. All bounds stay.")


def binomial_nearest():
    """Sum over divisor of the recursion that rounds to the nearest, before it is rounded."""
    values = nearest(job("binomial.txt", LAST_4_2), 27_000_000)
    shares = [Fraction((28 - 7 * x) * 2 * values[x - 1] + (56 - 7 * x) * values[x - 2], 9 * x) for x in range(8, len(values))]
    in_turn = all(share == shares[place % 2] for place, share in enumerate(shares))
    yield where(in_turn, f"From total 8 on the sum over the divisor is {shares[1]} or {shares[0]} in turn, and this is rounded to "
                         f"{round(shares[1])} or {round(shares[0])} each time.")


# Laws of order 1, each by a, b and its closed form.
ORDER_1 = [
    (-QUARTER, 6 * QUARTER, exact.binomial(5, FIFTH)),
    (-HALF, 2, exact.binomial(3, THIRD)),
    (0, 1, exact.poisson(1)),
    (THIRD, 2 * THIRD, exact.negative_binomial(3, THIRD)),
]


def serves(first, second):
    """Whether the lesson's four lines give the law of the claims of both."""
    (a, b, p), (c, d, q) = first, second
    terms = [a + c, -a * c], [b + d, -(a * d + b * c)]
    whole = [[int(72 * term) for term in side] for side in terms]
    both, by_terms = exact.together(p, q), exact.by_terms(72, *whole)
    return all(both(n) == by_terms(n) for n in range(12))


def group_law():
    all_serve = all(serves(*pair) for pair in combinations(ORDER_1, 2))
    yield where(all_serve, "The same four lines serve any two laws of order 1 (source 002 of CLAIMS.md, Section 4).")
    yield f"each with a claim by chance {FIFTH} in a year, and three tractors, each with a claim by chance {THIRD}."
    yield f"A van has a claim with the odds {FIFTH / (1 - FIFTH)} and a tractor with the odds {THIRD / (1 - THIRD)}."
    read = job("bicycles.txt")
    terms = [Fraction(term, read.divisor) for pair in zip(read.a[:2], read.b[:2]) for term in pair]
    yield where(terms[1] == evaluate("6/4 + 1"), f"the terms are {terms[0]}, 6/4 + 1, {terms[2]} and {terms[3]}, over D = {read.divisor}.")
    yield f"(4/5)^5 times e^-1, which is {cut((4 * FIFTH) ** 5 * E_1, 11)}"
    pairs = exact.together(exact.poisson(1), exact.bunches(2, exact.poisson(QUARTER)))
    as_said = all(n * pairs(n) == pairs(n - 1) + 2 * QUARTER * pairs(n - 2) for n in range(2, 12))
    yield where(as_said, f"pairs come by a Poisson law of mean {QUARTER}, beside the single claims of mean 1. Count as in part 3: n times "
                         f"the chance of n claims is 1 times that of n-1 plus 2 × {QUARTER} times that of n-2,")
    yield f"e^-1 times e^-(1/4), which is {cut(E_1 * E_QUARTER, 11)}"
    yield f"begins with {UNIT:,} and multiplies by {1 - FIFTH} for each van, or by {1 - THIRD} for each tractor, outward:"


def pairs_start():
    """Both starts hold the exact chance; that of the sheet is its one rounding."""
    exact_start, read, wide = UNIT * E_1 * E_QUARTER, job("pairs.txt"), Law(5, 4)
    narrow = read.low_start, read.high_start
    by_hand = narrow == (math.floor(exact_start), math.ceil(exact_start))
    yield where(by_hand, f"The sheet's START line is {cut(exact_start / UNIT, 11)} rounded once; it is as good as these digits.")
    mean = Fraction(wide.upper, wide.lower)
    wider = wide.start()[0] < narrow[0] and narrow[1] < wide.start()[1]
    yield where(mean == 1 + QUARTER, f"e^-1 times e^-(1/4) is also the chance of no claims by a Poisson law of mean {mean}:")
    yield where(wider, f"This is wider, as the terms for the rest, {mean % 1}, are rounded outward one by one.")


def pairs_alone():
    read, table = job("only_pairs.txt"), rows("only_pairs.txt")
    yield f"pairs come by a Poisson law of mean {HALF}, and a window costs 1."
    terms = [read.a[0], read.b[0], read.a[1]]
    yield where(not any(terms) and Fraction(read.b[1], read.divisor) == 2 * HALF,
                f"A_1, B_1 and A_2 are 0, and B_2/D is 2 × {HALF} = {2 * HALF}. The chance of no claims is e^-({HALF}), which is "
                f"{cut(E_HALF, 11)}")
    yield where(all(entry[1] == before[0] for before, entry in zip(entries(read, 5), entries(read, 6)[1:])),
                "Where W is 1, row 1 is the table itself, moved down by the one claim size that there is: nothing is rounded in it, and "
                "nothing is added to its bounds (question 3.5).")
    yield "the exact chance of total 1 is {}. The line says from {} to {}, with the bound {}.".format(ONLY_PAIRS[1], *table[1][1:])
    divisors = {total: read.divisor * total * sum(read.weights) for total, low, high, bound in table if low == high == 0 < bound}
    totals, divided_by = (" and ".join(map(str, numbers)) for numbers in (divisors, divisors.values()))
    yield f"The totals {totals} have 0 and 0 too, but their divisors are {divided_by}, and their bounds have the one."


def group_table():
    table = rows("two_groups.txt")
    yield f"up to {max(high - low for _, low, high, _ in table)} units, with bounds up to {max(bound for *_, bound in table)}."
    last = greatest(GROUPS)
    yield f"The greatest possible total is {last}."
    small = GROUPS[last] < Fraction(1, 100)
    yield where(small, f"(1/5)^5 × (1/3)^3 × (1/6)^8 = {GROUPS[last] / UNIT}, less than a hundredth of a unit. The line says from "
                       f"{table[last][1]} to {table[last][2]},")


def growing_table():
    start = UNIT * FIFTH ** 14
    yield (f"with chance {4 * FIFTH}; a repair costs 1 or 2, the 2 three times as likely. So no year costs more than "
           f"{greatest(MOWERS)}.")
    yield f"which is {float(start)} units. A sheet cannot say that better than from {math.floor(start)} to {math.ceil(start)}."
    times = [amount / start for amount in MOWERS]
    yield f"{times[1]} at total 1, {times[2]} at total 2, {times[18]} at total 18."
    _, number, place = lines("growing.txt")[0].split()
    yield f"Refusal {number} at total {place}: a bound would be above {UNIT:,} there."
    table = rows("growing.txt", "LAST 18")
    _, low, high, _ = table[18]
    yield where(low <= MOWERS[18] <= high, f"the exact chance of total 18 is {cut(MOWERS[18] / UNIT, 9)}, and it does lie from "
                                           f"{nine_digits(low)} to {nine_digits(high)}.")
    below = max(bound for *_, bound in table[:8]) < 400_000 <= table[8][3]
    yield where(below, f"up to total 7 the bounds are below 400000 units, {400_000 / UNIT} of chance.")


def growing_nearest():
    start = UNIT * FIFTH ** 14
    yield f"begins with {nine_digits(round(start))}, since {float(start)} units round to {round(start)}."
    yield where(not any(nearest(job("growing.txt"), round(start))), "So are all the others, and the printed chances add up to 0.")
    yield where(round(UNIT / MOWERS[19]) == 8, f"The exact chance of total 19 is {cut(MOWERS[19] / UNIT, 9)}, about one year in eight.")
    other = nearest(job("growing.txt"), 1)
    yield f"to {nine_digits(1)}, total 19 would have {nine_digits(other[19])}, and all chances would add up to {nine_digits(sum(other))}."
    start = UNIT * FIFTH ** 13
    thirteen = job("growing.txt", "LAST 26")
    thirteen.b[0] = 14 * 4
    total = nine_digits(sum(nearest(thirteen, round(start))))
    yield f"(1/5)^13, or {float(start)} units."
    yield (f"They add up to {total}. The start {float(start)} is rounded to {round(start)}, so each of them is 1/{float(start)} times too "
           f"large")


def turned_table():
    yield where(MOWERS == TURNED[::-1], f"So each of 14 mowers misses something with chance {2 * FIFTH}, and then 1 or 2, one as likely as "
                                        f"the other: again a binomial law, with p below {HALF}.")
    yield f"for a binomial law with p below {HALF}: the bounds do not go on growing."
    yield f"One without a claim misses 2, with chance {FIFTH}."
    (_, none, one, _), (_, low, high, _) = (rows("turned.txt")[total] for total in (0, 28 - 19))
    yield (f"Total 19 is the same as {28 - 19} missing: from {nine_digits(low)} to {nine_digits(high)}. Write down "
           f"{both_round_to((low, high), 5)} (both ends round to it)")
    yield f"at total 0, from {none} to {one} units. Write down {both_round_to((none, one), 8)}."


PARTS = [poisson_table, poisson_levels, short_table, wide_start, wide_start_short, poisson_start, binomial_law, binomial_table, bound_rule,
         tosses_law, tosses_table, rest_table, binomial_nearest, group_law, pairs_start, pairs_alone, group_table, growing_table,
         mowers_level, growing_nearest, turned_table]

# An equation in the text, and what a number is that must be worked out somewhere: a fraction, a decimal, or three digits and more.
EQUATION = re.compile(r"(?<![\w/.])([(\d][\d.()/^× ]*[\d)]) = (\d[\d./]*\d)(\.\.\.)?")
NUMBER = re.compile(r"-?\d+/\d+|-?\d+\.\d+|\d{3,}")
# What is no result: the numbers of questions, LAST lines, and what is asked for in part 1.
NO_RESULT = re.compile(r"\*\*\d\.\d\*\*|\(question \d\.\d\)|`LAST \d+`|\b99 years of 100\b|\b999 years of 1000\b")


def comes_out(left, right, dots):
    """With dots, the digits go on."""
    if not dots:
        return evaluate(left) == evaluate(right)
    return 0 <= evaluate(left) - evaluate(right) < Fraction(1, 10 ** (len(right) - right.index(".") - 1))


def faults(text, parts):
    """What is wrong in the lesson's text, without its blocks and tables and with spaces for line ends."""
    for part in parts:
        for sentence in part():
            if sentence not in text:
                yield f"{part.__name__}: this is not said: {sentence}"
            text = text.replace(sentence, "")
    for found in EQUATION.finditer(text):
        if not comes_out(*found.groups()):
            yield f"this does not come out: {found[0]}"
    left = NO_RESULT.sub("", EQUATION.sub("", text))
    for found in NUMBER.finditer(left):
        yield f"nothing works out the number {found[0]} in: ..{left[max(0, found.start() - 60):found.end() + 20]}.."
