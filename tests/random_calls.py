"""Random calls of the library, and what the calculator says to each: its answer, and what every lent place holds afterwards. Every function
takes its chances from `r`, a random.Random, but for `numbered`, which makes one."""
import random
import re
from array import array
from collections.abc import Sequence
from functools import partial
from itertools import accumulate
from typing import NamedTuple

import random_sheets
from followed import off_hesselager, off_panjer_willmot
from layer import layers
from level import possible, sure
from limits import (LAST_TOTAL, MOST_DIVISOR, MOST_END, MOST_LAYERS, MOST_LOWER, MOST_MEAN, MOST_ORDER, MOST_SUM, MOST_TERM, MOST_TOTALS,
                    MOST_TRIALS, MOST_WEIGHTS, UNIT, WORK_COLUMNS)
from marked import kinds_of_marks
from outward import Job, Lent, curve
from published import law_hesselager, law_panjer_willmot
from random_sheets import near
from sheet import read_sheet
from start import start_of_mean, start_of_trials
from started import outside_mean, outside_trials

LEAST, MOST = -2 ** 63, 2 ** 63 - 1
HUGE = (2 ** 31, 2 ** 32, 2 ** 32 + 1, 2 ** 63 - 1, 2 ** 63, 2 ** 64 - 1)

SIGNED, UNSIGNED, BYTE = "q", "Q", "B"


class Row(NamedTuple):
    """A row that a call is lent, by its bytes before and after the call. The number of its places is a parameter too where it is told."""
    kind: str
    before: bytes
    after: bytes
    told: bool

    def places(self):
        return len(self.before) // array(self.kind).itemsize


class Call(NamedTuple):
    """A call by its name and its parameters, each with a name and a number or a row; the answer (0 for a call that has none), what the
    call is counted as, and the kinds of entries that its curve has, if it has one."""
    name: str
    parameters: list
    answer: int
    outcome: object
    entries: Sequence = ()


def packed(kind, numbers):
    return array(kind, numbers).tobytes()


def read_only(kind, numbers, told=True):
    """A row that the call only reads."""
    content = packed(kind, numbers)
    return Row(kind, content, content, told)


def filling(r, kind, count):
    """What so many places of a row hold before the call."""
    return array(kind, r.randbytes(count * array(kind).itemsize)).tolist()


def number_row(r, kind, *after):
    """One number that the call gives back, or the four terms of a law."""
    return Row(kind, packed(kind, filling(r, kind, len(after))), packed(kind, after), False)


# ---- jobs for the curve call

def good_job(r):
    makers = {random_sheets.named: 46, random_sheets.free: 24, random_sheets.at_edge: 20, random_sheets.thin: 9, random_sheets.wide: 1,
              random_sheets.even: 15, random_sheets.even_in_row_0: 10}
    parts = r.choices(list(makers), list(makers.values()))[0](r)
    none = [0] * (MOST_ORDER - len(parts.terms))
    return Job(len(parts.terms), parts.divisor, [a for a, _ in parts.terms] + none, [b for _, b in parts.terms] + none, *parts.start,
               parts.weights, parts.last, parts.zero)


def other_order(r, job):
    """Often one that leaves terms past it."""
    job.order = r.choice((0, 0, 1, 2, 3, 4, 5, 5, 6, r.choice(HUGE)))


def other_divisor(r, job):
    job.divisor = r.choice((0, 1, *near(MOST_DIVISOR), r.choice(HUGE)))


def other_term(r, job):
    terms = r.choice((job.a, job.b))
    size = r.choice((0, 1, *near(MOST_TERM), 2 ** 31, 2 ** 32, 2 ** 32 + 1, MOST))
    terms[r.randrange(MOST_ORDER)] = r.choice((size, -size, LEAST))


def other_start(r, job):
    low = r.choice((0, 0, 1, UNIT - 1, UNIT, UNIT + 1, r.choice(HUGE)))
    job.low_start, job.high_start = low, r.choice((0, 1, low, max(0, low - 1), UNIT, UNIT + 1, r.choice(HUGE)))


def other_count(r, job):
    """No weights, or as many as the limit is, or more; their sum is mostly good."""
    count = r.choice((0, 0, *near(MOST_WEIGHTS), MOST_WEIGHTS + 2, r.randint(0, MOST_WEIGHTS + 2)))
    job.weights = (job.weights + [0] * count)[:count]


def other_sum(r, job):
    """At the limits, and such that 64 bits or 32 would take the sum for a good one."""
    y = r.randrange(len(job.weights)) if job.weights else 0
    others = sum(job.weights) - sum(job.weights[y:y + 1])
    aim = r.choice((0, *near(MOST_SUM), 2 ** 32 + 1))
    job.weights[y:y + 1] = r.choice((
        [max(0, aim - others)], [r.choice(HUGE)], [2 ** 64 - 1, 1], [2 ** 64 - 1, 2], [2 ** 63, 2 ** 63], [2 ** 63, 2 ** 63, 5],
    ))
    if r.random() < 0.2:
        job.weights = [r.choice((0, 0, 2 ** 64 - 1))] * len(job.weights)


def about_thinned(r, job):
    """About the w(0) from which on D W - A w(0) is zero or less: D times the sum of the others over A - D. Where A is D or below there is
    none."""
    excess = job.a[0] - job.divisor
    return max(0, job.divisor * sum(job.weights) // excess + r.choice((-1, 0, 1))) if excess > 0 else 0


def other_zero(r, job):
    """At the limits of the refusals that it can bring about, and such that 64 bits or 32 would take the sum for a good one."""
    others = sum(job.weights)
    aim = r.choice((*near(MOST_SUM), 2 ** 32 + 1, 2 ** 64, 2 ** 64 + 1, 2 ** 64 + 5))
    job.zero = in_64_bits(r.choice((0, 1, 1, r.randint(1, 9), max(0, aim - others), max(0, aim - others), about_thinned(r, job),
                                    about_thinned(r, job), MOST_SUM, r.choice(HUGE))))
    if r.random() < 0.3:
        job.a[0] = r.choice((*near(MOST_TERM), *(in_signed_64_bits(job.divisor + more) for more in (-1, 0, 1))))


def no_others(r, job):
    """All weights but w(0) are 0."""
    job.weights = [0] * len(job.weights)
    job.zero = r.choice((0, 1, r.randint(1, MOST_SUM), *near(MOST_SUM), 2 ** 64 - 1))


def other_last(r, job):
    """A great last total is computed for small tables only, as the calculator takes long."""
    most = LAST_TOTAL + 2 if len(job.weights) < 20 else 12
    job.last = r.choice((0, 1, min(most, LAST_TOTAL - 1), min(most, LAST_TOTAL), r.randint(0, most), LAST_TOTAL + 1, LAST_TOTAL + 1,
                         LAST_TOTAL + 2, r.choice(HUGE)))


CHANGES = (other_order, other_divisor, other_term, other_start, other_count, other_sum, other_zero, other_zero, no_others, other_last)


def needed_for(totals):
    """How many places low, high, bound, mark and work need."""
    return [totals, totals, totals, totals, WORK_COLUMNS * totals]


def row_lengths(r, last):
    """Of low, high, bound, mark and work: mostly just long enough or longer, or long enough for every job."""
    if r.random() < 0.05:
        return needed_for(MOST_TOTALS)
    totals = min(last, LAST_TOTAL + r.choice((0, 10))) + 1
    needed = needed_for(totals)
    lengths = [length + r.choice((0, 0, 1, 7)) for length in needed]
    if r.random() < 0.15:
        i = r.randrange(len(needed))
        lengths[i] = r.choice((needed[i] - 1, needed[i] - 1, totals - 1, 0, 1, r.randint(0, needed[i])))
    return lengths


def random_job(r):
    job = good_job(r)
    if r.random() < 0.5:
        for change in r.sample(CHANGES, r.choice((1, 1, 1, 2, 3))):
            change(r, job)
    return job


WITH_ZEROS = "0 with w(0)"


def curve_outcome(number, zero):
    """What is accepted with claims of size 0 is counted apart."""
    return WITH_ZEROS if number == 0 and zero else number


NO_MARK = "no mark"


def kinds_of_entries(job, lent):
    """Those of an accepted curve past total 0: of the marked ones, and that the others have no mark."""
    return [*kinds_of_marks(job, lent), *[NO_MARK] * lent.mark[1:job.last + 1].count(0)]


def curve_call(r):
    job = random_job(r)
    before = [filling(r, SIGNED, length) for length in row_lengths(r, job.last)]
    lent = Lent(*map(list, before))
    number, place = curve(job, lent)
    low, high, bound, mark, work = (Row(SIGNED, packed(SIGNED, held), packed(SIGNED, holds), True)
                                    for held, holds in zip(before, (lent.low, lent.high, lent.bound, lent.mark, lent.work)))
    return Call("claimtotals_curve", [
        ("order", job.order), ("divisor", job.divisor), ("a", read_only(SIGNED, job.a, False)), ("b", read_only(SIGNED, job.b, False)),
        ("start_low", job.low_start), ("start_high", job.high_start), ("last", job.last), ("zero", job.zero),
        ("weights", read_only(UNSIGNED, job.weights)), ("low", low), ("high", high), ("bound", bound), ("mark", mark), ("work", work),
        ("place", number_row(r, UNSIGNED, place)),
    ], number, curve_outcome(number, job.zero), kinds_of_entries(job, lent) if number == 0 else ())


# ---- sheets for the reader

def random_places(r, sheet):
    """How many places the row for the weights has: often about m."""
    told = re.search(rb"SEVERITY ([0-9]{1,3})\b", sheet)
    count = int(told[1]) if told else 0
    return r.choice((max(0, count - 1), count, count + 1, min(count, MOST_WEIGHTS), 0, MOST_WEIGHTS - 1, MOST_WEIGHTS, MOST_WEIGHTS,
                     MOST_WEIGHTS, MOST_WEIGHTS + 1, r.randint(0, MOST_WEIGHTS + 10)))


def reader_call(r):
    sheet = random_sheets.sheet(r)
    places = random_places(r, sheet)
    read = read_sheet(sheet, places)
    job = read.job
    before = filling(r, UNSIGNED, places)
    after = job.weights + before[len(job.weights):]
    numbers = {"line": read.line, "order": job.order, "divisor": job.divisor, "start_low": job.low_start, "start_high": job.high_start,
               "last": job.last, "zero": job.zero, "count": len(job.weights)}
    lent = {name: number_row(r, UNSIGNED, number) for name, number in numbers.items()}
    lent["a"], lent["b"] = number_row(r, SIGNED, *job.a), number_row(r, SIGNED, *job.b)
    order = ("line", "order", "divisor", "a", "b", "start_low", "start_high", "last", "zero", "count")
    return Call("claimtotals_read_sheet", [
        ("sheet", read_only(BYTE, sheet)), ("row", Row(UNSIGNED, packed(UNSIGNED, before), packed(UNSIGNED, after), True)),
        *((name, lent[name]) for name in order),
    ], read.number, read.number)


def word_call(r):
    """Mostly on a sheet with a word that is none of its numbers; for any number of places, as no row is lent."""
    sheet = random_sheets.good(r) if r.random() < 0.7 else random_sheets.sheet(r)
    if r.random() < 0.8:
        sheet = random_sheets.change_number(r, sheet)
    places = r.choice((random_places(r, sheet), MOST_WEIGHTS, r.choice(HUGE)))
    read = read_sheet(sheet, places)
    outcome = ("word" if read.word else "empty word") if read.number == 24 else "none"
    return Call("claimtotals_faulty_word", [
        ("sheet", read_only(BYTE, sheet)), ("places", places), ("start", number_row(r, UNSIGNED, read.start)),
        ("length", number_row(r, UNSIGNED, len(read.word))),
    ], 0, outcome)


# ---- rows and levels for sure and possible

def curve_rows(r):
    """Lows and highs of a curve, if the job is accepted."""
    job = good_job(r)
    job.last = min(job.last, 30)
    lent = Lent(*([0] * length for length in needed_for(job.last + 1)))
    curve(job, lent)
    return lent.low, lent.high


def spread_rows(r):
    """Of any length, with lows that come to about U."""
    count = r.choice((1, 2, r.randint(1, 40), r.randint(1, MOST_TOTALS), MOST_TOTALS - 1, MOST_TOTALS))
    low = [r.randint(0, 2 * UNIT // count) for _ in range(count)]
    return low, [entry + r.choice((0, 0, 1, 3)) for entry in low]


def short_rows(r):
    """Highs that come to about U, and lows that fall short of them, by a unit or by far."""
    count = r.choice((1, 2, r.randint(1, 40), MOST_TOTALS))
    high = [r.randint(0, 2 * UNIT // count) for _ in range(count)]
    share = r.choice((0, r.random()))
    return [entry - r.choice((0, 1, int(share * entry))) for entry in high], high


def falling_rows(r):
    """Sums that fall again with the last entry."""
    low, high = r.choice((spread_rows, short_rows))(r)
    low[-1] = high[-1] = -r.choice((1, r.randint(1, UNIT), MOST_END))
    return low, high


def signed_rows(r):
    """Sums that go up and down, with entries at the limits too."""
    def end():
        return r.choice((-MOST_END, MOST_END, 0, r.randint(-MOST_END, MOST_END), r.randint(-9, UNIT)))
    pairs = [sorted((end(), end())) for _ in range(r.randint(1, 60))]
    return [low for low, _ in pairs], [high for _, high in pairs]


def wrong_entry(r, low, high):
    row = r.choice((low, high))
    size = r.choice((*near(MOST_END), 2 ** 32, MOST))
    if row:
        row[r.randrange(len(row))] = r.choice((size, -size, LEAST, MOST, 0))


def turned_entry(r, low, high):
    """A low that is one above its high."""
    if low and high:
        x = r.randrange(min(len(low), len(high)))
        low[x] = min(MOST, high[x] + 1)


def other_length(r, low, high):
    row = r.choice((low, high))
    row[:] = r.choice((row[:-1], row + [0], [], row * 2))


def long_rows(r, low, high):
    """At the limit and past it, both equally long."""
    length = MOST_TOTALS + r.choice((-1, 0, 1, 2))
    for row in low, high:
        row[:] = (row + [r.choice((0, 0, 1))] * length)[:length]


def no_rows(_, low, high):
    low.clear()
    high.clear()


def last_level(r, low, high):
    """The last that the lows reach, or the highs; one more; or a level that the highs alone reach."""
    last_sure, last_possible = (max(accumulate(row)) for row in (low, high))
    return r.choice((last_sure, last_sure + 1, r.randint(last_sure, last_possible), last_possible, last_possible + 1))


def random_level(r, low, high):
    """Often about the last level of the rows; often a sum of theirs, or next to one."""
    sums = [so_far for row in (low, high) for so_far in accumulate(row) if 1 <= so_far <= UNIT]
    last, chance = last_level(r, low, high), r.random()
    if chance < 0.4 and 0 <= last <= UNIT + 1:
        return last
    if chance < 0.8 and sums:
        return r.choice(sums) + r.choice((-1, 0, 0, 1))
    return r.choice((0, 1, *near(UNIT), -1, r.choice((LEAST, MOST, 2 ** 32 + 1)), r.randint(1, UNIT), r.randint(1, UNIT)))


def good_rows(r):
    return r.choice((curve_rows, spread_rows, short_rows, falling_rows, signed_rows))(r)


def change_rows(r, low, high):
    """Mostly such that they are refused."""
    for _ in range(r.choice((1, 1, 2))):
        r.choice((wrong_entry, wrong_entry, wrong_entry, turned_entry, turned_entry, other_length, long_rows, no_rows))(r, low, high)


def rows_and_level(r):
    low, high = good_rows(r)
    level = random_level(r, low, high)
    if r.random() < 0.4:
        change_rows(r, low, high)
    return low, high, level


def level_call(r, name, total_of):
    low, high, level = rows_and_level(r)
    said = total_of(low, high, level)
    return Call(name, [
        ("low", read_only(SIGNED, low)), ("high", read_only(SIGNED, high)), ("level", level),
        ("place", number_row(r, UNSIGNED, said.place)), ("total", number_row(r, UNSIGNED, said.total)),
    ], said.number, said.number)


def sure_call(r):
    return level_call(r, "claimtotals_sure", sure)


def possible_call(r):
    return level_call(r, "claimtotals_possible", possible)


# ---- rows and lists for layers

def extreme_rows(r):
    """With the greatest costs that there can be, of either sign: all entries of a row are at the same limit."""
    count = r.choice((1, 2, r.randint(1, MOST_TOTALS), MOST_TOTALS))
    low, high = r.choice(((-MOST_END, MOST_END), (MOST_END, MOST_END), (-MOST_END, -MOST_END)))
    return [low] * count, [high] * count


def good_layer(r, places):
    """Within rows of so many places: any, the whole, the last place alone, or the first."""
    limit = r.randint(1, places)
    return r.choice(((r.randrange(limit), limit), (r.randrange(limit), limit), (0, limit), (r.randrange(places), places), (0, places),
                     (places - 1, places), (0, 1)))


def wrong_layer(r, places):
    """With one fault or both: an attachment at the limit or above, a limit above the rows, by one or by far. 32 bits would take some of
    them for good ones."""
    attachment, limit = good_layer(r, places)
    past = r.choice((places + 1, places + 1, places + 2, places + 2 ** 32, r.choice(HUGE)))
    great = r.choice((attachment + 2 ** 32, limit + 2 ** 32, r.choice(HUGE)))
    too_high = (attachment, past), (attachment, past), (0, past), (past - 1, past)
    turned = (limit, limit), (limit + 1, limit), (great, limit), (great, attachment), (attachment, 0)
    return r.choice((*too_high, *turned, (past, past), (max(great, past), past)))


def random_count(r):
    """Mostly a good one; or one that 32 bits would take for a good one."""
    some = r.randint(1, MOST_LAYERS)
    wrong = r.choice((0, MOST_LAYERS + 1, r.randint(MOST_LAYERS + 1, 200), 2 ** 32 + some, r.choice(HUGE)))
    return r.choice((1, 1, 2, 3, some, some, some, some, MOST_LAYERS - 1, MOST_LAYERS, MOST_LAYERS, wrong, wrong))


def random_layers(r, count, places):
    """Attachments and limits. Of the first `count` none is wrong, or some are, or all. The others are any numbers, some of them layers."""
    good, told = partial(good_layer, r, max(1, places)), min(count, MOST_LAYERS)
    wrong = partial(wrong_layer, r, max(1, places))
    at_fault = r.sample(range(told), min(told, r.choice((0, 0, 0, 0, 0, 1, 1, 2, 3, told))))
    pairs = [wrong() if place in at_fault else good() for place in range(told)]
    pairs += [r.choice((good(), wrong(), filling(r, UNSIGNED, 2))) for _ in range(MOST_LAYERS - told)]
    return [list(numbers) for numbers in zip(*pairs)]


def answer_places(r, count):
    """How many a row for the answers has: as many as there are layers, or more; now and then too few."""
    needed = min(count, MOST_LAYERS)
    if r.random() < 0.06:
        return r.choice((max(0, needed - 1), max(0, needed - 1), r.randint(0, needed), 0))
    return r.choice((needed, needed, needed + 1, needed + r.randint(2, 20), MOST_LAYERS, MOST_LAYERS, 80))


def answer_row(before, after):
    return Row(SIGNED, packed(SIGNED, before), packed(SIGNED, after), True)


def layers_call(r):
    low, high = extreme_rows(r) if r.random() < 0.1 else good_rows(r)
    if r.random() < 0.25:
        change_rows(r, low, high)
    count = random_count(r)
    attachments, limits = random_layers(r, count, len(low))
    before = [filling(r, SIGNED, answer_places(r, count)) for _ in range(2)]
    answer_low, answer_high = map(list, before)
    number, place = layers(low, high, count, attachments, limits, answer_low, answer_high)
    return Call("claimtotals_layers", [
        ("low", read_only(SIGNED, low)), ("high", read_only(SIGNED, high)), ("attachments", read_only(UNSIGNED, attachments, False)),
        ("limits", read_only(UNSIGNED, limits, False)), ("count", count), ("answer_low", answer_row(before[0], answer_low)),
        ("answer_high", answer_row(before[1], answer_high)), ("place", number_row(r, UNSIGNED, place)),
    ], number, number)


# ---- means, chances and trials for the start

def random_lower(r):
    """Mostly a good one; or one whose twentyfold 64 bits would take for a small number."""
    good = r.randint(1, MOST_LOWER)
    return r.choice((good, good, good, good, 1, 2, 10, 100, *near(MOST_LOWER), 0, r.choice((*HUGE, 2 ** 64 // MOST_MEAN + 1))))


def in_64_bits(number):
    """What 64 bits make of a number that they do not hold."""
    return number % 2 ** 64


def random_mean(r, lower):
    """The upper number: good ones, and those about a whole and about the limit."""
    small, good = r.randint(0, min(lower, 20)), r.randint(0, MOST_MEAN * lower)
    return in_64_bits(r.choice((0, small, small, good, good, good, *near(lower), *near(MOST_MEAN * lower), r.choice(HUGE))))


def random_chance(r, lower):
    """The same for a chance; also one that would be too great for a mean."""
    small, good = r.randint(0, min(lower, 20)), r.randint(0, lower)
    return in_64_bits(r.choice((0, small, small, small, good, good, good, good, *near(lower), MOST_MEAN * lower + 1, r.choice(HUGE))))


def random_trials(r):
    few, many = r.randint(1, 20), r.randint(1, MOST_TRIALS)
    return r.choice((1, few, few, few, many, many, many, *near(MOST_TRIALS), 0, r.choice(HUGE)))


def start_call(r, name, start_of, outside, given):
    """The calculator itself is held to exact fractions."""
    said = start_of(*given.values())
    if not said.number:
        for fault in outside(said, *given.values()):
            raise ValueError(f"the calculator's start of {given}: {fault}")
    ends = [(end, number_row(r, UNSIGNED, getattr(said, end))) for end in ("low", "high")]
    return Call(name, [*given.items(), *ends], said.number, said.number)


def mean_call(r):
    lower = random_lower(r)
    return start_call(r, "claimtotals_start_mean", start_of_mean, outside_mean, {"upper": random_mean(r, lower), "lower": lower})


def trials_call(r):
    lower = random_lower(r)
    given = {"upper": random_chance(r, lower), "lower": lower, "trials": random_trials(r)}
    return start_call(r, "claimtotals_start_trials", start_of_trials, outside_trials, given)


# ---- a publication's line for a law

def of_either_sign(r, *sizes):
    return [r.choice((size, -size)) for size in sizes]


def great(r):
    """Far outside the limits. 32 bits would take some for good ones, and 64 bits do not hold LEAST with its sign turned."""
    return r.choice((LEAST, *of_either_sign(r, 2 ** 31, 2 ** 32, 2 ** 32 + 1, MOST), r.randint(LEAST, MOST)))


def random_constant(r):
    """On the left. Mostly 0."""
    return r.choice((0, 0, 0, 0, 0, 0, 0, 0, 0, 1, -1, great(r)))


def random_coefficient(r, most):
    """D or a term, before signs are turned."""
    small, good = r.randint(1, 9), r.randint(1, most)
    return r.choice((0, 0, great(r), *of_either_sign(r, small, small, small, good, good, good, *near(most))))


def in_signed_64_bits(number):
    """What 64 bits, the first of them for the sign, make of a number that they do not hold."""
    return in_64_bits(number - LEAST) + LEAST


def law_call(r, name, law_of, off, given):
    """The calculator itself is held to exact fractions."""
    said = law_of(*given.values())
    if not said.number:
        for fault in off(said, *given.values()):
            raise ValueError(f"the calculator's law of {given}: {fault}")
    law = [("divisor", number_row(r, UNSIGNED, said.divisor)), ("a", number_row(r, SIGNED, said.a)), ("b", number_row(r, SIGNED, said.b))]
    return Call(name, [*given.items(), *law], said.number, said.number)


def panjer_willmot_call(r):
    """beta_0 is chosen by its difference to beta_1, which now and then 64 bits do not hold."""
    a, b = random_coefficient(r, MOST_TERM), random_coefficient(r, MOST_TERM)
    given = {"alpha_0": random_constant(r), "alpha_1": random_coefficient(r, MOST_DIVISOR), "beta_0": in_signed_64_bits(a + b), "beta_1": a}
    return law_call(r, "claimtotals_law_panjer_willmot", law_panjer_willmot, off_panjer_willmot, given)


def hesselager_call(r):
    given = {"b_0": random_constant(r), "b_1": random_coefficient(r, MOST_DIVISOR), "a_0": random_coefficient(r, MOST_TERM),
             "a_1": random_coefficient(r, MOST_TERM)}
    return law_call(r, "claimtotals_law_hesselager", law_hesselager, off_hesselager, given)


def call(r):
    kinds = {curve_call: 40, reader_call: 20, word_call: 15, sure_call: 13, possible_call: 13, layers_call: 15, mean_call: 4,
             trials_call: 6, panjer_willmot_call: 4, hesselager_call: 4}
    return r.choices(list(kinds), list(kinds.values()))[0](r)


def numbered(seed, index):
    """One of the calls of a seed, the same whenever it is asked for."""
    return call(random.Random(f"{seed} {index}"))


# What each call can be answered, 0 for an acceptance.
CAN_ARISE = {
    "claimtotals_curve": [0, 1, 2, 3, 4, 5, 6, 11, 12, 13, 7, 8, 9, 10],
    "claimtotals_read_sheet": [0, 21, 22, 23, 24, 25, 26, 27],
    "claimtotals_faulty_word": ["none", "word", "empty word"],
    "claimtotals_sure": [0, 31, 32, 33, 34],
    "claimtotals_possible": [0, 31, 32, 33, 35],
    "claimtotals_layers": [0, 31, 33, 61, 62, 63],
    "claimtotals_start_mean": [0, 41],
    "claimtotals_start_trials": [0, 41, 42, 43],
    "claimtotals_law_panjer_willmot": [0, 51, 52, 53],
    "claimtotals_law_hesselager": [0, 51, 52, 53],
}

# What each is counted as; all of it has to arise.
OUTCOMES = {**CAN_ARISE, "claimtotals_curve": [WITH_ZEROS, *CAN_ARISE["claimtotals_curve"]]}

# So many entries of each kind 30,000 calls have at least.
LEAST_ENTRIES = {NO_MARK: 20_000, "past total 0": 9000, "not 0": 1300, "below 0": 180, "ends apart": 340, "order above 1": 4000,
                 "weight at 0": 950}
