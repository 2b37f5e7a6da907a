"""Random sheets: good ones, with numbers at the job's limits and just outside them too, and good ones that were damaged. Every function
takes its chances from `r`, a random.Random."""
import math
import re
from collections.abc import Callable
from dataclasses import dataclass
from decimal import Decimal
from fractions import Fraction
from typing import NamedTuple, Optional

from limits import LAST_TOTAL, MOST_BYTES, MOST_DIVISOR, MOST_ORDER, MOST_SUM, MOST_TERM, MOST_WEIGHTS, UNIT

GREATEST_NUMBER = 9_999_999_999


@dataclass
class Parts:
    """What a good sheet says: D, the terms as pairs, the pair s and t, X, w(0) and the weights. k and m are the numbers of terms and
    weights."""
    divisor: int
    terms: list
    start: tuple
    last: int
    zero: int
    weights: list

    def text(self):
        lines = [("LAW", len(self.terms), self.divisor), *(("TERM", a, b) for a, b in self.terms), ("START", *self.start),
                 ("LAST", self.last), ("ZERO", self.zero), ("SEVERITY", len(self.weights)), *(("W", w) for w in self.weights)]
        return "".join(" ".join(map(str, line)) + "\n" for line in lines).encode()


# ---- named laws

class Law(NamedTuple):
    """A law of order 1 by its fractions a and b, and, where it is a law of chances, the chance that the total is zero, by the share of
    claims that are."""
    a: Fraction
    b: Fraction
    nothing: Optional[Callable] = None


def a_chance(r):
    return r.choice((Fraction(1, r.randint(2, 6)), Fraction(r.randint(1, 9), 10)))


def e_to(power):
    return Fraction((Decimal(power.numerator) / power.denominator).exp())


def poisson(r):
    mean = Fraction(r.randint(1, 40), r.choice((1, 2, 4, 10)))
    return Law(Fraction(0), mean, lambda share: e_to(-mean * (1 - share)))


def binomial(r):
    trials, chance = r.randint(1, 12), a_chance(r)
    odds = chance / (1 - chance)
    return Law(-odds, (trials + 1) * odds, lambda share: (1 - chance * (1 - share)) ** trials)


def negative_binomial(r):
    shape, chance = r.randint(1, 6), a_chance(r)
    return Law(chance, (shape - 1) * chance, lambda share: ((1 - chance) / (1 - chance * share)) ** shape)


def multiply(first, second):
    """The product of two polynomials, each a list of coefficients from the constant one on."""
    product = [Fraction(0)] * (len(first) + len(second) - 1)
    for i, c in enumerate(first):
        for j, d in enumerate(second):
            product[i + j] += c * d
    return product


def together(laws):
    """The fractions of the law for the claims of independent laws in one year. With G the generating function of a law, G'/G is the sum
    of (i a_i + b_i) z^(i-1) over 1 - the sum of a_i z^i; for independent laws these quotients add up."""
    above, below = [Fraction(0)], [Fraction(1)]
    for law in laws:
        ours = [Fraction(1), -law.a]
        above = [n + (law.a + law.b) * d for n, d in zip(multiply(above, ours), below)]
        below = multiply(below, ours)
    a = [-c for c in below[1:]]
    return list(zip(a, (n - i * a_i for i, (n, a_i) in enumerate(zip(above, a), 1))))


def named_law(r, share):
    """D, terms and start of one named law or, where no claim is zero, of some together; the start is rounded down and up."""
    laws = [r.choice((poisson, binomial, negative_binomial))(r) for _ in range(1 if share else r.choice((1, 1, 1, 2, 2, 3, 4)))]
    fractions = together(laws)
    divisor = math.lcm(*(f.denominator for pair in fractions for f in pair)) * r.choice((1, 1, 1, 2, 3))
    start = UNIT * math.prod(law.nothing(share) for law in laws)
    terms = [(int(a * divisor), int(b * divisor)) for a, b in fractions]
    return divisor, terms, (math.floor(start), math.ceil(start))


# ---- good sheets

def free_law(r, share):
    """D, terms and start of no known law, of order 1 where a share of the claims is zero."""
    size = r.choice((1, 3, 30, 300, MOST_TERM))
    terms = [(r.randint(-size, size), r.randint(-size, size)) for _ in range(1 if share else r.randint(1, MOST_ORDER))]
    low = r.randint(0, r.choice((3, 1000, UNIT)))
    return r.choice((1, 2, 7, 100, MOST_DIVISOR)), terms, (low, min(UNIT, low + r.choice((0, 1, 1, 5, UNIT // 2))))


def table(r, count):
    """Weights with a good sum, often the greatest."""
    weights = [r.choice((0, 1, r.randint(0, MOST_SUM // count))) for _ in range(count)]
    if sum(weights) == 0 or r.random() < 0.3:
        weights[r.randrange(count)] += MOST_SUM - sum(weights)
    return weights


def zeros(r, weights):
    """w(0) with which the sum is good: mostly 0, else small, or as great as can be."""
    rest = MOST_SUM - sum(weights)
    return r.choice((0, 0, 0, 0, 0, min(1, rest), min(rest, r.randint(1, 9)), r.randint(0, rest), rest))


def sizes(r):
    """m and X: small, now and then large, as large ones take the calculator long."""
    if r.random() < 0.015:
        return r.choice(((MOST_WEIGHTS, LAST_TOTAL), (MOST_WEIGHTS, LAST_TOTAL - 1), (MOST_WEIGHTS - 1, LAST_TOTAL), (MOST_WEIGHTS + 1, 1),
                         (r.randint(1, MOST_WEIGHTS), r.randint(0, LAST_TOTAL))))
    return r.choice((1, 2, r.randint(1, 8), r.randint(1, 40))), r.choice((0, 1, r.randint(0, 12), r.randint(0, 12), r.randint(0, 60)))


def plain(r, law):
    count, last = sizes(r)
    weights = table(r, count)
    zero = zeros(r, weights)
    divisor, terms, start = law(r, Fraction(zero, zero + sum(weights)))
    return Parts(divisor, terms, start, last, zero, weights)


def named(r):
    return plain(r, named_law)


def free(r):
    return plain(r, free_law)


def at_edge(r):
    """Claims of size 1 and one term A_i: the amount at total i is A_i times the start, near 2U or -2U, or has its bound near U. By 3 and
    -3 it meets 2U + 1 and its negative."""
    order, i = r.randint(1, MOST_ORDER), r.randint(1, MOST_ORDER)
    factor = r.choice((1, 2, 3, 3, 4, 5, 125, MOST_TERM))
    terms = [(0, 0)] * max(order, i)
    terms[i - 1] = (r.choice((factor, -factor)), 0)
    near = r.randint(-1, 1)
    high = min(UNIT, 2 * UNIT // factor + near)
    start = r.choice(((high, high), (high - 1, high), (0, min(UNIT, UNIT // factor + near))))
    return Parts(1, terms, start, r.randint(0, 6), 0, [r.choice((1, MOST_SUM))])


def thin(r):
    """D W - A w(0) is zero, or next to it: where it is 1 nothing is rounded at total 1. A small start lets the amounts grow for some
    totals."""
    zero, a = r.randint(1, 20), r.randint(2, 40)
    others = max(0, zero * (a - 1) + r.choice((-1, 0, 1, 1, 1, 2, 3)))
    first = r.choice((0, others, r.randint(0, others)))
    low = r.choice((0, 1, 400, r.randint(1, UNIT // 1000)))
    return Parts(1, [(a, r.choice((-a, 1 - a, -2 * a, r.randint(-MOST_TERM, MOST_TERM))))], (low, low + r.choice((0, 1))),
                 r.randint(0, 12), zero, [first, others - first])


def wide(r):
    """One large claim size and the largest terms: towards the last total the sums are as large as they come."""
    size = r.choice((100, 125, 166, 250, MOST_WEIGHTS))
    terms = [(r.choice((-MOST_TERM, MOST_TERM)), r.choice((-MOST_TERM, MOST_TERM))) for _ in range(r.randint(1, MOST_ORDER))]
    start = r.choice(((UNIT, UNIT), (UNIT - 1, UNIT), (UNIT // 2, UNIT)))
    return Parts(r.choice((MOST_DIVISOR - 1, MOST_DIVISOR)), terms, start, LAST_TOTAL, 0, [0] * (size - 1) + [MOST_SUM])


def whole_power(r):
    """The law of (1 + cz)^n, with n of either sign, whose coefficients are whole, or of e^(cz), whose are whole over factorials."""
    c, n = r.choice((-2, -1, 1, 1, 2)), r.choice((-3, -2, -1, 1, 1, 1, 2, 3, 6))
    return Law(Fraction(0), Fraction(c)) if r.random() < 0.3 else Law(Fraction(-c), Fraction((n + 1) * c))


def small_table(r):
    return [r.choice((0, 1, 1, 2)) for _ in range(r.randint(0, 3))] + [r.choice((1, 1, 2, 8))]


def even(r):
    """Whole amounts, at all totals or at the first. The start is a multiple of a factorial and of a power of W - a w(0), which is over D
    what row 0 divides by at total 1."""
    laws = [whole_power(r) for _ in range(r.choice((1, 1, 1, 2, 2, 3, 4)))]
    divisor = r.choice((1, 1, 1, 2, 3))
    terms = [(int(a * divisor), int(b * divisor)) for a, b in together(laws)]
    weights, zero = small_table(r), r.choice((0, 0, 0, 1, 2)) if len(laws) == 1 else 0
    base = max(1, sum(weights) + zero - int(laws[0].a) * zero)
    step = min(UNIT // 3, base ** r.randint(0, 5) * math.factorial(r.choice((0, 0, 3, 6))))
    low, high = r.choice(((1, 1), (2, 2), (3, 3), (0, 1), (1, 2), (2, 3)))
    return Parts(divisor, terms, (low * step, high * step), r.choice((r.randint(0, 12), r.randint(0, 12), 25)), zero, weights)


def even_in_row_0(r):
    """Row 0 leaves no remainder, as its factors are multiples of D W times the total; the further rows leave some."""
    weights, divisor, low = small_table(r), r.choice((1, 1, 2)), r.randint(1, 9)
    terms = [(divisor * sum(weights) * r.choice((-1, 0, 1, 1)), 0) for _ in range(r.randint(1, MOST_ORDER))]
    return Parts(divisor, terms, (low, low + r.choice((0, 0, 1, 2))), r.randint(0, 8), 0, weights)


def near(limit):
    """Just inside a limit, on it, and just outside, which is meant to come twice as often."""
    return limit - 1, limit, limit + 1, limit + 1


def limit_divisor(r, parts):
    parts.divisor = r.choice((0, 1, MOST_DIVISOR - 1, MOST_DIVISOR, MOST_DIVISOR + 1, GREATEST_NUMBER))


def limit_term(r, parts):
    i = r.randrange(len(parts.terms))
    number = r.choice((-1, 1)) * r.choice((0, *near(MOST_TERM), GREATEST_NUMBER))
    a, b = parts.terms[i]
    parts.terms[i] = r.choice(((number, b), (a, number)))


def limit_start(r, parts):
    low = r.choice((0, 0, 1, UNIT - 1, UNIT, UNIT + 1))
    parts.start = low, r.choice((0, 1, low, low + 1, max(0, low - 1), UNIT - 1, UNIT, UNIT + 1, GREATEST_NUMBER))


def limit_sum(r, parts):
    y = r.randrange(len(parts.weights))
    others = parts.zero + sum(parts.weights) - parts.weights[y]
    parts.weights[y] = r.choice((max(0, MOST_SUM - 1 - others), MOST_SUM - others, MOST_SUM + 1 - others, GREATEST_NUMBER))


def limit_zero(r, parts):
    """Whatever the order is. With another term it may leave no divisor."""
    rest = MOST_SUM - sum(parts.weights)
    parts.zero = r.choice((1, max(0, rest - 1), rest, rest + 1, MOST_SUM, GREATEST_NUMBER))
    if r.random() < 0.3:
        parts.terms[0] = r.choice((parts.divisor, MOST_TERM)), parts.terms[0][1]


def no_sum(r, parts):
    """All weights are 0, or all but w(0)."""
    parts.weights = [0] * len(parts.weights)
    parts.zero = r.choice((0, 0, 1, parts.zero, MOST_SUM, MOST_SUM + 1))


def limit_last(r, parts):
    parts.last = r.choice((0, LAST_TOTAL - 1, LAST_TOTAL, LAST_TOTAL + 1, GREATEST_NUMBER))


def at_limits(r):
    """A sheet with one number or pair at a limit of the job or just outside, or as large as a number can be."""
    parts = r.choice((named, free))(r)
    change = r.choice((limit_divisor, limit_term, limit_term, limit_start, limit_sum, limit_zero, no_sum, limit_last))
    change(r, parts)
    return parts


def good(r):
    make = r.choices((named, free, at_edge, thin, wide, even, even_in_row_0, at_limits), (46, 15, 8, 6, 2, 10, 6, 23))[0]
    return make(r).text()


# ---- damages: each takes a sheet and gives another

BYTES = b"\x00\t\n\r +-./019:ATWn~\x7f\x80\xff"


def a_byte(r):
    return bytes([r.choice((r.choice(BYTES), r.randrange(256)))])


def a_place(r, sheet):
    """Often among the first lines, where a sheet of many weights has its other lines."""
    return r.randint(0, r.choice((len(sheet), min(len(sheet), 80))))


def flip_bit(r, sheet):
    changed = bytearray(sheet or b" ")
    changed[min(a_place(r, sheet), len(changed) - 1)] ^= 1 << r.randrange(8)
    return bytes(changed)


def replace_byte(r, sheet):
    at = a_place(r, sheet)
    return sheet[:at] + a_byte(r) + sheet[at + 1:]


def insert_byte(r, sheet):
    at = a_place(r, sheet)
    return sheet[:at] + a_byte(r) + sheet[at:]


def delete_bytes(r, sheet):
    at = a_place(r, sheet)
    return sheet[:at] + sheet[at + r.choice((1, 1, 2, 9)):]


def truncate(r, sheet):
    return sheet[:r.choice((len(sheet) - 1, a_place(r, sheet)))]


def no_number(r, word):
    """A number written in a way that is mostly none here."""
    cut = r.randint(0, len(word))
    inside = r.choice((b"n", b" ", b"\t", b"\r", b"\x00", b"_", b".", b"-", b"+"))
    return r.choice((
        word[:cut] + inside + word[cut:], word[:cut] + inside + word[cut:], b"0" + word, b"00", b"-" + word, b"+" + word, b"-0", b"-", b"",
        b" " + word, word + b" ", word + b"n5", word + b"e1", b"0x" + word, word.ljust(11, b"7"), "\uff11".encode(),
    ))


def another_number(r, word):
    """Near the number, too long, at a limit, or what a machine word of 32 or 64 bits would take for the number."""
    value = int(word) if len(word) <= 20 else 0
    return b"%d" % r.choice((value - 1, value + 1, value + 2 ** 32, value + 2 ** 64, GREATEST_NUMBER, -GREATEST_NUMBER, GREATEST_NUMBER + 1,
                             0, MOST_ORDER + 1, MOST_WEIGHTS + 1, MOST_SUM + 1))


def change_number(r, sheet):
    """One number, often of the first lines."""
    numbers = list(re.finditer(rb"-?[0-9]+", sheet))[:r.choice((9, 15, 600))]
    if not numbers:
        return sheet
    found = r.choice(numbers)
    return sheet[:found.start()] + r.choice((no_number, no_number, another_number))(r, found[0]) + sheet[found.end():]


def other_count(r, sheet):
    """k or m is another number than that of the lines."""
    keyword = r.choice((b"LAW ", b"SEVERITY "))
    count = r.choice((0, 1, 2, MOST_ORDER, MOST_ORDER + 1, MOST_WEIGHTS, MOST_WEIGHTS + 1, 2 ** 32 + 1, GREATEST_NUMBER))
    return re.sub(keyword + rb"[0-9]+", keyword + b"%d" % count, sheet, count=1)


def swap_lines(r, sheet):
    lines = sheet.split(b"\n")
    i, j = r.randrange(len(lines)), r.randrange(min(len(lines), 9))
    lines[i], lines[j] = lines[j], lines[i]
    return b"\n".join(lines)


def change_line(r, sheet):
    """One line, often of the first, is dropped, doubled, emptied or written otherwise."""
    lines = sheet.split(b"\n")
    i = r.randrange(min(len(lines), r.choice((9, 600))))
    line = lines[i]
    keyword, *words = line.split(b" ")
    other = r.choice((b"LAW", b"TERM", b"START", b"LAST", b"ZERO", b"SEVERITY", b"W", b"", keyword.lower(), keyword + b"S", keyword[:-1]))
    lines[i:i + 1] = r.choice((
        [], [line, line], [b""], [b"", line], [keyword], [b" ".join(words)], [b" ".join([keyword, *words[:-1]])],
        [b" ".join([other, *words])], [line.replace(b" ", b"  ")], [line.replace(b" ", b"\t")], [line.replace(b" ", b"")], [line + b" "],
        [line + b" 1"], [line + b"\r"], [b" " + line], [b"# " + line], [b"\xef\xbb\xbf" + line],
    ))
    return b"\n".join(lines)


def move_zero(r, sheet):
    """The line ZERO is left out, as in the sheets of earlier versions, or stands before LAST, behind SEVERITY or at the end, or twice."""
    found = re.search(rb"(LAST .*\n)(ZERO .*\n)(SEVERITY .*\n)", sheet)
    if not found:
        return sheet
    last, zero, severity = found.groups()
    before, after = sheet[:found.start()], sheet[found.end():]
    return before + r.choice((
        last + severity + after, last + severity + after, zero + last + severity + after, last + severity + zero + after,
        last + severity + after + zero, last + zero + zero + severity + after,
    ))


def other_line_ends(r, sheet):
    return sheet.replace(b"\n", r.choice((b"\r\n", b"\r", b"\n\n", b" \n", b"\x00", b"")))


def bytes_after(r, sheet):
    return sheet + r.choice((b"\n", b"\x00", b" ", b"\r\n", b"W 1\n", b"W 1", b"LAW 1 1\n", sheet, a_byte(r)))


def other_size(r, sheet):
    """So many more bytes, at the end or between, that the size is at the limit, near it or well above it."""
    size = r.choice((MOST_BYTES - 1, MOST_BYTES, MOST_BYTES, MOST_BYTES + 1, MOST_BYTES + 1, MOST_BYTES + 2, 20_000, 70_000))
    at = r.choice((len(sheet), a_place(r, sheet)))
    filling = r.choice((b"1", b"0", b"\n", b" ", b"W 1\n", b"\x00", b"A"))
    more = max(0, size - len(sheet))
    return sheet[:at] + (filling * more)[:more] + sheet[at:]


def nothing_left(r, sheet):
    return r.choice((b"", b"\n", b"\n" * 9, b" ", b"\x00", r.randbytes(r.randint(1, 300))))


DAMAGES = (flip_bit, replace_byte, insert_byte, delete_bytes, truncate, change_number, change_number, change_number, other_count,
           change_line, change_line, swap_lines, move_zero, other_line_ends, bytes_after, other_size, nothing_left)


def sheet(r):
    found = good(r)
    if r.random() < 0.5:
        for _ in range(r.choice((1, 1, 1, 1, 2, 3))):
            found = r.choice(DAMAGES)(r, found)
    return found
