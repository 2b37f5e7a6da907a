"""The sheets of tests/reader: good ones, nearly all of 500 weights, and faulty ones, the fault mostly on a weight line. They come from SEED
and are the same under every version of Python: chances are drawn from `r`, a random.Random, by its method random() alone, whose numbers
Python promises to keep. Those of the record (`recorded`) are sheets of earlier versions, which had no line ZERO; `with_zero` puts it in.
The others (`of_this_version`) have it, or a fault on it."""
import random
import re
from typing import NamedTuple

from limits import MOST_BYTES, MOST_ORDER, MOST_WEIGHTS as WEIGHTS
from random_sheets import GREATEST_NUMBER, Parts

SEED = 1
ZERO_LINE = b"ZERO 0\n"
ROWS = (0, WEIGHTS - 1, WEIGHTS, WEIGHTS + 1)

# Every fault of a weight line stands at the first weight, at a middle one and at the last.
FAULTY_WEIGHTS = (1, WEIGHTS // 2, WEIGHTS)


class Case(NamedTuple):
    """A sheet, by a name that says what it is, and the number of places of the row that it is read for."""
    name: str
    sheet: bytes
    places: int


# ---- good sheets

def below(r, limit):
    """A number from 0 up, less than the limit."""
    return int(r.random() * limit)


def of_length(r, length):
    """A number of so many digits."""
    least = 0 if length == 1 else 10 ** (length - 1)
    return least + below(r, 10 ** length - least)


def number(r):
    return of_length(r, 1 + below(r, 10))


def numbers(r, count):
    return [number(r) for _ in range(count)]


def parts(r, order, weights):
    """All numbers before the weights have any length too: what the curve would refuse is the reader's to take."""
    signs = [1 - 2 * below(r, 2) for _ in range(2 * order)]
    terms = [sign * size for sign, size in zip(signs, numbers(r, 2 * order))]
    divisor, low, high, last = numbers(r, 4)
    return Parts(divisor, list(zip(terms[::2], terms[1::2])), (low, high), last, 0, weights)


def good(r, order, weights):
    """Without the line ZERO."""
    return parts(r, order, weights).text().replace(ZERO_LINE, b"")


def all_good(r):
    """Name, sheet and m."""
    edges = [0, GREATEST_NUMBER, *(10 ** i - j for i in range(1, 10) for j in (0, 1)), *(2 ** 32 + i for i in (-1, 0, 1)), 2 ** 31]
    tables = {
        **{f"weights of length {length}": [of_length(r, length) for _ in range(WEIGHTS)] for length in range(1, 11)},
        "weights 0": [0] * WEIGHTS,
        f"weights {GREATEST_NUMBER}": [GREATEST_NUMBER] * WEIGHTS,
        f"weights 0 and {GREATEST_NUMBER} by turns": [0, GREATEST_NUMBER] * (WEIGHTS // 2),
        "weights next to powers of 10 and 2": (edges * WEIGHTS)[:WEIGHTS],
        **{f"m is {count}, weights of any length": numbers(r, count) for count in (1, 2, WEIGHTS - 1)},
    }
    for i, (name, weights) in enumerate(tables.items()):
        yield f"good: {name}", good(r, 1 + i % MOST_ORDER, weights), len(weights)
    for order in range(1, MOST_ORDER + 1):
        for letter in "abc":
            yield f"good: order {order}, weights of any length, {letter}", good(r, order, numbers(r, WEIGHTS)), WEIGHTS


# ---- faults of a weight line

# Words that are no number.
NO_NUMBERS = {
    "empty word": b"", "leading zero": b"0105", "two zeros": b"00", "ten zeros": b"0" * 10, "11 digits": b"10000000000",
    "11 nines": b"9" * 11, "11 digits, zeros first": b"00000000105", "20 digits, 2^64": b"%d" % 2 ** 64,
    "20 digits, 2^64 + 105": b"%d" % (2 ** 64 + 105), "300 digits": b"1" * 300, "plus sign": b"+105", "minus sign": b"-105",
    "minus zero": b"-0", "minus sign alone": b"-", "minus sign at the end": b"105-", "letter alone": b"n",
    "9 digits and a letter": b"999999999n", "10 digits and a letter": b"9999999999n", "decimal point": b"10.5", "exponent": b"1e5",
    "hexadecimal": b"0x69", "underscore": b"1_05", "carriage return before the line end": b"105\r", "keyword for the number": b"W",
    "full-width digit": "\uff15".encode(),
}

# Bytes that are no digits, each put at the front, in the middle and at the end of a number. 15 and B5 are a 5 with one bit changed.
NO_DIGITS = {
    "letter": b"n", "byte 2F": b"/", "byte 3A": b":", "byte 00": b"\x00", "tab": b"\t", "byte 15": b"\x15",
    "byte 80": b"\x80", "byte B5": b"\xb5", "byte FF": b"\xff",
}

# Lines with another keyword or another number of words. Some have a word that is no number too.
NO_FORMS = {
    "empty line": b"", "space alone": b" ", "keyword alone": b"W", "keyword missing": b"105", "keyword empty": b" 105",
    "keyword in lower case": b"w 105", "keyword V": b"V 105", "keyword X": b"X 105", "keyword D7": b"\xd7 105", "keyword LAST": b"LAST 105",
    "keyword too long": b"WW 105", "keyword with a zero byte": b"W\x00 105", "keyword in lower case, and a letter": b"w 10n5",
    "space missing": b"W105", "tab for the space": b"W\t105", "zero byte for the space": b"W\x00105", "space before": b" W 105",
    "two spaces": b"W  105", "two spaces alone": b"W  ", "space behind": b"W 105 ", "letter, and a space behind": b"W 10n5 ",
    "two numbers": b"W 10 5", "leading zero, and a second number": b"W 010 5", "11 digits, and a second number": b"W 10000000000 5",
    "minus sign, and a second number": b"W -10 5", "number, and a letter": b"W 10 n", "two weights": b"W 10 W 5",
}

# Other bytes for the line end. With the last weight they leave a line that has none, or bytes behind it.
NO_ENDS = {"line end left out": b"", "carriage return for the line end": b"\r", "space for the line end": b" ",
           "zero byte for the line end": b"\x00", "line end twice": b"\n\n"}

# The last bytes of a sheet that ends on a weight line.
CUTS = {
    "line missing": b"", "behind the keyword": b"W", "behind the space": b"W ", "behind a digit": b"W 5", "in the number": b"W 10",
    "behind a leading zero": b"W 01", "behind 11 digits": b"W 10000000000", "behind a letter": b"W 10n", "behind a second space": b"W 10 ",
    "behind two numbers": b"W 10 5", "behind a keyword in lower case": b"w 105", "behind a carriage return": b"W 105\r",
}


class LineFault(NamedTuple):
    """A weight line with its line end, or what stands for it; and whether the sheet ends there."""
    line: bytes
    is_cut: bool


def line_faults():
    words = dict(NO_NUMBERS)
    for name, byte in NO_DIGITS.items():
        words.update({f"{name} at the front": byte + b"105", f"{name} in the middle": b"10" + byte + b"5",
                      f"{name} at the end": b"105" + byte})
    return {
        **{name: LineFault(b"W " + word + b"\n", False) for name, word in words.items()},
        **{name: LineFault(line + b"\n", False) for name, line in NO_FORMS.items()},
        **{name: LineFault(b"W 105" + end, False) for name, end in NO_ENDS.items()},
        **{f"sheet cut, {name}": LineFault(rest, True) for name, rest in CUTS.items()},
    }


def with_fault(sheet, weight, fault):
    """The sheet with this fault at a weight, from 1. Before it there are as many lines as in a good sheet."""
    lines = sheet.split(b"\n")
    at = lines.index(b"SEVERITY %d" % WEIGHTS) + weight
    before = b"".join(line + b"\n" for line in lines[:at])
    return before + fault.line + (b"" if fault.is_cut else b"\n".join(lines[at + 1:]))


def one_fault(sheets):
    for i, (name, fault) in enumerate(line_faults().items()):
        for weight in FAULTY_WEIGHTS:
            yield f"weight {weight}: {name}", with_fault(sheets[i % len(sheets)], weight, fault)


# The first of two faults decides.
TWO_FAULTS = (
    ("leading zero", "keyword in lower case"), ("keyword in lower case", "leading zero"), ("empty word", "two numbers"),
    ("two numbers", "empty word"), ("11 digits", "letter in the middle"), ("space behind", "sheet cut, in the number"),
    ("minus sign", "sheet cut, line missing"), ("carriage return before the line end", "line end twice"),
)


def two_faults(sheets):
    faults = line_faults()
    for i, names in enumerate(TWO_FAULTS):
        for weights in (1, WEIGHTS), (WEIGHTS // 2, WEIGHTS // 2 + 1), (WEIGHTS - 1, WEIGHTS):
            sheet = sheets[i % len(sheets)]
            for weight, name in zip(weights, names):
                sheet = with_fault(sheet, weight, faults[name])
            yield "weights {} and {}: {}; {}".format(*weights, *names), sheet


# ---- other faults

def head_faults(sheet):
    """The lines before the weights; of the TERM lines the first."""
    for keyword in b"LAW", b"TERM", b"START", b"LAST", b"SEVERITY":
        line = re.search(rb"(?m)^%s .*$" % keyword, sheet)
        before, after = sheet[:line.start()], sheet[line.end():]
        name = keyword.decode()
        yield f"{name} line: keyword in lower case", before + line[0].lower() + after
        yield f"{name} line: a number too many", before + line[0] + b" 5" + after
        yield f"{name} line: letter at the end", before + line[0] + b"n" + after
        yield f"{name} line: sheet cut before the line end", before + line[0]


def other_number(sheet, keyword, told):
    """The sheet with another first number on the line of this keyword."""
    return re.sub(rb"(?m)^%s [0-9]+" % keyword, b"%s %d" % (keyword, told), sheet)


def limits(sheet):
    for order in 0, MOST_ORDER + 1, 2 ** 32 + 1, GREATEST_NUMBER:
        yield f"k is {order}", other_number(sheet, b"LAW", order)
    for count in 0, WEIGHTS + 1, 2 ** 32 + WEIGHTS, GREATEST_NUMBER:
        yield f"m is {count}", other_number(sheet, b"SEVERITY", count)
    yield f"m is {WEIGHTS + 1}, and so many weights", other_number(sheet, b"SEVERITY", WEIGHTS + 1) + b"W 105\n"
    faulty = with_fault(sheet, 1, line_faults()["leading zero"])
    yield f"k is {MOST_ORDER + 1}, and weight 1 has a leading zero", other_number(faulty, b"LAW", MOST_ORDER + 1)


def filled(sheet, at, byte, size):
    """So many of a byte put in at a place that the sheet has this size."""
    return sheet[:at] + byte * (size - len(sheet)) + sheet[at:]


def bytes_behind(sheet):
    behind = {"a line end": b"\n", "a carriage return": b"\r", "a space": b" ", "a zero byte": b"\x00", "a digit": b"5", "byte 80": b"\x80",
              "a keyword": b"W", "a weight without a line end": b"W 105", "a weight": b"W 105\n", "a weight in lower case": b"w 105\n",
              "the sheet again": sheet}
    for name, more in behind.items():
        yield f"behind the last line: {name}", sheet + more
    yield f"behind the last line: digits, {MOST_BYTES} bytes in all", filled(sheet, len(sheet), b"5", MOST_BYTES)
    for count in 1, WEIGHTS - 1:
        yield f"m is {count}, with {WEIGHTS} weights", other_number(sheet, b"SEVERITY", count)


def sizes(sheet):
    yield "no bytes", b""
    yield f"behind the last line: digits, {MOST_BYTES + 1} bytes in all", filled(sheet, len(sheet), b"5", MOST_BYTES + 1)
    yield f"{MOST_BYTES + 1} line ends", b"\n" * (MOST_BYTES + 1)
    for size in MOST_BYTES, MOST_BYTES + 1:
        yield f"weight {WEIGHTS}: so many digits that the sheet has {size} bytes", filled(sheet, len(sheet) - 1, b"5", size)


def faulty(sheets):
    """From good sheets of the orders 1 to 4."""
    yield from one_fault(sheets)
    yield from two_faults(sheets)
    for faults, sheet in zip((head_faults, limits, bytes_behind, sizes), sheets):
        yield from faults(sheet)


def recorded():
    """All cases of the record."""
    r = random.Random(SEED)
    for name, sheet, count in all_good(r):
        for places in sorted({*ROWS, count - 1, count}):
            yield Case(name, sheet, places)
    for name, sheet in faulty([good(r, order, numbers(r, WEIGHTS)) for order in range(1, MOST_ORDER + 1)]):
        for places in ROWS:
            yield Case(name, sheet, places)


# ---- the line ZERO

def with_zero(sheet):
    """The sheet with the line ZERO 0 before its line SEVERITY, and the place where that stands. None where there is no line SEVERITY, or
    where these bytes make the sheet too long."""
    found = re.search(rb"(?m)^SEVERITY ", sheet)
    if not found or len(sheet) <= MOST_BYTES < len(sheet) + len(ZERO_LINE):
        return None
    return sheet[:found.start()] + ZERO_LINE + sheet[found.start():], found.start()


def zero_orders(sheet):
    """The line ZERO elsewhere than between LAST and SEVERITY."""
    found = re.search(rb"(LAST .*\n)(ZERO .*\n)(SEVERITY .*\n)", sheet)
    last, zero, severity = found.groups()
    orders = {
        "missing": (last, severity), "before LAST": (zero, last, severity), "behind SEVERITY": (last, severity, zero),
        "twice": (last, zero, zero, severity), "for LAST": (zero, severity), "for SEVERITY": (last, zero), "for both": (zero,),
        "on the line LAST": (last.rstrip(b"\n"), b" ", zero, severity),
    }
    for name, lines in orders.items():
        yield f"ZERO line: {name}", sheet[:found.start()] + b"".join(lines) + sheet[found.end():]
    yield "ZERO line: behind the last", sheet.replace(zero, b"") + zero


def zero_faults(sheets):
    """The faults of a weight line on the line ZERO; and other keywords."""
    for i, (name, fault) in enumerate(line_faults().items()):
        before, _, after = sheets[i % len(sheets)].partition(ZERO_LINE)
        line = fault.line.replace(b"W", b"ZERO").replace(b"w", b"zero")
        yield f"ZERO line: {name}", before + line + (b"" if fault.is_cut else after)
    for keyword in b"ZER", b"ZEROS", b"Zero", b"zERO", b"ZERP", b"W", b"SEVERITY", b"TERM":
        yield f"ZERO line: keyword {keyword.decode()}", sheets[0].replace(ZERO_LINE, keyword + b" 0\n")


def zero_sizes(sheet):
    """Two faults, and so many digits on the line ZERO that the sheet is as long as can be, or too long."""
    yield "m is 0, behind a line ZERO", other_number(sheet, b"SEVERITY", 0)
    yield "ZERO line: letter at the end, and m is 0", other_number(sheet, b"SEVERITY", 0).replace(ZERO_LINE, b"ZERO 0n\n")
    yield "LAST line: letter at the end, and ZERO missing", re.sub(rb"(LAST [0-9]+)\nZERO 0\n", rb"\1n\n", sheet)
    yield "behind the last line: the line ZERO again", sheet + ZERO_LINE
    for size in MOST_BYTES, MOST_BYTES + 1:
        at = sheet.index(ZERO_LINE) + len(ZERO_LINE) - 1
        yield f"ZERO line: so many digits that the sheet has {size} bytes", filled(sheet, at, b"5", size)


def all_zeros(r):
    """Good sheets with any w(0)."""
    edges = 1, 9, 10, 999, 1000, 1001, 2 ** 31, 2 ** 32 - 1, 2 ** 32, 2 ** 32 + 1, GREATEST_NUMBER
    for i, zero in enumerate([*edges, *(of_length(r, length) for length in range(1, 11))]):
        found = parts(r, 1 + i % MOST_ORDER, numbers(r, (1, 3, WEIGHTS)[i % 3]))
        found.zero = zero
        yield f"good: w(0) is {zero}, {i}", found.text()


def of_this_version():
    """All cases that have a line ZERO, or should."""
    r = random.Random(SEED + 1)
    good_ones = [parts(r, order, numbers(r, WEIGHTS)).text() for order in range(1, MOST_ORDER + 1)]
    sheets = [*all_zeros(r), *zero_faults(good_ones), *zero_orders(good_ones[1]), *zero_sizes(good_ones[2])]
    return [Case(name, sheet, places) for name, sheet in sheets for places in ROWS]
