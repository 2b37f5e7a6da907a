"""Sheets with slips, for tests/curve: every refusal that a sheet can meet, and whatever beginners write that the program can only refuse,
on the first line, on the last and between."""
from commands import LONG, SLIP, SMALL, text

from limits import MOST_BYTES, MOST_SUM, MOST_TERM, MOST_WEIGHTS, UNIT

FIRST, LAST = 1, len(SMALL)


def with_line(number, line):
    """The small sheet with another line of this number."""
    return text(*SMALL[:number - 1], line, *SMALL[number:])


def weights(*numbers):
    """The small sheet with these."""
    return text(*SMALL[:5], f"SEVERITY {len(numbers)}", *(f"W {number}" for number in numbers))


def one_size(*lines):
    """With these, and claims of size 1 alone."""
    return text("LAW 1 1", *lines, "ZERO 0", "SEVERITY 1", "W 1")


def closed(zero, *numbers, order=1, divisor=1, a=0, last=3):
    """A sheet with this weight of size 0, and with these from size 1 on."""
    terms = [f"TERM {a} 1", *["TERM 0 0"] * (order - 1)]
    return text(f"LAW {order} {divisor}", *terms, SMALL[2], f"LAST {last}", f"ZERO {zero}", f"SEVERITY {len(numbers)}",
                *(f"W {number}" for number in numbers))


# Where no remedy but the general one fits: the number, and the sheet.
PLAIN = {
    "no divisor": (2, with_line(1, "LAW 1 0")),
    "a divisor too large": (2, with_line(1, "LAW 1 1001")),
    "a term too large": (3, with_line(2, f"TERM 0 {MOST_TERM + 1}")),
    "a second term too small": (3, text("LAW 2 1", "TERM 0 1", f"TERM {-MOST_TERM - 1} 0", *SMALL[2:])),
    "a start turned round": (4, with_line(3, "START 367879442 367879441")),
    "a start above 1": (4, with_line(3, f"START 0 {UNIT + 1}")),
    "a start of 0": (4, with_line(3, "START 0 0")),
    "weights above their sum": (6, weights(MOST_SUM, 1)),
    "weights far above it": (6, weights(*[9_999_999_999] * MOST_WEIGHTS)),
    "no weight above 0": (6, weights(0, 0, 0)),
    "claims of size 0 above the sum": (6, closed(MOST_SUM, 1)),
    "claims of size 0 far above it, and a law of order 2": (6, closed(9_999_999_999, 1, order=2)),
    "claims of size 0 with a law of order 2": (11, closed(1, 1, order=2)),
    "claims of size 0 with a law of order 4": (11, closed(1, 0, order=4, a=2)),
    "a divisor of zero without claims of size 0": (12, closed(1, 1, a=2)),
    "a divisor of zero, with large numbers": (12, closed(999, 1, divisor=999, a=1000)),
    "a divisor below zero": (12, closed(1, 1, a=3)),
    "a divisor below zero, and claims of size 0 alone": (12, closed(1, 0, a=2)),
    "claims of size 0 alone": (13, closed(1, 0)),
    "claims of size 0 alone, and too many totals": (13, closed(MOST_SUM, 0, 0, last=501)),
    "too many totals": (7, with_line(4, "LAST 501")),
    "an amount too large": (9, one_size("TERM 3 0", f"START {UNIT} {UNIT}", "LAST 3")),
    "an amount too large, later": (9, one_size("TERM 2 0", f"START {UNIT // 4} {UNIT // 4}", "LAST 9")),
    "a bound too large": (10, one_size("TERM -1 0", f"START 0 {UNIT}", "LAST 9")),
    "a start below a unit": (10, one_size("TERM 0 30", "START 0 1", "LAST 100")),
    "an empty sheet": (21, b""),
    "a sheet too long": (21, LONG + b"1" * (MOST_BYTES + 1 - len(LONG))),
    "a sheet far too long": (21, LONG + b"1" * 100_000),
    "no line end behind the last line": (22, text(*SMALL)[:-1]),
    "one line without its end": (22, b"LAW 1 1"),
    "m larger than the weights": (22, with_line(6, "SEVERITY 3")),
    "k larger than the terms": (23, with_line(1, "LAW 2 1")),
    "k smaller than the terms": (23, text("LAW 1 1", "TERM 0 1", *SMALL[1:])),
    "another keyword": (23, with_line(4, "LIMIT 3")),
    "a number missing": (23, with_line(3, "START 367879441")),
    "SEVERITY in the place of LAST": (23, text(*SMALL[:3], *SMALL[5:])),
    "SEVERITY twice": (23, text(*SMALL[:6], *SMALL[5:])),
    "SEVERITY with two numbers": (23, with_line(6, "SEVERITY 2 2")),
    "ZERO in the place of LAST": (23, text(*SMALL[:3], *SMALL[4:])),
    "ZERO without its number": (23, with_line(5, "ZERO")),
    "ZERO with two numbers": (23, with_line(5, "ZERO 0 0")),
    "ZERO twice": (23, text(*SMALL[:5], *SMALL[4:])),
    "ZERO in words": (24, with_line(5, "ZERO none")),
    "only the keyword of the last line": (23, with_line(8, "W")),
    "a space for the thousands": (23, with_line(7, "W 1 000")),
    "points for the thousands": (24, with_line(7, "W 1.000.000")),
    "a number written in words": (24, with_line(7, "W ten")),
    "a slip of the hand": (24, SLIP),
    "a backslash": (24, with_line(7, "W 1\\")),
    "bytes that are no text": (24, with_line(7, "W @").replace(b"@", b"\x00\x7f\x80\xff\xc3\xa9")),
    "two minus signs": (24, with_line(2, "TERM --1 1")),
    "k too large": (25, with_line(1, "LAW 5 1")),
    "k zero": (25, with_line(1, "LAW 0 1")),
    "m zero": (25, with_line(6, "SEVERITY 0")),
    "m too large": (25, with_line(6, "SEVERITY 501")),
    "an empty line at the end": (26, text(*SMALL, "")),
    "a note at the end": (26, text(*SMALL, "# end")),
    "m smaller than the weights": (26, text(*SMALL, "W 1")),
    "a space behind the last line end": (26, text(*SMALL) + b" "),
}

# What beginners write: the number, the remedy that fits, by its name in refusals.ini, and the sheet.
SEEN = {
    "an older sheet": (23, "older sheet", text(*SMALL[:4], *SMALL[5:])),
    "an older sheet of order 3": (23, "older sheet", text("LAW 3 1", *["TERM 0 1"] * 3, *SMALL[2:4], *SMALL[5:])),
    "ZERO behind SEVERITY": (23, "ZERO behind SEVERITY", text(*SMALL[:4], SMALL[5], SMALL[4], *SMALL[6:])),
    "ZERO with a weight behind SEVERITY": (23, "ZERO behind SEVERITY", text(*SMALL[:4], "SEVERITY 1", "ZERO 5", "W 1")),
    "ZERO behind the weights": (23, "ZERO behind SEVERITY", text(*SMALL[:4], *SMALL[5:], "ZERO 5")),
    "an older sheet with a comment": (23, "older sheet", text(*SMALL[:4], "SEVERITY 2 # sizes", *SMALL[6:])),
    "line ends of an old Mac": (22, "line ends of old Macs", text(*SMALL).replace(b"\n", b"\r")),
    "a comma between numbers": (23, "other separators", with_line(2, "TERM 0,1")),
    "a semicolon between numbers": (23, "other separators", with_line(2, "TERM 0;1")),
    "a space that does not break": (23, "other separators", with_line(2, "TERM 0\u00a01")),
    "a byte order mark": (23, "byte order mark", b"\xef\xbb\xbf" + text(*SMALL)),
    "UTF-16, as some editors save": (23, "byte order mark", text(*SMALL).decode().encode("utf-16")),
    "UTF-16, the other way round": (23, "byte order mark", b"\xfe\xff" + text(*SMALL).decode().encode("utf-16-be")),
    "a byte order mark and line ends of Windows": (23, "byte order mark", b"\xef\xbb\xbf" + text(*SMALL).replace(b"\n", b"\r\n")),
    "a comment at the top": (23, "comment", text("# broken glass", *SMALL)),
    "a comment between": (23, "comment", text(*SMALL[:6], "# weights", *SMALL[6:])),
    "a comment before the last line": (23, "comment", text(*SMALL[:-1], "// the last", *SMALL[-1:])),
    "a comment behind the law": (23, "comment", with_line(FIRST, "LAW 1 1 # Poisson")),
    "a comment behind a weight": (23, "comment", with_line(7, "W 35 # small claims")),
    "a comment far behind a weight": (23, "comment", with_line(7, "W 35   # small claims")),
    "a comment behind the last weight": (23, "comment", with_line(LAST, "W 35 // large claims")),
    "a comment behind a tab": (23, "comment", with_line(7, "W 35\t# small claims")),
    "tabs on the first line": (23, "tab", with_line(FIRST, "LAW\t1\t1")),
    "a tab on the last line": (23, "tab", with_line(LAST, "W\t1")),
    "a tab for one space": (23, "tab", with_line(3, "START 367879441\t367879442")),
    "an indented paste": (23, "indented", text(*(f"    {line}" for line in SMALL))),
    "a paste indented by tabs": (23, "indented", text(*(f"\t{line}" for line in SMALL))),
    "an indented line": (23, "indented", with_line(LAST, " W 1")),
    "an empty line at the top": (23, "empty", text("", *SMALL)),
    "an empty line between": (23, "empty", text(*SMALL[:6], "", *SMALL[6:])),
    "an empty line before the last": (23, "empty", text(*SMALL[:-1], "", *SMALL[-1:])),
    "a line of spaces": (23, "empty", text(*SMALL[:6], "  ", *SMALL[6:])),
    "a line of tabs": (23, "empty", text(*SMALL[:6], "\t\t", *SMALL[6:])),
    "lower case": (23, "lower case", text(*SMALL).lower()),
    "ZERO in small letters": (23, "lower case", with_line(5, "zero 0")),
    "one capital alone": (23, "lower case", with_line(6, "Severity 2")),
    "lower case on the last line": (23, "lower case", with_line(LAST, "w 1")),
    "two spaces on the first line": (23, "spaces", with_line(FIRST, "LAW 1  1")),
    "two spaces on the last line": (23, "spaces", with_line(LAST, "W  1")),
    "a space at the end of the first line": (23, "spaces", with_line(FIRST, "LAW 1 1 ")),
    "a space at the end of the last line": (23, "spaces", with_line(LAST, "W 1 ")),
    "line ends of Windows": (24, "line ends of Windows", text(*SMALL).replace(b"\n", b"\r\n")),
    "the line end of Windows on the last line": (24, "line ends of Windows", with_line(LAST, "W 1\r")),
    "a tab at the end of the first line": (24, "tab", with_line(FIRST, "LAW 1 1\t")),
    "a tab at the end of the last line": (24, "tab", with_line(LAST, "W 1\t")),
    "a tab behind the space": (24, "tab", with_line(7, "W \t1")),
    "decimals in the law": (24, "decimals", with_line(FIRST, "LAW 1 1.0")),
    "decimals in a term": (24, "decimals", with_line(2, "TERM -0.5 1")),
    "a start as a chance": (24, "decimals", with_line(3, "START 0.367879441 0.367879442")),
    "a decimal weight of size 0": (24, "decimals", with_line(5, "ZERO 0.5")),
    "a decimal weight": (24, "decimals", with_line(LAST, "W 3.7")),
    "a decimal weight without a zero": (24, "decimals", with_line(LAST, "W .7")),
    "a decimal comma": (24, "comma", with_line(LAST, "W 3,7")),
    "a start as a chance with a comma": (24, "comma", with_line(3, "START 0,367879441 0,367879442")),
    "a comma for the thousands": (24, "comma", with_line(LAST, "W 1,000")),
    "commas in the start": (24, "comma", with_line(3, "START 367,879,441 367,879,442")),
    "a comma behind a number": (24, "comma", with_line(FIRST, "LAW 1, 1")),
    "a negative divisor": (24, "negative", with_line(FIRST, "LAW 1 -1")),
    "a negative start": (24, "negative", with_line(3, "START -1 1")),
    "a negative weight of size 0": (24, "negative", with_line(5, "ZERO -1")),
    "a negative weight": (24, "negative", with_line(LAST, "W -5")),
    "a minus sign before zero": (24, "minus zero", with_line(2, "TERM -0 1")),
    "a plus sign in the law": (24, "plus sign", with_line(FIRST, "LAW +1 1")),
    "a plus sign in a term": (24, "plus sign", with_line(2, "TERM +1 0")),
    "a plus sign before a weight": (24, "plus sign", with_line(LAST, "W +1")),
    "zeros in front": (24, "zero in front", with_line(LAST, "W 007")),
    "a zero before the order": (24, "zero in front", with_line(FIRST, "LAW 01 1")),
    "two zeros": (24, "zero in front", with_line(4, "LAST 00")),
    "11 digits in the law": (24, "too many digits", with_line(FIRST, "LAW 1 10000000000")),
    "11 digits in the start": (24, "too many digits", with_line(3, "START 36787944117 36787944118")),
    "11 digits in a weight": (24, "too many digits", with_line(LAST, "W 12345678901")),
    "a space for the divisor": (24, "empty", with_line(FIRST, "LAW 1 ")),
    "a space for the weight": (24, "empty", with_line(LAST, "W ")),
    "two spaces and a number missing": (24, "empty", with_line(3, "START  367879441")),
}
