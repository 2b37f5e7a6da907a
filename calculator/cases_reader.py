"""Sheets for the sheet reader, good and damaged. The paper's limits are written out in the cases, for limits.py to be held to."""
from typing import NamedTuple

PAPER = [b"LAW 1 1", b"TERM 0 1", b"START 367879441 367879442", b"LAST 3", b"ZERO 0", b"SEVERITY 2", b"W 1", b"W 1"]


class Case(NamedTuple):
    """What is tried, the number and line that the paper asks for, the sheet, the row's number of places, and the faulty word."""
    name: str
    number: int
    line: int
    sheet: bytes
    places: int = 4
    word: bytes = b""


def text(lines, end=b"\n"):
    return b"".join(line + end for line in lines)


GOOD = text(PAPER)


def paper(changed):
    """The paper's sheet with some of its lines changed, by their numbers."""
    return text(changed.get(number, line) for number, line in enumerate(PAPER, 1))


def last(line):
    """The paper's sheet with another last line."""
    return paper({8: line})


def terms(*lines):
    """A sheet of one weight whose order is the number of terms."""
    return text([b"LAW %d 7" % len(lines), *lines, b"START 0 5", b"LAST 2", b"ZERO 4", b"SEVERITY 1", b"W 3"])


def weights(count, stated):
    """A sheet of ten-digit numbers with so many weights, no two alike, and the number of them that SEVERITY states."""
    front = [b"LAW 4 9999999999", *[b"TERM 9999999999 -9999999999", b"TERM -9999999999 9999999999"] * 2,
             b"START 9999999998 9999999999", b"LAST 9999999997", b"ZERO 9999999996", b"SEVERITY %d" % stated]
    return text(front + [b"W %d" % (9999999498 + y) for y in range(1, count + 1)])


def padded(size):
    """The paper's sheet and more bytes."""
    return GOOD.ljust(size, b"1")


def zero(line):
    """The paper's sheet with another line for the weight at 0."""
    return paper({5: line})


FOUR_TERMS = [b"LAW 4 1", *[b"TERM 1 2"] * 4, b"START 0 5", b"LAST 2"]

# Wish 7: the line before SEVERITY
ZERO = [
    Case("w(0) 1", 0, 0, zero(b"ZERO 1")),
    Case("w(0) 1,001, above the job's limit", 0, 0, zero(b"ZERO 1001")),
    Case("w(0) of ten digits, the greatest", 0, 0, zero(b"ZERO 9999999999")),
    Case("w(0) of ten digits, 2 to the 32", 0, 0, zero(b"ZERO 4294967296")),
    Case("w(0) 1, the other weights 0", 0, 0, paper({5: b"ZERO 1", 7: b"W 0", 8: b"W 0"})),
    Case("w(0) 1 and order 4, which is the curve's to refuse", 0, 0, text([*FOUR_TERMS, b"ZERO 1", b"SEVERITY 1", b"W 3"])),

    # 22
    Case("no line after ZERO", 22, 6, text(PAPER[:5])),
    Case("no line end after ZERO", 22, 5, text(PAPER[:4]) + b"ZERO 0"),
    Case("no line end after ZERO, and a word that is no number", 22, 5, text(PAPER[:4]) + b"ZERO x"),
    Case("no line end after ZERO, and no number", 22, 5, text(PAPER[:4]) + b"ZERO"),

    # 23
    Case("a sheet as before the wish, of order 1", 23, 5, text(PAPER[:4] + PAPER[5:])),
    Case("a sheet as before the wish, of order 4", 23, 8, text([*FOUR_TERMS, b"SEVERITY 1", b"W 3"])),
    Case("a sheet as before the wish, and no places", 23, 5, text(PAPER[:4] + PAPER[5:]), 0),
    Case("a sheet as before the wish, with a faulty m", 23, 5, text(PAPER[:4] + [b"SEVERITY x"])),
    Case("ZERO after SEVERITY", 23, 5, text([*PAPER[:4], PAPER[5], PAPER[4], *PAPER[6:]])),
    Case("ZERO before LAST", 23, 4, text([*PAPER[:3], PAPER[4], PAPER[3], *PAPER[5:]])),
    Case("ZERO after the weights", 23, 5, text([*PAPER[:4], *PAPER[5:], PAPER[4]])),
    Case("ZERO at the end too", 26, 9, GOOD + b"ZERO 0\n"),
    Case("no number after ZERO", 23, 5, zero(b"ZERO")),
    Case("two numbers after ZERO", 23, 5, zero(b"ZERO 0 0")),
    Case("two numbers after ZERO, and one that is none", 23, 5, zero(b"ZERO x 0")),
    Case("two spaces in ZERO", 23, 5, zero(b"ZERO  0")),
    Case("a space before ZERO", 23, 5, zero(b" ZERO 0")),
    Case("a space after ZERO's number", 23, 5, zero(b"ZERO 0 ")),
    Case("ZERO in small letters", 23, 5, zero(b"zero 0")),
    Case("ZERO and a letter more", 23, 5, zero(b"ZEROS 0")),
    Case("ZERO and a letter less", 23, 5, zero(b"ZER 0")),
    Case("ZERO and its number in one word", 23, 5, zero(b"ZERO0")),
    Case("W in place of ZERO", 23, 5, zero(b"W 0")),
    Case("a digit and letters for ZERO", 23, 5, zero(b"0ERO 0")),
    Case("an empty line in place of ZERO", 23, 5, zero(b"")),

    # 24
    Case("a minus sign in ZERO", 24, 5, zero(b"ZERO -1"), word=b"-1"),
    Case("a minus sign before ZERO's 0", 24, 5, zero(b"ZERO -0"), word=b"-0"),
    Case("a plus sign in ZERO", 24, 5, zero(b"ZERO +1"), word=b"+1"),
    Case("two zeros in ZERO", 24, 5, zero(b"ZERO 00"), word=b"00"),
    Case("a leading zero in ZERO", 24, 5, zero(b"ZERO 01"), word=b"01"),
    Case("11 digits in ZERO", 24, 5, zero(b"ZERO 10000000000"), word=b"10000000000"),
    Case("20 digits in ZERO, 2 to the 64", 24, 5, zero(b"ZERO 18446744073709551616"), word=b"18446744073709551616"),
    Case("a space and no number in ZERO", 24, 5, zero(b"ZERO ")),
    Case("a letter in ZERO", 24, 5, zero(b"ZERO O"), word=b"O"),
    Case("a point in ZERO", 24, 5, zero(b"ZERO 0.5"), word=b"0.5"),
    Case("0D before ZERO's line end", 24, 5, zero(b"ZERO 0\r"), word=b"0\r"),
    Case("the keyword twice in ZERO", 24, 5, zero(b"ZERO ZERO"), word=b"ZERO"),
    Case("a faulty w(0), order 4", 24, 8, text([*FOUR_TERMS, b"ZERO -3", b"SEVERITY 1", b"W 3"]), word=b"-3"),

    # before 25 and 27, and before a faulty weight
    Case("a faulty w(0) and no places", 24, 5, zero(b"ZERO x"), 0, b"x"),
    Case("a faulty w(0) and m 501", 24, 5, paper({5: b"ZERO x", 6: b"SEVERITY 501"}), word=b"x"),
    Case("a faulty w(0) and a faulty weight", 24, 5, paper({5: b"ZERO x", 7: b"W y"}), word=b"x"),
    Case("w(0) 1, m 501", 25, 6, paper({5: b"ZERO 1", 6: b"SEVERITY 501"})),
    Case("w(0) 1, m 0", 25, 6, paper({5: b"ZERO 1", 6: b"SEVERITY 0"})),
    Case("w(0) 1, a place less than m", 27, 6, zero(b"ZERO 1"), 1),
]

CASES = [
    # the paper's own
    Case("the paper's sheet", 0, 0, GOOD, 2),
    Case("P11", 24, 7, paper({7: b"W 10n5"}), word=b"10n5"),
    Case("P12", 24, 2, paper({2: b"TERM -0 1"}), word=b"-0"),
    Case("two spaces", 23, 7, paper({7: b"W  1"})),
    Case("a space at the end of START", 24, 3, paper({3: b"START 1 "})),
    Case("bytes after the last line, with a line end", 26, 9, GOOD + b"W 1\n"),
    Case("bytes after the last line, with no line end", 26, 9, GOOD + b"x"),
    Case("k 5", 25, 1, paper({1: b"LAW 5 1"})),

    # good sheets
    Case("order 2", 0, 0, terms(b"TERM 1 -2", b"TERM -3 4")),
    Case("order 3", 0, 0, terms(b"TERM 1 2", b"TERM 3 0", b"TERM -5 -6"), 1),
    Case("order 4", 0, 0, terms(b"TERM 0 0", b"TERM -1 0", b"TERM 0 -1", b"TERM 1000 -1000")),
    Case("D, s, t and X below the job's limits", 0, 0, paper({1: b"LAW 1 0", 3: b"START 0 0", 4: b"LAST 0"})),
    Case("D, s, t and X above the job's limits", 0, 0, paper({1: b"LAW 1 1001", 3: b"START 1000000002 1000000001", 4: b"LAST 501"})),
    Case("terms outside the job's limits", 0, 0, paper({2: b"TERM -1001 1001"})),
    Case("weights whose sum is 0", 0, 0, paper({7: b"W 0", 8: b"W 0"})),
    Case("500 weights, and numbers of ten digits", 0, 0, weights(500, 500), 500),
    Case("500 weights, more places", 0, 0, weights(500, 500), 512),

    # 21
    Case("no bytes", 21, 0, b""),
    Case("16,385 bytes", 21, 0, padded(16385)),
    Case("16,384 bytes", 26, 9, padded(16384)),
    Case("16,384 bytes with no line end", 22, 1, b"LAW 1 1".ljust(16384, b"1")),

    # 22
    Case("no last line end", 22, 8, GOOD[:-1]),
    Case("no last line", 22, 8, text(PAPER[:-1])),
    Case("no line after LAW", 22, 2, text(PAPER[:1])),
    Case("no line after LAST", 22, 5, text(PAPER[:4])),
    Case("a weight less than m", 22, 509, weights(499, 500), 500),
    Case("no line end, and a word that is no number", 22, 7, text(PAPER[:6]) + b"W x"),
    Case("no line end, and a wrong keyword", 22, 2, b"LAW 1 1\nTERMS 0 1"),
    Case("no line end, and k 5", 22, 1, b"LAW 5 1"),
    Case("0D as line end", 22, 1, text(PAPER, b"\r")),

    # 23
    Case("a line end alone", 23, 1, b"\n"),
    Case("an empty line", 23, 4, text(PAPER[:3] + [b""] + PAPER[3:])),
    *[Case(f"line {n} doubled", 23, n + 1, text(PAPER[:n] + PAPER[n - 1:])) for n in range(1, 7)],
    *[Case(f"line {n} left out", 23, n, text(PAPER[:n - 1] + PAPER[n:])) for n in range(1, 7)],
    Case("a TERM less than k", 23, 3, paper({1: b"LAW 2 1"})),
    Case("small letters", 23, 1, paper({1: b"law 1 1"})),
    Case("a longer keyword", 23, 1, paper({1: b"LAWS 1 1"})),
    Case("a shorter keyword", 23, 6, paper({6: b"SEVERIT 2"})),
    Case("a space before the keyword", 23, 1, paper({1: b" LAW 1 1"})),
    Case("no keyword", 23, 7, paper({7: b" 1"})),
    Case("a keyword alone", 23, 4, paper({4: b"LAST"})),
    Case("a space at the end of a whole line", 23, 2, paper({2: b"TERM 0 1 "})),
    Case("a word too many, and one that is no number", 23, 7, paper({7: b"W x 1"})),
    Case("a word too few, and one that is no number", 23, 1, paper({1: b"LAW x"})),
    Case("byte 00 after a keyword", 23, 8, last(b"W\x00 1")),
    Case("a tab between words", 23, 7, paper({7: b"W\t1"})),
    Case("the mark of UTF-8 in front", 23, 1, b"\xef\xbb\xbf" + GOOD),

    # 24
    Case("0D before the line end", 24, 1, text(PAPER, b"\r\n"), word=b"1\r"),
    Case("a space at the end of LAST", 24, 4, paper({4: b"LAST "})),
    Case("a tab after a number", 24, 8, last(b"W 1\t"), word=b"1\t"),
    Case("a plus sign", 24, 2, paper({2: b"TERM +1 1"}), word=b"+1"),
    Case("two zeros", 24, 8, last(b"W 00"), word=b"00"),
    Case("a leading zero", 24, 1, paper({1: b"LAW 1 01"}), word=b"01"),
    Case("a minus sign before two zeros", 24, 2, paper({2: b"TERM -00 1"}), word=b"-00"),
    Case("a minus sign before a leading zero, after a negative number", 24, 2, paper({2: b"TERM -1 -01"}), word=b"-01"),
    Case("two minus signs", 24, 2, paper({2: b"TERM --1 1"}), word=b"--1"),
    Case("a minus sign alone", 24, 2, paper({2: b"TERM 1 -"}), word=b"-"),
    Case("a minus sign in k", 24, 1, paper({1: b"LAW -1 1"}), word=b"-1"),
    Case("a minus sign in D", 24, 1, paper({1: b"LAW 1 -1"}), word=b"-1"),
    Case("a minus sign in s", 24, 3, paper({3: b"START -1 1"}), word=b"-1"),
    Case("a minus sign in t", 24, 3, paper({3: b"START 1 -1"}), word=b"-1"),
    Case("a minus sign in LAST", 24, 4, paper({4: b"LAST -3"}), word=b"-3"),
    Case("a minus sign in SEVERITY", 24, 6, paper({6: b"SEVERITY -2"}), word=b"-2"),
    Case("a minus sign in W", 24, 8, last(b"W -1"), word=b"-1"),
    Case("11 digits", 24, 8, last(b"W 10000000000"), word=b"10000000000"),
    Case("11 digits after a minus sign", 24, 2, paper({2: b"TERM -10000000000 1"}), word=b"-10000000000"),
    Case("11 digits for k", 24, 1, paper({1: b"LAW 10000000000 1"}), word=b"10000000000"),
    Case("100 digits", 24, 8, last(b"W " + b"9" * 100), word=b"9" * 100),
    Case("two faulty words", 24, 2, paper({2: b"TERM 0x -0"}), word=b"0x"),
    Case("an empty word and one that is no number", 24, 2, paper({2: b"TERM  x"})),
    Case("two spaces in START", 24, 3, paper({3: b"START  1"})),
    Case("faulty words on two lines", 24, 2, paper({2: b"TERM x 1", 7: b"W y"}), word=b"x"),
    Case("a faulty third TERM", 24, 4, terms(b"TERM 1 2", b"TERM 3 4", b"TERM 5 -0"), word=b"-0"),
    Case("a faulty last weight of 500", 24, 509, weights(499, 500) + b"W -1\n", 500, b"-1"),
    Case("k 5 and a faulty D", 24, 1, paper({1: b"LAW 5 x"}), word=b"x"),
    Case("the byte before the digits", 24, 8, last(b"W 1/"), word=b"1/"),
    Case("the byte after the digits", 24, 8, last(b"W :"), word=b":"),
    Case("a hexadecimal digit", 24, 8, last(b"W a"), word=b"a"),
    Case("a low line between digits", 24, 8, last(b"W 1_0"), word=b"1_0"),
    Case("byte 00", 24, 8, last(b"W 1\x00"), word=b"1\x00"),
    Case("byte FF", 24, 2, paper({2: b"TERM \xff 1"}), word=b"\xff"),
    Case("a full-width digit", 24, 8, last("W \uff11".encode()), word="\uff11".encode()),
    Case("another script's digit", 24, 8, last("W \u0661".encode()), word="\u0661".encode()),

    # 25
    Case("k 0", 25, 1, paper({1: b"LAW 0 1"})),
    Case("k of ten digits", 25, 1, paper({1: b"LAW 4294967297 1"})),
    Case("m 0", 25, 6, text(PAPER[:5] + [b"SEVERITY 0"])),
    Case("m 501", 25, 9, weights(501, 501), 512),
    Case("m 501 and no places", 25, 6, paper({6: b"SEVERITY 501"}), 0),
    Case("m of ten digits", 25, 6, paper({6: b"SEVERITY 4294967298"})),

    # 26
    Case("a line end after the last line", 26, 9, GOOD + b"\n"),
    Case("byte 00 after the last line", 26, 9, GOOD + b"\x00"),
    Case("a weight more than m", 26, 510, weights(501, 500), 500),

    # 27
    Case("a place less than m", 27, 6, GOOD, 1),
    Case("no places", 27, 6, GOOD, 0),
    Case("499 places for 500 weights", 27, 9, weights(500, 500), 499),
    Case("a place less than m, and a faulty weight", 27, 6, paper({7: b"W x"}), 1),

    *ZERO,
]
