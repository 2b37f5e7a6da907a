"""What a refusal says. tests/words of the repository holds the words themselves to the documents."""
import copy
import pickle
import unittest

from claimtotals import (UNIT, Job, Refused, curve, law_hesselager, law_panjer_willmot, layers, possible, read_sheet, start_of_mean,
                         start_of_trials, sure)

# The paper's P1 as a sheet and P2 as a job.
TEXT = b"LAW 1 1\nTERM 0 1\nSTART 367879441 367879442\nLAST 3\nZERO 0\nSEVERITY 2\nW 1\nW 1\n"
JOB = Job.of(1, [(-1, 3)], (250000000, 250000000), 4)

# For each refusal that can be raised: the reason's name, its place, what the place counts, and a call that is refused so. The others, 8 and
# 27, are for rows that are too short, and the package's own are long enough.
CASES = {
    1: ("Order", 0, "", lambda: curve(JOB._replace(order=5), [1])),
    2: ("Divisor", 0, "", lambda: curve(JOB._replace(divisor=1001), [1])),
    3: ("Term", 2, "term", lambda: curve(Job.of(1, [(0, 0), (0, 1001)], (1, 1), 1), [1])),
    4: ("Start", 0, "", lambda: curve(JOB._replace(start_low=250000001), [1])),
    5: ("Severities", 0, "", lambda: curve(JOB, [])),
    6: ("Weights", 0, "", lambda: curve(JOB, [1001])),
    11: ("ZeroOrder", 0, "", lambda: curve(Job.of(1, [(0, 1), (0, 0)], (1, 1), 1, zero=1), [1])),
    12: ("ZeroDivisor", 0, "", lambda: curve(Job.of(1, [(2, 0)], (1, 1), 1, zero=1), [1])),
    13: ("OnlyZeros", 0, "", lambda: curve(JOB._replace(zero=1), [0])),
    7: ("Last", 0, "", lambda: curve(JOB._replace(last=501), [1])),
    9: ("Range", 1, "total", lambda: curve(Job.of(1, [(0, 3)], (UNIT, UNIT), 1), [1])),
    10: ("Bound", 1, "total", lambda: curve(Job.of(1, [(0, 2)], (0, UNIT), 1), [1, 1])),
    21: ("Size", 0, "", lambda: read_sheet(b"")),
    22: ("Missing", 8, "line", lambda: read_sheet(TEXT[:-1])),
    23: ("Form", 7, "line", lambda: changed(b"2\nW 1\n", b"2\nW  1\n")),
    24: ("Word", 7, "line", lambda: changed(b"2\nW 1\n", b"2\nW 10n5\n")),
    25: ("Limit", 1, "line", lambda: changed(b"LAW 1", b"LAW 5")),
    26: ("Excess", 9, "line", lambda: read_sheet(TEXT + b"W 1\n")),
    31: ("Rows", 0, "", lambda: sure([], [], 1)),
    32: ("Level", 0, "", lambda: possible([1], [1], 0)),
    33: ("Entry", 1, "place", lambda: sure([1, 2], [1, 1], 1)),
    34: ("LowsShort", 0, "", lambda: sure([1], [2], 2)),
    35: ("HighsShort", 0, "", lambda: possible([1], [2], 3)),
    41: ("Fraction", 0, "", lambda: start_of_mean(37, 0)),
    42: ("Chance", 0, "", lambda: start_of_trials(5, 1, 30)),
    43: ("Trials", 0, "", lambda: start_of_trials(1, 20, 0)),
    51: ("Constant", 0, "", lambda: law_panjer_willmot(1, 1, 2, 2)),
    52: ("Coefficient", 0, "", lambda: law_hesselager(0, 0, 13, -1)),
    53: ("Limits", 0, "", lambda: law_panjer_willmot(0, 9, 1000, -1)),
    61: ("Count", 0, "", lambda: layers([1], [1], [])),
    62: ("Attachment", 1, "layer", lambda: layers([1], [1], [(0, 1), (1, 1)])),
    63: ("Limit", 1, "layer", lambda: layers([1], [1], [(0, 1), (0, 2)])),
}


def changed(old, new):
    assert TEXT.count(old) == 1
    return read_sheet(TEXT.replace(old, new))


def raised(call):
    try:
        call()
    except Refused as refusal:
        return refusal
    raise AssertionError("nothing was refused")


def with_weight(line):
    """The refusal of a sheet that has this as its line of the first weight."""
    return raised(lambda: changed(b"2\nW 1\n", b"2\n" + line + b"\n"))


class Attributes(unittest.TestCase):
    def test_each(self):
        for number, (name, place, at, call) in CASES.items():
            with self.subTest(number):
                refusal = raised(call)
                self.assertEqual((refusal.number, refusal.name, refusal.place), (number, name, place))
                self.assertEqual(refusal.line, place if 21 <= number <= 26 else None)
                self.assertEqual(refusal.word, b"10n5" if number == 24 else None)
                word = "; the word is 10n5" if number == 24 else ""
                counted = f"{at} {place}: " if at else ""
                self.assertEqual(refusal.sentence, f"{counted}refused by {number}: {refusal.why}{word}. {refusal.remedy}")
                self.assertEqual(str(refusal), refusal.sentence)

    def test_of_two_calls(self):
        """31 and 33 are told by another call in the same words."""
        for number, call in (31, lambda: layers([], [], [])), (33, lambda: layers([1, 2], [1, 1], [])):
            self.assertEqual(raised(call).sentence, raised(CASES[number][3]).sentence)

    def test_words(self):
        """Each has its own, that read on in a sentence."""
        refusals = [raised(call) for _, _, _, call in CASES.values()]
        for refusal in refusals:
            with self.subTest(refusal.number):
                self.assertRegex(refusal.why, r"^([a-z]|[A-Z] ).*[^.]$")
                self.assertRegex(refusal.remedy, r"^[A-Z].*[^.]\.$")
        self.assertEqual(len({refusal.why for refusal in refusals}), len(CASES))

    def test_kind(self):
        """It is no ValueError, which tells what does not fit a call."""
        self.assertEqual(Refused.__bases__, (Exception,))

    def test_source(self):
        """With the name of a file."""
        for number, between in (24, ", line 7: "), (21, ": "), (9, ", total 1: "), (41, ": "), (51, ": "), (63, ", layer 1: "):
            refusal = raised(CASES[number][3])
            self.assertTrue(refusal.of("a.txt").startswith(f"a.txt{between}refused by {number}: "), refusal.of("a.txt"))

    def test_copies(self):
        """As where it is raised in another process."""
        for number in 6, 23, 24, 33, 41, 51, 62, 63:
            refusal = raised(CASES[number][3])
            for other in pickle.loads(pickle.dumps(refusal)), copy.copy(refusal):
                with self.subTest(number):
                    self.assertIs(type(other), Refused)
                    for name in "number", "place", "line", "word", "name", "why", "seen", "remedy", "sentence":
                        self.assertEqual(getattr(other, name), getattr(refusal, name))


class Word(unittest.TestCase):
    def shown(self, word):
        refusal = with_weight(b"W " + word)
        self.assertEqual((refusal.number, refusal.word), (24, word))
        return refusal.sentence

    def test_bytes_that_are_not_seen(self):
        self.assertIn(r"; the word is 1\x0d. ", self.shown(b"1\r"))
        self.assertIn(r"; the word is \x00\x1b\x7f\x80\xff\x5cx. ", self.shown(b"\x00\x1b\x7f\x80\xff\\x"))

    def test_empty(self):
        self.assertIn("; the word is empty. ", self.shown(b""))

    def test_long(self):
        sentence = self.shown(b"12345" * 2000)
        self.assertIn("; the word is 1234512345", sentence)
        self.assertLess(len(sentence), 400)


class Remedies(unittest.TestCase):
    """What beginners do is seen, and the remedy names it."""

    # How the remedy begins where nothing is seen; it names all that could be looked for.
    GENERAL = {23: "Compare it with a good sheet: ", 24: "Write a whole number in 1 to 10 digits, "}

    def seen(self, refusal, number, *words):
        with self.subTest(refusal.remedy):
            self.assertEqual(refusal.number, number)
            self.assertFalse(refusal.remedy.startswith(self.GENERAL[number]))
            for word in words:
                self.assertIn(word, refusal.remedy)

    def not_seen(self, refusal, number):
        with self.subTest(refusal.remedy):
            self.assertEqual(refusal.number, number)
            self.assertTrue(refusal.remedy.startswith(self.GENERAL[number]))

    def test_line(self):
        self.seen(raised(lambda: read_sheet(b"\xef\xbb\xbf" + TEXT)), 23, "byte order mark")
        self.seen(raised(lambda: read_sheet(TEXT.decode().encode("utf-16"))), 23, "byte order mark")
        self.seen(raised(lambda: read_sheet(b"# windows\n" + TEXT)), 23, "comment")
        self.seen(with_weight(b"W 1 # windows"), 23, "comment")
        self.seen(with_weight(b"W\t1"), 23, "tab")
        self.seen(raised(lambda: read_sheet(b"    " + TEXT.replace(b"\n", b"\n    "))), 23, "first column")
        self.seen(with_weight(b"\tW 1"), 23, "first column")
        self.seen(with_weight(b""), 23, "empty line")
        self.seen(raised(lambda: read_sheet(TEXT.lower())), 23, "capitals")
        self.seen(with_weight(b"w 1"), 23, "capitals")
        self.seen(raised(lambda: changed(b"LAST 3", b"Last 3")), 23, "capitals")
        self.seen(with_weight(b"W  1"), 23, "single spaces")
        self.seen(with_weight(b"W 1 "), 23, "single spaces")

    def test_older_sheet(self):
        """Where ZERO is due and the line is SEVERITY, whatever else is wrong with that."""
        for line in b"SEVERITY 2", b"SEVERITY  2", b"SEVERITY", b"SEVERITY 2 # sizes", b"SEVERITY\t2":
            refusal = raised(lambda: changed(b"ZERO 0\nSEVERITY 2", line))
            self.assertEqual((refusal.line, refusal.seen), (5, "older sheet"))
            self.seen(refusal, 23, "older sheet", "`ZERO 0` before the line SEVERITY", "`claimtotals upgrade OLD > NEW`")

    def test_zero_further_down(self):
        """That is no older sheet, whatever stands between."""
        for new in b"SEVERITY 2\nZERO 5", b"SEVERITY 2\n# none\n\nZERO 5", b"SEVERITY\nZERO ":
            refusal = raised(lambda: changed(b"ZERO 0\nSEVERITY 2", new))
            self.assertEqual((refusal.line, refusal.seen), (5, "ZERO behind SEVERITY"))
            self.seen(refusal, 23, "Move the line ZERO", "before the line SEVERITY")

    def test_other_lines(self):
        """Of those in capitals nobody is sent looking for lower case; nor for a line ZERO that is not missing."""
        for old, new in (
                (b"LAW 1 1", b"LAW 1"), (b"TERM 0 1", b"TERM 0 1 2"), (b"LAST 3\n", b""), (b"2\nW 1\n", b"2\nW\n"), (b"LAST 3", b"xyz"),
                (b"LAST 3\nZERO 0\n", b""), (b"ZERO 0", b"ZERO"), (b"ZERO 0", b"ZERO 0 0"), (b"ZERO 0\n", b"ZERO 0\nZERO 0\n"),
                (b"SEVERITY 2", b"SEVERITY 2 2"), (b"SEVERITY 2\n", b"SEVERITY 2\nSEVERITY 2\n"), (b"ZERO", b"NULL")):
            refusal = raised(lambda: changed(old, new))
            self.not_seen(refusal, 23)
            self.assertEqual(refusal.seen, "")

    def test_word(self):
        self.seen(raised(lambda: read_sheet(TEXT.replace(b"\n", b"\r\n"))), 24, "line ends of Unix", "Windows")
        self.seen(with_weight(b"W 1\t"), 24, "tab")
        for word in b"3.7", b"3.", b".5", b"-3.7":
            self.seen(with_weight(b"W " + word), 24, "whole numbers", "3.7 and 6.3 are 37 and 63")
        for word in b"1,000", b"3,7", b"1,000.5":
            self.seen(with_weight(b"W " + word), 24, "commas", "1000 for 1,000", "3,7 and 6,3 are 37 and 63")
        self.seen(with_weight(b"W -1"), 24, "minus sign", "no weight is negative")
        self.seen(with_weight(b"W -0"), 24, "Write 0 without the minus sign")
        self.seen(with_weight(b"W +1"), 24, "plus sign")
        self.seen(with_weight(b"W 007"), 24, "zero in front")
        self.seen(with_weight(b"W 12345678901"), 24, "at most 10 digits")
        self.seen(with_weight(b"W "), 24, "single spaces")

    def test_other_words(self):
        for word in b"10n5", b"1e3", b"--1", b"\x00":
            self.not_seen(with_weight(b"W " + word), 24)

    def test_sum(self):
        """With 6 the sum is told."""
        for weights, told in ([600, 601], "1,201"), ([0], "0"), ([2 ** 64 - 1, 2], "18,446,744,073,709,551,617"):
            self.assertTrue(raised(lambda: curve(JOB, weights)).why.endswith(f"; it is {told}"))
        for zero, told in (400, "1,001"), (2 ** 64 - 1, "18,446,744,073,709,552,216"):
            self.assertTrue(raised(lambda: curve(JOB._replace(zero=zero), [601])).why.endswith(f"; it is {told}"))

    def test_smaller_gap(self):
        """The chance of a zero total in 9 trials of 9/10 is one unit: given as s and t it helps where a unit more is refused by 10."""
        def nine_trials(high):
            return curve(Job.of(1, [(-9, 90)], (1, high), 14), [1, 1])

        self.assertEqual(raised(lambda: nine_trials(2)).number, 10)
        self.assertEqual(len(nine_trials(1)), 15)
        self.assertIn("a chance of a zero total that is a whole number of units", raised(lambda: nine_trials(2)).remedy)

    def test_start(self):
        """A start below a unit cannot be mended by another."""
        self.assertIn("START 0 1, cannot be mended by another start", raised(CASES[10][3]).remedy)


if __name__ == "__main__":
    unittest.main()
