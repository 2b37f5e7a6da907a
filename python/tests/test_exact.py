"""Which lines are exact. The marks are worked out by hand from the rule, as the comments do it."""
import unittest
from decimal import Decimal
from fractions import Fraction

from claimtotals import UNIT, Curve, Job, Row, curve
from claimtotals.layout import digits_table


def coins(count, last):
    """Each head of so many tosses is a claim of size 1."""
    start = UNIT // 2 ** count
    return Job.of(1, [(-1, count + 1)], (start, start), last)


class Marks(unittest.TestCase):
    """Those of the call. Where all claims have size 1, the factor of total x is A x + B and its divisor D x."""

    def check(self, letters, job, weights=(1,)):
        found = curve(job, weights)
        self.assertEqual("".join("Y" if mark else "N" for mark in found.exact), letters)
        self.assertEqual({type(mark) for mark in found.exact}, {bool})

    def test_coins(self):
        """P2: a quarter times 2, over 1; then times 1, over 2; times 0, over 3; times -1, over 4. And of nine tosses."""
        self.check("YYYYY", coins(2, 4))
        self.check("YYYYY", coins(2, 4), (1000,))
        self.check("Y" * 12, coins(9, 11))

    def test_remainder(self):
        """P1: an odd number over 2. And 1000 over 1, over 2, over 3, which leaves something, and what this gave over 4."""
        self.check("YNNN", Job.of(1, [(0, 1)], (367879441, 367879442), 3), (1, 1))
        self.check("YYYNN", Job.of(1, [(0, 1)], (1000, 1000), 4))

    def test_remainder_of_one_end(self):
        """Over 2: of 2 and 3 the high leaves something, of 1 and 2 the low, of 2 and 4 neither."""
        for start, letters in ((2, 3), "YN"), ((1, 2), "YN"), ((2, 4), "YY"):
            self.check(letters, Job.of(2, [(0, 1)], start, 1))

    def test_rounded_before(self):
        """1 over 2 is 0 to 1. Times 4 and over 4 that is 0 to 1 again: nothing is left over, but it is made from what was rounded."""
        found = curve(Job.of(2, [(3, -2)], (1, 1), 2), (1,))
        self.assertEqual((found.low, found.high, found.exact), ((1, 0, 0), (1, 1, 1), (True, False, False)))

    def test_unequal_ends(self):
        """Exact, and no chance is known: 1000 and 2000 over 1 and over 2. Under a factor below zero they change places: total 1 is -6 to
        -4, and total 2, twice that over 2 and turned again, 4 to 6; these are right, but no line says so."""
        self.check("YYY", Job.of(1, [(0, 1)], (1000, 2000), 2))
        self.check("YNN", Job.of(1, [(-1, 0)], (4, 6), 2))
        self.check("YYY", Job.of(1, [(-1, 0)], (5, 5), 2))

    def test_factor_of_zero(self):
        """1 over 2 leaves something at total 1; then the factors are 0, which asks for nothing, and -1, of the 0 that this gave."""
        self.check("YNYY", Job.of(2, [(-1, 2)], (1, 1), 3))

    def test_weight_of_zero(self):
        """Claims of size 2 alone: the factor is 2, and the line that is used lies two totals before. At 2 this is 1000 times 2 over 2, at 4
        that times 2 over 4, at 6 500 times 2 over 6; from 1 on odd totals have 0, whatever the lines between them are."""
        self.check("YYYYYYNY", Job.of(1, [(0, 1)], (1000, 1000), 7), (0, 1))

    def test_further_rows(self):
        """A law of order 2, with half of the claims of size 1: row 1 has half the start at total 1, and the curve at total 2 B times that
        over 4. 2 leaves something in the curve where B is 1; 1 leaves something in row 1, and where B is 8 nothing in the curve."""
        for start, b, letters in (8, 1, "YYY"), (2, 1, "YYN"), (2, 8, "YYY"), (1, 8, "YYN"):
            self.check(letters, Job.of(1, [(0, 0), (0, b)], (start, start), 2), (1, 1))

    def test_closed_at_nothing(self):
        """The divisor is (2 times 2 - 1) x, and the factor x: a third of each line is the next. Of 9 this goes twice."""
        self.check("YYYN", Job.of(2, [(1, 0)], (9, 9), 3, zero=1))


class ByHand(unittest.TestCase):
    """Curves and rows that no call gave."""

    def test_without_marks(self):
        """They are not known then."""
        found = Curve((5, 9), (5, 9), (0, 0))
        self.assertEqual(found.exact, (False, False))
        self.assertEqual(found[1], Row(1, 9, 9, 0))
        self.assertIs(Row(1, 9, 9, 0).exact, False)
        self.assertEqual(Curve((), (), ()).exact, ())
        self.assertEqual(Curve((), (), (), []).exact, ())

    def test_marks(self):
        """True and False, or the 1 and 0 of the call; what comes back is plain."""
        for marks in (True, False), [1, 0], iter([True, False]):
            found = Curve((5, 9), (5, 9), (0, 0), marks)
            self.assertEqual(found, Curve((5, 9), (5, 9), (0, 0), exact=(True, False)))
            self.assertEqual(found.exact, (True, False))
            self.assertEqual([row.exact for row in found], [True, False])
            self.assertEqual({type(mark) for mark in found.exact}, {bool})
        self.assertNotEqual(found, Curve((5, 9), (5, 9), (0, 0)))

    def test_no_marks(self):
        for mark in "Y", "N", None, 2, -1, 0.5, 1.0, 0.0, Decimal(1), Fraction(1), 1 + 0j, [True], "":
            with self.subTest(mark), self.assertRaisesRegex(ValueError, r"exact\[1\]: .* is no mark"):
                Curve((5, 9), (5, 9), (0, 0), (True, mark))
        for marks in "YN", b"\1\0", {True, False}, {True: 1, False: 0}, "", 1:
            with self.subTest(marks), self.assertRaisesRegex(ValueError, "exact: "):
                Curve((5, 9), (5, 9), (0, 0), marks)

    def test_lengths(self):
        rows = [(5, 9), (5, 9), (0, 0), (True, False)]
        for place in range(4):
            for other in (), rows[place][:1], rows[place] * 2:
                with self.subTest(place), self.assertRaisesRegex(ValueError, "rows of .* places"):
                    Curve(*rows[:place], other, *rows[place + 1:])


class Shown(unittest.TestCase):
    def test_chance(self):
        """It is exact where a line is, and has equal ends."""
        for low, high, exact, asked in (5, 5, True, True), (5, 6, True, False), (5, 5, False, False), (5, 6, False, False):
            self.assertIs(Row(1, low, high, 1, exact).chance_is_exact, asked)

    def test_digits(self):
        """The word stands behind the digits of an exact chance, and of no other; the digits are the same."""
        rows = (250000000, 0, 1000, 0, -7), (250000000, 0, 1001, 5, -7), (0, 0, 1, 5, 0), (True, True, True, True, False)
        lines = ["0 0.250000000 exact", "1 0.000000000 exact", "2 0.00000100", "3 at most 0.000000005", "4 -0.000000007"]
        self.assertEqual(digits_table(Curve(*rows)).splitlines(), ["TOTAL CHANCE", *lines])
        self.assertEqual(digits_table(Curve(*rows[:3])).splitlines(), ["TOTAL CHANCE", *(line.replace(" exact", "") for line in lines)])
        self.assertEqual(digits_table(Curve(*rows), decimal_comma=True).splitlines()[1], "0 0,250000000 exact")

    def test_text(self):
        chances = Curve((4, -6, 4), (6, -4, 6), (2, 2, 3), (True, False, False))
        self.assertEqual(chances.text(), "TOTAL LOW HIGH BOUND EXACT\n0 4 6 2 Y\n1 -6 -4 2 N\n2 4 6 3 N\n")
        self.assertEqual(Curve((4,), (6,), (2,)).text(), "TOTAL LOW HIGH BOUND EXACT\n0 4 6 2 N\n")


if __name__ == "__main__":
    unittest.main()
