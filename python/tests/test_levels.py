"""Level queries. P9 and P10 are the paper's; the other sums are short enough to be added up in the head."""
import unittest

from claimtotals import UNIT, Refused, possible, sure

# The rows of the paper's P1. The lows add up to 367879441, 551819161, 781743811 and 881377826, the highs to 367879442, 551819163, 781743815
# and 881377831.
LOW = (367879441, 183939720, 229924650, 99634015)
HIGH = (367879442, 183939721, 229924652, 99634016)


def asked(query, *given):
    """The total, or number and place of the refusal, which has neither a line nor a word."""
    try:
        return query(*given)
    except Refused as refusal:
        return refusal.number, refusal.place, refusal.line, refusal.word


class Level(unittest.TestCase):
    def check(self, low, high, level, sure_total, possible_total):
        with self.subTest(level):
            for query, total in (sure, sure_total), (possible, possible_total):
                found = asked(query, low, high, level)
                self.assertEqual(found, total, query.__name__)
                self.assertIs(type(found), type(total))


# What each call says where no sum of its own row reaches the level.
LOWS_SHORT, HIGHS_SHORT = (34, 0, None, None), (35, 0, None, None)


class Totals(Level):
    def test_paper(self):
        """P9."""
        self.check(LOW, HIGH, 500000000, 1, 1)

    def test_between(self):
        for level, sure_total, possible_total in (
                (1, 0, 0), (367879441, 0, 0), (367879442, 1, 0), (367879443, 1, 1), (551819161, 1, 1), (551819162, 2, 1), (551819164, 2, 2),
                (781743811, 2, 2), (781743815, 3, 2), (781743816, 3, 3), (881377826, 3, 3)):
            self.check(LOW, HIGH, level, sure_total, possible_total)

    def test_any_rows(self):
        """Sums may go down again."""
        self.check([1, -1, 2], [1, 0, 2], 2, 2, 2)
        self.check([1, -1, 2], [1, 1, 2], 2, 2, 1)
        self.check([-2 * UNIT, 2 * UNIT, UNIT], [2 * UNIT] * 3, UNIT, 2, 0)
        self.check([0] * 500 + [1], range(501), 1, 500, 1)

    def test_iterators(self):
        """Rows need have no length."""
        self.assertEqual(sure(iter([1, 2]), iter([3, 3]), 3), 1)
        self.assertEqual(possible(iter([1, 2]), iter([3, 3]), 3), 0)

    def test_what_is_given_stays(self):
        for query in sure, possible:
            low, high = list(LOW), list(HIGH)
            query(low, high, 1)
            self.assertEqual((tuple(low), tuple(high)), (LOW, HIGH))


class Short(Level):
    """Rows that do not reach the level."""

    def test_lows(self):
        """There is a possible total all the same."""
        self.check(LOW, HIGH, 881377827, LOWS_SHORT, 3)
        self.check(LOW, HIGH, 881377831, LOWS_SHORT, 3)
        self.check([5, -1], [5, UNIT], 6, LOWS_SHORT, 1)
        self.check([-UNIT], [1], 1, LOWS_SHORT, 0)

    def test_both(self):
        """P10 first."""
        self.check(LOW, HIGH, 900000000, LOWS_SHORT, HIGHS_SHORT)
        self.check(LOW, HIGH, 881377832, LOWS_SHORT, HIGHS_SHORT)
        self.check([0] * 501, [1] * 501, 502, LOWS_SHORT, HIGHS_SHORT)
        self.check([-1, 2, -9], [1, 2, -9], 4, LOWS_SHORT, HIGHS_SHORT)


class Refusals(Level):
    """By either call; the first fault is told."""

    def refused(self, number, place, low, high, level):
        refusal = number, place, None, None
        self.check(low, high, level, refusal, refusal)

    def test_rows(self):
        for low, high in ((), ()), (LOW, HIGH[:3]), (LOW[:3], HIGH), ((), HIGH), (LOW, ()), ([1] * 502, [1] * 502):
            self.refused(31, 0, low, high, 0)

    def test_level(self):
        for level in 0, -1, UNIT + 1, 2 ** 63 - 1, -2 ** 63:
            self.refused(32, 0, LOW[:3] + (3,), HIGH[:3] + (2,), level)

    def test_entry(self):
        self.refused(33, 1, [0, 3, 0, 3], [0, 2, 0, 2], UNIT)
        self.refused(33, 2, [0, 0, 0], [0, 0, 2 * UNIT + 1], 1)
        self.refused(33, 0, [-2 * UNIT - 1, 0], [0, 0], 1)
        self.refused(33, 1, [0, -2 ** 63], [0, 2 ** 63 - 1], 1)

    def test_entry_past_the_total(self):
        """Also behind the total that reaches the level, and in the row that is not added up."""
        self.refused(33, 2, [5, 5, 5], [5, 5, 4], 5)
        self.refused(33, 1, [5, 5], [5, 2 * UNIT + 1], 5)
        self.refused(33, 1, [5, -2 * UNIT - 1], [5, 5], 5)


class Floats(unittest.TestCase):
    def test_advice(self):
        """How a level is given is said, whichever total is asked for."""
        for query in sure, possible:
            with self.assertRaises(ValueError) as caught:
                query(LOW, HIGH, 0.5)
            self.assertIn("0.99 is 990_000_000", str(caught.exception))


if __name__ == "__main__":
    unittest.main()
