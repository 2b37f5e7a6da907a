"""Starts from a mean, and from a chance and a number of trials. Their numbers are worked out by hand from the rule, where a comment does
so; or held to the exact power by Python's fractions, and to e to the minus mean by its decimals."""
import copy
import pickle
import random
import unittest
from decimal import Context, Decimal
from fractions import Fraction

from claimtotals import UNIT, Job, Refused, Sheet, Start, curve, read_sheet, start_of_mean, start_of_trials

# The twentyfold of the first is a small number in 64 bits.
HUGE = 2 ** 64 // 20 + 1, 2 ** 32, 2 ** 32 + 1, 2 ** 63, 2 ** 64 - 1


class OfStart(unittest.TestCase):
    def test_pair(self):
        start = start_of_mean(1)
        self.assertIs(type(start), Start)
        self.assertEqual(start, (367879441, 367879442))
        self.assertEqual((start.low, start.high), (367879441, 367879442))
        self.assertEqual({type(end) for end in start}, {int})

    def test_line(self):
        """It is the third line of a sheet whose job has this start."""
        for start in start_of_mean(1), start_of_mean(0), start_of_mean(20), start_of_trials(1, 2, 40):
            text = Sheet(Job.of(1, [(0, 1)], start, 3), (1, 1)).text()
            self.assertEqual(text.splitlines()[2].decode(), start.line())
            self.assertEqual(read_sheet(text).job[4:6], start)

    def test_job(self):
        """The paper's P1, from its mean."""
        found = curve(Job.of(divisor=1, terms=[(0, 1)], start=start_of_mean(1), last=3), weights=[1, 1])
        self.assertEqual(found.low, (367879441, 183939720, 229924650, 99634015))

    def test_copies(self):
        start = start_of_trials(1, 3, 1)
        for other in pickle.loads(pickle.dumps(start)), copy.deepcopy(start):
            self.assertEqual(other, start)
            self.assertIs(type(other), Start)


class Means(unittest.TestCase):
    def test_none(self):
        """Every term but the first is 0."""
        for lower in 1, 7, 1000:
            self.assertEqual(start_of_mean(0, lower), (UNIT, UNIT))

    def test_whole(self):
        """U and U, times 367879441 and 367879442 over U: once for mean 1. Then 367879441 * 367879441 = 135335283,110472481 and
        367879442 * 367879442 = 135335283,846231364."""
        for lower in 1, 2, 1000:
            self.assertEqual(start_of_mean(lower, lower), (367879441, 367879442))
            self.assertEqual(start_of_mean(2 * lower, lower), (135335283, 135335284))

    def test_half(self):
        """The terms are U; 500000000; 125000000; 20833333 and 20833334; 2604166 and 2604167; 260416 and 260417; 21701 and 21702; 1550 and
        1551; 96 and 97; 5 and 6; and from the tenth on 0 and 1. The low adds 1000000000 + 125000000 + 2604166 + 21701 + 96 and takes off
        500000000 + 20833334 + 260417 + 1551 + 6 + 1 + 1. The high adds 1000000000 + 125000000 + 2604167 + 21702 + 97 + 1 + 1 and takes off
        500000000 + 20833333 + 260416 + 1550 + 5."""
        for lower in 2, 10, 1000:
            self.assertEqual(start_of_mean(lower // 2, lower), (606530653, 606530664))

    def test_whole_and_half(self):
        """606530653 * 367879441 = 223130157,575004973; 606530664 * 367879442 = 223130162,228209488."""
        self.assertEqual(start_of_mean(3, 2), (223130157, 223130163))

    def test_lower_is_1(self):
        for mean in 0, 1, 2, 20:
            self.assertEqual(start_of_mean(mean), start_of_mean(mean, lower=1))

    def test_exponential(self):
        """Its decimals come with 50 digits. No start is wider than 22 units, from mean 1 on than 10, from mean 10 on than 2."""
        r = random.Random(1)
        means = [(1, 1000), (999, 1000), (143, 146), (10, 1), (20, 1), (20000, 1000)]
        for upper, lower in means + [(r.randint(0, 20 * lower), lower) for lower in r.choices(range(1, 1001), k=500)]:
            with self.subTest(upper=upper, lower=lower):
                low, high = start_of_mean(upper, lower)
                exact = Context(prec=50).exp(-Decimal(upper) / lower) * UNIT
                self.assertTrue(0 <= low <= exact <= high <= UNIT)
                self.assertLessEqual(high - low, 22 if upper < lower else 10 if upper < 10 * lower else 2)


class Trials(unittest.TestCase):
    def test_chance_0(self):
        for trials in 1, 1000:
            self.assertEqual(start_of_trials(0, 1, trials), (UNIT, UNIT))
            self.assertEqual(start_of_trials(0, 1000, trials), (UNIT, UNIT))

    def test_halves(self):
        """U is 2^9 times 5^9: half of it can be taken nine times."""
        for trials in range(1, 10):
            self.assertEqual(start_of_trials(1, 2, trials), (UNIT // 2 ** trials, UNIT // 2 ** trials))
            self.assertEqual(start_of_trials(500, 1000, trials), (UNIT // 2 ** trials, UNIT // 2 ** trials))
        self.assertEqual(start_of_trials(1, 2, 10), (976562, 976563))

    def test_thirds(self):
        """Two thirds of U; and of 666666666 and 666666667."""
        self.assertEqual(start_of_trials(1, 3, 1), (666666666, 666666667))
        self.assertEqual(start_of_trials(1, 3, 2), (444444444, 444444445))
        self.assertEqual(start_of_trials(2, 3, 1), (333333333, 333333334))

    def test_tenths(self):
        """After nine times 387420489; then nine tenths are 348678440.1; of 348678440 and 348678441 they are 313810596.0 and 313810596.9, of
        313810596 and 313810597 they are 282429536.4 and 282429537.3."""
        for trials, start in (
                (9, (387420489, 387420489)), (10, (348678440, 348678441)), (11, (313810596, 313810597)), (12, (282429536, 282429538))):
            self.assertEqual(start_of_trials(1, 10, trials), start)

    def test_thousandths(self):
        """A thousandth is left each time, and at last less than a unit."""
        for trials, start in (1, (1000000, 1000000)), (2, (1000, 1000)), (3, (1, 1)), (4, (0, 1)), (1000, (0, 1)):
            self.assertEqual(start_of_trials(999, 1000, trials), start)

    def test_power(self):
        """Each step widens it by a unit at most, and the width is less than twice one over the chance."""
        r = random.Random(2)
        laws = [(1, 20, 30), (10, 11, 3), (1, 100, 999), (1, 971, 1000)]
        laws += [(r.randrange(1, lower), lower, r.randint(1, 1000)) for lower in r.choices(range(2, 1001), k=200)]
        laws += [(1, lower, r.randint(1, 1000)) for lower in r.choices(range(2, 1001), k=200)]
        for upper, lower, trials in laws:
            with self.subTest(upper=upper, lower=lower, trials=trials):
                low, high = start_of_trials(upper, lower, trials)
                self.assertTrue(0 <= low <= UNIT * (1 - Fraction(upper, lower)) ** trials <= high <= UNIT and high)
                self.assertLessEqual(high - low, trials)
                self.assertLess(high - low, Fraction(2 * lower, upper))


class Refusals(unittest.TestCase):
    """By number; there is no place. The first fault is told."""

    def check(self, number, call, *given):
        with self.subTest(given=given):
            with self.assertRaises(Refused) as caught:
                call(*given)
            refused = caught.exception
            self.assertEqual((refused.number, refused.place, refused.line, refused.word), (number, 0, None, None))
            self.assertTrue(refused.sentence.startswith(f"refused by {number}: "), refused.sentence)

    def test_mean(self):
        for lower in (0, 1001, *HUGE):
            for upper in (0, 1, 20, *HUGE):
                self.check(41, start_of_mean, upper, lower)
        for upper, lower in [(21, 1), (41, 2), (20001, 1000), *((number, lower) for number in HUGE for lower in (1, 1000))]:
            self.check(41, start_of_mean, upper, lower)
        self.assertEqual(start_of_mean(20), start_of_mean(20000, 1000))

    def test_lower(self):
        for lower in (0, 1001, *HUGE):
            for upper, trials in (0, 1), (0, 0), (lower, 0), (2 ** 64 - 1, 2 ** 64 - 1):
                self.check(41, start_of_trials, upper, lower, trials)

    def test_chance(self):
        """One above 20 is no mean."""
        for upper, lower in [(1, 1), (5, 1), (21, 1), (1000, 1000), (1001, 1000), *((number, 1000) for number in HUGE)]:
            for trials in 1, 0, 1001, 2 ** 64 - 1:
                self.check(42, start_of_trials, upper, lower, trials)

    def test_trials(self):
        for trials in (0, 1001, *HUGE):
            self.check(43, start_of_trials, 0, 1, trials)
            self.check(43, start_of_trials, 999, 1000, trials)
        self.assertEqual(start_of_trials(0, 1, 1000), (UNIT, UNIT))

    def test_float(self):
        """It is said how a decimal is given."""
        for call in ((lambda: start_of_mean(3.7)), (lambda: start_of_trials(1, 20.0, 30)), (lambda: start_of_mean(Fraction(37, 10))),
                     (lambda: start_of_mean(Decimal("3.7"))), (lambda: start_of_trials(Fraction(1, 20), 1, 30))):
            with self.assertRaises(ValueError) as caught:
                call()
            self.assertIn("3.7 as 37 and 10", str(caught.exception))


if __name__ == "__main__":
    unittest.main()
