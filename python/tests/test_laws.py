"""Laws from the lines of two publications. Their numbers are worked out by hand from the rule, and by Python's fractions held to the line
itself and to the closed forms of laws that the publications name."""
import copy
import math
import pickle
import random
import unittest
from decimal import Decimal
from fractions import Fraction

from claimtotals import Job, Law, Refused, Sheet, curve, law_hesselager, law_panjer_willmot, read_sheet, start_of_trials

LEAST, MOST = -2 ** 63, 2 ** 63 - 1
# Numbers that are not 0, though 32 bits would take some for it; and too great ones, though 16 or 32 bits would take some for good ones.
NOT_ZERO = 1, -1, 1000, 2 ** 32, -2 ** 32, MOST, LEAST
TOO_GREAT = 1001, -1001, 2 ** 16 + 1, 2 ** 32, 2 ** 32 + 1, -2 ** 32 - 1, MOST, -MOST, LEAST


class OfLaw(unittest.TestCase):
    """12 trials of chance 1/10: 9n p_n = (12 - (n-1)) p_(n-1) = (13 - n) p_(n-1)."""

    def test_numbers(self):
        for law in law_panjer_willmot(0, 9, 12, -1), law_hesselager(0, 9, 13, -1):
            self.assertIs(type(law), Law)
            self.assertEqual(law, (9, -1, 13))
            self.assertEqual((law.divisor, law.a, law.b), (9, -1, 13))
            self.assertEqual({type(number) for number in law}, {int})

    def test_names(self):
        """The parameters are called as the publications call them."""
        self.assertEqual(law_panjer_willmot(beta_1=-1, beta_0=12, alpha_1=9, alpha_0=0), (9, -1, 13))
        self.assertEqual(law_hesselager(a_1=-1, a_0=13, b_1=9, b_0=0), (9, -1, 13))

    def test_terms(self):
        self.assertEqual(law_hesselager(0, 9, 13, -1).terms, [(-1, 13)])

    def test_lines(self):
        """They are the first two lines of a sheet whose job has this law."""
        self.assertEqual(law_hesselager(0, 9, 13, -1).lines(), "LAW 1 9\nTERM -1 13")
        for law in law_hesselager(0, 9, 13, -1), law_hesselager(0, 1000, -1000, 1000), law_hesselager(0, 1, 0, 0):
            text = Sheet(Job.of(law.divisor, law.terms, (1, 1), 3), (1, 1)).text()
            self.assertEqual(text.decode().splitlines()[:2], law.lines().splitlines())
            job = read_sheet(text).job
            self.assertEqual((job.order, job.divisor, job.a, job.b), (1, law.divisor, (law.a, 0, 0, 0), (law.b, 0, 0, 0)))

    def test_job(self):
        """The paper's P2, two trials of chance 1/2, from their line 1/2 n p_n = (1 - 1/2 (n-1)) p_(n-1), times 2."""
        law = law_panjer_willmot(0, 1, 2, -1)
        found = curve(Job.of(divisor=law.divisor, terms=law.terms, start=start_of_trials(1, 2, 2), last=4), weights=[1])
        self.assertEqual(found.low, (250000000, 500000000, 250000000, 0, 0))

    def test_copies(self):
        law = law_hesselager(0, 9, 13, -1)
        for other in pickle.loads(pickle.dumps(law)), copy.deepcopy(law):
            self.assertEqual(other, law)
            self.assertIs(type(other), Law)


class Rule(unittest.TestCase):
    """By hand: D is the coefficient of n on the left, A is beta_1 or a_1, B is beta_0 - beta_1 or a_0, all signs turned where D is
    negative."""

    def test_panjer_willmot(self):
        for given, law in (
                ((0, 3, 7, 2), (3, 2, 5)), ((0, 3, -2, 1), (3, 1, -3)), ((0, 3, 2, -1), (3, -1, 3)), ((0, 3, -7, -2), (3, -2, -5)),
                ((0, -3, 7, 2), (3, -2, -5)), ((0, -3, -2, 1), (3, -1, 3)), ((0, -3, 2, -1), (3, 1, -3)), ((0, -3, -7, -2), (3, 2, 5)),
                ((0, 1, 0, 0), (1, 0, 0)), ((0, -1, 0, 0), (1, 0, 0)), ((0, -1, 1, 0), (1, 0, -1)), ((0, -1, 1, 1), (1, -1, 0))):
            with self.subTest(given):
                self.assertEqual(law_panjer_willmot(*given), law)

    def test_hesselager(self):
        for given, law in (
                ((0, 3, 5, 2), (3, 2, 5)), ((0, 3, -3, 1), (3, 1, -3)), ((0, 3, 3, -1), (3, -1, 3)), ((0, 3, -5, -2), (3, -2, -5)),
                ((0, -3, 5, 2), (3, -2, -5)), ((0, -3, -3, 1), (3, -1, 3)), ((0, -3, 3, -1), (3, 1, -3)), ((0, -3, -5, -2), (3, 2, 5)),
                ((0, 1, 0, 0), (1, 0, 0)), ((0, -1, 0, 0), (1, 0, 0)), ((0, -1, 1, 0), (1, 0, -1)), ((0, -1, 0, 1), (1, -1, 0))):
            with self.subTest(given):
                self.assertEqual(law_hesselager(*given), law)

    def test_not_reduced(self):
        """The lines of 12 trials of chance 1/10, and those times 2."""
        self.assertEqual(law_panjer_willmot(0, 18, 24, -2), (18, -2, 26))
        self.assertEqual(law_hesselager(0, 18, 26, -2), (18, -2, 26))
        self.assertEqual(law_hesselager(0, 1000, 1000, 1000), (1000, 1000, 1000))

    def test_left_out(self):
        """A hypergeometric law, M = 10, N = 4, m = 3, has alpha 0, 4, 1 and beta 12, -6, 1. Without alpha_2 and beta_2 it is another law,
        and nothing is refused."""
        self.assertEqual(law_panjer_willmot(0, 4, 12, -6), (4, -6, 18))


def panjer_willmot_line(alpha_0, alpha_1, beta_0, beta_1):
    """The numbers before p_n and p_(n-1)."""
    return lambda n: (alpha_0 + alpha_1 * n, beta_0 + beta_1 * (n - 1))


def hesselager_line(b_0, b_1, a_0, a_1):
    return lambda n: (b_0 + b_1 * n, a_0 + a_1 * n)


def counts(law, last):
    """The chances of 0 to last claims, in chances of none: what a sheet with this law says."""
    found = [Fraction(1)]
    for n in range(1, last + 1):
        found.append((Fraction(law.a, law.divisor) + Fraction(law.b, law.divisor * n)) * found[-1])
    return found


class Line(unittest.TestCase):
    def check(self, law, line):
        chances = counts(law, 25)
        for n in range(1, 26):
            left, right = line(n)
            self.assertEqual(left * chances[n], right * chances[n - 1])

    def test_satisfied(self):
        """The customer's own line, with the customer's own numbers, for each n."""
        r = random.Random(3)
        for _ in range(300):
            left, a, b = r.choice((-1, 1)) * r.randint(1, 1000), r.randint(-1000, 1000), r.randint(-1000, 1000)
            with self.subTest(left=left, a=a, b=b):
                self.check(law_panjer_willmot(0, left, a + b, a), panjer_willmot_line(0, left, a + b, a))
                self.check(law_hesselager(0, left, b, a), hesselager_line(0, left, b, a))


def whole_numbers(*numbers):
    """All times their common denominator."""
    fractions = [Fraction(number) for number in numbers]
    factor = math.lcm(*(fraction.denominator for fraction in fractions))
    return [int(fraction * factor) for fraction in fractions]


class Named(unittest.TestCase):
    """The laws that Panjer and Willmot list, with their numbers; each is held to its closed form."""
    LAST = 20

    def check(self, numbers, closed):
        """`closed` gives the chance of n claims in chances of none."""
        law = law_panjer_willmot(*whole_numbers(*numbers))
        with self.subTest(numbers):
            self.assertEqual(counts(law, self.LAST), [closed(n) for n in range(self.LAST + 1)])

    def test_poisson(self):
        for mean in Fraction(1), Fraction(37, 10), Fraction(7, 1000), Fraction(1000):
            self.check((0, 1, mean, 0), lambda n: mean ** n / math.factorial(n))

    def test_binomial(self):
        """With beta_0 = Np, which is printed N - p."""
        for trials, p in (12, Fraction(1, 10)), (1, Fraction(1, 2)), (4, Fraction(1, 3)), (3, Fraction(7, 10)), (999, Fraction(1, 2)):
            self.check((0, 1 - p, trials * p, -p), lambda n: math.comb(trials, n) * (p / (1 - p)) ** n)

    def test_binomial_as_printed(self):
        """With beta_0 = N - p nothing is refused, and it is another law: 9n p_n = (119 - (n-1)) p_(n-1)."""
        law = law_panjer_willmot(*whole_numbers(0, Fraction(9, 10), 12 - Fraction(1, 10), -Fraction(1, 10)))
        self.assertEqual(law, (9, -1, 120))
        self.assertNotEqual(law, law_panjer_willmot(0, 9, 12, -1))

    def test_geometric(self):
        """As the remedy of 51 has it: n p_n = c n p_(n-1)."""
        for c in Fraction(1, 2), Fraction(9, 10):
            self.check((0, 1, c, c), lambda n: c ** n)
            self.assertEqual(law_hesselager(*whole_numbers(0, 1, 0, c)), law_panjer_willmot(*whole_numbers(0, 1, c, c)))

    def test_negative_binomial(self):
        for shape, p in (1, Fraction(1, 2)), (3, Fraction(1, 3)), (3, Fraction(10, 11)), (Fraction(5, 2), Fraction(1, 2)):
            self.check((0, 1, p * shape, p), lambda n: math.prod(shape + i for i in range(n)) / Fraction(math.factorial(n)) * p ** n)


class Refusals(unittest.TestCase):
    """By number; there is no place. The first fault is told."""

    def check(self, number, call, *given):
        with self.subTest(call=call.__name__, given=given):
            with self.assertRaises(Refused) as caught:
                call(*given)
            refused = caught.exception
            self.assertEqual((refused.number, refused.place, refused.line, refused.word), (number, 0, None, None))
            self.assertTrue(refused.sentence.startswith(f"refused by {number}: "), refused.sentence)

    def test_constant(self):
        """Whatever the others are."""
        for call in law_panjer_willmot, law_hesselager:
            for constant in NOT_ZERO:
                for others in (1, 1, 0), (-1, 1, 1), (0, 1, 0), (0, 0, 0), (1001, 1, 1), (LEAST, MOST, LEAST), (1, MOST, LEAST):
                    self.check(51, call, constant, *others)

    def test_other_laws(self):
        """Of the same publications: hyper-Poisson, logarithmic and Waring laws."""
        for given in (2, 2, 1, 0), (-1, 2, 2, 0), (2, 2, 1, 1), (3, 1, 2, 1), (2, 4, 1, 4):
            self.check(51, law_panjer_willmot, *given)
        for given in (2, 2, 1, 0), (2, 2, 0, 1), (3, 1, 1, 1), (2, 4, -3, 4):
            self.check(51, law_hesselager, *given)

    def test_coefficient(self):
        for call in law_panjer_willmot, law_hesselager:
            for right in (1, 0), (0, 0), (1001, 1001), (-2000, -1000), (LEAST, MOST), (MOST, LEAST):
                self.check(52, call, 0, 0, *right)

    def test_divisor(self):
        for call in law_panjer_willmot, law_hesselager:
            for divisor in TOO_GREAT:
                self.check(53, call, 0, divisor, 1, 0)
            for divisor in 1, 1000, -1, -1000:
                self.assertEqual(call(0, divisor, 0, 0), (abs(divisor), 0, 0))

    def test_first_term(self):
        for left in 1, -1:
            for a in TOO_GREAT:
                self.check(53, law_panjer_willmot, 0, left, a, a)
                self.check(53, law_hesselager, 0, left, 0, a)
            for a in 1000, -1000:
                self.assertEqual(law_panjer_willmot(0, left, a, a), (1, left * a, 0))
                self.assertEqual(law_hesselager(0, left, 0, a), (1, left * a, 0))

    def test_second_term(self):
        for left in 1, -1:
            for b in TOO_GREAT:
                self.check(53, law_panjer_willmot, 0, left, b, 0)
                self.check(53, law_hesselager, 0, left, b, 0)
            for b in 1000, -1000:
                self.assertEqual(law_panjer_willmot(0, left, b, 0), (1, 0, left * b))
                self.assertEqual(law_hesselager(0, left, b, 0), (1, 0, left * b))

    def test_difference(self):
        """beta_0 has no limit of its own, and 64 bits need not hold the difference."""
        self.assertEqual(law_panjer_willmot(0, 1, 2000, 1000), (1, 1000, 1000))
        self.assertEqual(law_panjer_willmot(0, 1, -2000, -1000), (1, -1000, -1000))
        self.assertEqual(law_panjer_willmot(0, -1, -500, 500), (1, -500, 1000))
        for beta in (2000, 999), (1000, -1), (-2000, -999), (-1000, 1), (MOST, -1), (LEAST, 1), (-1, LEAST), (MOST, LEAST), (LEAST, MOST):
            self.check(53, law_panjer_willmot, 0, 1, *beta)
        self.check(53, law_hesselager, 0, 1, 2000, 1000)

    def test_fractions(self):
        """It is said what to do with them."""
        for call, name in (
                ((lambda: law_panjer_willmot(0, 0.9, 1.2, -0.1)), "alpha_1"), ((lambda: law_panjer_willmot(0.0, 9, 12, -1)), "alpha_0"),
                ((lambda: law_panjer_willmot(0, 9, Fraction(12), -1)), "beta_0"), ((lambda: law_hesselager(0, 9, 13, Decimal(-1))), "a_1"),
                ((lambda: law_hesselager(0, Fraction(9, 10), 13, -1)), "b_1")):
            with self.subTest(name), self.assertRaises(ValueError) as caught:
                call()
            self.assertTrue(str(caught.exception).startswith(f"{name}: "), caught.exception)
            self.assertIn("multiply all four numbers by the same number", str(caught.exception))


if __name__ == "__main__":
    unittest.main()
