"""What fits a call and what does not: a number that does not, or a row of another length, is a ValueError before any call, never cut."""
import enum
import unittest
from decimal import Decimal
from fractions import Fraction
from unittest import mock

from claimtotals import (Job, Refused, Sheet, curve, digits, law_hesselager, law_panjer_willmot, layers, possible, start_of_mean,
                         start_of_trials, sure)

# The paper's P2, with the weight 1.
JOB = Job(1, 1, (-1, 0, 0, 0), (3, 0, 0, 0), 250000000, 250000000, 4)

NO_WHOLE_NUMBERS = (1.0, 0.0, float("nan"), float("inf"), -float("inf"), True, False, "1", b"1", None, Decimal(1), Fraction(1), 1 + 0j, [1],
                    (1,), {1}, object())
# Of the first two kinds, cut to 64 bits, some would be accepted.
TOO_GREAT = {"unsigned": (2 ** 64, 2 ** 64 + 1, 2 ** 64 + 250000000, -1, -2 ** 64 + 1, 10 ** 5000),
             "signed": (2 ** 63, -2 ** 63 - 1, 2 ** 64 + 3, 1 - 2 ** 64, -10 ** 5000)}


class Whole:
    """A whole number of some other library."""

    def __init__(self, number):
        self.number = number

    def __index__(self):
        return self.number


class Named(enum.IntEnum):
    ONE = 1
    THREE = 3


def with_term(name, place, number):
    terms = list(getattr(JOB, name))
    terms[place] = number
    return JOB._replace(**{name: terms})


# The calls that make a law, each with the numbers of a good one.
LAWS = {law_panjer_willmot: {"alpha_0": 0, "alpha_1": 1, "beta_0": 1, "beta_1": 1},
        law_hesselager: {"b_0": 0, "b_1": 1, "a_0": 1, "a_1": 1}}


def takers():
    """Each number that can be handed over: what it is called, its kind, and a function that hands it over."""
    for name in "order", "divisor", "start_low", "start_high", "last", "zero":
        yield name, "unsigned", lambda number, name=name: curve(JOB._replace(**{name: number}), [1])
    for name in "a", "b":
        for place in range(4):
            yield f"{name}[{place}]", "signed", lambda number, name=name, place=place: curve(with_term(name, place, number), [1])
    yield "weights[0]", "unsigned", lambda number: curve(JOB, [number])
    yield "weights[2]", "unsigned", lambda number: curve(JOB, iter([1, 1, number]))
    yield "weights[1]", "unsigned", lambda number: Sheet(JOB, [1, number]).text()
    for query in sure, possible:
        yield "low[1]", "signed", lambda number, query=query: query([0, number], [0, 3], 3)
        yield "high[0]", "signed", lambda number, query=query: query([0, 3], [number, 3], 3)
        yield "level", "signed", lambda number, query=query: query([3], [3], number)
    yield "low[1]", "signed", lambda number: layers([0, number], [0, 3], [(0, 1)])
    yield "high[0]", "signed", lambda number: layers([0, 3], [number, 3], [(0, 1)])
    yield "pairs[0][0]", "unsigned", lambda number: layers([3], [3], [(number, 1)])
    yield "pairs[1][1]", "unsigned", lambda number: layers([3], [3], [(0, 1), (0, number)])
    yield "low", "signed", lambda number: digits(number, 5)
    yield "high", "signed", lambda number: digits(-5, number)
    yield "divisor", "unsigned", lambda number: Job.of(number, [(0, 1)], (1, 1), 1)
    yield "a[1]", "signed", lambda number: Job.of(1, [(0, 1), (number, 1)], (1, 1), 1)
    yield "b[0]", "signed", lambda number: Job.of(1, [(0, number)], (1, 1), 1)
    yield "start_high", "unsigned", lambda number: Job.of(1, [(0, 1)], (1, number), 1)
    yield "last", "unsigned", lambda number: Job.of(1, [(0, 1)], (1, 1), number)
    yield "zero", "unsigned", lambda number: Job.of(1, [(0, 1)], (1, 1), 1, number)
    yield "upper", "unsigned", start_of_mean
    yield "upper", "unsigned", lambda number: start_of_mean(number, 3)
    yield "lower", "unsigned", lambda number: start_of_mean(1, number)
    yield "upper", "unsigned", lambda number: start_of_trials(number, 3, 1)
    yield "lower", "unsigned", lambda number: start_of_trials(0, number, 1)
    yield "trials", "unsigned", lambda number: start_of_trials(0, 1, number)
    for call, good in LAWS.items():
        for name in good:
            yield name, "signed", lambda number, call=call, good=good, name=name: call(**{**good, name: number})


class NoCall(unittest.TestCase):
    """The library may not be looked for."""

    def setUp(self):
        patch = mock.patch("claimtotals.library.calls", side_effect=AssertionError("a call was made"))
        patch.start()
        self.addCleanup(patch.stop)

    def test_the_patch(self):
        """It sees a call that is made."""
        with self.assertRaises(AssertionError):
            curve(JOB, [1])

    def check(self, name, call, *given):
        with self.assertRaises(ValueError) as caught:
            call(*given)
        self.assertTrue(str(caught.exception).startswith(f"{name}: "), caught.exception)
        self.assertLess(len(str(caught.exception)), 400)

    def test_no_whole_number(self):
        for name, _, take in takers():
            for number in NO_WHOLE_NUMBERS:
                with self.subTest(name, number=number):
                    self.check(name, take, number)

    def test_too_great(self):
        for name, kind, take in takers():
            for number in TOO_GREAT[kind]:
                with self.subTest(name, bits=number.bit_length()):
                    self.check(name, take, number)

    def test_lengths(self):
        for name in "a", "b":
            for terms in (), (-1,), (3, 0, 0), (3, 0, 0, 0, 0):
                with self.subTest(name, terms=terms):
                    self.check(name, curve, JOB._replace(**{name: terms}), [1])
                    self.check(name, Sheet(JOB._replace(**{name: terms}), [1]).text)

    def test_numbers_of_terms(self):
        for terms in [], [(0, 1)] * 5, [(0,)], [(0, 1), (0, 1, 2)], [()]:
            with self.subTest(terms):
                self.check("terms", Job.of, 1, terms, (1, 1), 1)
        for start in (), (1,), (1, 2, 3):
            with self.subTest(start):
                self.check("start", Job.of, 1, [(0, 1)], start, 1)

    def test_numbers_of_a_layer(self):
        for layer in (), (1,), (0, 1, 2), (0, 1, 5, 5):
            with self.subTest(layer):
                self.check("pairs[1]", layers, [1], [1], [(0, 1), layer])
        self.check("pairs[0]", layers, [1], [1], (0, 1))

    def test_no_rows(self):
        """Texts and numbers; sets, which have no order; and dicts, of which the keys alone would be seen."""
        for given in 5, None, "11", b"11", bytearray(b"11"), {1, 2}, frozenset((1, 2)), {1: 1, 2: 1}, {1: 1, 2: 1}.keys(), 1.5:
            with self.subTest(given):
                self.check("weights", curve, JOB, given)
                self.check("weights", Sheet(JOB, given).text)
                self.check("a", curve, JOB._replace(a=given), [1])
                for query in sure, possible:
                    self.check("low", query, given, [1, 1], 1)
                    self.check("high", query, [1, 1], given, 1)
                self.check("low", layers, given, [1, 1], [(0, 1)])
                self.check("high", layers, [1, 1], given, [(0, 1)])
                self.check("pairs", layers, [1, 1], [1, 1], given)
                self.check("pairs[0]", layers, [1, 1], [1, 1], [given])
                self.check("terms", Job.of, 1, given, (1, 1), 1)
                self.check("terms[0]", Job.of, 1, [given], (1, 1), 1)
                self.check("start", Job.of, 1, [(0, 1)], given, 1)

    def test_nested(self):
        self.check("weights[0]", curve, JOB, [[1, 1]])
        self.check("weights[0]", curve, JOB, [[1] * 100_000])
        self.check("low[0]", sure, [[1]], [[1]], 1)
        self.check("pairs[0][1]", layers, [1], [1], [(0, [1])])


class Taken(unittest.TestCase):
    def test_other_whole_numbers(self):
        """Objects that have `__index__`, and numbers of a kind that is made from int; what comes back is plain."""
        asked = (250000000, 500000000, 250000000, 0, 0)
        for one, three in (Whole(1), Whole(3)), (Named.ONE, Named.THREE):
            with self.subTest(type(one).__name__):
                job = Job.of(one, [(Whole(-1), three)], (Whole(250000000), Whole(250000000)), Whole(4), Whole(0))
                self.assertEqual(job, JOB)
                numbers = job.divisor, *job.a, *job.b, job.start_low, job.start_high, job.last, job.zero
                self.assertEqual({type(number) for number in numbers}, {int})
                found = curve(JOB._replace(order=one, divisor=one), [one])
                self.assertEqual((found.low, found.high), (asked, asked))
                self.assertEqual(found[three], (3, 0, 0, 1, True))
                self.assertIs(type(found[three].total), int)
                self.assertEqual(sure([one, three], [three, three], three), 1)
                self.assertEqual(possible([one, three], [three, three], three), 0)
                cost, = layers([one, three], [three, three], [(Whole(0), one)])
                self.assertEqual(cost, (0, 1, 999999997, 999999999))
                self.assertEqual({type(number) for number in cost}, {int})
                self.assertEqual(digits(one, three), "at most 0.000000003")
                self.assertEqual(start_of_mean(three, three), (367879441, 367879442))
                self.assertEqual(start_of_trials(one, three, one), (666666666, 666666667))
                self.assertEqual(law_panjer_willmot(Whole(0), three, one, one), (3, 1, 0))
                self.assertEqual(law_hesselager(Whole(0), three, one, one), (3, 1, 1))
                self.assertEqual(Sheet(JOB, [one, three]).text().splitlines()[-2:], [b"W 1", b"W 3"])

    def test_all_bits(self):
        """The greatest numbers that fit go to the call as they are, which refuses them."""
        for number, call in (
                (1, lambda: curve(JOB._replace(order=2 ** 64 - 1), [1])), (3, lambda: curve(with_term("a", 0, 2 ** 63 - 1), [1])),
                (3, lambda: curve(with_term("b", 0, -2 ** 63), [1])), (6, lambda: curve(JOB, [2 ** 64 - 1])),
                (32, lambda: sure([1], [1], 2 ** 63 - 1)), (32, lambda: possible([1], [1], -2 ** 63)),
                (33, lambda: possible([-2 ** 63], [2 ** 63 - 1], 1)), (33, lambda: layers([-2 ** 63], [2 ** 63 - 1], [(0, 1)])),
                (62, lambda: layers([1], [1], [(2 ** 64 - 1, 1)])), (63, lambda: layers([1], [1], [(0, 2 ** 64 - 1)])),
                (41, lambda: start_of_mean(2 ** 64 - 1)),
                (41, lambda: start_of_mean(1, 2 ** 64 - 1)), (41, lambda: start_of_trials(0, 2 ** 64 - 1, 1)),
                (42, lambda: start_of_trials(2 ** 64 - 1, 1, 1)), (43, lambda: start_of_trials(0, 1, 2 ** 64 - 1)),
                (51, lambda: law_panjer_willmot(2 ** 63 - 1, 1, 1, 0)), (51, lambda: law_hesselager(-2 ** 63, 1, 1, 0)),
                (53, lambda: law_panjer_willmot(0, -2 ** 63, 1, 0)), (53, lambda: law_hesselager(0, 1, 2 ** 63 - 1, 0))):
            with self.subTest(number), self.assertRaises(Refused) as caught:
                call()
            self.assertEqual(caught.exception.number, number)


if __name__ == "__main__":
    unittest.main()
