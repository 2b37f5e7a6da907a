"""Jobs and curves. The numbers are those of the paper's cases, or worked out by hand from its rule where a comment does so."""
import array
import copy
import dataclasses
import pickle
import unittest

from claimtotals import UNIT, Curve, Job, Refused, Row, curve

P1 = Job.of(1, [(0, 1)], (367879441, 367879442), 3)
P2 = Job.of(1, [(-1, 3)], (250000000, 250000000), 4)
P3 = Job.of(2, [(-1, 0)], (1, 2), 1)

TABLE = """\
TOTAL LOW HIGH BOUND EXACT
0 367879441 367879442 1 Y
1 183939720 183939721 2 N
2 229924650 229924652 2 N
3 99634015 99634016 2 N
"""
ROWS = [Row(0, 367879441, 367879442, 1, True), Row(1, 183939720, 183939721, 2, False), Row(2, 229924650, 229924652, 2, False),
        Row(3, 99634015, 99634016, 2, False)]


class OfJob(unittest.TestCase):
    def test_of(self):
        self.assertEqual(P1, (1, 1, (0, 0, 0, 0), (1, 0, 0, 0), 367879441, 367879442, 3, 0))
        self.assertEqual(Job.of(9, [(1, 2), (3, 4), (5, 6), (-7, -8)], (10, 11), 12, 13),
                         Job(order=4, divisor=9, a=(1, 3, 5, -7), b=(2, 4, 6, -8), start_low=10, start_high=11, last=12, zero=13))

    def test_no_zero(self):
        """Without it there are no claims of size 0."""
        self.assertEqual(Job(1, 1, (0, 0, 0, 0), (1, 0, 0, 0), 367879441, 367879442, 3), P1)
        self.assertEqual(Job.of(1, [(0, 1)], (367879441, 367879442), 3, zero=0), P1)

    def test_any_rows(self):
        self.assertEqual(Job.of(1, iter([[0, 1]]), iter([367879441, 367879442]), 3), P1)


class Rule(unittest.TestCase):
    def check(self, job, low, high, bound, weights=(1,)):
        """Lows, highs and bounds; tests/test_exact.py has the marks."""
        found = curve(job, weights)
        self.assertEqual((found.low, found.high, found.bound), (tuple(low), tuple(high), tuple(bound)))

    def test_poisson(self):
        """P1."""
        self.check(P1, [367879441, 183939720, 229924650, 99634015], [367879442, 183939721, 229924652, 99634016], [1, 2, 2, 2], (1, 1))

    def test_binomial(self):
        """P2, and P7: for low and high only the proportions of weights count. The bound at 1 has no one where D times x times W is 1."""
        row = [250000000, 500000000, 250000000, 0, 0]
        self.check(P2, row, row, [0, 0, 1, 1, 2])
        self.check(P2, row, row, [0, 1, 2, 1, 2], (1000,))

    def test_signs(self):
        """P3, and what the paper calls tempting and wrong."""
        self.check(P3, [1, -1], [2, 0], [1, 2])
        self.check(P3._replace(start_high=1), [1, -1], [1, 0], [0, 1])

    def test_orders(self):
        """P4. And of order 4: the chance of 4 claims is that of none times A_4 + B_4/4, each claim has size 1, and there are no other
        numbers of claims up to 4. Where the weight is 2, the bounds of the four rows at each total are, with B_4 alone: 0 0 0 0; 1 1 1 1;
        1/2 rounded up + 1 = 2, then 1+1 = 2, 2, 2; 2/3 rounded up + 1 = 2, then 2+1 = 3, 3, 3; 3/4 rounded up + 1 = 2. With A_4 alone,
        which is taken as often as the total is, those of the first row are 0, 1, 2/2 + 1 = 2, 6/3 + 1 = 3, 12/4 + 1 = 4. Where it is 1,
        the first row has its one from total 2 on and the others have none: the fourth is 0 to total 3, with either term."""
        start = 400000001, 400000001
        self.check(Job.of(1, [(0, 0), (0, 1)], start, 2), [400000001, 0, 200000000], [400000001, 0, 200000001], [0, 0, 1])
        none = [(0, 0)] * 3
        for term, last, bound in ((0, 1), 250000000, [0, 1, 2, 2, 2]), ((1, 0), UNIT, [0, 1, 2, 3, 4]):
            job, row = Job.of(1, [*none, term], (UNIT, UNIT), 4), [UNIT, 0, 0, 0, last]
            self.check(job, row, row, bound, (2,))
            self.check(job, row, row, [0, 0, 1, 1, 1])

    def test_limits(self):
        """What is just accepted: of P5, of P6, as many weights and totals as there may be. Without claims of size 1 to 499, totals 1 to 499
        cannot be; the bound at each is 1; at 500 it is 500 * 1 * the start's 0 / 500 + 1 = 1, and the chance U * 500 / 500. With weight 1
        in place of 1,000 the divisor at 1 is 1, and the bound 0."""
        self.check(Job.of(1, [(0, 2)], (UNIT, UNIT), 1), [UNIT, 2 * UNIT], [UNIT, 2 * UNIT], [0, 0])
        self.check(Job.of(1, [(0, 1)], (0, UNIT), 1), [0, 0], [UNIT, UNIT], [UNIT, UNIT])
        self.check(Job.of(1, [(0, 1)], (0, UNIT), 0), [0], [UNIT], [UNIT])
        job, row = Job.of(1, [(0, 1)], (UNIT, UNIT), 500), [UNIT] + [0] * 499 + [UNIT]
        self.check(job, row, row, [0] + [1] * 500, [0] * 499 + [1000])
        self.check(job, row, row, [0, 0] + [1] * 499, [0] * 499 + [1])

    def test_zeros(self):
        """Claims of size 0. Of two a year each second one closes at nothing, and the rest is P1: each factor is twice as large, and so is
        the divisor, 4x. Of a law with a = 1/2, half of whose claims do, the divisor is (2 * 2 - 1)x, and the factor x: a third of each
        chance is the next, and the start is 2/3. With a = 1 the divisor is (2 - 1)x, which is 1 at total 1: there is nothing to round
        there, and nothing is added. Where 999 of 1,000 claims close at nothing, a thousandth is left of each."""
        job = Job.of(1, [(0, 2)], (367879441, 367879442), 3, zero=2)
        self.check(job, [367879441, 183939720, 229924650, 99634015], [367879442, 183939721, 229924652, 99634016], [1, 2, 2, 2], (1, 1))
        job = Job.of(2, [(1, 0)], (666666666, 666666667), 2, zero=1)
        self.check(job, [666666666, 222222222, 74074074], [666666667, 222222223, 74074075], [1, 2, 2])
        self.check(Job.of(1, [(1, 0)], (5, 5), 3, zero=1), [5] * 4, [5] * 4, [0, 0, 1, 2])
        self.check(Job.of(1, [(0, 1)], (UNIT, UNIT), 1, zero=999), [UNIT, UNIT // 1000], [UNIT, UNIT // 1000], [0, 1])

    def test_weights_in_any_row(self):
        for weights in [1, 1], iter([1, 1]), (1 for _ in "ab"), memoryview(b"\1\1"), array.array("q", [1, 1]), {1: 1, 2: 1}.values():
            with self.subTest(type(weights).__name__):
                self.assertEqual(list(curve(P1, weights)), ROWS)


class Refusals(unittest.TestCase):
    """As number and place; the first fault is told."""

    def check(self, number, place, job, weights=(1,)):
        with self.assertRaises(Refused) as caught:
            curve(job, weights)
        refused = caught.exception
        self.assertEqual((refused.number, refused.place, refused.line, refused.word), (number, place, None, None))

    def test_order(self):
        for order in 0, 5, 2 ** 64 - 1:
            self.check(1, 0, P2._replace(order=order, divisor=0))

    def test_divisor(self):
        for divisor in 0, 1001, 2 ** 64 - 1:
            self.check(2, 0, P2._replace(divisor=divisor, start_high=0))

    def test_term(self):
        for term in 1001, -1001, 2 ** 63 - 1, -2 ** 63:
            self.check(3, 1, P2._replace(a=(term, 0, 0, 0)))
            self.check(3, 1, P2._replace(b=(term, 0, 0, 0)))
        self.check(3, 2, P2._replace(a=(0, 1, 1, 0)))
        self.check(3, 4, P2._replace(b=(3, 0, 0, -1)))
        self.check(3, 4, Job.of(1, [(1, 1), (1, 1), (1, 1), (1, 1001)], (1, 1), 1))

    def test_start(self):
        for start in (0, 0), (2, 1), (0, UNIT + 1), (2 ** 64 - 1, 1):
            self.check(4, 0, P2._replace(start_low=start[0], start_high=start[1]), ())

    def test_severities(self):
        self.check(5, 0, P2, ())
        self.check(5, 0, P2, (1,) * 501)

    def test_weights(self):
        """P7. The sums of the last two are good ones but for a 65th bit."""
        for weights in (1001,), (500, 501), (0, 0), (2 ** 64 - 1, 2), (2 ** 63, 2 ** 63, 5):
            self.check(6, 0, P2._replace(last=501), weights)
        for zero, weight in (1000, 1), (1001, 0), (2 ** 64 - 1, 2), (2 ** 63, 2 ** 63 + 1):
            self.check(6, 0, Job.of(1, [(0, 1), (0, 1)], (1, 1), 501, zero), (weight,))

    def test_zero_order(self):
        for order, weights in (2, (1,)), (4, (1,)), (2, (0, 0)):
            self.check(11, 0, Job.of(1, [(2, 0)] * order, (1, 1), 501, zero=1), weights)

    def test_zero_divisor(self):
        """2 - 2 and 2 - 3; 1 - 2 without another weight; 999 * 1000 - 1000 * 999."""
        for divisor, a, zero, weight in (1, 2, 1, 1), (1, 3, 1, 1), (1, 2, 1, 0), (999, 1000, 999, 1):
            self.check(12, 0, Job.of(divisor, [(a, 0)], (1, 1), 501, zero), (weight,))

    def test_only_zeros(self):
        for zero, weights in (1, (0,)), (1000, (0, 0, 0)):
            self.check(13, 0, Job.of(1, [(0, 1)], (1, 1), 501, zero), weights)

    def test_last(self):
        """P8."""
        for last in 501, 2 ** 64 - 1:
            self.check(7, 0, P2._replace(last=last))

    def test_range(self):
        """P5."""
        self.check(9, 1, Job.of(1, [(0, 3)], (UNIT, UNIT), 1))

    def test_bound(self):
        """P6 with weights 1 and 1 and B 2."""
        self.check(10, 1, Job.of(1, [(0, 2)], (0, UNIT), 1), (1, 1))


class OfCurve(unittest.TestCase):
    def setUp(self):
        self.curve = curve(P1, (1, 1))

    def test_rows(self):
        self.assertEqual(len(self.curve), 4)
        self.assertEqual(list(self.curve), ROWS)
        self.assertEqual(list(reversed(self.curve)), ROWS[::-1])
        self.assertEqual([self.curve[total] for total in range(4)], ROWS)
        self.assertEqual({type(row) for row in self.curve}, {Row})

    def test_no_such_row(self):
        for total in -1, 4, 2 ** 40:
            with self.subTest(total), self.assertRaises(IndexError):
                self.curve[total]
        for total in 1.0, "1", None, True, slice(1, 2):
            with self.subTest(total), self.assertRaises(ValueError):
                self.curve[total]

    def test_levels(self):
        """P9; and a level that the high of total 0 reaches, and its low does not."""
        for level, sure, possible in (500000000, 1, 1), (367879442, 1, 0):
            self.assertEqual((self.curve.sure(level), self.curve.possible(level)), (sure, possible))

    def test_levels_of_wrong_rows(self):
        """Both rows go to both calls: a low above its high is refused, also where the row that a call adds up would do."""
        for query in Curve.sure, Curve.possible:
            with self.subTest(query), self.assertRaises(Refused) as raised:
                query(Curve((5, 9), (5, 2), (0, 0)), 5)
            self.assertEqual((raised.exception.number, raised.exception.place), (33, 1))

    def test_text(self):
        self.assertEqual(self.curve.text(), TABLE)
        self.assertEqual(curve(P3, (1,)).text(), "TOTAL LOW HIGH BOUND EXACT\n0 1 2 1 Y\n1 -1 0 2 N\n")

    def test_csv(self):
        self.assertEqual(self.curve.to_csv(), (
            "total,low,high,bound,exact\n"
            "0,0.367879441,0.367879442,0.000000001,Y\n"
            "1,0.183939720,0.183939721,0.000000002,N\n"
            "2,0.229924650,0.229924652,0.000000002,N\n"
            "3,0.099634015,0.099634016,0.000000002,N\n"))
        self.assertEqual(curve(P3, (1,)).to_csv(decimal_comma=True), (
            "total;low;high;bound;exact\n"
            "0;0,000000001;0,000000002;0,000000001;Y\n"
            "1;-0,000000001;0,000000000;0,000000002;N\n"))
        great = curve(Job.of(1, [(0, 2)], (UNIT, UNIT), 1), (1,))
        self.assertEqual(great.to_csv().splitlines()[2], "1,2.000000000,2.000000000,0.000000000,Y")

    def test_dicts(self):
        self.assertEqual(curve(P3, (1,)).to_dicts(), [
            {"total": 0, "low": 1, "high": 2, "bound": 1, "exact": True}, {"total": 1, "low": -1, "high": 0, "bound": 2, "exact": False}])

    def test_digits(self):
        """Cut, not rounded."""
        self.assertEqual([row.digits() for row in self.curve], ["0.36787944", "0.18393972", "0.22992465", "0.09963401"])
        self.assertEqual(self.curve[2].digits(decimal_comma=True), "0,22992465")
        self.assertEqual(curve(P3, (1,))[1].digits(), "at most 0.000000000")

    def test_equality(self):
        self.assertEqual(self.curve, curve(P1, [1, 1]))
        self.assertEqual(hash(self.curve), hash(curve(P1, [1, 1])))
        self.assertNotEqual(self.curve, curve(P1._replace(last=2), [1, 1]))
        self.assertNotEqual(self.curve, curve(P1, [1, 2]))

    def test_no_change(self):
        with self.assertRaises(dataclasses.FrozenInstanceError):
            self.curve.low = ()

    def test_copies(self):
        for value in self.curve, self.curve[1], P1:
            with self.subTest(type(value).__name__):
                for other in pickle.loads(pickle.dumps(value)), copy.deepcopy(value):
                    self.assertEqual(other, value)
                    self.assertIs(type(other), type(value))


if __name__ == "__main__":
    unittest.main()
