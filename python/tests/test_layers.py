"""Layers. The costs are worked out by hand from the wish's rule, as the comments show; most rows are short enough for the head."""
import copy
import pickle
import unittest

from claimtotals import UNIT, Curve, Job, LayerCost, Refused, curve, layers

# The rows of the paper's P1. The lows add up to 367879441, 551819161, 781743811 and 881377826, the highs to 367879442, 551819163, 781743815
# and 881377831.
LOW = (367879441, 183939720, 229924650, 99634015)
HIGH = (367879442, 183939721, 229924652, 99634016)

# What a layer saves at the totals 0, 1, 2 and 3 stands beside it; its high is its width times U less the sum of saving times low.
COSTS = [
    LayerCost(0, 1, 632120558, 632120559),  # 1: U less 367879441
    LayerCost(1, 2, 448180837, 448180839),  # 1 1: U less 551819161
    LayerCost(3, 4, 118622169, 118622174),  # 1 1 1 1: U less 881377826
    LayerCost(1, 3, 666437022, 666437028),  # 2 2 1: 2U less 2 times 551819161 and 229924650
    LayerCost(2, 4, 336878354, 336878363),  # 2 2 2 1: 2U less 2 times 781743811 and 99634015
    LayerCost(0, 4, 1417179749, 1417179761),  # 4 3 2 1: 4U less 1471517764, 551819160, 459849300 and 99634015
]


def pairs(costs):
    return [(cost.attachment, cost.limit) for cost in costs]


class Rule(unittest.TestCase):
    def check(self, low, high, *costs):
        """In one call, and each layer in a call of its own."""
        self.assertEqual(layers(low, high, pairs(costs)), costs)
        for cost in costs:
            self.assertEqual(layers(low, high, pairs([cost])), (cost,))

    def test_poisson(self):
        self.check(LOW, HIGH, *COSTS)
        self.check(LOW, HIGH, *COSTS[::-1])

    def test_any_order(self):
        """Layers may overlap, and come again."""
        self.check(LOW, HIGH, *COSTS[:3], *COSTS, *COSTS[3:])

    def test_most(self):
        """64 layers."""
        self.check(LOW, HIGH, *(COSTS * 11)[:64])

    def test_sizes(self):
        """A half has no claims, a half a total of 3. The layer that pays from 0 on pays what it has of 3."""
        row = [UNIT // 2, 0, 0, UNIT // 2, 0]
        half = UNIT // 2
        self.check(row, row, LayerCost(0, 3, 3 * half, 3 * half), LayerCost(0, 5, 3 * half, 3 * half), LayerCost(0, 2, 2 * half, 2 * half),
                   LayerCost(1, 4, 2 * half, 2 * half), LayerCost(2, 3, half, half), LayerCost(3, 4, 0, 0), LayerCost(4, 5, 0, 0))

    def test_behind(self):
        """What the rows do not have pays the whole layer: here a quarter lies at some total above 1."""
        row = [UNIT // 2, UNIT // 4]
        self.check(row, row, LayerCost(0, 2, 3 * UNIT // 4, 3 * UNIT // 4), LayerCost(1, 2, UNIT // 4, UNIT // 4))

    def test_from_the_limit_on(self):
        """The entries there do not count."""
        self.check([UNIT, 0, -2 * UNIT], [UNIT, 2 * UNIT, 2 * UNIT], LayerCost(0, 1, 0, 0))

    def test_signs(self):
        """A low may be below zero, also where no entry is; a high above the layer's width, where entries are."""
        self.check([0], [2 * UNIT], LayerCost(0, 1, -UNIT, UNIT))
        self.check([0, 0], [1, UNIT], LayerCost(0, 2, UNIT - 2, 2 * UNIT), LayerCost(1, 2, -1, UNIT))
        self.check([-5, -7], [-5, 1], LayerCost(0, 2, 2 * UNIT + 9, 2 * UNIT + 17))

    def test_greatest(self):
        """With 501 places: 501 + 2 (501 + 500 + .. + 1) = 252,003."""
        low, high = [-2 * UNIT] * 501, [2 * UNIT] * 501
        self.check(low, high, LayerCost(0, 501, -251_001 * UNIT, 252_003 * UNIT), LayerCost(500, 501, -1001 * UNIT, 1003 * UNIT))
        self.assertLess(252_003 * UNIT, 2 ** 53)

    def test_iterators(self):
        """Rows, lists and pairs need have no length."""
        found = layers(iter(LOW), iter(HIGH), (iter(pair) for pair in pairs(COSTS)))
        self.assertEqual(found, tuple(COSTS))

    def test_what_is_given_stays(self):
        low, high, asked = list(LOW), list(HIGH), [[0, 1], [1, 3]]
        layers(low, high, asked)
        self.assertEqual((tuple(low), tuple(high), asked), (LOW, HIGH, [[0, 1], [1, 3]]))


class OfCurve(unittest.TestCase):
    def test_rows(self):
        """Lows and highs each to their place."""
        chances = curve(Job.of(1, [(0, 1)], (367879441, 367879442), 3), [1, 1])
        self.assertEqual(chances.layers(pairs(COSTS)), tuple(COSTS))

    def test_wrong_rows(self):
        with self.assertRaises(Refused) as raised:
            Curve((5, 9), (5, 2), (0, 0)).layers([(0, 1)])
        self.assertEqual((raised.exception.number, raised.exception.place), (33, 1))


class OfCost(unittest.TestCase):
    def test_fields(self):
        """Plain numbers, in the order of the layer and then the cost."""
        cost, = layers(LOW, HIGH, [(1, 3)])
        self.assertEqual(cost, (1, 3, 666437022, 666437028))
        self.assertEqual((cost.attachment, cost.limit, cost.low, cost.high), (1, 3, 666437022, 666437028))
        self.assertEqual({type(number) for number in cost}, {int})

    def test_digits(self):
        """Cut, not rounded, also where there are some before the point."""
        self.assertEqual([cost.digits() for cost in COSTS],
                         ["0.63212055", "0.44818083", "0.1186221", "0.66643702", "0.3368783", "1.4171797"])
        self.assertEqual(LayerCost(0, 9, 8 * UNIT, 8 * UNIT + 1).digits(decimal_comma=True), "8,00000000")
        self.assertEqual(LayerCost(0, 1, -UNIT, UNIT).digits(), "at most 1.000000000")

    def test_copies(self):
        for other in pickle.loads(pickle.dumps(COSTS[0])), copy.deepcopy(COSTS[0]):
            self.assertEqual(other, COSTS[0])
            self.assertIs(type(other), LayerCost)


class Refusals(unittest.TestCase):
    """The first fault is told."""

    def check(self, number, place, low, high, asked):
        with self.subTest(number, asked=asked), self.assertRaises(Refused) as raised:
            layers(low, high, asked)
        refused = raised.exception
        self.assertEqual((refused.number, refused.place, refused.line, refused.word), (number, place, None, None))
        return refused

    def test_rows(self):
        for low, high in ((), ()), (LOW, HIGH[:3]), (LOW[:3], HIGH), ((), HIGH), (LOW, ()), ([1] * 502, [1] * 502):
            self.check(31, 0, low, high, [])

    def test_entry(self):
        """Also behind all limits, and before anything about the list."""
        self.check(33, 1, [0, 3, 0, 3], [0, 2, 0, 2], [])
        self.check(33, 3, [0, 0, 0, 0], [0, 0, 0, 2 * UNIT + 1], [(0, 1)])
        self.check(33, 0, [-2 * UNIT - 1, 0], [0, 0], [(1, 0)])
        self.check(33, 1, [0, -2 ** 63], [0, 2 ** 63 - 1], [(0, 9)])

    def test_count(self):
        for asked in [], [(0, 1)] * 65, [(1, 0)] * 65, [(0, 1)] * 1000:
            self.check(61, 0, LOW, HIGH, asked)

    def test_attachment(self):
        for layer in (1, 1), (2, 1), (0, 0), (2 ** 64 - 1, 0), (2 ** 64 - 1, 2 ** 64 - 1), (5, 5):
            self.check(62, 0, LOW, HIGH, [layer])
            self.check(62, 2, LOW, HIGH, [(0, 1), (3, 4), layer, (0, 5)])

    def test_limit(self):
        """One more than the rows have places."""
        for layer in (0, 5), (4, 5), (0, 2 ** 64 - 1), (2 ** 64 - 2, 2 ** 64 - 1), (0, 2 ** 32 + 1):
            self.check(63, 0, LOW, HIGH, [layer])
            self.check(63, 63, LOW, HIGH, [(0, 1)] * 63 + [layer])

    def test_layer_by_layer(self):
        """62 of a later layer does not come before 63 of an earlier one."""
        self.check(63, 0, LOW, HIGH, [(0, 5), (1, 1)])
        self.check(62, 0, LOW, HIGH, [(1, 1), (0, 5)])
        self.check(63, 1, LOW, HIGH, [(0, 1), (0, 5), (1, 1)])

    def test_which(self):
        """The sentence tells the layer, and with 63 how far the rows go."""
        refused = self.check(62, 1, LOW, HIGH, [(0, 1), (20, 10)])
        self.assertTrue(refused.why.endswith("; it goes from 20 to 10"))
        self.assertTrue(refused.sentence.startswith("layer 1: refused by 62: "))
        refused = self.check(63, 2, LOW, HIGH, [(0, 1), (0, 4), (2, 50), (0, 99)])
        self.assertTrue(refused.why.endswith("; it goes from 2 to 50, and X is 3"))
        self.assertTrue(refused.sentence.startswith("layer 2: refused by 63: "))


if __name__ == "__main__":
    unittest.main()
