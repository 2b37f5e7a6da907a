"""True digits, beside decimals that Python's own arithmetic writes."""
import unittest
from decimal import Decimal

from claimtotals import UNIT, digits

# About these numbers of units every pair is tried: where digits begin, end, change all at once, or have another number before the point.
MIDDLES = (0, 1000, 123_456_789, UNIT - 100, UNIT, 2 * UNIT, 10 * UNIT, 105 * UNIT)


def decimal(units):
    """0.000000001 for 1."""
    return f"{Decimal(units).scaleb(-9):.9f}"


def pairs():
    for sign in 1, -1:
        for middle in MIDDLES:
            numbers = range(sign * middle - 13, sign * middle + 14)
            yield from ((low, high) for low in numbers for high in numbers if low <= high)


def are_of(shown, number):
    """Whether a decimal has these digits in front, each at its place."""
    return number.startswith(shown) and ("." in shown or number[len(shown)] == ".")


class Examples(unittest.TestCase):
    def test_agreed(self):
        for low, high, shown in (
                (229924650, 229924652, "0.22992465"), (125000000, 125000000, "0.125000000"), (1200000000, 1300000000, "1"),
                (-123459, -123451, "-0.00012345"), (0, 0, "0.000000000"), (100000000, 199999999, "0.1"),
                (100000000, 100000001, "0.10000000"), (-1300000000, -1200000000, "-1"), (10 * UNIT, 11 * UNIT - 1, "10"),
                (-2 ** 63, -2 ** 63, "-9223372036.854775808")):
            with self.subTest(shown):
                self.assertEqual(digits(low, high), shown)

    def test_at_most(self):
        for low, high, shown in (
                (0, 5, "0.000000005"), (99999999, 100000000, "0.100000000"), (-1, 1, "0.000000001"), (-5, -3, "-0.000000003"),
                (-1, 0, "0.000000000"), (0, 1, "0.000000001"), (999999999, 1000000000, "1.000000000"), (UNIT, 2 * UNIT, "2.000000000"),
                (-2 * UNIT, 2 * UNIT, "2.000000000")):
            with self.subTest(shown):
                self.assertEqual(digits(low, high), f"at most {shown}")

    def test_digits_before_the_point(self):
        """The 1 of 10 and 15 is not a digit of either alone."""
        self.assertEqual(digits(10 * UNIT, 15 * UNIT), "at most 15.000000000")
        self.assertEqual(digits(100 * UNIT, 109 * UNIT), "at most 109.000000000")
        self.assertEqual(digits(-15 * UNIT, -10 * UNIT), "at most -10.000000000")
        self.assertEqual(digits(1, 10 * UNIT), "at most 10.000000000")

    def test_comma(self):
        self.assertEqual(digits(229924650, 229924652, decimal_comma=True), "0,22992465")
        self.assertEqual(digits(0, 5, decimal_comma=True), "at most 0,000000005")
        self.assertEqual(digits(1200000000, 1300000000, True), "1")

    def test_exchanged(self):
        with self.assertRaises(ValueError):
            digits(2, 1)


class EveryNumber(unittest.TestCase):
    """Of all numbers from a low to a high, each a decimal."""

    def check_digits(self, shown, numbers):
        """All have the digits shown, and no further digit is common to all."""
        self.assertTrue(all(are_of(shown, number) for number in numbers))
        self.assertTrue(len(numbers) == 1 or shown.strip("-0."))
        longer = numbers[0][:len(shown) + 1 + ("." not in shown)]
        self.assertTrue(longer == shown or not all(are_of(longer, number) for number in numbers))

    def check_at_most(self, shown, numbers):
        """The greatest of several is shown, and no digits but zeros in front are common to all."""
        self.assertGreater(len(numbers), 1)
        self.assertEqual(shown, numbers[-1])
        starts = [numbers[0][:length] for length in range(1, len(numbers[0]) + 1)]
        common = [start for start in starts if start.strip("-0.") and start[-1] != "." and all(are_of(start, number) for number in numbers)]
        self.assertEqual(common, [])

    def test_between(self):
        counts = {"digits": 0, "at most": 0}
        for low, high in pairs():
            shown, numbers = digits(low, high), [decimal(number) for number in range(low, high + 1)]
            with self.subTest(low=low, high=high, shown=shown):
                if shown.startswith("at most "):
                    counts["at most"] += 1
                    self.check_at_most(shown[len("at most "):], numbers)
                else:
                    counts["digits"] += 1
                    self.check_digits(shown, numbers)
        self.assertTrue(all(count > 1000 for count in counts.values()), counts)


if __name__ == "__main__":
    unittest.main()
