"""Older sheets, which have no line ZERO. What is refused, and at which line, is worked out by hand from the paper's rule for sheets."""
import unittest

from claimtotals import MOST_BYTES, NotOlder, Refused, read_sheet, upgraded

# The paper's P1, as it is now and as it was.
NEW = b"LAW 1 1\nTERM 0 1\nSTART 367879441 367879442\nLAST 3\nZERO 0\nSEVERITY 2\nW 1\nW 1\n"
OLD = b"LAW 1 1\nTERM 0 1\nSTART 367879441 367879442\nLAST 3\nSEVERITY 2\nW 1\nW 1\n"


def changed(old, new):
    assert OLD.count(old) == 1
    return OLD.replace(old, new)


class Upgraded(unittest.TestCase):
    def test_sheet(self):
        self.assertEqual(upgraded(OLD), NEW)
        self.assertEqual(read_sheet(upgraded(OLD)).job.zero, 0)

    def test_orders(self):
        """The line is due behind so many lines TERM."""
        for order in 1, 2, 3, 4:
            head, terms = b"LAW %d 1\n" % order, b"TERM 0 1\n" * order
            with self.subTest(order):
                self.assertEqual(upgraded(head + terms + OLD[17:]), head + terms + NEW[17:])

    def test_numbers_that_the_curve_refuses(self):
        """They are in good form."""
        for old, new in (b"LAST 3", b"LAST 501"), (b"START 367879441", b"START 9999999999"), (b"\nW 1\nW 1", b"\nW 0\nW 0"):
            with self.subTest(new):
                self.assertEqual(upgraded(changed(old, new)), NEW.replace(old, new))

    def test_kinds_of_bytes(self):
        """As read_sheet takes them; what was given stays."""
        data = bytearray(OLD)
        for given in data, memoryview(data):
            self.assertEqual(upgraded(given), NEW)
        self.assertEqual(data, OLD)
        for given in OLD.decode(), len(OLD), None:
            with self.subTest(given), self.assertRaises(TypeError):
                upgraded(given)


class Refusals(unittest.TestCase):
    def check(self, data, number, line, word=None):
        with self.subTest(data[:200]):
            with self.assertRaises(Refused) as caught:
                upgraded(data)
            refused = caught.exception
            self.assertEqual((refused.number, refused.place, refused.line, refused.word), (number, line, line, word))
            self.assertEqual(repr(refused), f"Refused({number}, {line})")
            begins = f"line {line}: refused by {number}: " if line else f"refused by {number}: "
            self.assertTrue(refused.sentence.startswith(begins), refused.sentence)
            self.assertNotIn("older sheet", refused.remedy)

    def test_before_the_line(self):
        self.check(changed(b"TERM 0 1", b"TERM 0 x"), 24, 2, b"x")
        self.check(changed(b"LAST 3\n", b""), 23, 4)
        self.check(OLD[:OLD.index(b"SEVERITY")], 22, 5)
        self.check(changed(b"SEVERITY 2", b"SIZES 2"), 23, 5)

    def test_behind_the_line(self):
        """By the line of the older sheet."""
        self.check(changed(b"SEVERITY 2", b"SEVERITY 2 2"), 23, 5)
        self.check(changed(b"SEVERITY 2", b"SEVERITY two"), 24, 5, b"two")
        self.check(changed(b"SEVERITY 2", b"SEVERITY 501"), 25, 5)
        self.check(changed(b"2\nW 1\n", b"2\nW 10n5\n"), 24, 6, b"10n5")
        self.check(changed(b"SEVERITY 2", b"SEVERITY 3"), 22, 8)
        self.check(OLD[:-1], 22, 7)
        self.check(OLD + b"W 1\n", 26, 8)
        self.check(changed(b"SEVERITY 2\n", b"SEVERITY 2\nZERO\n"), 23, 6)

    def test_line_zero_further_down(self):
        """With a line ZERO before SEVERITY, its weight would be lost."""
        for data in changed(b"SEVERITY 2\n", b"SEVERITY 2\nZERO 5\n"), OLD + b"ZERO 5\n":
            self.check(data, 23, 5)
            with self.assertRaises(Refused) as caught:
                upgraded(data)
            self.assertEqual(caught.exception.seen, "ZERO behind SEVERITY")
            self.assertIn("Move the line ZERO", caught.exception.remedy)

    def test_no_sheet(self):
        self.check(b"", 21, 0)
        self.check(OLD.ljust(MOST_BYTES + 1, b"1"), 21, 0)
        self.check(b"\x7fELF\0\0", 22, 1)
        self.check(bytes(range(256)), 23, 1)
        self.check(OLD.replace(b"\n", b"\r\n"), 24, 1, b"1\r")

    def test_size(self):
        """The line has seven bytes."""
        self.check(OLD.ljust(MOST_BYTES - 7, b"1"), 26, 8)
        self.check(OLD.ljust(MOST_BYTES - 6, b"1"), 21, 0)

    def test_line_zero_at_fault(self):
        self.check(NEW.replace(b"ZERO 0", b"ZERO 00"), 24, 5, b"00")
        self.check(NEW.replace(b"ZERO 0", b"ZERO"), 23, 5)

    def test_new_sheet(self):
        """Also where something behind its line ZERO is refused."""
        for data in NEW, NEW.replace(b"ZERO 0", b"ZERO 7"), NEW[:-1], NEW + b"\n", NEW.replace(b"SEVERITY", b"SIZES"):
            with self.subTest(data), self.assertRaises(NotOlder) as caught:
                upgraded(data)
            self.assertIn("it has its line ZERO already", str(caught.exception))

    def test_twice(self):
        with self.assertRaises(NotOlder):
            upgraded(upgraded(OLD))


if __name__ == "__main__":
    unittest.main()
