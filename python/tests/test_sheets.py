"""Reading sheets and writing them. The sheet, its numbers and its refusals are those of the paper."""
import unittest

from claimtotals import MOST_BYTES, Job, Refused, Sheet, read_sheet

# The paper's P1.
TEXT = b"LAW 1 1\nTERM 0 1\nSTART 367879441 367879442\nLAST 3\nZERO 0\nSEVERITY 2\nW 1\nW 1\n"
JOB = Job(1, 1, (0, 0, 0, 0), (1, 0, 0, 0), 367879441, 367879442, 3)
SHEET = Sheet(JOB, (1, 1))

# A law of order 4, numbers of 10 digits, and as many weights as a sheet may have.
GREAT_TEXT = (b"LAW 4 9999999999\nTERM -9999999999 1\nTERM 2 -3\nTERM 0 0\nTERM 9999999999 -1\nSTART 0 9999999999\nLAST 9999999999\n"
              b"ZERO 9999999999\nSEVERITY 500\n" + b"W 9999999999\n" * 500)
GREAT = Sheet(Job(4, 9999999999, (-9999999999, 2, 0, 9999999999), (1, -3, 0, -1), 0, 9999999999, 9999999999, 9999999999),
              (9999999999,) * 500)


def refusal(data):
    try:
        read_sheet(data)
    except Refused as refused:
        return refused.number, refused.place, refused.line, refused.word
    raise AssertionError(f"{data!r:.200} was accepted")


class Read(unittest.TestCase):
    def test_numbers(self):
        self.assertEqual(read_sheet(TEXT), SHEET)
        self.assertEqual(read_sheet(GREAT_TEXT), GREAT)

    def test_parts_by_name(self):
        sheet = read_sheet(GREAT_TEXT)
        self.assertEqual((sheet.job.order, sheet.job.divisor, sheet.job.last), (4, 9999999999, 9999999999))
        self.assertEqual((sheet.job.start_low, sheet.job.start_high), (0, 9999999999))
        self.assertEqual((sheet.job.a[1], sheet.job.b[1], len(sheet.weights)), (2, -3, 500))
        self.assertEqual((sheet.job.zero, read_sheet(TEXT).job.zero), (9999999999, 0))

    def test_kinds_of_bytes(self):
        for data in bytearray(TEXT), memoryview(TEXT), memoryview(b"".join(bytes([byte, 0]) for byte in TEXT))[::2]:
            with self.subTest(type(data).__name__):
                self.assertEqual(read_sheet(data), SHEET)

    def test_what_is_given_stays(self):
        data = bytearray(TEXT)
        read_sheet(data)
        self.assertEqual(data, TEXT)

    def test_no_bytes(self):
        for data in TEXT.decode(), None, list(TEXT), len(TEXT), 7.0:
            with self.subTest(repr(data)[:40]), self.assertRaises(TypeError):
                read_sheet(data)

    def test_size(self):
        """A sheet of the most bytes is read, and refused for those after its last weight; one more byte is refused at once."""
        self.assertEqual(MOST_BYTES, 16_384)
        self.assertEqual(refusal(TEXT.ljust(16_384, b"1")), (26, 9, 9, None))
        self.assertEqual(refusal(TEXT.ljust(16_385, b"1")), (21, 0, 0, None))
        self.assertEqual(refusal(b""), (21, 0, 0, None))

    def test_zero_bytes(self):
        """They end nothing."""
        self.assertEqual(refusal(TEXT + b"\0"), (26, 9, 9, None))
        self.assertEqual(refusal(TEXT.replace(b"LAST 3", b"LAST 3\0")), (24, 4, 4, b"3\0"))
        self.assertEqual(refusal(TEXT.replace(b"LAST 3", b"LAST \0")), (24, 4, 4, b"\0"))
        self.assertEqual(refusal(b"\0"), (22, 1, 1, None))


class Refusals(unittest.TestCase):
    """As number, place, line and word."""

    def check(self, old, new, *asked):
        self.assertEqual(TEXT.count(old), 1)
        self.assertEqual(refusal(TEXT.replace(old, new)), asked)

    def test_missing(self):
        self.assertEqual(refusal(TEXT[:-1]), (22, 8, 8, None))
        self.assertEqual(refusal(TEXT[:-4]), (22, 8, 8, None))
        self.assertEqual(refusal(TEXT[:TEXT.index(b"ZERO")]), (22, 5, 5, None))
        self.assertEqual(refusal(b"LAW 1 1\n"), (22, 2, 2, None))

    def test_form(self):
        self.check(b"2\nW 1\n", b"2\nW  1\n", 23, 7, 7, None)
        self.check(b"ZERO 0\n", b"", 23, 5, 5, None)
        self.check(b"ZERO 0", b"ZERO 0 0", 23, 5, 5, None)
        self.check(b"ZERO 0", b"ZERO", 23, 5, 5, None)
        self.check(b"LAST 3\nZERO 0\n", b"ZERO 0\nLAST 3\n", 23, 4, 4, None)
        self.check(b"LAW 1 1", b"LAW 1", 23, 1, 1, None)
        self.check(b"LAST", b"Last", 23, 4, 4, None)

    def test_word(self):
        """The paper's P11 and P12 first."""
        self.check(b"2\nW 1\n", b"2\nW 10n5\n", 24, 7, 7, b"10n5")
        self.check(b"ZERO 0", b"ZERO -1", 24, 5, 5, b"-1")
        self.check(b"ZERO 0", b"ZERO 00", 24, 5, 5, b"00")
        self.check(b"TERM 0 1", b"TERM -0 1", 24, 2, 2, b"-0")
        self.check(b"START 367879441 367879442", b"START 1 ", 24, 3, 3, b"")
        self.check(b"START 367879441 367879442", b"START 3x 4y", 24, 3, 3, b"3x")
        self.check(b"LAST 3", b"LAST 10000000000", 24, 4, 4, b"10000000000")

    def test_limit(self):
        self.check(b"LAW 1 1", b"LAW 5 1", 25, 1, 1, None)
        self.check(b"LAW 1 1", b"LAW 0 1", 25, 1, 1, None)
        self.check(b"SEVERITY 2", b"SEVERITY 0", 25, 6, 6, None)
        self.check(b"SEVERITY 2", b"SEVERITY 501", 25, 6, 6, None)

    def test_excess(self):
        self.assertEqual(refusal(TEXT + b"W 1\n"), (26, 9, 9, None))
        self.assertEqual(refusal(TEXT + b"\n"), (26, 9, 9, None))


class Write(unittest.TestCase):
    def test_text(self):
        self.assertEqual(SHEET.text(), TEXT)
        self.assertEqual(GREAT.text(), GREAT_TEXT)

    def test_round_trip(self):
        for order in 1, 2, 3, 4:
            for zero, weights in (0, (1,)), (1, (0, 7, 0)), (9999999999, tuple(range(500))):
                sheet = Sheet(Job.of(7, [(-3, 5), (2, 0), (0, 0), (-1, 1)][:order], (5, 6), 30, zero), weights)
                with self.subTest(order=order, weights=len(weights)):
                    self.assertEqual(read_sheet(sheet.text()), sheet)

    def test_weights_in_any_row(self):
        self.assertEqual(Sheet(JOB, [1, 1]).text(), TEXT)
        self.assertEqual(Sheet(JOB, iter((1, 1))).text(), TEXT)

    def test_numbers_of_no_sheet(self):
        jobs = {
            "order": JOB._replace(order=0), "great order": JOB._replace(order=5), "eleven digits": JOB._replace(last=10_000_000_000),
            "a long term": JOB._replace(a=(-10_000_000_000, 0, 0, 0)), "a term past the order": JOB._replace(a=(0, 1, 0, 0)),
            "another past the order": JOB._replace(b=(1, 0, 0, -1)), "a negative start": JOB._replace(start_low=-1),
            "a short row": JOB._replace(b=(1,)), "a float": JOB._replace(divisor=1.0),
            "a long weight of size 0": JOB._replace(zero=10_000_000_000), "a negative one": JOB._replace(zero=-1),
        }
        sheets = [(name, Sheet(job, (1, 1))) for name, job in jobs.items()]
        sheets += [("no weights", Sheet(JOB, ())), ("501 weights", Sheet(JOB, (1,) * 501)), ("too many bytes", Sheet(JOB, (1,) * 5000)),
                   ("a long weight", Sheet(JOB, (10_000_000_000,))), ("a negative weight", Sheet(JOB, (-1,)))]
        for name, sheet in sheets:
            with self.subTest(name), self.assertRaises(ValueError):
                sheet.text()


class OfSheet(unittest.TestCase):
    def test_curve(self):
        """The paper's table of P1."""
        curve = SHEET.curve()
        self.assertEqual(curve.low, (367879441, 183939720, 229924650, 99634015))
        self.assertEqual(curve.high, (367879442, 183939721, 229924652, 99634016))
        self.assertEqual(curve.bound, (1, 2, 2, 2))

    def test_refused(self):
        """A sheet in good form whose numbers are no good for the curve."""
        with self.assertRaises(Refused) as caught:
            GREAT.curve()
        self.assertEqual(caught.exception.number, 2)


if __name__ == "__main__":
    unittest.main()
