"""The sheet reader as the paper and Wish 7 say it: a sheet is cut at its line ends and its spaces, and each word is held to a pattern."""
import re
from dataclasses import dataclass

from limits import MOST_BYTES, MOST_ORDER, MOST_WEIGHTS
from outward import Job

UNSIGNED = re.compile(rb"0|[1-9][0-9]{0,9}")
SIGNED = re.compile(rb"0|-?[1-9][0-9]{0,9}")
NO_JOB = Job(0, 0, [0] * MOST_ORDER, [0] * MOST_ORDER, 0, 0, [], 0)


@dataclass
class Reading:
    """What the call says: number 0 for an acceptance, the line, the job (zeros and no weights after a refusal), the faulty word and where
    it begins, counted in bytes from 0."""
    number: int
    line: int
    job: Job
    word: bytes
    start: int


class Refused(Exception):
    """A refusal by its number and line, and with 24 the faulty word and where it begins."""

    def __init__(self, number, line, word=b"", start=0):
        super().__init__(number, line, word, start)
        self.number, self.line, self.word, self.start = number, line, word, start


class Lines:
    """The lines of a sheet, taken in order; `taken` is the number of the last one taken."""

    def __init__(self, sheet):
        *self.ended, self.rest = sheet.split(b"\n")
        self.taken = 0

    def numbers(self, keyword, count, pattern=UNSIGNED):
        """The numbers of the line due: refusals 22, 23 and 24."""
        self.taken += 1
        if self.taken > len(self.ended):
            raise Refused(22, self.taken)
        first, *words = self.ended[self.taken - 1].split(b" ")
        if first != keyword or len(words) != count:
            raise Refused(23, self.taken)
        for i, word in enumerate(words):
            if not pattern.fullmatch(word):
                raise Refused(24, self.taken, word, self.after([first, *words[:i]]))
        return [int(word) for word in words]

    def after(self, words):
        """Where the word after these begins, on the line taken last: behind each line before there is one byte, and so behind each word."""
        return sum(len(piece) + 1 for piece in [*self.ended[:self.taken - 1], *words])

    def limit(self, number, least, most):
        """Refusal 25, for a number of the line taken last."""
        if not least <= number <= most:
            raise Refused(25, self.taken)

    def finish(self):
        """Refusal 26."""
        if self.taken < len(self.ended) or self.rest:
            raise Refused(26, self.taken + 1)


def read_job(sheet, places):
    """The job of a sheet that is read for a row of so many places."""
    if not 1 <= len(sheet) <= MOST_BYTES:
        raise Refused(21, 0)
    lines = Lines(sheet)
    order, divisor = lines.numbers(b"LAW", 2)
    lines.limit(order, 1, MOST_ORDER)
    terms = [lines.numbers(b"TERM", 2, SIGNED) for _ in range(order)] + [[0, 0]] * (MOST_ORDER - order)
    low, high = lines.numbers(b"START", 2)
    last, = lines.numbers(b"LAST", 1)
    zero, = lines.numbers(b"ZERO", 1)
    count, = lines.numbers(b"SEVERITY", 1)
    lines.limit(count, 1, MOST_WEIGHTS)
    if places < count:
        raise Refused(27, lines.taken)
    weights = [lines.numbers(b"W", 1)[0] for _ in range(count)]
    lines.finish()
    return Job(order, divisor, [a for a, _ in terms], [b for _, b in terms], low, high, weights, last, zero)


def read_sheet(sheet, places):
    """The call, with the part that the faulty word's own call gives."""
    try:
        return Reading(0, 0, read_job(sheet, places), b"", 0)
    except Refused as refusal:
        return Reading(refusal.number, refusal.line, NO_JOB, refusal.word, refusal.start)
