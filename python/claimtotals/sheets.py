"""Sheets and the sheet reader."""
from __future__ import annotations

from ctypes import byref, c_size_t
from typing import NamedTuple

from claimtotals import library
from claimtotals.curves import TERMS, Curve, Job, curve
from claimtotals.numbers import SIGNED, UNSIGNED, wholes
from claimtotals.refusals import Refused


class Sheet(NamedTuple):
    """What a sheet says: a job, which has the weight of size 0, and the weights of the claim sizes 1, 2 and so on."""
    job: Job
    weights: tuple[int, ...]

    def text(self) -> bytes:
        """The sheet as a file has it. A ValueError where there is none: a job of numbers that no sheet may have."""
        job, weights = self.job.checked(), wholes("weights", self.weights)
        terms = list(zip(job.a, job.b))[:job.order]
        lines = [("LAW", job.order, job.divisor), *(("TERM", *pair) for pair in terms), ("START", job.start_low, job.start_high),
                 ("LAST", job.last), ("ZERO", job.zero), ("SEVERITY", len(weights)), *(("W", weight) for weight in weights)]
        text = "".join(" ".join(map(str, line)) + "\n" for line in lines).encode()
        try:
            if read_sheet(text) == (job, weights):
                return text
        except Refused as refusal:
            raise ValueError(f"no sheet has these numbers: {refusal.sentence}") from None
        raise ValueError("no sheet has these numbers: the terms past the order are not 0")

    def curve(self) -> Curve:
        """The chances of the totals 0 to the last."""
        return curve(self.job, self.weights)


def faulty_word(data: bytes) -> bytes:
    """The word that 24 is about."""
    start, count = c_size_t(), c_size_t()
    library.calls().claimtotals_faulty_word(data, len(data), library.WEIGHTS, byref(start), byref(count))
    return data[start.value:start.value + count.value]


def sheet_refusal(data: bytes, number: int, line: int) -> Refused:
    """What is said of the reader's refusal of these bytes."""
    if number == 24:
        word = faulty_word(data)
        return Refused(number, line, word=word, text=word)
    if not line:
        return Refused(number, line)
    before, text, *behind = [b"", *data.split(b"\n")][line - 1:]
    return Refused(number, line, text=text, before=before, behind=b"\n".join(behind))


def read_sheet(data: bytes) -> Sheet:
    """The job and the weights of a sheet, which is given by its bytes; Refused where it is no sheet.

    >>> read_sheet(b"LAW 1 1\\nTERM 0 1\\nSTART 367879441 367879442\\nLAST 3\\nZERO 0\\nSEVERITY 2\\nW 1\\nW 1\\n").weights
    (1, 1)
    """
    if not isinstance(data, (bytes, bytearray, memoryview)):
        raise TypeError(f"a sheet is bytes, not {type(data).__name__}")
    data = bytes(data)
    weights = (UNSIGNED * library.WEIGHTS)()
    line, count = c_size_t(), c_size_t()
    order, divisor, start_low, start_high, last, zero = (UNSIGNED() for _ in range(6))
    a, b = (SIGNED * TERMS)(), (SIGNED * TERMS)()
    number = library.calls().claimtotals_read_sheet(
        data, len(data), weights, len(weights), byref(line), byref(order), byref(divisor), a, b, byref(start_low), byref(start_high),
        byref(last), byref(zero), byref(count))
    if number:
        raise sheet_refusal(data, number, line.value)
    job = Job(order.value, divisor.value, tuple(a), tuple(b), start_low.value, start_high.value, last.value, zero.value)
    return Sheet(job, tuple(weights[:count.value]))
