"""Makes calls of random_calls.py, in two ways, and holds each to what the calculator says: from Python by the shared library, each row
between guard places; and by make_calls.c under Valgrind, linked with the archive, each row in a block of its own. That driver is written in
C as Valgrind finds errors in Python's interpreter too."""
import ctypes
import subprocess
from array import array

from random_calls import Row

# So many bytes before and past each row must be what they were.
GUARD = 64

LETTERS = {"claimtotals_curve": b"c", "claimtotals_read_sheet": b"r", "claimtotals_faulty_word": b"f", "claimtotals_sure": b"s",
           "claimtotals_possible": b"o", "claimtotals_layers": b"l", "claimtotals_start_mean": b"m", "claimtotals_start_trials": b"t",
           "claimtotals_law_panjer_willmot": b"p", "claimtotals_law_hesselager": b"h"}


class Fault(Exception):
    """Something the library did that it must not."""


def rows_of(call):
    return [(name, given) for name, given in call.parameters if isinstance(given, Row)]


def compare(name, kind, asked, found):
    """The places of a row, one by one where they differ."""
    if found == asked:
        return
    asked, found = array(kind, asked), array(kind, found)
    place = next(i for i, pair in enumerate(zip(asked, found)) if pair[0] != pair[1])
    raise Fault(f"{name}, place {place}: asked {asked[place]}, found {found[place]}")


def hold(call, answer, held):
    """The answer and what the rows hold, one after the other."""
    if answer != call.answer:
        raise Fault(f"asked for the answer {call.answer}, got {answer}")
    for (name, row), content in zip(rows_of(call), held):
        compare(name, row.kind, row.after, content)


# ---- from Python

class Guarded:
    """A row in memory, between guard places."""

    def __init__(self, name, row, guard):
        self.name, self.guard = name, guard
        self.memory = bytearray(guard + row.before + guard)
        self.view = (ctypes.c_char * len(self.memory)).from_buffer(self.memory)
        self.address = ctypes.addressof(self.view) + GUARD

    def held(self):
        """The row; the guard places must hold what they held."""
        compare(f"guard before {self.name}", "Q", self.guard, self.memory[:GUARD])
        compare(f"guard past {self.name}", "Q", self.guard, self.memory[-GUARD:])
        return bytes(self.memory[GUARD:-GUARD])


def make_by_python(library, call, guard):
    """`library` as python/claimtotals/library.py declares it; `guard` is what the guard places hold."""
    function = getattr(library, call.name)
    given, lent = [], []
    for name, parameter in call.parameters:
        if isinstance(parameter, Row):
            row = Guarded(name, parameter, guard)
            lent.append(row)
            given.append(ctypes.cast(row.address, function.argtypes[len(given)]))
            given += [parameter.places()] * parameter.told
        else:
            given.append(parameter)
    answer = function(*given)
    hold(call, answer or 0, [row.held() for row in lent])


# ---- under Valgrind

VALGRIND = ["valgrind", "-q", "--exit-on-first-error=yes", "--error-exitcode=9"]


def number(n):
    return n.to_bytes(8, "little", signed=n < 0)


def record(call):
    """The call as make_calls.c reads it."""
    return LETTERS[call.name] + b"".join(
        number(given.places()) + given.before if isinstance(given, Row) else number(given) for _, given in call.parameters)


def taken(said, at, call):
    """The answer and the rows that the driver wrote for a call from this place on, and the place behind them."""
    pieces = []
    for size in [8] + [len(row.after) for _, row in rows_of(call)]:
        pieces.append(said[at:at + size])
        at += size
    return int.from_bytes(pieces[0], "little"), pieces[1:], at


def make_by_driver(command, calls):
    """All calls in one run of the driver; what is raised tells the index of the call too."""
    ended = subprocess.run(command, input=b"".join(map(record, calls)), capture_output=True)
    at = 0
    for index, call in enumerate(calls):
        answer, held, at = taken(ended.stdout, at, call)
        if at > len(ended.stdout):
            raise Fault(f"call {index}, {call.name}: the driver ended with status {ended.returncode} and said:\n{ended.stderr.decode()}")
        try:
            hold(call, answer, held)
        except Fault as fault:
            raise Fault(f"call {index}, {call.name}: {fault}") from None
    if ended.returncode or ended.stderr:
        raise Fault(f"after the calls the driver ended with status {ended.returncode} and said:\n{ended.stderr.decode()}")
