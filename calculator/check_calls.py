"""The calls that the program crates/calls makes, and what the calculator says to each. Checks that the calculator gives the answer that the
case asks for, that the exact amounts of an accepted curve lie within its lows and highs and the exact chance of no claims within its start,
that with a weight at 0 these amounts are those of Theorem 9 and this start that of a changed mean or chance, that the marked entries of
such a curve are exact amounts, that what sure and possible say of it is true of these, and what layers says of it of mean payments, that
the law made from a customer's line follows this line, and that the program's files stdin and stdout hold just these calls and the
calculator's answers; with --write it writes the files first."""
import pathlib
import sys
from collections import Counter
from typing import NamedTuple

import cases_curve
import cases_layer
import cases_level
import cases_published
import cases_reader
import cases_start
from enclosed import amounts_per_unit, outside
from followed import another_law, off_hesselager, off_panjer_willmot
from layer import array, layers
from level import possible, sure
from limits import LAST_TOTAL
from marked import kinds_of_marks, wrong_marks
from outward import Lent, curve
from paid import tried_on_curve
from published import law_hesselager, law_panjer_willmot
from reached import answers, untrue_totals
from sheet import read_sheet
from start import start_of_mean, start_of_trials
from started import outside_mean, outside_trials, outside_zero
from summed import beside_sums, off_zero_total

FOLDER = pathlib.Path(__file__).parent.parent / "crates/calls"

# what a place of the rows that a call writes into holds before it
UNTOUCHED = -2 ** 63

# how often sure and possible are answered by these numbers, at least, on the curves' rows
LEVELS = {(0, 0): 1000, (34, 0): 500, (34, 35): 100}

# how many marked entries of each kind are set beside the exact amounts, at least
MARKS = {"past total 0": 5000, "not 0": 300, "below 0": 12, "ends apart": 70, "order above 1": 700, "weight at 0": 1000}

# how many curves with a weight at 0 are set beside the sums of Theorem 9, at least: where the sum ends, and where a rest is left
SUMS = {"whole": 40, "but for a rest": 90}

# how many calls, layers and lists of amounts of each kind are tried, at least, on these rows
PAYMENTS = {"calls": 200, "layers": 2000, "exact amounts below d": 5000, "exact amounts from d on too": 3500,
            "exact amounts that come to U": 450, "lows": 2000, "highs": 2000, "amounts between": 6000}


class Call(NamedTuple):
    """A case as the program has it, and what is wrong with it; and of a curve, the numbers of the answers to the levels that were tried,
    the kinds of what was tried on layers, those of the sums that its amounts were set beside, and those of its marked entries."""
    name: str
    record: bytes
    line: bytes
    faults: list
    levels: tuple = ()
    payments: tuple = ()
    sums: tuple = ()
    marks: tuple = ()


def words(*numbers):
    """Eight bytes for each number, the least first."""
    return b"".join(number.to_bytes(8, "little", signed=number < 0) for number in numbers)


def counted(row):
    return words(len(row), *row)


def line(*parts):
    """Parts behind each other with a semicolon between them, their items with spaces."""
    return ";".join("".join(f" {item}" for item in part) for part in parts)[1:].encode() + b"\n"


def differences(asked, said):
    return [] if asked == said else [f"the case asks for {asked}, the calculator says {said}"]


def reader_call(case):
    read = read_sheet(case.sheet, case.places)
    job = read.job
    numbers = [job.order, job.divisor, *job.a, *job.b, job.low_start, job.high_start, job.last, job.zero, len(job.weights)]
    weights = [f"{y}={w}" for y, w in enumerate(job.weights, 1)]
    word = [f"{byte:02x}" for byte in read.word]
    return Call(
        case.name,
        words(1, case.places, len(case.sheet)) + case.sheet,
        line([read.number, read.line], numbers, weights, word),
        differences((case.number, case.line, case.word), (read.number, read.line, read.word)),
    )


def begins(row, *held):
    """Whether the row has these numbers in front, and was not written behind them."""
    return row == [*held, *[UNTOUCHED] * (len(row) - len(held))]


def lent_faults(case, lent):
    """The first refusals "write nothing. .. After 9 and 10 the first X+1 places of the" four "rows are 0. On acceptance they hold row 0.
    After 9, 10 and acceptance the first" 12 "times (X+1) work places are 0. Later places are untouched." """
    totals = case.job.last + 1
    for name, row in vars(lent).items():
        if case.number not in (0, 9, 10):
            right = begins(row)
        elif name == "work":
            right = begins(row, *[0] * (12 * totals))
        else:
            right = begins(row, *(row[:totals] if case.number == 0 else [0] * totals))
        if not right:
            yield f"the {name} row is not as the call is to leave it"


def curve_faults(case, said, lent):
    yield from differences((case.number, case.place), said)
    yield from lent_faults(case, lent)
    if case.rows:
        yield from differences(case.rows._asdict(), {name: vars(lent)[name][:case.job.last + 1] for name in case.rows._fields})


def exact_checks(case, lent):
    """Of an accepted curve: its faults, the numbers that sure and possible answered at the levels that were tried, the kinds of what was
    tried on layers, those of the sums, and those of the marked entries."""
    amounts = amounts_per_unit(case.job, case.law, case.exact_to)
    levels = answers(lent, len(amounts))
    payments = list(tried_on_curve(case.job, lent, amounts))
    sums = [beside_sums(case.job, case.law, amounts)] if case.job.zero and case.law else []
    faults = [*outside(case.job, lent, amounts), *wrong_marks(case.job, lent, amounts), *untrue_totals(case.job, levels, amounts)]
    faults += [fault for _, found in payments + sums for fault in found]
    numbers = [(said.number, may_be.number) for said, may_be in levels.values()]
    return faults, numbers, [kind for kind, _ in payments], [kind for kind, _ in sums], list(kinds_of_marks(case.job, lent))


def written(row):
    """The places that the call wrote."""
    return [f"{x}={held}" for x, held in enumerate(row) if held != UNTOUCHED]


def curve_call(case):
    job = case.job
    places = case.lent or [n + 2 for n in cases_curve.needed(min(job.last, LAST_TOTAL))]
    lent = Lent(*([UNTOUCHED] * n for n in places))
    said = curve(job, lent)
    faults, *tried = exact_checks(case, lent) if said == (0, 0) else [[]]
    return Call(
        case.name,
        words(2, job.order, job.divisor, *job.a, *job.b, job.low_start, job.high_start, job.last, job.zero) + counted(job.weights)
        + words(*places),
        line(said, *map(written, vars(lent).values())),
        [*curve_faults(case, said, lent), *faults],
        *tried,
    )


def level_call(case):
    """Both calls, sure first."""
    given = case.low, case.high, case.level
    sure_said, possible_said = sure(*given), possible(*given)
    return Call(
        case.name,
        words(3) + counted(case.low) + counted(case.high) + words(case.level),
        line([*sure_said, *possible_said]),
        differences(case.sure, sure_said) + differences(case.possible, possible_said),
    )


def start_faults(case, said, outside_start):
    yield from differences(case.number, said.number)
    if case.low is not None:
        yield from differences((case.low, case.high), (said.low, said.high))
    if said.number == 0:
        yield from outside_start(said, *case.given)


def start_call(case, kind, start_of, outside_start):
    said = start_of(*case.given)
    return Call(case.name, words(kind, *case.given), line(said), list(start_faults(case, said, outside_start)))


def mean_call(case):
    return start_call(case, 4, start_of_mean, outside_mean)


def trials_call(case):
    return start_call(case, 5, start_of_trials, outside_trials)


def zero_start_faults(case):
    """The start by a changed mean or chance, where a share of the claims is zero."""
    said = start_of_mean(*case.given) if len(case.given) == 2 else start_of_trials(*case.given)
    yield from differences(0, said.number)
    yield from outside_zero(said, case.zero)
    yield from off_zero_total(case.law, case.share, case.none, case.zero)


def law_faults(case, said, off):
    yield from differences((case.number, case.divisor, case.a, case.b), said)
    if said.number == 0:
        yield from off(said, *case.given)
        if case.known:
            yield from another_law(said, case.known)


def law_call(case, kind, law_of, off):
    """The law that is made has order 1, and no further terms."""
    said = law_of(*case.given)
    law = [int(said.number == 0), said.divisor, said.a, 0, 0, 0, said.b, 0, 0, 0]
    return Call(case.name, words(kind, *case.given), line([said.number], law), list(law_faults(case, said, off)))


def panjer_willmot_call(case):
    return law_call(case, 6, law_panjer_willmot, off_panjer_willmot)


def hesselager_call(case):
    return law_call(case, 7, law_hesselager, off_hesselager)


def layer_faults(case, said, rows):
    """The first places have the layers' lows, and highs; the others keep what they held."""
    yield from differences((case.number, case.place), said)
    for end, row in enumerate(rows):
        asked = [cost[end] for cost in case.costs]
        yield from differences(asked + [UNTOUCHED] * (len(row) - len(asked)), row)


def layer_call(case):
    attachments, limits = [c for c, _ in case.layers], [d for _, d in case.layers]
    rows = [[UNTOUCHED] * n for n in case.places()]
    said = layers(case.low, case.high, case.told(), array(attachments), array(limits), *rows)
    return Call(
        case.name,
        words(8) + counted(case.low) + counted(case.high) + words(case.told()) + counted(attachments) + counted(limits)
        + words(*case.places()),
        line(said, *map(written, rows)),
        list(layer_faults(case, said, rows)),
    )


def stored(name):
    path = FOLDER / name
    return path.read_bytes() if path.exists() else b""


def too_few(what, tried, needed):
    if any(tried[kind] < least for kind, least in needed.items()):
        yield f"too few {what} were tried on the curves: {dict(tried)}"


def main():
    if sys.argv[1:] not in ([], ["--write"]):
        sys.exit(f"usage: {sys.argv[0]} [--write]")
    calls = [*map(reader_call, cases_reader.CASES), *map(curve_call, cases_curve.CASES), *map(level_call, cases_level.CASES),
             *map(mean_call, cases_start.MEANS), *map(trials_call, cases_start.TRIALS),
             *map(panjer_willmot_call, cases_published.PANJER_WILLMOT), *map(hesselager_call, cases_published.HESSELAGER),
             *map(layer_call, cases_layer.CASES)]
    records = b"".join(call.record for call in calls)
    if sys.argv[1:]:
        (FOLDER / "stdin").write_bytes(records)
        (FOLDER / "stdout").write_bytes(b"".join(call.line for call in calls))
    faults = [f"{call.name}: {fault}" for call in calls for fault in call.faults]
    faults += [f"{case.name}: {fault}" for case in cases_start.ZEROS for fault in zero_start_faults(case)]
    lines = stored("stdout").splitlines(keepends=True)
    for call, held in zip(calls, lines):
        if held != call.line:
            faults.append(f"{call.name}: stdout has {held!r:.200}, the calculator {call.line!r:.200}")
    if stored("stdin") != records:
        faults.append("stdin does not hold the cases' calls")
    if len(lines) != len(calls):
        faults.append(f"stdout has {len(lines)} lines for {len(calls)} calls")
    levels = Counter(numbers for call in calls for numbers in call.levels)
    payments = Counter(kind for call in calls for kind in call.payments)
    sums = Counter(kind for call in calls for kind in call.sums)
    marks = Counter(kind for call in calls for kind in call.marks)
    faults += [*too_few("levels", levels, LEVELS), *too_few("payments of layers", payments, PAYMENTS), *too_few("sums", sums, SUMS),
               *too_few("marked entries", marks, MARKS)]
    kinds = (f"{len(cases_reader.CASES)} sheets, {len(cases_curve.CASES)} curves, {len(cases_level.CASES)} levels, "
             f"{len(cases_start.MEANS) + len(cases_start.TRIALS)} starts, {len(cases_start.ZEROS)} starts with claims of zero, "
             f"{len(cases_published.PANJER_WILLMOT) + len(cases_published.HESSELAGER)} laws, {len(cases_layer.CASES)} lists of layers")
    on_curves = (f"{sum(levels.values())} levels, {payments['layers']} layers and {marks['past total 0']} marks past total 0 on the "
                 f"curves, amounts of {sum(sums.values())} curves beside the sums of Theorem 9")
    print(*faults, f"calls: {kinds} set beside the calculator, {on_curves}, {len(faults)} faults", sep="\n")
    if faults:
        sys.exit(1)


if __name__ == "__main__":
    main()
