"""Sets the calls in crates/cases/specs/Cases.antt beside outward.py, sheet.py, level.py, layer.py, start.py, published.py and program.py,
and the lows, highs and marks of curves beside the exact amounts of exact.py. Every row must be read, and agree. Short names are read as the
file defines them, with parameters or without; words that it takes from elsewhere are in WORDS. Another file of this form can be given as an
argument."""
import operator
import pathlib
import re
import sys
from collections import Counter
from inspect import signature
from typing import NamedTuple

from enclosed import amounts_per_unit, outside
from layer import array, layers
from level import possible, sure
from marked import kinds_of_marks, wrong_marks
from outward import Job, Lent, curve
from program import output
from published import law_hesselager, law_panjer_willmot
from sheet import read_sheet
from start import start_of_mean, start_of_trials

SOURCE = pathlib.Path(__file__).parent.parent / "crates/cases/specs/Cases.antt"


# ---- rows: what the calculator says to the call of each kind, in the order in which a row claims it behind what the call is given. Records
# have the fields that they have in the crates.

def answer(number, place):
    return {"number": number, "place": place}


def job_record(job):
    law = {"order": job.order, "divisor": job.divisor, "a": job.a, "b": job.b}
    return {"law": law, "start": {"low": job.low_start, "high": job.high_start}, "last": job.last, "zero": job.zero}


def job_of(record, weights):
    law, start = record["law"], record["start"]
    return Job(law["order"], law["divisor"], law["a"], law["b"], start["low"], start["high"], weights, record["last"], record["zero"])


def on_curve(job, weights, lent):
    rows = Lent(**{name: list(row) for name, row in lent.items()})
    return {
        "answer": answer(*curve(job_of(job, weights), rows)),
        "lent rows": vars(rows),
    }


def on_reader(sheet, row):
    read = read_sheet(bytes(sheet), len(row))
    weights = read.job.weights
    return {
        "what is told": {"answer": answer(read.number, read.line), "job": job_record(read.job), "count": len(weights), "weights": weights},
        "lent row": weights + row[len(weights):],
        "faulty word": list(read.word),
        "its place": {"start": read.start, "count": len(read.word)},
    }


def total_record(said):
    return {"answer": answer(said.number, said.place), "total": said.total}


def on_level(low, high, level):
    return {"sure": total_record(sure(low, high, level)), "possible": total_record(possible(low, high, level))}


def on_layers(low, high, listed, answer_low, answer_high):
    """The answer, and what the two answer rows hold afterwards."""
    rows = {"low": list(answer_low), "high": list(answer_high)}
    said = layers(low, high, listed["count"], listed["attachments"], listed["limits"], *rows.values())
    return {"what is told": {"answer": answer(*said), **rows}}


def start_record(said):
    return {"start": {"answer": answer(said.number, 0), "ends": {"low": said.low, "high": said.high}}}


def on_mean(upper, lower):
    return start_record(start_of_mean(upper, lower))


def on_trials(upper, lower, trials):
    return start_record(start_of_trials(upper, lower, trials))


def law_record(said):
    """The law that is made has order 1, and no further terms."""
    law = {"order": int(said.number == 0), "divisor": said.divisor, "a": [said.a, 0, 0, 0], "b": [said.b, 0, 0, 0]}
    return {"law": {"answer": answer(said.number, 0), "law": law}}


def on_panjer_willmot(alpha_0, alpha_1, beta_0, beta_1):
    return law_record(law_panjer_willmot(alpha_0, alpha_1, beta_0, beta_1))


def on_hesselager(b_0, b_1, a_0, a_1):
    return law_record(law_hesselager(b_0, b_1, a_0, a_1))


def on_program(sheet):
    return {"text": output(bytes(sheet)).decode()}


# each with the number of rows that there are at least; and so many curves have a weight at 0, and so many entries past total 0 a mark
WITH_ZERO = 4
MARKED = 40
KINDS = {"curve": (on_curve, 17 + WITH_ZERO), "reader": (on_reader, 8), "level": (on_level, 14), "layers": (on_layers, 13),
         "mean": (on_mean, 7), "trials": (on_trials, 10), "panjer_willmot": (on_panjer_willmot, 9), "hesselager": (on_hesselager, 7),
         "program": (on_program, 5)}


class Row(NamedTuple):
    """A row of the table, by its kind and the arguments that it has so far; it takes more of them one by one."""
    kind: str
    given: tuple = ()

    def __call__(self, argument):
        return Row(self.kind, (*self.given, argument))

    def parts(self):
        """What the call is given, and what is claimed of it."""
        inputs = len(signature(KINDS[self.kind][0]).parameters)
        return self.given[:inputs], self.given[inputs:]


# ---- the file's words

# functions take their arguments one by one
WORDS = {
    **{kind: Row(kind) for kind in KINDS},
    "pos": lambda n: n,
    "neg_ℤ": lambda z: -z,
    "map": lambda f: lambda values: [f(value) for value in values],
    "length": len,
    "replicate": lambda count: lambda value: [value] * count,
    "ascii": lambda text: list(text.encode()),
    "law_of": lambda order: lambda divisor: lambda a: lambda b: {"order": order, "divisor": divisor, "a": a, "b": b},
    "start_of": lambda low: lambda high: {"low": low, "high": high},
    "job_of": lambda law: lambda start: lambda last: lambda zero: {"law": law, "start": start, "last": last, "zero": zero},
    "part_of": lambda start: lambda count: {"start": start, "count": count},
    "layer_list": lambda count: lambda from_: lambda to: {"count": count, "attachments": array(from_), "limits": array(to)},
    "accepted": answer(0, 0),
    "refused": lambda number: lambda place: answer(number, place),
    "lent_rows": lambda low: lambda high: lambda bound: lambda mark: lambda work: vars(Lent(low, high, bound, mark, work)),
}

# each with how strongly it binds, to its left and to its right
OPERATORS = {
    "*": (70, 71, operator.mul),
    "∷": (67, 67, lambda first, others: [first, *others]),
    "++": (65, 66, operator.add),
    "+": (65, 66, operator.add),
    "-": (65, 66, lambda n, m: max(0, n - m)),
}
CLOSING = (")", "}", ";")


def take(tokens, *due):
    """The first token, which must be one of those due."""
    token = tokens.pop(0)
    if token not in due:
        raise ValueError(f"{token} stands where one of {due} is due")
    return token


class Definitions:
    """The definitions of a file. An expression is read off the front of a list of tokens; `local` are the values of parameters."""

    def __init__(self, text):
        text = re.sub(r"^ *--.*\n", "", text, flags=re.MULTILINE)
        found = re.findall(r"^([^\s():]+)((?: [^\s(){}=]+)*) =(.*\n(?:    .*\n)*)", text, flags=re.MULTILINE)
        clauses = Counter(name for name, _, _ in found)
        self.found = {name: (parameters.split(), body) for name, parameters, body in found if clauses[name] == 1}

    def value(self, name, local):
        """A parameter may have the name of a word, and what the file defines goes before a word from elsewhere. Behind a point stands the
        name of a record's field."""
        record, point, field = name.rpartition(".")
        if point:
            return self.value(record, local)[field]
        if name in local:
            return local[name]
        if name not in self.found:
            return WORDS[name]
        parameters, body = self.found[name]
        return self.function(parameters, re.findall(r'"[^"]*"|[(){};]|[^\s(){};"]+', body), {})

    def function(self, parameters, body, local):
        """A function of the first parameter; without one, what the body stands for."""
        if parameters:
            first, *others = parameters
            return lambda argument: self.function(others, body, {**local, first: argument})
        tokens = list(body)
        found = self.expression(tokens, local)
        if tokens:
            raise ValueError(f"this is left: {' '.join(tokens):.60}")
        return found

    def expression(self, tokens, local, least=0):
        """Applications with operators between them that bind no weaker than `least`."""
        found = self.application(tokens, local)
        while tokens and tokens[0] in OPERATORS and OPERATORS[tokens[0]][0] >= least:
            _, right, join = OPERATORS[tokens.pop(0)]
            found = join(found, self.expression(tokens, local, right))
        return found

    def application(self, tokens, local):
        """A function with its arguments, or a record with the names of fields behind it."""
        found = self.operand(tokens, local)
        while tokens and tokens[0] not in OPERATORS and tokens[0] not in CLOSING:
            found = found[tokens.pop(0)[1:]] if tokens[0].startswith(".") else found(self.operand(tokens, local))
        return found

    def operand(self, tokens, local):
        token = tokens.pop(0)
        if token == "(":
            found = self.expression(tokens, local)
            take(tokens, ")")
            return found
        if token == "record":
            return self.record(tokens, local)
        if token == "[]":
            return []
        if token.isdigit():
            return int(token)
        if token.startswith('"'):
            return token[1:-1].replace("\\n", "\n")
        return self.value(token, local)

    def record(self, tokens, local):
        fields = {}
        take(tokens, "{")
        while True:
            name = tokens.pop(0)
            take(tokens, "=")
            fields[name] = self.expression(tokens, local)
            if take(tokens, ";", "}") == "}":
                return fields


def table(source):
    try:
        return Definitions(source.read_text()).value("cases", {})
    except (KeyError, IndexError, TypeError, ValueError) as error:
        sys.exit(f"a row cannot be read: {source}: {error!r}")


# ---- both beside each other

def has_zero(row):
    return row.kind == "curve" and row.parts()[0][0]["zero"] != 0


def is_accepted_curve(row):
    return row.kind == "curve" and row.parts()[1][0] == answer(0, 0)


def marks_later(row):
    """How many entries past total 0 have a mark, as the table says."""
    (job, weights, _), (_, rows) = row.parts()
    return list(kinds_of_marks(job_of(job, weights), Lent(**rows))).count("past total 0")


def differences(row):
    given, claims = row.parts()
    said = KINDS[row.kind][0](*given)
    if len(claims) != len(said):
        return [f"the table claims {len(claims)} things, the calculator says {len(said)}: {', '.join(said)}"]
    faults = [f"{name}: the table has {stated!r}, the calculator {found!r}"
              for (name, found), stated in zip(said.items(), claims) if stated != found]
    if is_accepted_curve(row) and not faults:
        job, rows = job_of(*given[:2]), Lent(**said["lent rows"])
        amounts = amounts_per_unit(job)
        faults += [*outside(job, rows, amounts), *wrong_marks(job, rows, amounts)]
    return faults


def main():
    rows = table(pathlib.Path(sys.argv[1]) if sys.argv[1:] else SOURCE)
    wrong = 0
    for number, row in enumerate(rows, 1):
        faults = differences(row)
        wrong += bool(faults)
        for fault in faults:
            print(f"row {number}: {fault}")
    accepted = [row for row in rows if is_accepted_curve(row)]
    marked = sum(map(marks_later, accepted))
    print(f"the paper's cases: {len(rows)} rows set beside the calculator, {len(accepted)} of them with exact amounts, {marked} of these "
          f"marked past total 0, {wrong} differ")
    kinds = Counter(row.kind for row in rows)
    too_few = any(kinds[kind] < least for kind, (_, least) in KINDS.items()) or sum(map(has_zero, rows)) < WITH_ZERO or marked < MARKED
    if wrong or too_few:
        sys.exit(1)


main()
