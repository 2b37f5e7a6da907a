"""The two that are compared: the program, on a sheet, and actuar, by calls of aggregateDist."""
import pathlib
import re
import subprocess
import sys
from typing import NamedTuple

import jobs
from limits import LAST_TOTAL

FOLDER = pathlib.Path(__file__).resolve().parent
PROGRAM = FOLDER.parent / "target/bin/curve"
# kept for those who want to run a sheet by hand
SHEETS = FOLDER.parent / "target/comparison/sheets"


class Table(NamedTuple):
    """Lows and highs from total 0 on; where the sheet with the greatest last total was refused, the number and the total of the refusal."""
    rows: list
    refusal: tuple


def keep(sheet, name):
    SHEETS.mkdir(parents=True, exist_ok=True)
    (SHEETS / (re.sub("[^0-9a-z]+", "_", name.lower()) + ".txt")).write_text(sheet)


def written(sheet):
    return subprocess.run([PROGRAM], input=sheet, capture_output=True, check=True, text=True).stdout


def program(law, table, weights, **zeros):
    """Refused by 9 or 10, the sheet is given again with a last total just before, as README.md says. `zeros` as jobs.sheet takes them."""
    refusal, last = None, LAST_TOTAL
    sheet = jobs.sheet(law, weights, last, **zeros)
    text = written(sheet)
    if text.startswith(("REFUSED 9 ", "REFUSED 10 ")):
        refusal = tuple(map(int, text.split()[1:]))
        last = refusal[1] - 1
        sheet = jobs.sheet(law, weights, last, **zeros)
        text = written(sheet)
    keep(sheet, f"{law.name} {table}")
    rows = [tuple(map(int, line.split()[1:3])) for line in text.splitlines()[1:]]
    if len(rows) != last + 1:
        sys.exit(f"{law.name}, {table}: {text:.200}")
    return Table(rows, refusal)


class Answer(NamedTuple):
    """What actuar.R says of a job, by its words; a word that was not said is missing."""
    said: dict

    def chances(self, word):
        return [float(chance) for chance in self.said.get(word, "").split()]


def call(law, weights, last=LAST_TOTAL, options="", zero=0):
    """A job for actuar.R."""
    severity = jobs.severity(weights, zero)
    by_convolutions = f"model.freq = {law.counts}, {severity}" if law.counts else ""
    return f"{last}\t{law.arguments}, {severity}{options}\t{by_convolutions}\n"


def actuar(calls):
    """The versions, and an answer for each call."""
    ended = subprocess.run(["Rscript", FOLDER / "actuar.R"], input="".join(calls), capture_output=True, text=True)
    if ended.returncode:
        sys.exit(f"actuar.R ended with status {ended.returncode}:\n{ended.stderr}")
    (_, version), *said = (line.strip().split(" ", 1) for line in ended.stdout.splitlines())
    answers = []
    for word, rest in said:
        if word == "JOB":
            answers.append(Answer({}))
        else:
            answers[-1].said[word] = rest
    if len(answers) != len(calls):
        sys.exit(f"{len(calls)} calls, {len(answers)} answers")
    return version, answers
