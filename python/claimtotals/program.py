"""The command `curve`: runs the proved program on a sheet, and hands on what it writes byte for byte. What it adds is a status and, on
standard error, a sentence."""
from __future__ import annotations

import argparse
import pathlib
import subprocess
from typing import Callable, Optional, Sequence

from claimtotals import streams
from claimtotals.advice import about_start, about_sums
from claimtotals.curves import curve_refusal
from claimtotals.refusals import REFUSALS, Refused
from claimtotals.sheets import read_sheet, sheet_refusal
from claimtotals.usage import Parser, Version, called

COMMAND = "curve"

HELP = """\
The table of a sheet: for each yearly claim total a low and a high of its chance, in billionths, a bound on the gap between them, and Y or
N. It is proved that the exact chance lies from low to high, and that with Y low is the exact chance for the low end of START, and high for
its high end. N stands only where low is below high, and does not say that they are wrong."""

EXAMPLES = """\
example:
  {called} examples/poisson.txt
  sed 's/LAST 20/LAST 30/' examples/poisson.txt | {called}

status: 0 for a table; 1 where the sheet is refused, which is told by a line `REFUSED number place` on standard output and by a sentence on
standard error; 2 for wrong use, and where input, output or the building of the program fails"""


def arguments(words: Sequence[str], version: str) -> argparse.Namespace:
    parser = Parser(COMMAND, prog=called(COMMAND), description=HELP, epilog=EXAMPLES.format(called=called(COMMAND)))
    parser.add_argument("sheet", metavar="SHEET", nargs="?", default="-", help="a file; without it, or for `-`, standard input")
    parser.add_argument("--version", action=Version, command=COMMAND, find=lambda: version)
    return parser.parse_args(words)


def written(program: pathlib.Path, sheet: bytes) -> bytes:
    """What the program writes."""
    with streams.reporting(str(program)):
        ended = subprocess.run([str(program)], input=sheet, stdout=subprocess.PIPE)
    if ended.returncode or not ended.stdout:
        raise streams.Failed(f"{program}: it ended with status {ended.returncode} and wrote {len(ended.stdout)} bytes")
    return ended.stdout


def refusal(text: bytes, sheet: bytes) -> Optional[Refused]:
    """Where the program's text is one."""
    first, *numbers = text.split()
    if first != b"REFUSED":
        return None
    number, place = map(int, numbers)
    if "sheet" in REFUSALS[number].calls:
        return sheet_refusal(sheet, number, place)
    return curve_refusal(*read_sheet(sheet), number, place)


def columns(text: bytes) -> list[tuple[int, ...]]:
    """Those of the program's table that have numbers: total, low, high and bound."""
    return list(zip(*(map(int, line.split()[:4]) for line in text.splitlines()[1:])))


def run(path: str, program: Callable[[], pathlib.Path]) -> int:
    """The status. A file is read before the program is built, so that a wrong name is told at once."""
    sheet = streams.read_sheet_bytes(COMMAND, path) if path != "-" else None
    built = program()
    if sheet is None:
        sheet = streams.read_sheet_bytes(COMMAND, path)
    text = written(built, sheet)
    streams.write_output(text)
    refused = refusal(text, sheet)
    if refused:
        streams.say(COMMAND, refused.of(streams.source(path)))
        return streams.REFUSED
    _, low, high, _ = columns(text)
    remark = about_sums(low, high)
    if remark:
        sentences = [remark, about_start(high, read_sheet(sheet).job.zero)]
        streams.say(COMMAND, f"{streams.source(path)}: {' '.join(filter(None, sentences))}")
    return streams.SUCCESS


def main(words: Sequence[str], version: str, program: Callable[[], pathlib.Path]) -> int:
    """The status of a call with these words; `program` gives the path of the proved program, and builds it first where that is due."""
    return streams.status(COMMAND, lambda: run(arguments(words, version).sheet, program))
