"""The command `picture`: draws a table that the program has written."""
from __future__ import annotations

import re
from typing import NamedTuple, Sequence

from claimtotals import streams
from claimtotals.curves import Row
from claimtotals.layout import HEADING
from claimtotals.library import TOTALS
from claimtotals.picture import DEFAULT_TITLE, picture
from claimtotals.usage import Parser, called, title

COMMAND = "picture"

# That of a table from before version 0.8.0, whose marks are not known.
OLDER_HEADING = "TOTAL LOW HIGH BOUND"

# No number of a table has more digits; and no table more bytes: those of the heading, and 42 at most for each line.
NUMBERS = " ".join(["(0|-?[1-9][0-9]{0,9})"] * 4)
MOST_TABLE_BYTES = len(HEADING) + 1 + 42 * TOTALS


class Form(NamedTuple):
    """What all lines of a table are, as a pattern and in words."""
    pattern: re.Pattern[str]
    words: str


FORMS = {
    HEADING: Form(re.compile(f"{NUMBERS} ([YN])"), "a total, a low, a high, a bound and Y or N"),
    OLDER_HEADING: Form(re.compile(NUMBERS), "a total, a low, a high and a bound"),
}


class Wrong(Exception):
    """Why a text is no table."""


def read_row(form: Form, number: int, line: str, total: int) -> Row:
    found = form.pattern.fullmatch(line)
    if not found:
        raise Wrong(f"line {number} is not {form.words}: {line!r:.60}")
    words = found.groups()
    row = Row(*map(int, words[:4]), exact=words[4:] == ("Y",))
    if row.total != total:
        raise Wrong(f"line {number} should have total {total}: {line!r:.60}")
    if not 0 <= row.high - row.low <= row.bound:
        raise Wrong(f"line {number} has a low above its high, or a gap above its bound: {line!r:.60}")
    return row


def read_lines(text: bytes) -> list[str]:
    if len(text) > MOST_TABLE_BYTES:
        raise Wrong(f"the text has more than {MOST_TABLE_BYTES:,} bytes, and no table has")
    if not text.isascii():
        raise Wrong("the text has bytes that no table has")
    *lines, rest = text.decode().split("\n")
    if rest or not lines:
        raise Wrong("the text is empty, or its last line has no line end")
    return lines


def read_table(text: bytes) -> list[Row]:
    """The rows of a text that has the form of the program's table, or of an older one. All lines have the form that the heading tells."""
    heading, *lines = read_lines(text)
    if re.fullmatch("REFUSED [0-9]+ [0-9]+", heading):
        raise Wrong(f"the sheet was refused, so there is no table: {heading}")
    if heading not in FORMS:
        raise Wrong(f"line 1 is not {HEADING!r}, nor, as in older tables, {OLDER_HEADING!r}: {heading!r:.60}")
    if not 1 <= len(lines) <= TOTALS:
        raise Wrong(f"a table has 1 to {TOTALS} totals, this one {len(lines)}")
    return [read_row(FORMS[heading], total + 2, line, total) for total, line in enumerate(lines)]


def run(words: Sequence[str]) -> int:
    parser = Parser(COMMAND, prog=called(COMMAND),
                    description="A picture, as SVG, of the table that `curve` writes, or that an older `curve` wrote.",
                    epilog='example:\n  ./curve examples/poisson.txt | ./picture --title "A Poisson law" > poisson.svg')
    parser.add_argument("table", nargs="?", metavar="TABLE", default="-", help="a file; without it, or for `-`, standard input")
    parser.add_argument("--title", metavar="TEXT", type=title, default=DEFAULT_TITLE, help=f"what stands above it, else: {DEFAULT_TITLE}")
    given = parser.parse_args(words)
    try:
        rows = read_table(streams.read_input(COMMAND, given.table, "a table", MOST_TABLE_BYTES))
    except Wrong as fault:
        streams.say(COMMAND, f"{streams.source(given.table)}: {fault}")
        return streams.REFUSED
    streams.write_output(picture(rows, given.title).encode())
    return streams.SUCCESS


def main(words: Sequence[str]) -> int:
    """The status of a call with these words."""
    return streams.status(COMMAND, lambda: run(words))
