"""Older sheets, from before version 0.7.0: they have no line ZERO. With `ZERO 0` before the line SEVERITY they say what they said."""
from __future__ import annotations

from typing import Optional

from claimtotals.refusals import Refused
from claimtotals.sheets import read_sheet

# The line that an older sheet lacks, and how it begins.
ZERO_LINE, ZERO = b"ZERO 0", b"ZERO "


class NotOlder(Exception):
    """Why a sheet is no older one, although its form is good as far as its line ZERO."""


def first_refusal(data: bytes) -> Optional[Refused]:
    """The reader's, or None where it takes the sheet."""
    try:
        read_sheet(data)
    except Refused as refused:
        return refused
    return None


def lines_read(data: bytes, refused: Optional[Refused]) -> list[bytes]:
    """Those before the line that is refused: each is a good one in its place, so that none but the line ZERO begins with this keyword."""
    lines = data.split(b"\n")
    return lines if refused is None else lines[:max(refused.place - 1, 0)]


def upgraded(data: bytes) -> bytes:
    """The new sheet of an older one, given by its bytes: all of them stay, and the line `ZERO 0` comes where it is due. The reader takes
    the new sheet. Refused where it does not, with the line of the older sheet; NotOlder where there is a line ZERO already.

    >>> upgraded(b"LAW 1 1\\nTERM 0 1\\nSTART 367879441 367879442\\nLAST 0\\nSEVERITY 1\\nW 1\\n")
    b'LAW 1 1\\nTERM 0 1\\nSTART 367879441 367879442\\nLAST 0\\nZERO 0\\nSEVERITY 1\\nW 1\\n'
    """
    refused = first_refusal(data)
    data = bytes(data)
    read = lines_read(data, refused)
    if refused is None or any(line.startswith(ZERO) for line in read):
        raise NotOlder("this is no older sheet: it has its line ZERO already, so there is nothing to upgrade")
    if refused.seen != "older sheet":
        raise refused
    new = b"\n".join([*read, ZERO_LINE, *data.split(b"\n")[len(read):]])
    refused = first_refusal(new)
    if refused:
        raise refused.on_line(refused.line - 1) if refused.line else refused
    return new
