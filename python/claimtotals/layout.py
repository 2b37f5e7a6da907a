"""How numbers are laid out: billionths as decimals, true digits, tables. Nothing is computed here but places of digits."""
from __future__ import annotations

import os
from typing import TYPE_CHECKING

from claimtotals.library import UNIT
from claimtotals.numbers import SIGNED, whole

if TYPE_CHECKING:
    from claimtotals.curves import Curve, Row

HEADING = "TOTAL LOW HIGH BOUND EXACT"


def pointed(text: str, decimal_comma: bool) -> str:
    return text.replace(".", ",") if decimal_comma else text


def decimal(units: int, decimal_comma: bool = False) -> str:
    """Billionths as a decimal of nine digits, which is exact."""
    ones, rest = divmod(abs(units), UNIT)
    return pointed(f"{'-' if units < 0 else ''}{ones}.{rest:09}", decimal_comma)


def short_chance(units: int) -> str:
    """The same of a chance, without zeros at its end."""
    return decimal(units).rstrip("0").rstrip(".")


def common_start(first: str, second: str) -> str:
    """The digits in front on which two decimals agree: none where they do not agree up to the point, as the 1 of 10 and 15 is not one."""
    agreed = os.path.commonprefix([first, second])
    return agreed if "." in agreed else ""


def digits(low: int, high: int, decimal_comma: bool = False) -> str:
    """The decimal digits of a chance, or of what a layer costs, on which its low and its high agree, cut and not rounded, so that each is
    true of every number between them. Where they agree on none but zeros in front, it says how much the number is at most.

    >>> digits(229924650, 229924652)
    '0.22992465'
    >>> digits(-1, 1)
    'at most 0.000000001'
    """
    low, high = whole("low", low, SIGNED), whole("high", high, SIGNED)
    if low > high:
        raise ValueError(f"the low {low} is above the high {high}")
    low_text, high_text = decimal(low), decimal(high)
    agreed = common_start(low_text, high_text)
    if low == high or agreed.strip("-0."):
        return pointed(agreed.rstrip("."), decimal_comma)
    return f"at most {pointed(high_text, decimal_comma)}"


def letter(exact: bool) -> str:
    return "Y" if exact else "N"


def table(curve: Curve) -> str:
    """As the program writes it."""
    lines = [HEADING, *(f"{row.total} {row.low} {row.high} {row.bound} {letter(row.exact)}" for row in curve)]
    return "".join(f"{line}\n" for line in lines)


def digits_line(row: Row, decimal_comma: bool) -> str:
    """Where the chance itself is exact, if the start is true, its nine digits are all of it, and the word behind them says so. Zeros at the
    end stay: they are true digits too, and a column of nine can be compared and added up."""
    return f"{row.total} {row.digits(decimal_comma)}{' exact' if row.chance_is_exact else ''}"


def digits_table(curve: Curve, decimal_comma: bool = False) -> str:
    """Each total with its true digits."""
    return "".join(f"{line}\n" for line in ["TOTAL CHANCE", *(digits_line(row, decimal_comma) for row in curve)])


def csv_line(row: Row, decimal_comma: bool) -> tuple[str, ...]:
    return str(row.total), *(decimal(units, decimal_comma) for units in (row.low, row.high, row.bound)), letter(row.exact)


def csv(curve: Curve, decimal_comma: bool = False) -> str:
    """For a spreadsheet."""
    lines = [("total", "low", "high", "bound", "exact"), *(csv_line(row, decimal_comma) for row in curve)]
    return "".join((";" if decimal_comma else ",").join(line) + "\n" for line in lines)
