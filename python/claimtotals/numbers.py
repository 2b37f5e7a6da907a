"""What fits the library's calls. ctypes would cut a number of more than 64 bits and read past the end of a short row, without a word: here
it is a ValueError before any call."""
from __future__ import annotations

import ctypes
import operator
from collections.abc import Mapping, Set
from decimal import Decimal
from fractions import Fraction
from numbers import Integral, Number
from typing import Iterable

UNSIGNED = ctypes.c_uint64
SIGNED = ctypes.c_int64

LIMITS = {UNSIGNED: (0, 2 ** 64 - 1), SIGNED: (-2 ** 63, 2 ** 63 - 1)}

# A number of more bits is not written out where it does not fit: Python itself refuses to write very long ones.
MOST_BITS_SHOWN = 128


def whole(name: str, number: object, kind: type = UNSIGNED, advice: str = "") -> int:
    """A whole number that fits, as a plain one; it may be one of numpy's. A float never is one, as few of them are the decimals that they
    are written as; nor is True. The advice is for those who have a decimal or a fraction."""
    least, most = LIMITS[kind]
    if advice and isinstance(number, (float, Decimal, Fraction)):
        raise ValueError(f"{name}: {number!r:.200} is not taken; {advice}")
    try:
        found = int(operator.index(number))
    except TypeError:
        raise ValueError(f"{name}: {number!r:.200} is no whole number") from None
    if isinstance(number, bool):
        raise ValueError(f"{name}: {number!r} is no whole number")
    if not least <= found <= most:
        bits = found.bit_length()
        shown = found if bits <= MOST_BITS_SHOWN else f"a number of {bits} bits"
        raise ValueError(f"{name}: {shown} is not from {least} to {most}")
    return found


def places(name: str, given: Iterable[object]) -> tuple[object, ...]:
    """What a row has at its places. A text is no row; nor is a set, which has no order, or a dict, of which only the keys would be seen."""
    if not isinstance(given, (str, bytes, bytearray, Mapping, Set)):
        try:
            return tuple(given)
        except TypeError:
            pass
    raise ValueError(f"{name}: {given!r:.200} is no row of numbers")


def wholes(name: str, numbers: Iterable[object], kind: type = UNSIGNED) -> tuple[int, ...]:
    """A row of such numbers."""
    return tuple(whole(f"{name}[{place}]", number, kind) for place, number in enumerate(places(name, numbers)))


def is_mark(given: object) -> bool:
    """True or False, which may be numpy's and are no numbers then, or the whole number 1 or 0, as the library has it."""
    return (isinstance(given, Integral) or not isinstance(given, Number)) and given in (True, False)


def marks(name: str, given: Iterable[object]) -> tuple[bool, ...]:
    """A row of marks, as plain ones."""
    found = places(name, given)
    for place, mark in enumerate(found):
        if not is_mark(mark):
            raise ValueError(f"{name}[{place}]: {mark!r:.200} is no mark, True or False")
    return tuple(map(bool, found))


def row(numbers: tuple[int, ...], kind: type) -> ctypes.Array:
    """A row of the library."""
    return (kind * len(numbers))(*numbers)
