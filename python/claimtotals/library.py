"""The proved shared library: where it is, and its calls as ctypes takes them. `claimtotals.h` says what each call does."""
from __future__ import annotations

import ctypes
import functools
import pathlib
from ctypes import POINTER, byref, c_int64, c_size_t, c_uint64
from typing import Callable, Iterable, Sequence

from claimtotals.refusals import Refused

UNIT = 1_000_000_000

# Rows of these numbers of places are always long enough.
WEIGHTS = 500
TOTALS = 501
WORK = 12 * TOTALS

# Of a list of layers: so many places the arrays of the call have.
LAYERS = 64

# So many bytes a sheet may have.
MOST_BYTES = 16_384

NAME = "libclaimtotals.so"

# The version whose calls are declared here, major and minor. Before 1.0 a minor version may change calls, and a call of another list of
# parameters would take other rows for its own, without a word.
MADE_FOR = "0.8"

# Bytes that are only read: a Python bytes object goes as it is.
BYTES = ctypes.c_char_p


def row_types(kind: type) -> tuple:
    """Those of a row and of the number of its places."""
    return POINTER(kind), c_size_t


# Of the two calls of a level query: rows, level, place and total.
LEVEL_QUERY = c_uint64, [*row_types(c_int64), *row_types(c_int64), c_int64, POINTER(c_size_t), POINTER(c_size_t)]

# The answer and the parameters of each call, in the header's order.
CALLS = {
    "claimtotals_start_mean": (c_uint64, [c_uint64, c_uint64, POINTER(c_uint64), POINTER(c_uint64)]),
    "claimtotals_start_trials": (c_uint64, [c_uint64, c_uint64, c_uint64, POINTER(c_uint64), POINTER(c_uint64)]),
    "claimtotals_law_panjer_willmot": (c_uint64, [
        c_int64, c_int64, c_int64, c_int64, POINTER(c_uint64), POINTER(c_int64), POINTER(c_int64),
    ]),
    "claimtotals_law_hesselager": (c_uint64, [
        c_int64, c_int64, c_int64, c_int64, POINTER(c_uint64), POINTER(c_int64), POINTER(c_int64),
    ]),
    "claimtotals_curve": (c_uint64, [
        c_uint64, c_uint64, POINTER(c_int64), POINTER(c_int64), c_uint64, c_uint64, c_uint64, c_uint64, *row_types(c_uint64),
        *row_types(c_int64), *row_types(c_int64), *row_types(c_int64), *row_types(c_int64), *row_types(c_int64), POINTER(c_size_t),
    ]),
    "claimtotals_read_sheet": (c_uint64, [
        BYTES, c_size_t, *row_types(c_uint64), POINTER(c_size_t), POINTER(c_uint64), POINTER(c_uint64), POINTER(c_int64), POINTER(c_int64),
        POINTER(c_uint64), POINTER(c_uint64), POINTER(c_uint64), POINTER(c_uint64), POINTER(c_size_t),
    ]),
    "claimtotals_faulty_word": (None, [BYTES, c_size_t, c_size_t, POINTER(c_size_t), POINTER(c_size_t)]),
    "claimtotals_sure": LEVEL_QUERY,
    "claimtotals_possible": LEVEL_QUERY,
    "claimtotals_layers": (c_uint64, [
        *row_types(c_int64), *row_types(c_int64), POINTER(c_size_t), POINTER(c_size_t), c_size_t, *row_types(c_int64), *row_types(c_int64),
        POINTER(c_size_t),
    ]),
    "claimtotals_version": (c_uint64, []),
}


def another_version(path: pathlib.Path, has: str) -> OSError:
    return OSError(f"{path} has {has}: it is another version's, and is to be built anew")


def declare(library: ctypes.CDLL, path: pathlib.Path, name: str) -> None:
    """Without this ctypes would take every number for a C int, and cut it. With it it cuts what has more than 64 bits, without a word:
    `numbers` sees to that."""
    try:
        call = getattr(library, name)
    except AttributeError:
        raise another_version(path, f"no {name}") from None
    call.restype, call.argtypes = CALLS[name]


def version_of(library: ctypes.CDLL) -> str:
    number = library.claimtotals_version()
    return f"{number // 10_000}.{number // 100 % 100}.{number % 100}"


def open_library(path: pathlib.Path, names: Iterable[str] = CALLS) -> ctypes.CDLL:
    """The library at this path with these calls, after a look at its version."""
    library = ctypes.CDLL(str(path))
    declare(library, path, "claimtotals_version")
    found = version_of(library)
    if found.rpartition(".")[0] != MADE_FOR:
        raise another_version(path, f"version {found}, and not {MADE_FOR}")
    for name in names:
        declare(library, path, name)
    return library


def stored() -> pathlib.Path:
    """Beside this file, as the wheel has it; else in lib/, as the release has it, or where library/build puts it."""
    package = pathlib.Path(__file__).resolve().parent
    root = package.parents[1]
    places = [package / NAME, root / "lib" / NAME, root / "target/library" / NAME]
    for path in places:
        if path.exists():
            return path
    raise OSError(f"there is no {NAME}: library/build builds it")


# Where the library is; the commands of the repository build it first where that is due.
find: Callable[[], pathlib.Path] = stored


@functools.lru_cache(maxsize=None)
def calls() -> ctypes.CDLL:
    """The library, opened when the first call is made."""
    return open_library(find())


def answered(name: str, given: Sequence[int], *kinds: type) -> list[int]:
    """The numbers of these kinds that a call gives, for those that it is given; Refused where it refuses, which has no place."""
    found = [kind() for kind in kinds]
    number = getattr(calls(), name)(*given, *map(byref, found))
    if number:
        raise Refused(number, 0)
    return [one.value for one in found]


def version() -> str:
    """That of the library: 0.8.0."""
    return version_of(calls())
