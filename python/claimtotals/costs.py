"""Layers of a stop-loss cover: what each pays in a year on average, as a low and a high."""
from __future__ import annotations

import ctypes
from typing import Iterable, NamedTuple, Sequence

from claimtotals import layout, library
from claimtotals.numbers import SIGNED, places, row, wholes
from claimtotals.refusals import Refused


class LayerCost(NamedTuple):
    """A layer, which begins at one total, the attachment, and ends at another, the limit; and its mean payment in a year, which lies from
    low to high, in billionths of a money unit. Totals are counted in money units."""
    attachment: int
    limit: int
    low: int
    high: int

    def digits(self, decimal_comma: bool = False) -> str:
        """The digits of the mean payment, in money units, that are true.

        >>> LayerCost(1, 3, 666437022, 666437028).digits()
        '0.66643702'
        """
        return layout.digits(self.low, self.high, decimal_comma)


def checked(name: str, pair: Iterable[int]) -> tuple[int, ...]:
    """A pair of numbers that fit the call, the attachment and the limit."""
    numbers = wholes(name, pair)
    if len(numbers) != 2:
        raise ValueError(f"{name}: two numbers, the attachment and the limit, not {numbers!r:.200}")
    return numbers


def array(numbers: Sequence[int]) -> ctypes.Array:
    """As the call takes attachments and limits. What a longer list has more is left out, as its number is enough to refuse it."""
    return (ctypes.c_size_t * library.LAYERS)(*numbers[:library.LAYERS])


def layers_refusal(asked: Sequence[tuple[int, ...]], last: int, number: int, place: int) -> Refused:
    """What is said of the call's refusal of these layers, on rows with this last total."""
    more = ""
    if number == 61:
        more = f"; it has {len(asked)}"
    if number in (62, 63):
        more = "; it goes from {} to {}".format(*asked[place])
    if number == 63:
        more += f", and X is {last}"
    return Refused(number, place, more=more)


def layers(low: Iterable[int], high: Iterable[int], pairs: Iterable[tuple[int, int]]) -> tuple[LayerCost, ...]:
    """What layers cost, on rows of any lows and highs: for each pair of an attachment and a limit the layer with its mean payment. At a
    total x a layer pays nothing up to its attachment, what x has above it from there to the limit, and the whole from the limit on.

    Whatever the exact chances are, from low to high at each total below the limit, the mean payment lies from the layer's low to its high
    if all chances, also those of totals behind the rows, add up to 1. A low may be below zero, though no payment is.

    Refused where there are no layers or more than 64, where an attachment is not below its limit, where a limit is above the number of
    places of the rows, or where the rows are none of a curve.

    >>> layers([500_000_000, 250_000_000], [500_000_000, 250_000_001], [(0, 1), (1, 2)])
    (LayerCost(attachment=0, limit=1, low=500000000, high=500000000), LayerCost(attachment=1, limit=2, low=249999999, high=250000000))
    """
    lows, highs = row(wholes("low", low, SIGNED), SIGNED), row(wholes("high", high, SIGNED), SIGNED)
    asked = [checked(f"pairs[{place}]", pair) for place, pair in enumerate(places("pairs", pairs))]
    attachments, limits = ([layer[i] for layer in asked] for i in (0, 1))
    answer_low, answer_high = ((SIGNED * library.LAYERS)() for _ in range(2))
    place = ctypes.c_size_t()
    number = library.calls().claimtotals_layers(
        lows, len(lows), highs, len(highs), array(attachments), array(limits), len(asked), answer_low, len(answer_low), answer_high,
        len(answer_high), ctypes.byref(place))
    if number:
        raise layers_refusal(asked, len(lows) - 1, number, place.value)
    return tuple(map(LayerCost, attachments, limits, answer_low, answer_high))
