"""Jobs, curves and level queries: the chance of each total as a low and a high, and the totals that surely or possibly cover a level."""
from __future__ import annotations

from ctypes import byref, c_size_t
from dataclasses import dataclass
from typing import Iterable, Iterator, NamedTuple

from claimtotals import costs, layout, library
from claimtotals.numbers import SIGNED, UNSIGNED, marks, places, row, whole, wholes
from claimtotals.refusals import Refused

# A law has so many pairs of terms; those past its order are 0.
TERMS = 4


class Job(NamedTuple):
    """A law, the start of its chances, the last total to compute, and how many claims close at nothing.

    order        k, the order of the law
    divisor      D, the divisor of its terms
    a, b         A_1..A_4 and B_1..B_4; those past k are 0
    start_low    s, and
    start_high   t: the chance that the total is zero lies from s to t billionths; where `zero` is 0 that is the chance of no claims
    last         X, the last total
    zero         w(0), the weight of the claims of size 0, beside the weights of the sizes from 1 on
    """
    order: int
    divisor: int
    a: tuple[int, ...]
    b: tuple[int, ...]
    start_low: int
    start_high: int
    last: int
    zero: int = 0

    @classmethod
    def of(cls, divisor: int, terms: Iterable[tuple[int, int]], start: tuple[int, int], last: int, zero: int = 0) -> Job:
        """The job of a law that is given by its divisor and its pairs of terms (A, B), one for each order.

        >>> Job.of(1, [(0, 1)], (367879441, 367879442), 20).order
        1

        With a weight of claims that close at nothing the start is the chance that the total is zero. Of two claims a year every second one
        does so here, and the start is that of the mean 1.

        >>> Job.of(1, [(0, 2)], (367879441, 367879442), 20, zero=2).zero
        2
        """
        pairs = [places(f"terms[{i}]", pair) for i, pair in enumerate(places("terms", terms))]
        if not 1 <= len(pairs) <= TERMS or any(len(pair) != 2 for pair in pairs):
            raise ValueError(f"terms: 1 to {TERMS} pairs of numbers, not {pairs!r:.200}")
        ends = places("start", start)
        if len(ends) != 2:
            raise ValueError(f"start: two numbers, not {ends!r:.200}")
        none = (0,) * (TERMS - len(pairs))
        return cls(len(pairs), divisor, tuple(a for a, _ in pairs) + none, tuple(b for _, b in pairs) + none, *ends, last, zero).checked()

    def checked(self) -> Job:
        """The same with plain numbers, each of which fits a call; else a ValueError."""
        a, b = wholes("a", self.a, SIGNED), wholes("b", self.b, SIGNED)
        for name, terms in ("a", a), ("b", b):
            if len(terms) != TERMS:
                raise ValueError(f"{name}: {TERMS} numbers, not {len(terms)}")
        return Job(whole("order", self.order), whole("divisor", self.divisor), a, b, whole("start_low", self.start_low),
                   whole("start_high", self.start_high), whole("last", self.last), whole("zero", self.zero))


class Row(NamedTuple):
    """A line of the table, in units of one billionth: the exact chance of the total lies from low to high, and these are at most bound
    apart.

    Where `exact` is True, low is the exact chance for the low end of the start, and high is that for its high end. That does not say that
    the chance is known: `chance_is_exact` asks for equal ends too. In a curve that was computed, False stands only where low is below high,
    and does not say that they are wrong."""
    total: int
    low: int
    high: int
    bound: int
    exact: bool = False

    @property
    def chance_is_exact(self) -> bool:
        """Whether the line is exact and its low and high are equal. They are the chance then, with no digit missing, if the true chance of
        total 0 lies from the low to the high end of the start."""
        return self.exact and self.low == self.high

    def digits(self, decimal_comma: bool = False) -> str:
        """The digits of the chance that are true. There are nine after the point where low and high are equal."""
        return layout.digits(self.low, self.high, decimal_comma)


@dataclass(frozen=True)
class Curve:
    """The chances of the totals 0 to the last, in units of one billionth, and which lines are exact, as `Row` has it: four tuples, by
    total. A curve that is made without marks has False throughout, as they are not known. Its length is the number of totals; iteration,
    and an index, give the rows.

    >>> from claimtotals import Job, curve
    >>> chances = curve(Job.of(1, [(0, 1)], (367879441, 367879442), 3), [1, 1])
    >>> chances.low
    (367879441, 183939720, 229924650, 99634015)
    >>> chances[2].digits()
    '0.22992465'
    >>> chances.sure(500_000_000), chances.possible(500_000_000)
    (1, 1)
    >>> chances.layers([(1, 3)])
    (LayerCost(attachment=1, limit=3, low=666437022, high=666437028),)

    Here the division is by 1, 2 and 3 at the totals 1, 2 and 3, and only the last leaves a remainder:

    >>> curve(Job.of(1, [(0, 1)], (1000, 1000), 3), [1])
    Curve(low=(1000, 1000, 500, 166), high=(1000, 1000, 500, 167), bound=(0, 0, 1, 2), exact=(True, True, True, False))
    """
    low: tuple[int, ...]
    high: tuple[int, ...]
    bound: tuple[int, ...]
    # None only where it is not given
    exact: tuple[bool, ...] = None  # type: ignore[assignment]

    def __post_init__(self) -> None:
        """Rows of whole numbers, and one of marks, equally long; else a ValueError."""
        for name in "low", "high", "bound":
            object.__setattr__(self, name, wholes(name, getattr(self, name), SIGNED))
        object.__setattr__(self, "exact", (False,) * len(self.low) if self.exact is None else marks("exact", self.exact))
        if not len(self.low) == len(self.high) == len(self.bound) == len(self.exact):
            raise ValueError(f"rows of {len(self.low)}, {len(self.high)}, {len(self.bound)} and {len(self.exact)} places")

    def __len__(self) -> int:
        return len(self.low)

    def __getitem__(self, total: int) -> Row:
        """The row of a total, which is counted from 0; unlike a tuple's, none is counted from the end."""
        total = whole("total", total, SIGNED)
        if not 0 <= total < len(self):
            raise IndexError(f"total {total} is not from 0 to {len(self) - 1}")
        return Row(total, self.low[total], self.high[total], self.bound[total], self.exact[total])

    def __iter__(self) -> Iterator[Row]:
        return (self[total] for total in range(len(self)))

    def sure(self, level: int) -> int:
        """The smallest total that is proved to be enough for a level, in units: 990_000_000 for 99 years of 100."""
        return sure(self.low, self.high, level)

    def possible(self, level: int) -> int:
        """The smallest total that may be enough for a level: every smaller one is proved to be too small."""
        return possible(self.low, self.high, level)

    def layers(self, pairs: Iterable[tuple[int, int]]) -> tuple[costs.LayerCost, ...]:
        """What layers of a stop-loss cover cost, each given by its attachment and its limit: the mean payment in a year, in billionths of a
        money unit. The limit is the total where the layer ends, and not its width; it is the number of totals of the curve at most."""
        return costs.layers(self.low, self.high, pairs)

    def text(self) -> str:
        """The table as the program writes it."""
        return layout.table(self)

    def to_csv(self, decimal_comma: bool = False) -> str:
        """The table for a spreadsheet, with chances as decimals, and Y or N for exact. With `decimal_comma` decimals have a comma, and
        columns are parted by `;`."""
        return layout.csv(self, decimal_comma)

    def to_dicts(self) -> list[dict[str, int]]:
        """A dict for each total, in units and with True or False for exact, as pandas.DataFrame takes them."""
        return [row._asdict() for row in self]


def curve_refusal(job: Job, weights: Iterable[int], number: int, place: int) -> Refused:
    """What is said of the curve call's refusal of a job with these weights."""
    return Refused(number, place, more=f"; it is {job.zero + sum(weights):,}" if number == 6 else "")


def curve(job: Job, weights: Iterable[int]) -> Curve:
    """The chance of each total from 0 to the job's last, where claims of the sizes 1, 2 and so on have these weights, and those of size 0
    the job's; Refused where the job or the weights are outside the limits.

    Half of the claims close at nothing here, and what is left is the law of mean 1: the chances are those of `Curve`'s example.

    >>> curve(Job.of(1, [(0, 2)], (367879441, 367879442), 3, zero=2), [1, 1]).low
    (367879441, 183939720, 229924650, 99634015)
    """
    job, weights = Job(*job).checked(), wholes("weights", weights)
    table = row(weights, UNSIGNED)
    low, high, bound, mark = ((SIGNED * library.TOTALS)() for _ in range(4))
    work, place = (SIGNED * library.WORK)(), c_size_t()
    number = library.calls().claimtotals_curve(
        job.order, job.divisor, row(job.a, SIGNED), row(job.b, SIGNED), job.start_low, job.start_high, job.last, job.zero, table,
        len(table), low, len(low), high, len(high), bound, len(bound), mark, len(mark), work, len(work), byref(place))
    if number:
        raise curve_refusal(job, weights, number, place.value)
    count = job.last + 1
    return Curve(*(tuple(found[:count]) for found in (low, high, bound, mark)))


def level_total(call: str, low: Iterable[int], high: Iterable[int], level: int) -> int:
    """The total that this call of the library gives for a level in units, on rows of any lows and highs; Refused where it gives none."""
    lows, highs = row(wholes("low", low, SIGNED), SIGNED), row(wholes("high", high, SIGNED), SIGNED)
    if isinstance(level, float):
        raise ValueError(f"level: {level!r} is no whole number of units; one unit is a billionth, and 0.99 is 990_000_000")
    level = whole("level", level, SIGNED)
    place, total = c_size_t(), c_size_t()
    number = getattr(library.calls(), call)(lows, len(lows), highs, len(highs), level, byref(place), byref(total))
    if number:
        raise Refused(number, place.value)
    return total.value


def sure(low: Iterable[int], high: Iterable[int], level: int) -> int:
    """The smallest total at which the lows, added up from total 0 on, come to the level or more. Whatever the exact chances are, from low
    to high, they do so there too. Refused where the lows never do, where the level is not 1 to UNIT, or where the rows are none of a curve.

    >>> sure([5, 4, 2], [6, 4, 3], 10)
    2
    """
    return level_total("claimtotals_sure", low, high, level)


def possible(low: Iterable[int], high: Iterable[int], level: int) -> int:
    """The smallest total at which the highs, added up from total 0 on, come to the level or more. Whatever the exact chances are, from low
    to high, they do so at no smaller total. Refused where the highs never do, and else as `sure` is. There may be a possible total where
    there is no sure one; where there are both, it is at most the sure one.

    >>> possible([5, 4, 2], [6, 4, 3], 10)
    1
    >>> possible([5, 4, 2], [6, 4, 3], 12)
    2
    """
    return level_total("claimtotals_possible", low, high, level)
