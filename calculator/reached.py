"""Whether what sure and possible say of the rows of an accepted curve is true of the exact amounts."""
from itertools import accumulate

from enclosed import starts
from level import possible, sure
from limits import UNIT


def some_levels(low, high):
    """About the sums to the first total, to one halfway and to the last, and about the greatest: at low and high, one above, between."""
    low_sums, high_sums = list(accumulate(low)), list(accumulate(high))
    last = len(low) - 1
    ends = [*((low_sums[x], high_sums[x]) for x in (0, last // 2, last)), (max(low_sums), max(high_sums))]
    near = {level for least, most in ends for level in (least, least + 1, (least + most) // 2, most, most + 1)}
    return sorted(level for level in near if 1 <= level <= UNIT)


def off_each_other(sure_said, possible_said):
    """Such rows and levels pass 31 to 33; and where there is a sure total, there is a possible one, which is no greater."""
    if sure_said.number not in (0, 34) or possible_said.number not in (0, 35):
        yield f"sure is answered by {sure_said.number}, possible by {possible_said.number}"
    if sure_said.number == 0 and (possible_said.number != 0 or possible_said.total > sure_said.total):
        yield f"sure says {tuple(sure_said)}, possible {tuple(possible_said)}"


def off_sums(sure_said, possible_said, sums, level):
    """`sums` are those of the exact amounts, from 0 to each total."""
    quantile = next((total for total, so_far in enumerate(sums) if so_far >= level), None)
    if sure_said.number == 0 and sums[sure_said.total] < level:
        yield f"sure is {sure_said.total}, and the exact sum does not reach the level there"
    if possible_said.number == 0 and quantile is not None and quantile < possible_said.total:
        yield f"possible is {possible_said.total}, and the exact sum reaches the level at {quantile}"
    if possible_said.number == 35 and quantile is not None:
        yield f"possible is refused by 35, and the exact sum reaches the level at {quantile}"


def answers(rows, count):
    """What sure and possible say at some levels, of the first so many places of the rows."""
    low, high = rows.low[:count], rows.high[:count]
    return {level: (sure(low, high, level), possible(low, high, level)) for level in some_levels(low, high)}


def untrue_totals(job, said, amounts):
    """What is wrong with these answers, for both starts and one between; `amounts` are the exact ones per unit of the start."""
    sums = {start: [start * so_far for so_far in accumulate(amounts)] for start in starts(job)}
    for level, pair in said.items():
        yield from (f"level {level}: {fault}" for fault in off_each_other(*pair))
        yield from (f"level {level}, start {start}: {fault}" for start in sums for fault in off_sums(*pair, sums[start], level))
