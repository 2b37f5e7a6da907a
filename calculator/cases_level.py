"""Calls of sure and of possible: each case is asked of both. The paper's limits are written out in the cases, for limits.py to be held
to."""
from typing import NamedTuple

from limits import UNIT

LEAST, MOST = -2 ** 63, 2 ** 63 - 1
END = 2 * UNIT

# the rows of P1
LOW = [367879441, 183939720, 229924650, 99634015]
HIGH = [367879442, 183939721, 229924652, 99634016]


class Case(NamedTuple):
    """What is tried, the two rows and the level, and what the paper asks of sure and of possible: number, place and total."""
    name: str
    low: list
    high: list
    level: int
    sure: tuple
    possible: tuple


def found(total):
    return 0, 0, total


def refused(number, place=0):
    return number, place, 0


def both(number, place=0):
    """A refusal that the two calls share."""
    return refused(number, place), refused(number, place)


# neither the lows nor the highs reach the level
NEITHER = refused(34), refused(35)

CASES = [
    # the paper's own
    Case("P9", LOW, HIGH, 500000000, found(1), found(1)),
    Case("P10", LOW, HIGH, 900000000, *NEITHER),

    # the rows of P1: lows come to 367879441, 551819161, 781743811, 881377826 and highs to 367879442, 551819163, 781743815, 881377831
    Case("the lowest level", LOW, HIGH, 1, found(0), found(0)),
    Case("the first low", LOW, HIGH, 367879441, found(0), found(0)),
    Case("one above the first low, the first high", LOW, HIGH, 367879442, found(1), found(0)),
    Case("one above the first high", LOW, HIGH, 367879443, found(1), found(1)),
    Case("the lows to total 1", LOW, HIGH, 551819161, found(1), found(1)),
    Case("one above the lows to total 1", LOW, HIGH, 551819162, found(2), found(1)),
    Case("the highs to total 1", LOW, HIGH, 551819163, found(2), found(1)),
    Case("one above the highs to total 1", LOW, HIGH, 551819164, found(2), found(2)),
    Case("the lows to the last total", LOW, HIGH, 881377826, found(3), found(3)),
    Case("one above the lows to the last total", LOW, HIGH, 881377827, refused(34), found(3)),
    Case("the highs to the last total", LOW, HIGH, 881377831, refused(34), found(3)),
    Case("one above the highs to the last total", LOW, HIGH, 881377832, *NEITHER),

    # 31; where the level is reached behind total 0, a total that is left over shows
    Case("no places", [], [], 1, *both(31)),
    Case("no lows", [], HIGH, 1, *both(31)),
    Case("no highs", LOW, [], 1, *both(31)),
    Case("a low less", LOW[:3], HIGH, 1, *both(31)),
    Case("a high less", LOW, HIGH[:3], 1, *both(31)),
    Case("a low less, level of P9", LOW[:3], HIGH, 500000000, *both(31)),
    Case("a high less, level of P9", LOW, HIGH[:3], 500000000, *both(31)),
    Case("502 places", [1] * 502, [1] * 502, 1, *both(31)),
    Case("502 places, all of them needed", [1] * 502, [1] * 502, 502, *both(31)),
    Case("512 places", [1] * 512, [1] * 512, 1, *both(31)),
    Case("502 lows, 501 highs", [1] * 502, [1] * 501, 1, *both(31)),
    Case("501 lows, 502 highs", [1] * 501, [1] * 502, 1, *both(31)),
    Case("one place", [1], [1], 1, found(0), found(0)),
    Case("501 places, all of them needed", [1] * 501, [2] * 501, 501, found(500), found(250)),
    Case("501 places, one unit missing", [1] * 501, [2] * 501, 502, refused(34), found(250)),
    Case("501 places, all of the highs needed", [1] * 501, [2] * 501, 1002, refused(34), found(500)),
    Case("501 places, one unit missing to the highs", [1] * 501, [2] * 501, 1003, *NEITHER),
    Case("501 places, the last high alone", [0] * 501, [0] * 500 + [1], 1, refused(34), found(500)),
    Case("501 places, the largest sums", [END] * 501, [END] * 501, UNIT, found(0), found(0)),
    Case("501 places, the lowest sums of lows", [-END] * 501, [END] * 501, 1, refused(34), found(0)),
    Case("501 places, the lowest sums of lows and highs", [-END] * 501, [-END] * 501, 1, *NEITHER),
    # at 249 the sum is -500U, at 499 it is 0
    Case("501 places, a sum that falls to -500U and comes back", [-END] * 250 + [END] * 251, [END] * 501, UNIT, found(500), found(0)),
    Case("501 places, highs that do so", [-END] * 501, [-END] * 250 + [END] * 251, UNIT, refused(34), found(500)),
    Case("501 places, highs that come back to 0 only", [-END] * 501, [-END] * 250 + [END] * 250 + [0], 1, *NEITHER),

    # 32
    Case("level 0", LOW, HIGH, 0, *both(32)),
    Case("level -1", LOW, HIGH, -1, *both(32)),
    Case("level 0, reached at 1", [-1, 1], [-1, 1], 0, *both(32)),
    Case("level U, reached", [UNIT], [UNIT], UNIT, found(0), found(0)),
    Case("level U, missed by one", [UNIT - 1], [UNIT], UNIT, refused(34), found(0)),
    Case("level U, missed by one by the high too", [UNIT - 1], [UNIT - 1], UNIT, *NEITHER),
    Case("level U+1, though a sum reaches it", [END], [END], UNIT + 1, *both(32)),
    Case("level U+1, reached at 1", [UNIT, 1], [UNIT, 1], UNIT + 1, *both(32)),
    Case("the least level that 64 bits hold", LOW, HIGH, LEAST, *both(32)),
    Case("the greatest level that 64 bits hold", LOW, HIGH, MOST, *both(32)),

    # 33
    Case("ends at -2U and 2U", [-END, END, END], [END, END, END], UNIT, found(2), found(0)),
    Case("a low and a high of -2U", [-END], [-END], 1, *NEITHER),
    Case("a low below -2U", [-END - 1, 5], [0, 5], 1, *both(33, 0)),
    Case("a high above 2U", [5, 0], [5, END + 1], 1, *both(33, 1)),
    Case("a low and a high above 2U", [5, END + 1], [5, END + 1], 1, *both(33, 1)),
    Case("a low and a high below -2U", [5, -END - 1], [5, -END - 1], 1, *both(33, 1)),
    Case("the least low that 64 bits hold", [5, LEAST], [5, 0], 1, *both(33, 1)),
    Case("the greatest high that 64 bits hold", [5, 0], [5, MOST], 1, *both(33, 1)),
    Case("the greatest low, the least high", [5, MOST], [5, LEAST], 1, *both(33, 1)),
    Case("a low equal to its high", [5, 5], [5, 5], 10, found(1), found(1)),
    Case("a low one above its high", [5, 6, 5], [5, 5, 5], 1, *both(33, 1)),
    Case("a low one above its high, below zero", [-5], [-6], 1, *both(33, 0)),
    Case("wrong entries at 1, 2 and 3", [0, 1, -END - 1, MOST], [0, 0, 0, MOST], 1, *both(33, 1)),
    Case("a wrong entry at 500, the last place", [1] * 501, [1] * 500 + [0], 1, *both(33, 500)),
    Case("a wrong entry behind the total that reaches the level", [5, 5, 5], [5, 5, 4], 5, *both(33, 2)),
    Case("a wrong entry behind total 1, which reaches the level", [1, 5, 5], [1, 5, 4], 6, *both(33, 2)),
    Case("a wrong entry behind a total whose highs alone reach the level", [0, 0, 6], [5, 5, 5], 5, *both(33, 2)),
    Case("a low below -2U behind a total whose highs alone reach the level", [0, -END - 1], [5, 5], 5, *both(33, 1)),
    Case("a high above 2U behind a total whose lows reach the level", [5, 5], [5, END + 1], 5, *both(33, 1)),

    # 34 and 35: by a unit
    Case("a level that the highs alone reach", [0], [1], 1, refused(34), found(0)),
    Case("a level reached in the last unit", [4, 3, 2, 1], [4, 3, 2, 1], 10, found(3), found(3)),
    Case("a level missed by a unit", [4, 3, 2, 1], [4, 3, 2, 1], 11, *NEITHER),
    Case("a level reached with a unit to spare", [4, 3, 2, 1], [4, 3, 2, 1], 8, found(2), found(2)),
    Case("lows that fall short by a unit, highs that reach the level in the last unit", [4, 3, 2, 0], [4, 3, 2, 1], 10,
         refused(34), found(3)),
    Case("lows that fall short by a unit, highs with a unit to spare", [4, 3, 2, 0], [4, 3, 2, 2], 10, refused(34), found(3)),
    Case("lows and highs that fall short by two units and by one", [4, 3, 2, 0], [4, 3, 2, 1], 11, *NEITHER),
    Case("lows far below, highs that fall short by a unit", [-END] * 4, [4, 3, 2, 1], 11, *NEITHER),
    Case("lows far below, highs that reach the level in the last unit", [-END] * 4, [4, 3, 2, 1], 10, refused(34), found(3)),

    # lows that fall short, while the highs reach the level
    Case("by the highs at the first place of four", [0] * 4, [5] * 4, 5, refused(34), found(0)),
    Case("by the highs at the second", [1] * 4, [1, 4, 4, 4], 5, refused(34), found(1)),
    Case("by the highs at the third", [1] * 4, [1, 3, 3, 3], 5, refused(34), found(2)),
    Case("by the highs at the last", [0] * 4, [0, 0, 0, 5], 5, refused(34), found(3)),
    Case("by the highs at the last, one above", [0] * 4, [0, 0, 0, 5], 6, *NEITHER),

    # sums that fall
    Case("reached at 0, and fallen again", [2, -5], [2, -5], 2, found(0), found(0)),
    Case("reached at 1 alone", [1, 5, -5, 3], [1, 5, -5, 3], 6, found(1), found(1)),
    Case("reached at 0 and again at 2", [3, -2, 4], [3, -2, 4], 3, found(0), found(0)),
    Case("reached at 2, though not by the sum at 0", [3, -2, 4], [3, -2, 4], 4, found(2), found(2)),
    Case("by the highs at 0, and fallen again", [0, -9], [2, -5], 2, refused(34), found(0)),
    Case("by the highs at 0, and fallen again, one above", [0, -9], [2, -5], 3, *NEITHER),
    # highs come to 1, 6, 1 and 4
    Case("by the highs at 1 alone", [0, 0, -9, 0], [1, 5, -5, 3], 6, refused(34), found(1)),
    Case("by the highs at 1 alone, one above", [0, 0, -9, 0], [1, 5, -5, 3], 7, *NEITHER),
    # lows come to 5 and -4, highs to 5 and 0
    Case("by lows and highs at 0, both fallen again", [5, -9], [5, -5], 5, found(0), found(0)),

    # entries below zero
    Case("lows below zero first", [-5, 3, 4], [0, 3, 4], 2, found(2), found(1)),
    Case("lows below zero only", [-1, -1], [1, 1], 1, refused(34), found(0)),
    Case("highs below zero first", [-9, -9, -9], [-5, 3, 4], 2, refused(34), found(2)),
    Case("highs below zero first, one above", [-9, -9, -9], [-5, 3, 4], 3, *NEITHER),
    # highs come to 5, 2, 5 and 7; without that below zero to 5, 5, 8 and 10
    Case("a high below zero between", [-9] * 4, [5, -3, 3, 2], 6, refused(34), found(3)),
    Case("highs below zero only", [-2, -2], [-1, -1], 1, *NEITHER),
    Case("highs that come to 0 only", [-1, -1], [0, 0], 1, *NEITHER),

    # sure and possible far apart
    Case("sure at the last total, possible at the first", [0, 0, 0, 5], [5, 5, 5, 5], 5, found(3), found(0)),
    # lows come to 1, 3, 6 and 10, highs to 2, 6, 12 and 20
    Case("sure at 3, possible at 2", [1, 2, 3, 4], [2, 4, 6, 8], 10, found(3), found(2)),
    Case("sure at 2, possible at 1", [1, 2, 3, 4], [2, 4, 6, 8], 6, found(2), found(1)),

    # two conditions at once: the first in the list
    Case("31 and 32", [], [], 0, *both(31)),
    Case("31 and 32, other ends", LOW, HIGH[:3], UNIT + 1, *both(31)),
    Case("31 and 33", [MOST, 0], [0], 1, *both(31)),
    Case("31, 32 and 33", [MOST] * 502, [LEAST] * 502, LEAST, *both(31)),
    Case("31, 34 and 35", [1], [1, 1], 3, *both(31)),
    Case("31 and 34, though the highs reach the level", [0], [0, 5], 5, *both(31)),
    Case("32 and 33", HIGH, LOW, 0, *both(32)),
    Case("32, 34 and 35", [0], [0], UNIT + 1, *both(32)),
    Case("32 and 34, though a sum of highs reaches it", [0], [END], UNIT + 1, *both(32)),
    Case("32, 33, 34 and 35", [1], [0], UNIT + 1, *both(32)),
    Case("33, 34 and 35", [1], [0], 2, *both(33, 0)),
    Case("33 and 34, though the highs reach the level", [0, 1], [5, 0], 5, *both(33, 1)),
    Case("33 and 35, though the lows reach the level", [0, 5], [0, 4], 5, *both(33, 1)),
    Case("33 at the last place, 34 and 35", [0, 0, 0, 1], [1, 1, 1, 0], 9, *both(33, 3)),
]
