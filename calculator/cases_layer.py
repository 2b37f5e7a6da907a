"""Calls of layers. The paper's limits and the wish's are written out in the cases, for limits.py to be held to. A layer from c to d is the
pair (c, d), and what it costs the pair of its low and its high."""
from typing import NamedTuple

from cases_level import END, HIGH, LEAST, LOW, MOST
from limits import UNIT

# the greatest attachment, limit and count that 64 bits hold
GREATEST = 2 ** 64 - 1


class Case(NamedTuple):
    """What is tried, the two rows and the list of layers, the number and place that the wish asks for, and what each layer costs. How many
    layers the call is told of, if that is not all of the list: layers of the list beyond them are in the arrays, and where the list is
    shorter, there are zeros. How many places of the two answer rows are lent (if nothing is said, two more than are told of; the program
    has 80 for each)."""
    name: str
    low: list
    high: list
    layers: list
    number: int
    place: int
    costs: list
    count: int = None
    lent: tuple = None

    def told(self):
        return len(self.layers) if self.count is None else self.count

    def places(self):
        return self.lent or [min(self.told() + 2, 80)] * 2


def taken(name, low, high, layers, costs, **others):
    return Case(name, low, high, layers, 0, 0, costs, **others)


def refused(number, place, name, low, high, layers, **others):
    return Case(name, low, high, layers, number, place, [], **others)


# a layer that all rows allow
FRONT = [(0, 1)]


def refused_31(name, low, high, layers=FRONT, **others):
    return refused(31, 0, name, low, high, layers, **others)


def refused_33(place, name, low, high, layers=FRONT, **others):
    return refused(33, place, name, low, high, layers, **others)


def refused_61(name, layers, **others):
    """On the rows of P1."""
    return refused(61, 0, name, LOW, HIGH, layers, **others)


def refused_62(place, name, *layers, **others):
    return refused(62, place, name, LOW, HIGH, list(layers), **others)


def refused_63(place, name, *layers, **others):
    return refused(63, place, name, LOW, HIGH, list(layers), **others)


# On the rows of P1, which are 367879441, 183939720, 229924650, 99634015 and 367879442, 183939721, 229924652, 99634016.
P1 = {
    # saves 1 at 0: U - 367879442 and U - 367879441
    (0, 1): (632120558, 632120559),
    # saves 2, 1: 2U - (735758884 + 183939721) and 2U - (735758882 + 183939720)
    (0, 2): (1080301395, 1080301398),
    # saves 4, 3, 2, 1: 4U - (1471517768 + 551819163 + 459849304 + 99634016) = 4U - 2582820251,
    # and 4U - (1471517764 + 551819160 + 459849300 + 99634015) = 4U - 2582820239
    (0, 4): (1417179749, 1417179761),
    # saves 1, 1: U - 551819163 and U - 551819161
    (1, 2): (448180837, 448180839),
    # saves 2, 2, 1: 2U - (735758884 + 367879442 + 229924652) = 2U - 1333562978, and 2U - (735758882 + 367879440 + 229924650)
    (1, 3): (666437022, 666437028),
    # saves 2, 2, 2, 1: 2U - (735758884 + 367879442 + 459849304 + 99634016) = 2U - 1663121646,
    # and 2U - (735758882 + 367879440 + 459849300 + 99634015) = 2U - 1663121637; with (0, 2) it comes to what (0, 4) costs
    (2, 4): (336878354, 336878363),
    # saves 1 at each: U - 881377831 and U - 881377826
    (3, 4): (118622169, 118622174),
}


def on_p1(name, *layers, **others):
    """An acceptance; the layers that the call is told of are those of P1."""
    told = others.get("count", len(layers))
    return taken(name, LOW, HIGH, list(layers), [P1[layer] for layer in layers[:told]], **others)


# Lows that are powers of ten, and highs that are twice these. What a layer saves at 0, 1, 2, .. are then the digits of the sum of saving
# times low, from its last digit on: 12333 for (2, 5), which saves 3 below 2, then 3, 2 and 1.
TENS = [1, 10, 100, 1000, 10000, 100000]
TWENTIES = [2, 20, 200, 2000, 20000, 200000]
SAVED = {
    (0, 1): 1, (0, 2): 12, (0, 3): 123, (0, 4): 1234, (0, 5): 12345, (0, 6): 123456,
    (1, 2): 11, (1, 3): 122, (1, 4): 1233, (1, 5): 12344, (1, 6): 123455,
    (2, 3): 111, (2, 4): 1222, (2, 5): 12333, (2, 6): 123444,
    (3, 4): 1111, (3, 5): 12222, (3, 6): 123333,
    (4, 5): 11111, (4, 6): 122222,
    (5, 6): 111111,
}


def on_tens(name, *layers):
    costs = [((d - c) * UNIT - 2 * SAVED[c, d], (d - c) * UNIT - SAVED[c, d]) for c, d in layers]
    return taken(name, TENS, TWENTIES, list(layers), costs)


def alone(x, low, high):
    """Rows of 6 places with one low and one high, at place x, and zeros."""
    return [low if y == x else 0 for y in range(6)], [high if y == x else 0 for y in range(6)]


# a fair coin tossed twice, in units: the rows of P2
TOSSES = [250000000, 500000000, 250000000, 0, 0]

# layer n from n to 2n+1
MANY = [(n, 2 * n + 1) for n in range(64)]

VALUES = [
    # the paper's own rows
    *[on_p1(f"P1, {c}:{d}", (c, d)) for c, d in P1],
    on_p1("P1, layers that lie above each other", (0, 1), (1, 2), (2, 4)),
    on_p1("P1, layers in another order", (2, 4), (0, 1), (1, 2)),
    on_p1("P1, layers that overlap", (0, 2), (1, 3), (2, 4)),
    on_p1("P1, a layer in another", (0, 4), (1, 3)),
    on_p1("P1, a layer that begins where another does, and one that ends where another does", (0, 1), (0, 4), (3, 4)),
    on_p1("P1, layers with totals between them that none pays for", (0, 1), (3, 4)),
    on_p1("P1, the same layer twice", (1, 3), (1, 3)),
    on_p1("P1, the same layer twice, with another between", (1, 3), (0, 4), (1, 3)),
    # the mean of all heads, which is 1: saves 5, 4, 3: 5U - (1250000000 + 2000000000 + 750000000); of those above 1: saves 4, 4, 3:
    # 4U - (1000000000 + 2000000000 + 750000000); of those above 2: saves 3, 3, 3: 3U - 3U. The first alone: U - 250000000; the second:
    # saves 1, 1: U - 750000000; a third: saves 1, 1, 1: U - U
    taken("a coin tossed twice", TOSSES, TOSSES, [(0, 5), (1, 5), (2, 5), (0, 1), (1, 2), (2, 3)],
          [(UNIT, UNIT), (250000000, 250000000), (0, 0), (750000000, 750000000), (250000000, 250000000), (0, 0)]),
    # the rows of P3: saves 2, 1: 2U - (4 + 0) and 2U - (2 - 1); saves 1, 1: U - (2 + 0) and U - (1 - 1)
    taken("P3, a low below zero", [1, -1], [2, 0], [(0, 2), (1, 2)], [(1999999996, 1999999999), (999999998, UNIT)]),
    # P6: saves 2, 1: 2U - (2U + U) and 2U - 0; saves 1, 1: U - 2U and U - 0
    taken("P6, rows from 0 to U", [0, 0], [UNIT, UNIT], [(0, 2), (1, 2)], [(-UNIT, 2 * UNIT), (-UNIT, UNIT)]),

    # every layer of 6 places
    *[on_tens(f"powers of ten, {c}:{d}", (c, d)) for c, d in SAVED],
    on_tens("powers of ten, all layers", *SAVED),
    on_tens("powers of ten, all layers from the last on", *reversed(SAVED)),

    # one number alone, from 7 to 9, under the layer from 2 to 5: it saves 3 at 0, 1 and 2, then 2, 1 and 0. With no cap below c it would
    # save 5 at 0 and 4 at 1.
    *[taken(f"a number at {x}, below c", *alone(x, 7, 9), [(2, 5)], [(2999999973, 2999999979)]) for x in (0, 1)],
    taken("a number at 2, which is c", *alone(2, 7, 9), [(2, 5)], [(2999999973, 2999999979)]),
    taken("a number at 3, between c and d", *alone(3, 7, 9), [(2, 5)], [(2999999982, 2999999986)]),
    taken("a number at 4, just below d", *alone(4, 7, 9), [(2, 5)], [(2999999991, 2999999993)]),
    taken("a number at 5, which is d", *alone(5, 7, 9), [(2, 5)], [(3000000000, 3000000000)]),
    taken("a number at 5, beyond d", *alone(5, 7, 9), [(2, 4)], [(2000000000, 2000000000)]),
    # the same from -9 to -7, with the highs in the low: 3U + 21 and 3U + 27, 3U + 7 and 3U + 9
    taken("a number below zero at 1, below c", *alone(1, -9, -7), [(2, 5)], [(3000000021, 3000000027)]),
    taken("a number below zero at 4, just below d", *alone(4, -9, -7), [(2, 5)], [(3000000007, 3000000009)]),
    # from -9 to 7 at c: 3U - 21 and 3U + 27
    taken("a number below zero or above it, at c", *alone(2, -9, 7), [(2, 5)], [(2999999979, 3000000027)]),

    # costs about zero
    taken("a layer that costs nothing", [UNIT], [UNIT], [(0, 1)], [(0, 0)]),
    taken("a low below zero, a high of 0", [UNIT], [UNIT + 1], [(0, 1)], [(-1, 0)]),
    taken("a low of 0, a high above it", [UNIT - 1], [UNIT], [(0, 1)], [(0, 1)]),
    taken("low and high below zero", [UNIT + 5], [UNIT + 7], [(0, 1)], [(-7, -5)]),
    taken("a high above d - c", [-5], [0], [(0, 1)], [(UNIT, UNIT + 5)]),
    # saves 2, 1: 2U - (4U + 2U) and 2U - (-4U + 2U); saves 1, 1: U - (2U + 2U) and U - (-2U + 2U)
    taken("entries of -2U and 2U", [-END, END], [END, END], [(0, 2), (1, 2)], [(-4 * UNIT, 4 * UNIT), (-3 * UNIT, UNIT)]),

    # 501 places: with entries of 2U, c:d costs d - c less twice what it saves, which is c * c - d * d in U; with entries of -2U it costs
    # d - c and twice what it saves. 0:501 has the least and the greatest of these.
    # 0:501 saves 501 + .. + 1 = 501 * 502 / 2 = 125751 in all, and twice that is 251502; 501 - 251502 and 501 + 251502, in U
    # 1:501 saves 500 + 500 * 501 / 2 = 125750, twice 251500; 500 - 251500 and 500 + 251500
    # 250:501 saves 250 * 251 + 251 * 252 / 2 = 62750 + 31626 = 94376, twice 188752; 251 - 188752 and 251 + 188752
    # 500:501 saves 501, twice 1002; 1 - 1002 and 1 + 1002. 0:1 saves 1, twice 2; 1 - 2 and 1 + 2
    taken("501 places from -2U to 2U", [-END] * 501, [END] * 501, [(0, 501), (1, 501), (250, 501), (500, 501), (0, 1)],
          [(-251_001_000_000_000, 252_003_000_000_000), (-251_000_000_000_000, 252_000_000_000_000),
           (-188_501_000_000_000, 189_003_000_000_000), (-1_001_000_000_000, 1_003_000_000_000), (-1_000_000_000, 3_000_000_000)]),
    taken("501 places of 2U, the lowest cost", [END] * 501, [END] * 501, [(0, 501)], [(-251_001_000_000_000, -251_001_000_000_000)]),
    taken("501 places of -2U, the highest cost", [-END] * 501, [-END] * 501, [(0, 501)], [(252_003_000_000_000, 252_003_000_000_000)]),
    taken("501 places, the lowest and the highest cost 64 times", [-END] * 501, [END] * 501, [(0, 501)] * 64,
          [(-251_001_000_000_000, 252_003_000_000_000)] * 64),
    taken("501 places of 0", [0] * 501, [0] * 501, [(0, 501), (500, 501), (499, 500)],
          [(501_000_000_000, 501_000_000_000), (UNIT, UNIT), (UNIT, UNIT)]),
    # what stands at 500 is saved once by the layers to 501, and not by that to 500
    taken("501 places, the last high alone", [0] * 501, [0] * 500 + [1], [(0, 501), (0, 500), (500, 501), (499, 500), (499, 501)],
          [(500_999_999_999, 501_000_000_000), (500_000_000_000, 500_000_000_000), (999_999_999, UNIT), (UNIT, UNIT),
           (1_999_999_999, 2_000_000_000)]),
    # what stands at 0 is saved d - c times by each: 501, 500, 1, 1 and 2 times
    taken("501 places, the first low alone", [-1] + [0] * 500, [0] * 501, [(0, 501), (0, 500), (500, 501), (499, 500), (499, 501)],
          [(501_000_000_000, 501_000_000_501), (500_000_000_000, 500_000_000_500), (UNIT, UNIT + 1), (UNIT, UNIT + 1),
           (2_000_000_000, 2_000_000_002)]),
]

# What the layers MANY cost where all lows are 0 and all highs 1: layer n saves n+1 at each of the n totals below n, then n+1, n, .. to 1,
# which comes to (n+1) * n + (n+1) * (n+2) / 2 = (n+1) * (3n+2) / 2.
COSTS_OF_MANY = [((n + 1) * UNIT - (n + 1) * (3 * n + 2) // 2, (n + 1) * UNIT) for n in range(64)]


def many(name, count, **others):
    """127 places, which is the limit of layer 63."""
    return taken(name, [0] * 127, [1] * 127, MANY, COSTS_OF_MANY[:count], count=count, **others)


ANSWER_ROWS = [
    many("64 layers", 64),
    many("64 layers, no place too many", 64, lent=(64, 64)),
    many("64 layers, 80 places for lows", 64, lent=(80, 64)),
    many("64 layers, 80 places for highs", 64, lent=(64, 80)),
    many("64 layers, 63 of them told of", 63, lent=(80, 80)),
    many("64 layers, 63 of them told of, no place too many", 63, lent=(63, 63)),
    many("64 layers, one of them told of", 1, lent=(1, 80)),
    on_p1("one layer, no place too many", (1, 3), lent=(1, 1)),
    on_p1("one layer, 80 places for lows", (1, 3), lent=(80, 1)),
    on_p1("one layer, 80 places for highs", (1, 3), lent=(1, 80)),
    on_p1("two layers, rows of several lengths", (1, 3), (0, 4), lent=(2, 5)),
    on_p1("two layers, rows of several lengths, the other way about", (1, 3), (0, 4), lent=(5, 2)),
]

# layers beyond those that the call is told of
BEYOND = [
    on_p1("a layer beyond", (0, 4), (1, 3), count=1),
    on_p1("an attachment equal to its limit beyond", (0, 4), (3, 3), count=1),
    on_p1("an attachment above its limit beyond", (0, 4), (1, 3), (3, 0), count=2),
    on_p1("a limit above the rows' length beyond", (0, 4), (0, 5), count=1),
    on_p1("the greatest attachments and limits beyond", (0, 4), *[(GREATEST, GREATEST)] * 63, count=1),
    on_p1("the greatest limits beyond", (0, 4), *[(0, GREATEST)] * 63, count=1),
    on_p1("layer 63 wrong, 63 layers told of", *[(0, 4)] * 63, (4, 4), count=63),
    on_p1("layer 63 too long, 63 layers told of", *[(0, 4)] * 63, (0, 5), count=63),
]

ROWS = [
    # 31
    refused_31("no places", [], []),
    refused_31("no lows", [], HIGH),
    refused_31("no highs", LOW, []),
    refused_31("a low less", LOW[:3], HIGH),
    refused_31("a high less", LOW, HIGH[:3]),
    refused_31("a low less, at a total beyond the limit", LOW[:3], HIGH, [(0, 2)]),
    refused_31("502 places", [0] * 502, [0] * 502),
    refused_31("502 places, all of them in a layer", [0] * 502, [0] * 502, [(0, 502)]),
    refused_31("512 places", [0] * 512, [0] * 512),
    refused_31("502 lows, 501 highs", [0] * 502, [0] * 501),
    refused_31("501 lows, 502 highs", [0] * 501, [0] * 502),
    # saves 1: U - 5 and U - 3
    taken("one place", [3], [5], [(0, 1)], [(999999995, 999999997)]),
    taken("501 places, a layer in front", [3] * 501, [5] * 501, [(0, 1)], [(999999995, 999999997)]),

    # 33
    refused_33(0, "a low below -2U", [-END - 1, 5], [0, 5]),
    refused_33(1, "a high above 2U", [5, 0], [5, END + 1], [(0, 2)]),
    refused_33(1, "a low and a high above 2U", [5, END + 1], [5, END + 1], [(0, 2)]),
    refused_33(1, "a low and a high below -2U", [5, -END - 1], [5, -END - 1], [(0, 2)]),
    refused_33(1, "the least low that 64 bits hold", [5, LEAST], [5, 0], [(0, 2)]),
    refused_33(1, "the greatest high that 64 bits hold", [5, 0], [5, MOST], [(0, 2)]),
    refused_33(1, "the greatest low, the least high", [5, MOST], [5, LEAST], [(0, 2)]),
    refused_33(0, "a low one above its high, at the first place", [6, 5], [5, 5]),
    refused_33(0, "a low one above its high, below zero", [-5], [-6]),
    refused_33(3, "a low one above its high, at the last place", [5, 5, 5, 6], [5, 5, 5, 5], [(0, 4)]),
    refused_33(1, "wrong entries at 1, 2 and 3", [0, 1, -END - 1, MOST], [0, 0, 0, MOST], [(0, 4)]),
    refused_33(500, "a wrong entry at 500, the last place", [1] * 501, [1] * 500 + [0], [(0, 501)]),
    refused_33(2, "a wrong entry at the limit", [5, 5, 6], [5, 5, 5], [(0, 2)]),
    refused_33(500, "a wrong entry far beyond the limit", [0] * 501, [0] * 500 + [END + 1]),
    refused_33(0, "a wrong entry below the attachment", [6, 5, 5], [5, 5, 5], [(2, 3)]),
    refused_33(2, "a wrong entry, two layers", [0, 0, 1], [0, 0, 0], [(0, 1), (1, 2)]),
    # saves 2, 1: 2U - 15
    taken("lows equal to their highs", [5, 5], [5, 5], [(0, 2)], [(1999999985, 1999999985)]),
    # saves 1 at each: U - (-2U + 2U + 2U + 2U) and U - (-2U - 2U + 2U + 2U)
    taken("lows and highs of -2U, and of 2U", [-END, -END, END, END], [-END, END, END, END], [(3, 4)], [(-3 * UNIT, UNIT)]),
]

# 61
COUNTS = [
    refused_61("no layers", []),
    refused_61("no layers, and no places for answers", [], lent=(0, 0)),
    refused_61("two layers, none told of", [(0, 4), (1, 3)], count=0),
    refused_61("65 layers", [(0, 4)] * 64, count=65),
    refused_61("65 layers, 65 places", [(0, 4)] * 64, count=65, lent=(65, 65)),
    refused_61("80 layers", [(0, 4)] * 64, count=80, lent=(80, 80)),
    refused_61("2^32 + 1 layers", [(0, 4)] * 64, count=2 ** 32 + 1),
    refused_61("2^63 layers", [(0, 4)] * 64, count=2 ** 63),
    refused_61("2^64 - 1 layers, the greatest count", [(0, 4)] * 64, count=GREATEST),
    refused_61("2^64 - 1 layers, and none in the arrays", [], count=GREATEST),
    refused_61("two layers, a place less for lows", [(0, 4), (1, 3)], lent=(1, 2)),
    refused_61("two layers, a place less for highs", [(0, 4), (1, 3)], lent=(2, 1)),
    on_p1("two layers, no place too many", (0, 4), (1, 3), lent=(2, 2)),
    refused_61("two layers, a place less for lows, 80 for highs", [(0, 4), (1, 3)], lent=(1, 80)),
    refused_61("two layers, 80 places for lows, one less for highs", [(0, 4), (1, 3)], lent=(80, 1)),
    refused_61("one layer, no place for lows", [(0, 4)], lent=(0, 1)),
    refused_61("one layer, no place for highs", [(0, 4)], lent=(1, 0)),
    refused_61("one layer, no places", [(0, 4)], lent=(0, 0)),
    refused_61("64 layers, a place less for lows", [(0, 4)] * 64, lent=(63, 64)),
    refused_61("64 layers, a place less for highs", [(0, 4)] * 64, lent=(64, 63)),
    refused_61("65 layers, 64 places", [(0, 4)] * 64, count=65, lent=(64, 64)),
]

# 62 and 63
GOOD = [(0, 4)]
LAYERS = [
    refused_62(0, "c 0, d 0", (0, 0)),
    refused_62(0, "c 1, d 1", (1, 1)),
    refused_62(0, "c 1, d 0", (1, 0)),
    refused_62(0, "c 3, d 2", (3, 2)),
    refused_62(0, "c 4, d 4", (4, 4)),
    on_p1("c 3, d 4", (3, 4)),
    on_p1("c 0, d 1", (0, 1)),
    refused_62(0, "the greatest c, d 0", (GREATEST, 0)),
    refused_62(0, "the greatest c, d 4", (GREATEST, 4)),
    refused_62(0, "c 2^32, d 4", (2 ** 32, 4)),
    refused_62(1, "layer 1 of two", *GOOD, (2, 2)),
    refused_62(1, "layer 1 of three", *GOOD, (2, 2), *GOOD),
    refused_62(1, "layers 1 and 2 of three", *GOOD, (2, 2), (2, 1)),
    refused_62(63, "layer 63 of 64", *GOOD * 63, (2, 2)),
    refused_62(5, "layers 5 and 63 of 64", *GOOD * 5, (2, 2), *GOOD * 57, (2, 2)),
    refused_62(2, "three layers told of, two in the arrays", *GOOD * 2, count=3),
    refused_62(0, "one layer told of, none in the arrays", count=1),
    refused_62(63, "64 layers told of, 63 in the arrays", *GOOD * 63, count=64),

    on_p1("d 4, the rows' length", (0, 4), (2, 4), (3, 4)),
    refused_63(0, "d 5, one above the rows' length", (0, 5)),
    refused_63(0, "c 3, d 5", (3, 5)),
    refused_63(0, "c 4, the rows' length, d 5", (4, 5)),
    refused_63(0, "c 5, d 6", (5, 6)),
    refused_63(0, "c 0, the greatest d", (0, GREATEST)),
    refused_63(0, "the greatest c that is below a d", (GREATEST - 1, GREATEST)),
    refused_63(0, "d 2^32 + 1", (0, 2 ** 32 + 1)),
    refused_63(0, "d 2^63", (0, 2 ** 63)),
    refused_63(1, "layer 1 of two too long", *GOOD, (0, 5)),
    refused_63(1, "layer 1 of three too long", *GOOD, (0, 5), *GOOD),
    refused_63(63, "layer 63 of 64 too long", *GOOD * 63, (0, 5)),
    refused_63(5, "layers 5 and 63 of 64 too long", *GOOD * 5, (0, 5), *GOOD * 57, (0, 5)),
    refused(63, 0, "one place, d 2", [3], [5], [(0, 2)]),
    taken("501 places of 0, d 501", [0] * 501, [0] * 501, [(1, 501)], [(500_000_000_000, 500_000_000_000)]),
    refused(63, 0, "501 places, d 502", [0] * 501, [0] * 501, [(0, 502)]),
    taken("500 places of 0, d 500", [0] * 500, [0] * 500, [(0, 500)], [(500_000_000_000, 500_000_000_000)]),
    refused(63, 0, "500 places, d 501", [0] * 500, [0] * 500, [(0, 501)]),
]

# two conditions at once: the first in the list
ORDER = [
    refused_31("31 and 33", [MOST, 0], [0]),
    refused_31("31 and 61", [], [], []),
    refused_31("31 and 61, 65 layers", LOW, HIGH[:3], GOOD * 64, count=65),
    refused_31("31 and 61, no places for answers", LOW[:3], HIGH, lent=(0, 0)),
    refused_31("31 and 62", LOW, HIGH[:3], [(1, 1)]),
    refused_31("31 and 63", LOW, HIGH[:3], [(0, 5)]),
    refused_31("31 and 63, by the shorter row alone", LOW, HIGH[:3], [(0, 4)]),
    refused_31("31, 33, 61, 62 and 63", [MOST] * 502, [LEAST] * 502, [(GREATEST, GREATEST)] * 64, count=65, lent=(0, 0)),
    refused_33(0, "33 and 61", HIGH, LOW, []),
    refused_33(1, "33 and 61, 65 layers", [0, 1], [0, 0], [(0, 1)] * 64, count=65),
    refused_33(1, "33 and 61, no places for answers", [0, 1], [0, 0], lent=(0, 0)),
    refused_33(1, "33 and 62", [0, 1], [0, 0], [(1, 1)]),
    refused_33(1, "33 and 63", [0, 1], [0, 0], [(0, 3)]),
    refused_33(3, "33 at the last place, 62 and 63", [0, 0, 0, 1], [0, 0, 0, 0], [(9, 9)]),
    refused_33(1, "33, 61, 62 and 63", [0, 1], [0, 0], [(9, 9)] * 64, count=GREATEST),
    refused_61("61 and 62, none told of", [(1, 1)], count=0),
    refused_61("61 and 62, 65 layers", [(1, 1)] * 64, count=65),
    refused_61("61 and 62, a place less for lows", [(1, 1), (0, 4)], lent=(1, 2)),
    refused_61("61 and 62, a place less for highs", [(1, 1), (0, 4)], lent=(2, 1)),
    refused_61("61 and 63, none told of", [(0, 5)], count=0),
    refused_61("61 and 63, 65 layers", [(0, 5)] * 64, count=65),
    refused_61("61 and 63, a place less for lows", [(0, 5), (0, 4)], lent=(1, 2)),
    refused_61("61, 62 and 63", [(5, 5)], lent=(0, 0)),
    refused_62(0, "62 and 63 of one layer", (5, 5)),
    refused_62(0, "62 and 63 of one layer, c above d", (6, 5)),
    refused_62(0, "62 and 63 of one layer, the greatest c and d", (GREATEST, GREATEST)),
    refused_62(0, "62 and 63 of one layer, the greatest c", (GREATEST, GREATEST - 1)),
    refused_62(1, "62 and 63 of layer 1", *GOOD, (5, 5)),
    refused_63(0, "63 of layer 0, 62 of layer 1", (0, 5), (1, 1)),
    refused_62(0, "62 of layer 0, 63 of layer 1", (1, 1), (0, 5)),
    refused_63(1, "63 of layer 1, 62 of layer 2", *GOOD, (0, 5), (1, 1)),
    refused_62(1, "62 of layer 1, 63 of layer 2", *GOOD, (1, 1), (0, 5)),
    refused_63(0, "63 of layer 0, 62 and 63 of layer 1", (0, 5), (5, 5)),
    refused_63(62, "63 of layer 62, 62 of layer 63", *GOOD * 62, (0, 5), (1, 1)),
    refused_62(62, "62 of layer 62, 63 of layer 63", *GOOD * 62, (1, 1), (0, 5)),
]

CASES = [*VALUES, *ANSWER_ROWS, *BEYOND, *ROWS, *COUNTS, *LAYERS, *ORDER]
