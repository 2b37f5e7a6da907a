"""The call layers as Wish 6 has it, in Python's whole numbers. Its rows are checked as those of the level query are."""
from level import check_entries, check_rows
from limits import MOST_LAYERS, UNIT


def saving(x, c, d):
    """What the layer from c to d saves at the total x: "d - c when x is below c, d - x from c to d, and 0 beyond"."""
    if x < c:
        return d - c
    if x <= d:
        return d - x
    return 0


def payment(x, c, d):
    """What it pays there: "the rest of d - c"."""
    return d - c - saving(x, c, d)


def less_saved(row, c, d):
    """The high, where the row is that of the lows: "(d - c) times U less the sum of saving times low over x below d". "the low uses the
    highs"."""
    return (d - c) * UNIT - sum(saving(x, c, d) * row[x] for x in range(d))


def array(numbers):
    """Attachments or limits as the call takes them: in 64 places, of which those not written are 0."""
    return [*numbers, *[0] * (MOST_LAYERS - len(numbers))]


def check_count(count, answer_low, answer_high):
    """Refusal 61 as number and place, or None."""
    return None if 1 <= count <= min(MOST_LAYERS, len(answer_low), len(answer_high)) else (61, 0)


def check_layers(count, attachments, limits, places):
    """Refusal 62 or 63, or None. The place is the layer's number, from 0."""
    for n in range(count):
        if attachments[n] >= limits[n]:
            return 62, n
        if limits[n] > places:
            return 63, n
    return None


def layers(low, high, count, attachments, limits, answer_low, answer_high):
    """The call: its answer as number and place, (0, 0) for an acceptance. It writes into the two answer rows."""
    refusal = (check_rows(low, high) or check_entries(low, high) or check_count(count, answer_low, answer_high)
               or check_layers(count, attachments, limits, len(low)))
    if refusal:
        return refusal
    for n, (c, d) in enumerate(zip(attachments[:count], limits)):
        answer_low[n], answer_high[n] = less_saved(high, c, d), less_saved(low, c, d)
    return 0, 0
