"""Whether what layers says of the rows of an accepted curve is true: for lists of exact amounts that sum to U and lie in the rows at each
total below d, whether the sum of payment times amount lies from low to high. The payments are worked out apart from layer.py."""
import random
from fractions import Fraction

from enclosed import starts
from layer import array, layers, payment
from limits import UNIT

# how many random layers there are on a curve, and lists of random fractions for a layer
RANDOM_LAYERS = 4
RANDOM_LISTS = 3


def some_layers(places):
    """The first total and the last, all of them, all but the first, the lower half, a narrow layer on each side of the middle, and the
    middle third."""
    half, third = places // 2, places // 3
    pairs = {(0, 1), (places - 1, places), (0, places), (1, places), (0, half), (half - 1, half), (half, half + 1), (third, 2 * third)}
    return {(c, d) for c, d in pairs if 0 <= c < d <= places}


def random_layer(r, places):
    d = r.randint(1, places)
    return r.randrange(d), d


def layers_tried(r, places, known):
    """`known` is the number of totals whose exact amount is known."""
    return sorted(some_layers(places) | some_layers(known) | {random_layer(r, places) for _ in range(RANDOM_LAYERS)})


def costs(low, high, tried):
    """What the call answers, and the low and the high of each layer."""
    answer_low, answer_high = [0] * len(tried), [0] * len(tried)
    said = layers(low, high, len(tried), array([c for c, _ in tried]), array([d for _, d in tried]), answer_low, answer_high)
    return said, list(zip(answer_low, answer_high))


def paid(x, c, d):
    """What the total x has between c and d."""
    return min(x, d) - min(x, c)


def sum_paid(amounts, c, d):
    return sum(paid(x, c, d) * amount for x, amount in enumerate(amounts) if amount)


def filled(amounts):
    """Up to U, by one more amount."""
    return [*amounts, UNIT - sum(amounts)]


def random_list(r, low, high):
    """Fractions between these lows and highs, and one to five further amounts that fill them up to U. Further amounts may be negative."""
    below = [least + (most - least) * Fraction(r.randint(0, 12), 12) for least, most in zip(low, high)]
    further = [Fraction(r.randint(-3 * UNIT, 3 * UNIT), r.randint(1, 9)) for _ in range(r.randint(0, 4))]
    return filled(below + further)


def exact_lists(job, amounts):
    """The exact amounts for both starts and one between; `amounts` are those per unit of the start."""
    return [[start * amount for amount in amounts] for start in starts(job)]


def exact_whole(job, amounts):
    """The exact amounts for the start at which these alone come to U, where that is a start of the job. So it is for a distribution with
    all its totals in the rows."""
    start = Fraction(UNIT) / sum(amounts) if sum(amounts) > 0 else 0
    return [[start * amount for amount in amounts]] if job.low_start <= start <= job.high_start else []


def from_exact(exact, whole, d):
    """Lists for a layer to d, each with its kind: one amount stands for all totals from d on, or for those that are not known, or none is
    needed."""
    yield from (("exact amounts below d", filled(listed[:d])) for listed in exact if d <= len(listed))
    yield from (("exact amounts from d on too", filled(listed)) for listed in exact if d < len(listed))
    yield from (("exact amounts that come to U", listed) for listed in whole if d <= len(listed))


def from_rows(r, low, high, d):
    """The same, by any amounts in the rows below d."""
    yield "lows", filled(low[:d])
    yield "highs", filled(high[:d])
    yield from (("amounts between", random_list(r, low[:d], high[:d])) for _ in range(RANDOM_LISTS))


def off_cost(kind, mean, low, high):
    """Where each amount below d is its low, the high is paid, and where it is its high, the low is."""
    due = {"lows": high, "highs": low}
    if mean != due.get(kind, mean) or not low <= mean <= high:
        return [f"{kind}: about {float(mean)} is paid, and the layer has {low} to {high}"]
    return []


def off_payments(c, d, places):
    """Up to two totals behind the rows."""
    wrong = [x for x in range(places + 2) if payment(x, c, d) != paid(x, c, d)]
    return [f"at {wrong} the payment is not what the total has between c and d"] if wrong else []


def tried_on_curve(job, rows, amounts):
    """The kind of each list that was tried on some layers, with what is wrong. The rows may have further places."""
    places, r = job.last + 1, random.Random(str(job))
    low, high = rows.low[:places], rows.high[:places]
    exact, whole = exact_lists(job, amounts), exact_whole(job, amounts)
    tried = layers_tried(r, places, len(amounts))
    said, found = costs(low, high, tried)
    yield "calls", [] if said == (0, 0) else [f"layers is answered by {said}"]
    for (c, d), cost in zip(tried, found):
        yield "layers", [f"layer {c}:{d}: {fault}" for fault in off_payments(c, d, places)]
        for kind, listed in [*from_exact(exact, whole, d), *from_rows(r, low, high, d)]:
            yield kind, [f"layer {c}:{d}: {fault}" for fault in off_cost(kind, sum_paid(listed, c, d), *cost)]
