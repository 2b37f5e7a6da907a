"""How far the rounding of doubles can take actuar's chances from the exact ones.

actuar's chance of a total x is the sum over the sizes y of (a + b y / x) f(y) times its chance of x - y; each operation is rounded, by
2^-53 of its result at most. So its error at x is at most what it carries on, the sum of |a + b y / x| f(y) times the error at x - y, and
what the roundings at x add: as many as there are, times 2^-53, times the sum of (|a| + |b| y / x) f(y) times the size of the chance of
x - y. Where a and b have different signs this may be far more than 2^-53 of the chance of x: that is cancellation."""

ROUNDING = 2.0 ** -53
LEAST = 2.0 ** -1074
# for products of errors, which are left out of what the roundings add
MARGIN = 1.01


def limits(law, weights, chances):
    """For each total a bound on the difference between actuar's chance, given in `chances`, and the exact one."""
    a, b, whole = float(law.a), float(law.b), sum(weights)
    sizes = [(y, w / whole) for y, w in enumerate(weights, 1) if w]
    # those of a and b, of b y, / x, + a, f(y), times f(y), times the chance, and of the sum
    roundings = law.terms_error + 6 + len(sizes)
    found = [MARGIN * (law.none_error * ROUNDING * float(law.none) + LEAST)]
    for x in range(1, len(chances)):
        carried, added = 0.0, 0.0
        for y, f in sizes:
            if y > x:
                break
            size = abs(a) + abs(b) * y / x
            # this, too, is computed in doubles: hence the 4
            carried += (abs(a + b * y / x) + 4 * ROUNDING * size) * f * found[x - y]
            added += size * f * abs(chances[x - y])
        found.append(carried * (1 + roundings * ROUNDING) + MARGIN * (roundings * ROUNDING * added + 3 * len(sizes) * LEAST))
    return found
