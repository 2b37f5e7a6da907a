"""Whether the law made by an accepted call follows the customer's own line, with the customer's own four numbers, in exact fractions. How A
and B were made is not used. And whether the law made is the one that its name says."""
from fractions import Fraction

from exact import by_terms
from limits import MOST_DIVISOR, MOST_TERM, UNIT

# Up to this n the line is looked at.
LAST = 40

# Chances of no claims. The line does not tell p_0, and holds whatever it is.
STARTS = [Fraction(1), Fraction(1, 3), Fraction(367879441, UNIT)]


def panjer_willmot_line(alpha_0, alpha_1, beta_0, beta_1):
    """The numbers before p_n and before p_(n-1), by n, in (alpha_0 + alpha_1 n) p_n = (beta_0 + beta_1 (n-1)) p_(n-1)."""
    return lambda n: (alpha_0 + alpha_1 * n, beta_0 + beta_1 * (n - 1))


def hesselager_line(b_0, b_1, a_0, a_1):
    """The same in (b_0 + b_1 n) p_n = (a_0 + a_1 n) p_(n-1)."""
    return lambda n: (b_0 + b_1 * n, a_0 + a_1 * n)


def coefficients(made):
    """P_0 to P_LAST, by the paper's definition."""
    coefficient = by_terms(made.divisor, [made.a], [made.b])
    return [coefficient(n) for n in range(LAST + 1)]


def by_line(line, first):
    """The sequence that the line itself yields from its first member on. It ends where the line leaves p_n open."""
    members = [first]
    for n in range(1, LAST + 1):
        left, right = line(n)
        if left == 0:
            break
        members.append(members[-1] * right / left)
    return members


def not_taken(made):
    """Checks 2 and 3 of the curve."""
    if not 1 <= made.divisor <= MOST_DIVISOR or max(abs(made.a), abs(made.b)) > MOST_TERM:
        yield f"{made.divisor}, {made.a} and {made.b} are no divisor and terms for a curve"


def reduced(made, line):
    """D is the coefficient of n on the left but for its sign, and by this coefficient the left grows from n to n+1."""
    size = abs(line(2)[0] - line(1)[0])
    if made.divisor != size:
        yield f"D is {made.divisor}, and not {size} as the coefficient of n on the left is, but for its sign"


def not_satisfied(line, members):
    """For which n the members of a sequence, from p_0 on, do not satisfy the line."""
    sides = ((n, *line(n)) for n in range(1, len(members)))
    return [n for n, left, right in sides if left * members[n] != right * members[n - 1]]


def not_followed(made, line):
    counts = coefficients(made)
    for start in STARTS:
        members = [start * count for count in counts]
        wrong = not_satisfied(line, members)
        if wrong:
            yield f"with p_0 = {start} the law made does not satisfy the customer's line for n in {wrong}"
        if by_line(line, start) != members:
            yield f"from p_0 = {start} the customer's line yields another sequence than p_0 times the count coefficients"


def off_line(made, line):
    """The sequences are looked at only where D and the terms are good."""
    yield from [*not_taken(made), *reduced(made, line)] or not_followed(made, line)


def off_panjer_willmot(made, *given):
    return off_line(made, panjer_willmot_line(*given))


def off_hesselager(made, *given):
    return off_line(made, hesselager_line(*given))


def another_law(made, known):
    """`known` tells A/D, B/D and the closed form of the count coefficients."""
    if (Fraction(made.a, made.divisor), Fraction(made.b, made.divisor)) != (known.a, known.b):
        yield f"A/D and B/D are not {known.a} and {known.b}"
    if coefficients(made) != [known.closed(n) for n in range(LAST + 1)]:
        yield "the count coefficients are not those of the law's closed form"
