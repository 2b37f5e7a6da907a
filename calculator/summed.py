"""Whether the clerk's amounts for a table with a weight at 0 are those of Theorem 9 of source document 002. Nothing here uses the law of
the claims that are not zero: severity 0 stays in the table, and g(x) is the sum over n of p_n times the n-fold convolution at x, so that
g(0) is that of p_n q^n. Count coefficients stand for the p_n, by the law's closed form, as p_0 is a factor of all g(x)."""
from fractions import Fraction
from math import comb

# Members of a sum are added up until all that are left come to less than this, in size; so many of them at most.
SMALL = Fraction(1, 10 ** 40)
MOST_MEMBERS = 2000


def convolutions(table, last):
    """For n from 0 on: the chances that n claims, zeros among them, come to 0, 1, .. `last`. The table begins with w(0)."""
    whole = sum(table)
    row = [1] + [0] * last
    for n in range(MOST_MEMBERS):
        yield [Fraction(chance, whole ** n) for chance in row]
        row = [sum(w * row[x - y] for y, w in enumerate(table[:x + 1])) for x in range(last + 1)]


def few(n, q, last):
    """The chance that of n claims `last` at most are not zero, where each is zero with chance q; n is no less than `last`."""
    zero, whole = q.numerator, q.denominator
    return Fraction(sum(comb(n, j) * zero ** (n - j) * (whole - zero) ** j for j in range(last + 1)), whole ** n)


def rest(law, a, b, q, last, n):
    """What the members from n on come to at most, in size, at each total up to `last`; None where this does not show it. Where n claims
    come to such a total, `last` of them at most are not zero. From n to n+1 each part of that chance, by the number j of these, is
    multiplied by q (n+1)/(n+1-j), and the coefficient by a + b/(n+1), which is |a| + |b|/(n+1) at most. As both bounds fall when n grows, a
    geometric series is above the members. Once a coefficient is 0, so are all that follow."""
    first = abs(law(n))
    if first == 0:
        return first
    ratio = (abs(a) + abs(b) / (n + 1)) * q * Fraction(n + 1, n + 1 - last) if n >= last else 1
    return first * few(n, q, last) / (1 - ratio) if ratio < 1 else None


def sums(law, a, b, table, last):
    """The sums over n at the totals 0 to `last`, as far as they were added up, and what is left at most. For a binomial law nothing is.
    Without its sign a times q must be below 1, or the coefficients must come to an end."""
    q = Fraction(table[0], sum(table))
    found = [Fraction(0)] * (last + 1)
    for n, row in enumerate(convolutions(table, last)):
        left = rest(law, a, b, q, last, n)
        if left is not None and left < SMALL:
            return found, left
        coefficient = law(n)
        found = [so_far + coefficient * chance for so_far, chance in zip(found, row)]
    raise ArithmeticError(f"{MOST_MEMBERS} members do not do for the sums of a law with a = {a} on a table with q = {q}")


def sums_of_job(job, law, last):
    """The law's count coefficients are those of all claims."""
    a, b = Fraction(job.a[0], job.divisor), Fraction(job.b[0], job.divisor)
    return sums(law, a, b, [job.zero, *job.weights], last)


def off_sums(found, left, amounts):
    """Where an amount is g(x)/g(0), it is, times what was found of g(0), what was found of g(x), but for what is left of both."""
    for x, amount in enumerate(amounts):
        if abs(amount * found[0] - found[x]) > (1 + abs(amount)) * left:
            yield f"at {x}: the clerk's amount {amount} per unit is not that of Theorem 9, about {float(found[x] / found[0])}"


def beside_sums(job, law, amounts):
    """How the sums were found, and what is wrong with the clerk's amounts per unit of the start, which is g(0)."""
    found, left = sums_of_job(job, law, len(amounts) - 1)
    return "but for a rest" if left else "whole", list(off_sums(found, left, amounts))


def off_zero_total(known, q, none, zero):
    """What is wrong with the chance that the total is zero, as g(0). Both it and the chance of no claims are given by two fractions that
    they lie between."""
    (found,), left = sums(known.closed, known.a, known.b, [q.numerator, q.denominator - q.numerator], 0)
    if none[1] * (found + left) < zero[0] or zero[1] < none[0] * (found - left):
        yield f"the chance that the total is zero, about {float(zero[0])}, is not the sum of p_n q^n, about {float(none[0] * found)}"
