"""Sets the exact amounts in crates/exact/specs/Cases.antt beside those of exact.py. Every row must be known here, and agree."""
import pathlib
import re
import sys
from fractions import Fraction

import exact

LAWS = {
    "poisson": exact.poisson(Fraction(3, 2)),
    "binomial": exact.binomial(4, Fraction(1, 3)),
    "negative_binomial": exact.negative_binomial(2, Fraction(1, 3)),
    "alternating": exact.geometric(Fraction(-1, 2)),
    "together": exact.together(exact.negative_binomial(2, Fraction(1, 2)), exact.binomial(2, Fraction(1, 2))),
    "paired": exact.bunches(2, exact.poisson(Fraction(1, 2))),
}
# where a claim is of size 0 with chance q: the closed forms of the claims that are not zero
THINNED = {
    "poisson": lambda q: exact.poisson(Fraction(3, 2) * (1 - q)),
    "binomial": lambda q: exact.binomial(4, Fraction(1, 3) * (1 - q)),
    "negative_binomial": lambda q: exact.negative_binomial(2, Fraction(1, 3) * (1 - q) / (1 - Fraction(1, 3) * q)),
}
TABLES = {"single": [1], "two": [1, 1], "gap": [2, 0, 1], "four": [3, 1, 4, 1]}

INTEGER = r"(?:pos|negsuc) \d+"
FRACTION = rf"\((?:whole \({INTEGER}\)|over \({INTEGER}\) \d+ \(lit≤ tt\))\)"
LAW = r"\w+|\(thinned_law \w+ \d+ \w+ \(lit≤ tt\)\)"
ROW = re.compile(rf"^    (?:∷ )?row ({LAW}) (\w+) ({FRACTION}) (\d+) ({FRACTION})$")


def fraction(text):
    sign, upper, lower = re.match(r"\(\w+ \((\w+) (\d+)\)(?: (\d+))?", text).groups()
    upper = int(upper) if sign == "pos" else -1 - int(upper)
    return Fraction(upper, int(lower or 1))


def coefficients(law):
    """The count coefficients of a row's law. A thinned law names the law, the weight of size 0 and the table beside which that stands."""
    if law in LAWS:
        return LAWS[law]
    name, zero, table = re.match(r"\(thinned_law (\w+) (\d+) (\w+)", law).groups()
    return THINNED[name](Fraction(int(zero), int(zero) + sum(TABLES[table])))


def main():
    source = pathlib.Path(__file__).parent.parent / "crates/exact/specs/Cases.antt"
    lines = [line for line in source.read_text().splitlines() if re.match(r"    (∷ )?row ", line)]
    wrong = 0
    for line in lines:
        row = ROW.match(line)
        if not row:
            sys.exit(f"no row of the table: {line}")
        law, table, start, total, stated = row.groups()
        found = exact.amount(coefficients(law), TABLES[table], fraction(start), int(total))
        if found != fraction(stated):
            wrong += 1
            print(f"{law} {table} at {total}: the table has {fraction(stated)}, the calculator {found}")
    print(f"exact amounts: {len(lines)} rows set beside the calculator, {wrong} differ")
    if wrong or len(lines) < 6:
        sys.exit(1)


main()
