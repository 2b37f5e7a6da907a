"""What the tests of the lesson share: the sheets of examples/class/, the calculator's tables of them, and numbers as the lesson writes
them."""
import ast
import math
import operator
import pathlib
import sys
from fractions import Fraction
from typing import NamedTuple, Optional

ROOT = pathlib.Path(__file__).resolve().parent.parent
FOLDER = "examples/class/"
sys.path.append(str(ROOT / "calculator"))

import program
from layer import array, layers
from limits import MOST_WEIGHTS, UNIT
from outward import first_entries, next_entries
from sheet import read_job
from start import WHOLE, start_of_mean, start_of_trials

OPERATORS = {ast.Add: operator.add, ast.Sub: operator.sub, ast.Mult: operator.mul, ast.Div: operator.truediv, ast.Pow: operator.pow}


# What stands between other lines of a sheet where the lesson names them.
AND = "` and `"


def sheet(name, other=None):
    """The bytes of a sheet, or of the same sheet with another line for the last one with its keyword, as `LAST 18`, or with several."""
    read = (ROOT / FOLDER / name).read_bytes()
    for there, line in changes(name, other) if other else []:
        before, after = f"{there}\n".encode(), f"{line}\n".encode()
        if read.count(before) != 1:
            raise ValueError(f"{name} has {read.count(before)} lines for {line}")
        read = read.replace(before, after)
    return read


def changes(name, other):
    """The lines that others stand for, each with the other."""
    found = sheet(name).decode().splitlines()
    return [([line for line in found if line.split()[0] == new.split()[0]][-1], new) for new in other.split(AND)]


def job(name, other=None):
    return read_job(sheet(name, other), MOST_WEIGHTS)


def lines(name, other=None):
    """What the calculator says that the program writes, line by line."""
    return program.output(sheet(name, other)).decode().splitlines()


def numbers(line):
    """Total, low, high and bound of a line of a table."""
    return tuple(map(int, line.split()[:4]))


def rows(name, other=None):
    return [numbers(line) for line in lines(name, other)[1:]]


def marks(name, other=None):
    """The column EXACT: Y or N of each total."""
    return "".join(line.split()[4] for line in lines(name, other)[1:])


def entries(read, last):
    """Low, high and bound of every row, at the totals 0 to `last`, by the calculator's rule; also from a total on that is refused."""
    totals = [first_entries(read)]
    while len(totals) <= last:
        totals.append(next_entries(read, totals))
    return [[entry[:3] for entry in total] for total in totals]


def layers_asked(typed, name, other=None):
    """What the calculator answers to layers that are typed as 3:5: number and place, and low and high of each."""
    _, low, high, _ = map(list, zip(*rows(name, other)))
    attachments, limits = zip(*(map(int, layer.split(":")) for layer in typed))
    ends = [0] * len(typed), [0] * len(typed)
    return layers(low, high, len(typed), array(attachments), array(limits), *ends), [*zip(*ends)]


def cost(layer, name, other=None):
    """Low and high of a layer."""
    (number, _), (ends,) = layers_asked([layer], name, other)
    if number:
        raise ValueError(f"{layer} is refused by {number}")
    return ends


class Law(NamedTuple):
    """A mean, or the chance of one of so many trials."""
    upper: int
    lower: int
    trials: Optional[int] = None

    def start(self):
        """Low and high, by the calculator."""
        said = start_of_mean(self.upper, self.lower) if self.trials is None else start_of_trials(*self)
        if said.number:
            raise ValueError(f"the start of {self} is refused by {said.number}")
        return said.low, said.high

    def line(self):
        """That of a sheet."""
        return "START {} {}".format(*self.start())

    def words(self):
        """How the command is asked for it."""
        fraction = f"{self.upper}/{self.lower}" if self.lower > 1 else f"{self.upper}"
        return f"start --mean {fraction}" if self.trials is None else f"start --chance {fraction} --trials {self.trials}"

    def way(self):
        """The starts from chance 1 on, each the one before times the same factors, for low and for high, over the same divisor. That of a
        rest has another way."""
        if self.trials is None:
            if self.upper % self.lower:
                raise ValueError(f"{self} has a rest")
            return [Law(mean, 1).start() for mean in range(self.upper // self.lower + 1)], Law(1, 1).start(), UNIT
        starts = [tuple(WHOLE), *(self._replace(trials=count + 1).start() for count in range(self.trials))]
        return starts, (self.lower - self.upper,) * 2, self.lower


# As the lesson names it.
LAW = r"mean \d+(?:/\d+)?|\d+ trials of chance \d+/\d+"


def parts(fraction):
    upper, _, lower = fraction.partition("/")
    return int(upper), int(lower or 1)


def law(named):
    if named.startswith("mean "):
        return Law(*parts(named[len("mean "):]))
    trials, chance = named.split(" trials of chance ")
    return Law(*parts(chance), int(trials))


def value(node):
    if isinstance(node, ast.BinOp):
        return OPERATORS[type(node.op)](value(node.left), value(node.right))
    if isinstance(node, ast.UnaryOp):
        return -value(node.operand)
    return Fraction(repr(node.value))


def evaluate(words):
    """An expression of whole numbers, decimals and + - × / ^, in exact fractions."""
    return value(ast.parse(words.strip().replace("×", "*").replace("^", "**"), mode="eval").body)


def up(number, divisor):
    """Divided and rounded up."""
    return -(-number // divisor)


def decimal(count, digits):
    """So many times 10^-digits."""
    whole, rest = divmod(count, 10 ** digits)
    return f"{whole}.{rest:0{digits}}"


def cut(number, digits):
    """A number whose digits go on, as it is written with dots."""
    return f"{decimal(math.floor(number * 10 ** digits), digits)}..."


def both_round_to(ends, digits):
    """What low and high, in units, round to; they must agree."""
    first, second = (round(Fraction(end, UNIT) * 10 ** digits) for end in ends)
    return decimal(first, digits) if first == second else "no such digits"
