"""The command `claimtotals`. All numbers come from calls of the proved library; here they are laid out."""
from __future__ import annotations

import argparse
import re
from typing import Callable, NamedTuple, Optional, Sequence, Union

from claimtotals import layout, library, streams
from claimtotals.advice import about_excess, about_layers, about_start, about_sums
from claimtotals.costs import LayerCost
from claimtotals.curves import Curve
from claimtotals.laws import law_hesselager, law_panjer_willmot
from claimtotals.older import NotOlder, upgraded
from claimtotals.picture import DEFAULT_TITLE, picture
from claimtotals.refusals import Refused
from claimtotals.sheets import Sheet, read_sheet
from claimtotals.starts import start_of_mean, start_of_trials
from claimtotals.usage import Once, Parser, Version, called, title

COMMAND = "claimtotals"

EXAMPLES = ("start --mean 37/10", "law --alpha 0 9 --beta 12 -1", "table examples/poisson.txt --digits", "level examples/poisson.txt 0.99",
            "layers examples/poisson.txt 5:10 10:20", "picture examples/poisson.txt -o glass.svg",
            "upgrade examples/older.txt > new.txt")
STATUS = "status: 0; 1 for a refusal, which is told in words on standard error; 2 for wrong use, and where input or output fails"


def sheet_bytes(path: str) -> bytes:
    """A file is read before the library is built, so that a wrong name is told at once; who types a sheet is not kept waiting then."""
    if path == "-":
        library.calls()
    return streams.read_sheet_bytes(COMMAND, path)


def known_sheet(path: str) -> Sheet:
    return read_sheet(sheet_bytes(path))


def remark(path: str, *sentences: Optional[str]) -> None:
    """Those that are due."""
    if any(sentences):
        streams.say(COMMAND, f"{streams.source(path)}: {' '.join(filter(None, sentences))}")


# ---- start

class Ratio(NamedTuple):
    """A fraction as the calls take it."""
    upper: int
    lower: int

    def __str__(self) -> str:
        return f"{self.upper}/{self.lower}"


def fraction(text: str) -> Ratio:
    """A decimal is taken exactly, and nothing is reduced: the call judges. 18 digits always fit it. The comma of 1,250 could part
    thousands."""
    if re.fullmatch("[1-9][0-9]{0,2},[0-9]{3}", text):
        raise argparse.ArgumentTypeError(f"{text}: write {text.replace(',', '.')} or {text.replace(',', '')}, as the comma could be either")
    found = re.fullmatch("([0-9]{1,18})(?:/([0-9]{1,18}))?", text)
    if found:
        return Ratio(int(found[1]), int(found[2] or 1))
    found = re.fullmatch("([0-9]+)[.,]([0-9]+)", text)
    if not found or len(found[1] + found[2]) > 18:
        raise argparse.ArgumentTypeError(f"{text!r:.60} is no fraction: write 37/10, 3.7 or 4, with at most 18 digits in a number")
    return Ratio(int(found[1] + found[2]), 10 ** len(found[2]))


def count(text: str) -> int:
    if not re.fullmatch("[0-9]{1,18}", text):
        raise argparse.ArgumentTypeError(f"{text!r:.60} is no whole number of at most 18 digits: write 1000 for 1,000")
    return int(text)


def law_name(given: argparse.Namespace) -> str:
    return f"mean {given.mean}" if given.mean else f"chance {given.chance}, trials {given.trials}"


def trials_alone(given: argparse.Namespace) -> str:
    """argparse sees to it that there is a mean or a chance, and not both."""
    return "" if (given.chance is None) == (given.trials is None) else "--chance and --trials go together, and --mean goes alone"


def start(given: argparse.Namespace) -> int:
    found = start_of_mean(*given.mean) if given.mean else start_of_trials(*given.chance, given.trials)
    streams.write_output(f"{found.line()}\n".encode())
    return streams.SUCCESS


# ---- law

# The options of each line, left and then right.
PANJER_WILLMOT, HESSELAGER = ("alpha", "beta"), ("b", "a")

# A minus sign as publications print it, and dashes that look like one.
MINUS, DASHES = "\u2212", "\u2010-\u2015\ufe58\ufe63\uff0d"


def coefficient(text: str) -> int:
    """A number of a line. 18 digits always fit the call."""
    if re.match(f"[{DASHES}]", text):
        raise argparse.ArgumentTypeError(f"{text!r:.60} begins with a dash that is no minus sign: write - for it, as in -1")
    if not re.fullmatch(f"[-{MINUS}]?[0-9]{{1,18}}", text):
        raise argparse.ArgumentTypeError(
            f"{text!r:.60} is no whole number of at most 18 digits: write 1000 for 1,000, and where the line has decimals or fractions, "
            "multiply all four numbers by the same number")
    return int(text.replace(MINUS, "-"))


def sides(given: argparse.Namespace) -> dict[str, list[int]]:
    """The sides of lines that were given, by their options."""
    return {name: getattr(given, name) for name in PANJER_WILLMOT + HESSELAGER if getattr(given, name) is not None}


def line_name(given: argparse.Namespace) -> str:
    return ", ".join(f"{name} {first} {second}" for name, (first, second) in sides(given).items())


def half_line(given: argparse.Namespace) -> str:
    return "" if tuple(sides(given)) in (PANJER_WILLMOT, HESSELAGER) else "--alpha and --beta go together, or --b and --a, and no others"


def law(given: argparse.Namespace) -> int:
    found = law_panjer_willmot(*given.alpha, *given.beta) if given.alpha else law_hesselager(*given.b, *given.a)
    streams.write_output(f"{found.lines()}\n".encode())
    return streams.SUCCESS


# ---- table

def table_text(curve: Curve, given: argparse.Namespace) -> str:
    if given.digits:
        return layout.digits_table(curve, given.decimal_comma)
    return curve.to_csv(given.decimal_comma) if given.csv else curve.text()


def comma_alone(given: argparse.Namespace) -> str:
    alone = given.decimal_comma and not (given.digits or given.csv)
    return "--decimal-comma goes with --digits or --csv: the plain table is in whole units" if alone else ""


def table(given: argparse.Namespace) -> int:
    sheet = known_sheet(given.sheet)
    curve = sheet.curve()
    streams.write_output(table_text(curve, given).encode())
    remark(given.sheet, about_sums(curve.low, curve.high), about_start(curve.high, sheet.job.zero))
    return streams.SUCCESS


# ---- level

# The queries of a level, by the names that their totals are shown with; and what each answers.
QUERIES = {"sure": Curve.sure, "possible": Curve.possible}
TotalOrRefusal = Union[int, Refused]


def level_units(text: str) -> int:
    """A level in units: a chance has a point or a comma, a number without is in units. A short one could be a chance or percent."""
    if re.fullmatch("[0-9]{1,3}", text):
        raise argparse.ArgumentTypeError(f"{text}: write a chance with a point, 0.99 or 1.0; units have four digits or more")
    if re.fullmatch("[0-9]{4,18}", text):
        return int(text)
    found = re.fullmatch(r"([0-9]{1,9})[.,]([0-9]{1,9})", text)
    if not found:
        raise argparse.ArgumentTypeError(f"{text!r:.60} is no chance of at most nine digits after the point (0.99), nor units (990000000)")
    return int(found[1]) * library.UNIT + int(found[2].ljust(9, "0"))


def total_or_refusal(curve: Curve, query: str, units: int) -> TotalOrRefusal:
    try:
        return QUERIES[query](curve, units)
    except Refused as refusal:
        return refusal


def totals_shown(answers: dict[str, TotalOrRefusal]) -> str:
    return ", ".join(f"{query} {'none' if isinstance(answer, Refused) else answer}" for query, answer in answers.items())


def refusals_told(about: str, answers: dict[str, TotalOrRefusal]) -> list[str]:
    """A sentence for each query that is refused, with its name. Where both are refused alike, the level itself is at fault, which is said
    once."""
    refusals = [(query, answer) for query, answer in answers.items() if isinstance(answer, Refused)]
    numbers = [refusal.number for _, refusal in refusals]
    if len(set(numbers)) < len(numbers):
        return [refusals[0][1].of(about)]
    return [refusal.of(f"{about}, {query}") for query, refusal in refusals]


def is_short(answer: TotalOrRefusal) -> bool:
    """Whether the table falls short of the level."""
    return isinstance(answer, Refused) and answer.number in (34, 35)


def level(given: argparse.Namespace) -> int:
    """Every level is asked, also after one that is refused. What START is, is said once, behind all levels."""
    sheet, lines, sentences, start_said = known_sheet(given.sheet), [], [], ""
    curve = sheet.curve()
    for units in given.levels:
        name = f"level {layout.short_chance(units)}"
        answers = {query: total_or_refusal(curve, query, units) for query in given.queries}
        lines.append(f"{name}: {totals_shown(answers)}\n")
        sentences += refusals_told(f"{streams.source(given.sheet)}, {name}", answers)
        if any(map(is_short, answers.values())):
            start_said = about_start(curve.high, sheet.job.zero)
    streams.write_output("".join(lines).encode())
    for sentence in sentences:
        streams.say(COMMAND, sentence)
    remark(given.sheet, about_excess(curve.low, curve.high), start_said)
    return streams.REFUSED if sentences else streams.SUCCESS


# ---- layers

# What the numbers are, below those of the layers.
MEANING = ("Where all chances add up to 1, a layer pays in a year, on average, from low to high billionths of a money unit; the decimals "
           "are money units.")


class Layer(NamedTuple):
    """As it was written, and as the call takes it."""
    text: str
    pair: tuple[int, int]


def layer(text: str) -> Layer:
    """The call judges. 18 digits always fit it."""
    found = re.fullmatch("([0-9]{1,18}):([0-9]{1,18})", text)
    if not found:
        raise argparse.ArgumentTypeError(
            f"{text!r:.60} is no layer: write 10:20 for the one from 10 to 20, in whole numbers of at most 18 digits")
    return Layer(text, (int(found[1]), int(found[2])))


def layer_costs(curve: Curve, asked: Sequence[Layer]) -> tuple[LayerCost, ...]:
    """One call for all layers. Where it refuses one of them, that one is named as it was written."""
    try:
        return curve.layers([layer.pair for layer in asked])
    except Refused as refusal:
        if refusal.number in (62, 63):
            refusal.at = f"layer {asked[refusal.place].text}"
        raise


def layer_line(name: str, low: int, high: int) -> str:
    return f"layer {name}: low {low}, high {high}, or {layout.decimal(low)} to {layout.decimal(high)}\n"


def layers(given: argparse.Namespace) -> int:
    sheet = known_sheet(given.sheet)
    curve = sheet.curve()
    costs = layer_costs(curve, given.layers)
    lines = [layer_line(layer.text, cost.low, cost.high) for layer, cost in zip(given.layers, costs)]
    streams.write_output("".join([*lines, f"{MEANING}\n"]).encode())
    remark(given.sheet, about_layers(curve.low, curve.high), about_start(curve.high, sheet.job.zero))
    return streams.SUCCESS


# ---- picture

def draw(given: argparse.Namespace) -> int:
    curve = known_sheet(given.sheet).curve()
    drawn = picture(list(curve), given.title).encode()
    if given.output == "-":
        streams.write_output(drawn)
    else:
        streams.write_file(given.output, drawn)
    remark(given.sheet, about_excess(curve.low, curve.high))
    return streams.SUCCESS


# ---- upgrade

def upgrade(given: argparse.Namespace) -> int:
    """Nothing is written before the reader has read all of it."""
    try:
        new = upgraded(sheet_bytes(given.sheet))
    except NotOlder as fault:
        streams.say(COMMAND, f"{streams.source(given.sheet)}: {fault}")
        return streams.REFUSED
    streams.write_output(new)
    return streams.SUCCESS


# ---- the command line

def subcommand(commands: argparse._SubParsersAction, name: str, run: Callable, description: str, *examples: str) -> Parser:
    """Its defaults are what it does, what it is called where it is refused (`about`), and what is wrong with words of which each is right
    (`wrong`)."""
    epilog = "\n".join(["example:", *(f"  {called(COMMAND)} {name} {example}" for example in examples), "", STATUS])
    parser = commands.add_parser(name, command=COMMAND, help=description.split(":")[0], description=description, epilog=epilog)
    parser.set_defaults(parser=parser, run=run, wrong=lambda given: "")
    return parser


def add_sheet(parser: Parser) -> None:
    """For a command that takes a sheet."""
    parser.add_argument("sheet", metavar="SHEET", help="a file, or `-` for standard input")
    parser.set_defaults(about=lambda given: streams.source(given.sheet))


def add_start(commands: argparse._SubParsersAction) -> None:
    parser = subcommand(
        commands, "start", start,
        "The START line of a sheet, from the law's own name: that of a Poisson law from its mean, that of a binomial law from the chance\n"
        "of a claim in one trial and the number of trials. The chance of no claims lies in it. As each step is rounded outward, the line\n"
        "may be wider than need be, most of all with many trials of a small chance.\n"
        "\n"
        "A negative binomial law of whole shape takes its shape for the trials, and for the chance the q with which its chance of no\n"
        "claims is (1-q)^shape; Panjer and Willmot write p for it. Texts that write p for 1-q differ: give 1-p.\n"
        "\n"
        "The line is that of a sheet with ZERO 0. START is the chance that the total is zero: where claims close at nothing, so that ZERO\n"
        "has a weight, give the mean or the chance of the claims that do not. The share of those that do is the weight at ZERO over the\n"
        "sum of all weights. Give a mean times 1 - share; a chance p of a binomial law times 1 - share; a chance q of a negative binomial\n"
        "law times (1 - share)/(1 - q share). Of 3 claims a year, one in three of which closes at nothing, it is that of --mean 2.\n"
        "\n"
        "Where such a fraction in lowest terms is over more than 1,000, it is refused by 41: choose weights with a smaller sum, or write\n"
        "START from known digits.",
        "--mean 37/10", "--chance 1/20 --trials 30", "--mean 2")
    laws = parser.add_mutually_exclusive_group(required=True)
    laws.add_argument("--mean", action=Once, metavar="R/S", type=fraction, help="as 37/10, 4 or 3.7, which is 37/10; at most 20")
    laws.add_argument("--chance", action=Once, metavar="R/S", type=fraction, help="as 1/20, or 0.05, which is 5/100; below 1")
    parser.add_argument("--trials", action=Once, metavar="N", type=count, help="how many, 1 to 1,000; or a negative binomial law's shape")
    parser.set_defaults(about=law_name, wrong=trials_alone)


def add_law(commands: argparse._SubParsersAction) -> None:
    parser = subcommand(
        commands, "law", law,
        "The LAW and TERM lines of a sheet, from a publication's own line: that of Panjer and Willmot or that of Hesselager, for a law of\n"
        "order 1. The line holds for every n from 1, and p_n is the chance of n claims.\n"
        "\n"
        "Give whole numbers: where the line has fractions, multiply all four numbers by the same number. Nothing is reduced. A sheet has\n"
        "no place for a constant on the left, alpha_0 or b_0, that is not 0. Nor has it one for further coefficients such as alpha_2 or\n"
        "beta_2: to leave them out gives another law, and nothing here can see that.\n"
        "\n"
        "For a binomial law Panjer and Willmot print N - p as beta_0, where Np is meant. No line tells the chance of no claims: the START\n"
        f"line is another matter, see `{called(COMMAND)} start --help`.",
        "--alpha 0 9 --beta 12 -1", "--b 0 9 --a 13 -1")
    lines = {"Panjer and Willmot's line, (alpha_0 + alpha_1 n) p_n = (beta_0 + beta_1 (n-1)) p_(n-1)": PANJER_WILLMOT,
             "Hesselager's line, (b_0 + b_1 n) p_n = (a_0 + a_1 n) p_(n-1)": HESSELAGER}
    for line, names in lines.items():
        group = parser.add_argument_group(line)
        for name, side in zip(names, ("left", "right")):
            numbers = f"{name}_0", f"{name}_1"
            group.add_argument(f"--{name}", action=Once, metavar=numbers, nargs=2, type=coefficient, help=f"the numbers on the {side}")
    parser.set_defaults(about=line_name, wrong=half_line)


def add_table(commands: argparse._SubParsersAction) -> None:
    parser = subcommand(
        commands, "table", table,
        "The chance of each total: low, high and bound in billionths, and Y or N, as `curve` writes them.\n"
        "\n"
        "Y says that low is exact for the low end of START, and high for its high end. Where they are equal too, and START is true, the\n"
        "chance itself is exact. N stands only where low is below high, and does not say that they are wrong.",
        "examples/poisson.txt", "examples/poisson.txt --digits", "examples/poisson.txt --csv --decimal-comma")
    add_sheet(parser)
    forms = parser.add_mutually_exclusive_group()
    forms.add_argument("--digits", action="store_true",
                       help="only the true digits of each chance, and `exact` where they are all of it, if START is true")
    forms.add_argument("--csv", action="store_true", help="for a spreadsheet, with chances as decimals")
    parser.add_argument("--decimal-comma", action="store_true", help="a comma in the decimals of --digits or --csv")
    parser.set_defaults(wrong=comma_alone)


def add_level(commands: argparse._SubParsersAction) -> None:
    parser = subcommand(
        commands, "level", level,
        "The total that a year's claims stay within: for the level 0.99, in 99 years of 100. The smallest such lies from `possible` to\n"
        "`sure`.\n"
        "\n"
        "sure      this total is enough, whatever the exact chances are from low to high\n"
        "possible  every smaller total is too small, whatever they are\n"
        "\n"
        "Where there is no such total, or the level is refused, the line has `none`, and standard error says why.",
        "examples/poisson.txt 0.99 0.995", "examples/poisson.txt 0.995 --possible")
    add_sheet(parser)
    parser.add_argument("levels", metavar="LEVEL", nargs="+", type=level_units, help="a chance such as 0.99, or units: 990000000")
    alone = parser.add_mutually_exclusive_group()
    for name in QUERIES:
        alone.add_argument(f"--{name}", action="store_const", dest="queries", const=[name], help=f"ask for the {name} total alone")
    parser.set_defaults(queries=list(QUERIES))


def add_layers(commands: argparse._SubParsersAction) -> None:
    parser = subcommand(
        commands, "layers", layers,
        "What layers of a stop-loss cover cost: the mean of what each pays in a year, as a low and a high.\n"
        "\n"
        "A layer is written ATTACHMENT:LIMIT, in the money units of the sheet's totals. The limit is the total where the layer ends, and\n"
        "not its width: 20:50 is a cover of 30 in excess of 20. It pays nothing where a year's claims come to 20 or less, what they have\n"
        "above 20 where they come to less than 50, and 30 where they come to 50 or more. A limit may be LAST + 1 at most: whatever lies\n"
        "above it pays the same, and need not be computed.\n"
        "\n"
        "Low and high hold where all chances of the law add up to 1. A low may be below zero, though no payment is. The mean is no\n"
        "premium: expenses, and what bad years take, come on top.",
        "examples/poisson.txt 5:10 10:20")
    add_sheet(parser)
    parser.add_argument("layers", metavar="LAYER", nargs="+", type=layer, help="such as 10:20; 64 at most")


def add_picture(commands: argparse._SubParsersAction) -> None:
    parser = subcommand(commands, "picture", draw, "A picture of the table, as SVG: lows and highs, their gaps and bounds.",
                        'examples/poisson.txt -o glass.svg --title "Broken glass"')
    add_sheet(parser)
    parser.add_argument("-o", "--output", metavar="FILE", default="-", help="the file to write; without it, standard output")
    parser.add_argument("--title", metavar="TEXT", type=title, default=DEFAULT_TITLE, help=f"what stands above it, else: {DEFAULT_TITLE}")


def add_upgrade(commands: argparse._SubParsersAction) -> None:
    parser = subcommand(
        commands, "upgrade", upgrade,
        "The new sheet of an older one, from before version 0.7.0: a line `ZERO 0` comes before the line SEVERITY, and all else stays.\n"
        "\n"
        "The new sheet is read whole, as all commands read sheets, before anything is written. Refused are a sheet that has its line ZERO\n"
        "already, and one that cannot be read even with this line; the line that is told then is that of the older sheet.\n"
        "\n"
        "Give the new sheet another name than the old one has: the shell empties the file behind > before the old sheet is read.",
        "examples/older.txt > new.txt", "< examples/older.txt > new.txt")
    parser.add_argument("sheet", metavar="OLD", nargs="?", default="-", help="a file; without it, or for `-`, standard input")
    parser.set_defaults(about=lambda given: streams.source(given.sheet))


def arguments(words: Optional[Sequence[str]], version: Callable[[], str]) -> argparse.Namespace:
    parser = Parser(COMMAND, prog=called(COMMAND),
                    description="Yearly claim totals: the chance of each as a low and a high, proved to enclose it.",
                    epilog="\n".join(["example:", *(f"  {called(COMMAND)} {example}" for example in EXAMPLES), "", STATUS]))
    parser.add_argument("--version", action=Version, command=COMMAND, find=version)
    commands = parser.add_subparsers(metavar="COMMAND", required=True)
    for add in add_start, add_law, add_table, add_level, add_layers, add_picture, add_upgrade:
        add(commands)
    given = parser.parse_args(words)
    wrong = given.wrong(given)
    if wrong:
        given.parser.error(wrong)
    return given


def answer(given: argparse.Namespace) -> int:
    """What the command does, or why not."""
    try:
        return given.run(given)
    except Refused as refusal:
        streams.say(COMMAND, refusal.of(given.about(given)))
        return streams.REFUSED


def main(words: Optional[Sequence[str]] = None, version: Callable[[], str] = library.version) -> int:
    """The status of a call with these words, without them those of the command line."""
    return streams.status(COMMAND, lambda: answer(arguments(words, version)))
