"""The package as a whole: its names, its version, its types, the examples in its comments, and calls from several threads."""
import concurrent.futures
import doctest
import importlib
import inspect
import pathlib
import sys
import typing
import unittest

import claimtotals
from claimtotals import (Job, Refused, curve, law_hesselager, law_panjer_willmot, layers, library, possible, read_sheet, start_of_mean,
                         start_of_trials, sure)

# All but `__main__`, which is the command itself and would run.
FILES = [path for path in pathlib.Path(claimtotals.__file__).parent.glob("*.py") if not path.name.startswith("_")]
MODULES = [importlib.import_module(f"claimtotals.{path.stem}") for path in FILES]


def load_tests(_, tests, pattern):
    """The examples in the comments are tests too."""
    for module in [claimtotals, *MODULES]:
        tests.addTests(doctest.DocTestSuite(module))
    return tests


class Names(unittest.TestCase):
    def test_all(self):
        self.assertEqual(set(claimtotals.__all__), {
            "MOST_BYTES", "UNIT", "Curve", "Job", "Law", "LayerCost", "NotOlder", "Refused", "Row", "Sheet", "Start", "curve",
            "digits", "law_hesselager", "law_panjer_willmot", "layers", "possible", "read_sheet", "start_of_mean", "start_of_trials",
            "sure", "upgraded"})
        for name in claimtotals.__all__:
            self.assertTrue(hasattr(claimtotals, name), name)

    def test_numbers(self):
        self.assertEqual((claimtotals.UNIT, claimtotals.MOST_BYTES), (1_000_000_000, 16_384))

    def test_examples(self):
        """There are some in the comments."""
        names = [module.__name__ for module in MODULES if any(test.examples for test in doctest.DocTestFinder().find(module))]
        some = {"claimtotals.costs", "claimtotals.curves", "claimtotals.laws", "claimtotals.layout", "claimtotals.sheets",
                "claimtotals.starts"}
        self.assertLessEqual(some, set(names))

    def test_version(self):
        """It is that of the library, which has it as major * 10,000 + minor * 100 + patch."""
        self.assertRegex(claimtotals.__version__, r"^\d+\.\d+\.\d+$")
        major, minor, patch = map(int, claimtotals.__version__.split("."))
        self.assertEqual(major * 10_000 + minor * 100 + patch, library.calls().claimtotals_version())

    def test_no_other_name(self):
        with self.assertRaises(AttributeError):
            claimtotals.no_such_name


# What a user calls without naming it.
OPERATORS = ("__getitem__", "__iter__", "__len__")


def functions():
    """All that a user calls, by name."""
    for name in claimtotals.__all__:
        value = getattr(claimtotals, name)
        if inspect.isfunction(value):
            yield name, value
        elif inspect.isclass(value):
            own = {key: getattr(value, key) for key in vars(value) if not key.startswith("_") or key in OPERATORS}
            yield from ((f"{name}.{key}", member) for key, member in own.items() if inspect.isroutine(member))


class Types(unittest.TestCase):
    def test_functions(self):
        """Each parameter has a type that can be looked up, and so has what is returned."""
        some = {"curve", "read_sheet", "start_of_mean", "law_hesselager", "Job.of", "Sheet.text", "Sheet.curve", "Start.line", "Law.lines",
                "Curve.sure", "Curve.possible", "Curve.layers", "Curve.__getitem__", "Row.digits", "layers", "LayerCost.digits"}
        self.assertLessEqual(some, set(dict(functions())))
        for name, function in functions():
            with self.subTest(name):
                parameters = [key for key in inspect.signature(function).parameters if key not in ("self", "cls")]
                self.assertEqual(set(typing.get_type_hints(function)), {*parameters, "return"})

    def test_fields(self):
        for kind in claimtotals.Job, claimtotals.Sheet, claimtotals.Row, claimtotals.Start, claimtotals.Law, claimtotals.LayerCost:
            self.assertEqual(tuple(typing.get_type_hints(kind)), kind._fields)
        for reader in claimtotals.Law.terms, claimtotals.Row.chance_is_exact:
            self.assertEqual(set(typing.get_type_hints(reader.fget)), {"return"})
        self.assertEqual(tuple(typing.get_type_hints(claimtotals.Curve)), ("low", "high", "bound", "exact"))

    def test_comments(self):
        for name, function in functions():
            with self.subTest(name):
                self.assertTrue(inspect.getdoc(function) or name.endswith(OPERATORS))


# ---- calls at once

TEXT = b"LAW 1 1\nTERM 0 1\nSTART 367879441 367879442\nLAST 3\nZERO 0\nSEVERITY 2\nW %d\nW %d\n"


def binomial(divisor):
    """The paper's P2, with fractions over any divisor and as large a weight."""
    found = curve(Job.of(divisor, [(-divisor, 3 * divisor)], (250000000, 250000000), 4), [divisor])
    return found.low, found.high, found.bound, found.exact


def sheet(weight):
    return read_sheet(TEXT % (weight, 7)).weights


def word(number):
    try:
        read_sheet(TEXT.replace(b"LAST 3", b"LAST %dx" % number) % (1, 1))
    except Refused as refusal:
        return refusal.word


def level(total):
    low, high = [0] * total + [1], [1] * (total + 1)
    return sure(low, high, 1), possible(low, high, 1)


def costs(number):
    """Of layers that pay whole every year."""
    row = [0] * number
    return [cost[2:] for cost in layers(row, row, [(0, number), (number - 1, number)] * 32)]


def starts(number):
    """Of no trial that can bring a claim, and of a mean of 1."""
    return start_of_trials(0, number, number), start_of_mean(number, number)


def laws(number):
    """Of lines with n times this number on the left."""
    return law_panjer_willmot(0, number, 3, 1), law_hesselager(0, -number, 3, 1)


class Threads(unittest.TestCase):
    def setUp(self):
        """Python changes from one thread to another as often as it can."""
        self.addCleanup(sys.setswitchinterval, sys.getswitchinterval())
        sys.setswitchinterval(1e-6)

    def test_at_once(self):
        row = (250000000, 500000000, 250000000, 0, 0)
        asked = {binomial: lambda divisor: (row, row, (0, 1, 2, 1, 2) if divisor > 1 else (0, 0, 1, 1, 2), (True,) * 5),
                 sheet: lambda number: (number, 7), word: lambda number: b"%dx" % number, level: lambda number: (number, 0),
                 costs: lambda number: [(number * 10 ** 9,) * 2, (10 ** 9,) * 2] * 32,
                 starts: lambda _: ((10 ** 9, 10 ** 9), (367879441, 367879442)),
                 laws: lambda number: ((number, 1, 2), (number, -1, -3))}
        calls = [(call, 1 + count % 300) for count in range(1200) for call in asked]
        with concurrent.futures.ThreadPoolExecutor(8) as threads:
            found = list(threads.map(lambda given: given[0](given[1]), calls))
        wrong = [(call.__name__, number) for (call, number), answer in zip(calls, found) if answer != asked[call](number)]
        self.assertEqual(wrong, [])


if __name__ == "__main__":
    unittest.main()
