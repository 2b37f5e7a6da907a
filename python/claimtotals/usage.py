"""Words on the command line."""
from __future__ import annotations

import argparse
import os
import re
import sys
from typing import Callable, NoReturn, Sequence

from claimtotals import streams
from claimtotals.picture import check_title


def called(command: str) -> str:
    """How a command is called, for its usage and its examples: by its script, as a module, or as the wheel installs it."""
    ways = {"__main__.py": f"python3 -m {command}", command: command}
    return ways.get(os.path.basename(sys.argv[0]), f"./{command}")


def title(text: str) -> str:
    """A word that can be drawn."""
    try:
        check_title(text)
    except ValueError as fault:
        raise argparse.ArgumentTypeError(str(fault)) from None
    return text


class Parser(argparse.ArgumentParser):
    """Options are written out whole, and help ends with what is given as epilog, line by line. Wrong use is told on one line, with the
    name of the command in front, as all else is."""

    def __init__(self, command: str, **words: object) -> None:
        super().__init__(**words, formatter_class=argparse.RawDescriptionHelpFormatter, allow_abbrev=False)
        self.command = command
        # As Python 3.14 has it: what begins like a number is no option, so that -1/2 is told to be no fraction.
        self._negative_number_matcher = re.compile(r"-\.?\d")

    def error(self, message: str) -> NoReturn:
        streams.say(self.command, f"{streams.on_one_line(message)}; {' '.join(self.format_usage().split())}")
        self.exit(streams.FAILED)

    def print_help(self, file: object = None) -> None:
        """argparse would not tell where it cannot be written."""
        streams.write_output(self.format_help().encode())


class Once(argparse.Action):
    """Of an option that is given twice argparse would take the last, and drop the other without a word."""

    def __call__(self, parser: argparse.ArgumentParser, given: argparse.Namespace, value: object, *_: object) -> None:
        if getattr(given, self.dest) is not None:
            raise argparse.ArgumentError(self, "it is given twice")
        setattr(given, self.dest, value)


class Version(argparse.Action):
    """Writes a version, which is found only where it is asked for."""

    def __init__(self, option_strings: Sequence[str], dest: str, command: str, find: Callable[[], str]) -> None:
        super().__init__(option_strings, dest, nargs=0, help="show the version and end")
        self.command, self.find = command, find

    def __call__(self, parser: argparse.ArgumentParser, *_: object) -> None:
        streams.write_output(f"{self.command} {self.find()}\n".encode())
        parser.exit()
