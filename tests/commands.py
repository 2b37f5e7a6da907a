"""What tests/curve and tests/command share: a command is run as people run it, and what it leaves, its status, its standard output and its
standard error, is held to what is asked. The outputs asked for come from the calculator, the words of refusals from refusals.ini."""
import configparser
import functools
import os
import pathlib
import re
import subprocess
import sys
import tempfile
from collections import Counter
from concurrent.futures import ThreadPoolExecutor
from typing import Callable, NamedTuple

ROOT = pathlib.Path(__file__).resolve().parent.parent
sys.path.append(str(ROOT / "calculator"))

import program
from limits import LAST_TOTAL, MOST_WEIGHTS, UNIT
from sheet import read_sheet

VERSION = (ROOT / "VERSION").read_text().strip()
# A command that has not ended after so many seconds never will.
MOMENT = 60
# So many commands run at a time: more than there are processors, as some wait.
AT_A_TIME = 4

# The commands are run by the Python that runs the test.
os.environ["PATH"] = f"{pathlib.Path(sys.executable).parent}{os.pathsep}{os.environ['PATH']}"


class Fault(Exception):
    """Something a command did that it must not."""


class Ended(NamedTuple):
    """What a command leaves."""
    status: int
    out: bytes
    said: str


class Asked(NamedTuple):
    """What a command is to leave; `said` is a pattern for all of standard error."""
    status: int
    out: bytes
    said: str


# ---- running a command

def ended(status, out, err):
    """Whatever it was run on, a command does not show its inside."""
    found = Ended(status, out, err.decode(errors="backslashreplace"))
    if "Traceback" in found.said or "Exception ignored" in found.said or b"Traceback" in out:
        raise Fault(f"it shows its inside: {found.said!r:.900}")
    return found


def run(*words, given=b"", shell="", **options):
    """A command with these bytes on standard input. `shell` is how a shell is to run it, where "$@" stands for the command; then standard
    input is what the shell gives it, and else empty."""
    options = {"stdout": subprocess.PIPE, "stderr": subprocess.PIPE, **options}
    if shell:
        words, options["stdin"] = ["sh", "-c", shell, "sh", *words], subprocess.DEVNULL
    elif "stdin" not in options:
        options["input"] = given
    try:
        found = subprocess.run(words, timeout=MOMENT, **options)
    except subprocess.TimeoutExpired:
        raise Fault("it did not end") from None
    return ended(found.returncode, found.stdout or b"", found.stderr or b"")


def hold(found, asked):
    """A fault where a command left something else than was asked for."""
    if found.status != asked.status:
        raise Fault(f"status {found.status}, not {asked.status}; it said {found.said!r:.900}")
    if found.out != asked.out:
        raise Fault(f"it wrote {found.out!r:.400}, not {asked.out!r:.400}; it said {found.said!r:.400}")
    if not re.fullmatch(asked.said, found.said):
        raise Fault(f"it said {found.said!r:.900}, not {asked.said!r:.900}")


def check_run(asked, *words, **options):
    hold(run(*words, **options), asked)


# ---- all checks of a test: each is a name and a function that may raise a fault

def fault_of(check):
    name, test = check
    try:
        test()
    except (Fault, OSError) as fault:
        return f"{name}: {fault}"
    return None


def named(what, checks):
    """The same checks by longer names."""
    return [(f"{what}: {name}", test) for name, test in checks]


def build():
    """What is due is built before anything is held to be quiet, however long that takes."""
    found = subprocess.run([ROOT / "curve"], input=COIN_TOSS, stdout=subprocess.DEVNULL, stderr=subprocess.PIPE)
    if found.returncode:
        sys.exit(f"./curve: status {found.returncode}, and it said {found.stderr.decode(errors='replace')}")


def faults(checks):
    """Runs them, some at a time. Two of one name are a slip."""
    counts = Counter(name for name, _ in checks)
    with ThreadPoolExecutor(AT_A_TIME) as pool:
        found = list(filter(None, pool.map(fault_of, checks)))
    return found + [f"{name}: there are {count} such checks" for name, count in counts.items() if count > 1]


def go_through(parts):
    """The parts of a test: each takes a folder and gives its checks. Ends with a sentence for each fault."""
    build()
    with tempfile.TemporaryDirectory() as folder:
        room, checks = pathlib.Path(folder), []
        room.chmod(0o755)  # for one who is not its owner
        for name, part in parts.items():
            (room / name).mkdir()
            checks += named(name, part(room / name))
        found = faults(checks)
    if found:
        sys.exit("\n".join(found))


# ---- what the calculator and refusals.ini ask for

WORDS = configparser.ConfigParser(interpolation=None)
WORDS.optionxform = str  # keys keep their capitals
WORDS.read(ROOT / "python/claimtotals/refusals.ini", encoding="utf-8")
# What the place of a refusal counts, for those that have one.
PLACES = {3: "term", 9: "total", 10: "total", **{number: "line" for number in range(22, 28)}}


def phrase(number, key):
    return " ".join(WORDS[str(number)][key].split())


@functools.lru_cache(maxsize=None)
def written(sheet):
    """What the program writes."""
    return program.text(sheet)


def refusal(sheet):
    """The number and the place that a sheet is refused by, or None."""
    first, *numbers = written(sheet).split()[:3]
    return tuple(map(int, numbers)) if first == "REFUSED" else None


def rows(sheet):
    """Total, low, high and bound of each line of an accepted sheet's table, and its letter."""
    lines = (line.split() for line in written(sheet).splitlines()[1:])
    return [(*map(int, numbers), letter) for *numbers, letter in lines]


def shown(word):
    """A faulty word as a sentence has it: bytes that cannot be shown, spaces and backslashes are written out."""
    return "".join(chr(byte) if 0x21 <= byte <= 0x7E and byte != 0x5C else f"\\x{byte:02x}" for byte in word) or "empty"


def seen_there(number, sheet):
    """A pattern for what the sentence says of this sheet: the faulty word, or the sum of the weights with that of size 0."""
    if number == 24:
        return re.escape(f"; the word is {shown(read_sheet(sheet, MOST_WEIGHTS).word)}")
    if number == 6:
        job = read_sheet(sheet, MOST_WEIGHTS).job
        total = job.zero + sum(job.weights)
        return rf"; [^.]*\b(?:{total}|{total:,})\b[^.]*"
    return ""


def refused_line(command, file, sheet, remedy="remedy"):
    """A pattern for the line that tells a refusal; `remedy` is the key of the words that fit this sheet."""
    number, place = refusal(sheet)
    where = f", {PLACES[number]} {place}" if number in PLACES else ""
    head = f"{command}: {file}{where}: refused by {number}: {phrase(number, 'why')}"
    return re.escape(head) + seen_there(number, sheet) + re.escape(f". {phrase(number, remedy)}\n")


def decimal(units):
    """Units as a decimal of nine digits."""
    return f"{'-' if units < 0 else ''}{abs(units) // UNIT}.{abs(units) % UNIT:09}"


def sums_line(command, file, sheet, rest="make LAST larger to see them"):
    """A pattern for what is said of an accepted sheet: nothing, or that its chances do not add up to 1, and what to look at; of what is
    missing these words."""
    low, high = (sum(row[column] for row in rows(sheet)) for column in (1, 2))
    if high >= UNIT // 1000 * 999 and low <= UNIT // 1000 * 1001:
        return ""
    head = f"{command}: {file}: the chances of this table add up to between {decimal(low)} and {decimal(high)}, "
    named = ["START", "law"] if low > UNIT else [rest, "START", "law"]
    return re.escape(head) + "".join(f"(?=.*{word})" for word in named) + about_start(sheet) + r".+\.\n"


def start_said(sheet):
    """What is said of START where the table of a sheet with a weight at ZERO adds up to less than 1: it may be the chance of no claims,
    which is less than that of a zero total."""
    zero, high = read_sheet(sheet, MOST_WEIGHTS).job.zero, sum(row[2] for row in rows(sheet))
    if not zero or high >= UNIT // 1000 * 999:
        return ""
    return (f"With a weight at ZERO, {zero} here, START is the chance that the total is zero, and not that of no claims: claimtotals start "
            "--help says how to get it.")


def about_start(sheet):
    """A pattern for what the line about the sums says of it, at its end; of another sheet nothing such."""
    said = start_said(sheet)
    return rf"(?=.* {re.escape(said)}\n)" if said else "(?!.*(?:ZERO|no claims))"


def excess_line(command, file, sheet):
    """The same where they add up to more than 1, which is said with levels and pictures too."""
    return sums_line(command, file, sheet) if sum(row[1] for row in rows(sheet)) > UNIT else ""


# ---- sheets

def text(*lines):
    return "".join(f"{line}\n" for line in lines).encode()


SMALL = ["LAW 1 1", "TERM 0 1", "START 367879441 367879442", "LAST 3", "ZERO 0", "SEVERITY 2", "W 1", "W 1"]
# The chances of the first add up to 1; line 9 of the second is refused by 24.
COIN_TOSS, SLIP = ((ROOT / "examples" / name).read_bytes() for name in ("coin_toss.txt", "refused.txt"))
# a table with long lines, of 18,954 bytes in all; and a sheet with the most weights and totals
WIDE = text("LAW 1 1", "TERM -1 0", f"START 600000000 {UNIT}", f"LAST {LAST_TOTAL}", "ZERO 0", "SEVERITY 1", "W 1")
LONG = text(*SMALL[:3], f"LAST {LAST_TOTAL}", "ZERO 0", f"SEVERITY {MOST_WEIGHTS}", *["W 2"] * MOST_WEIGHTS)


# ---- commands that take a sheet

class Command(NamedTuple):
    """The name that its sentences begin with, its words before that of the sheet and after it, and what it is to leave for a sheet of a
    file of this name."""
    name: str
    before: list
    after: list
    asked: Callable[[str, bytes], Asked]

    def words(self, *sheet):
        return [*self.before, *sheet, *self.after]


def check_sheet(command, path, sheet):
    """A sheet of a file."""
    path.write_bytes(sheet)
    check_run(command.asked(path, sheet), *command.words(path))


def check_wrong_use(command, *words):
    """Nothing is written, and one line on standard error tells what is wrong, and the usage."""
    check_run(Asked(2, b"", rf"{command}: .+usage: \./{command} .+\n"), *words)


# ---- command lines that are shown

def link_commands(folder):
    """In this folder the commands and the examples are found as in the repository; what they make stays here."""
    folder.mkdir()
    for name in "curve", "claimtotals", "picture", "examples":
        (folder / name).symlink_to(ROOT / name)
    return folder


def check_line(line, folder):
    """A line that a document or a command's help shows ends well, and says no more than a line."""
    found = run(shell=line, cwd=folder)
    if found.status or found.said.count("\n") > 1:
        raise Fault(f"{line}: status {found.status}, and it said {found.said!r}")


def check_help(words, folder):
    """Help goes to standard output, and its examples, the indented lines below this word, end well."""
    found = run(*words, "--help")
    hold(found, Asked(0, found.out, ""))
    usage, *rest = re.split(r"\nexamples?:\n", found.out.decode())
    examples = re.match(r"(?:  .+\n)*", "".join(rest))[0].splitlines()
    if not usage.startswith("usage: ./") or not examples:
        raise Fault(f"no usage, or no example: {found.out!r:.900}")
    link_commands(folder)
    for line in examples:
        check_line(line, folder)
