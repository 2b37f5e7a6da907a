"""The ways into a command and out of it, for tests/curve and tests/command: files, pipes and terminals, and input and output that fail."""
import functools
import os
import pty
import re
import shlex
import signal
import subprocess
import threading
import time
from functools import partial

from commands import COIN_TOSS, MOMENT, ROOT, Asked, Fault, check_run, check_sheet, ended, hold, run

from limits import MOST_BYTES

INPUT, OUTPUT = "standard input", "standard output"
# Virtual memory, in kilobytes, for a command whose input never ends: that of a small Python program.
LITTLE_MEMORY = 1_000_000


def failed(command, what, why=".+"):
    """What is asked for where input or output fails: one line, and nothing written. `why` is a pattern."""
    return Asked(2, b"", re.escape(f"{command.name}: {what}: ") + why + "\n")


# ---- input

def check_pipe(command, sheet, *word):
    check_run(command.asked(INPUT, sheet), *command.words(*word), given=sheet)


def check_slow_pipe(command, sheet, *word):
    """Some bytes at a time, with pauses."""
    with subprocess.Popen(command.words(*word), stdin=subprocess.PIPE, stdout=subprocess.PIPE, stderr=subprocess.PIPE) as process:
        for start in range(0, len(sheet), 17):
            process.stdin.write(sheet[start:start + 17])
            process.stdin.flush()
            time.sleep(0.05)
        out, err = process.communicate(timeout=MOMENT)
    hold(ended(process.returncode, out, err), command.asked(INPUT, sheet))


def check_endless(command, shell, file, *word):
    """Input that never ends is refused by 21, soon and in little memory."""
    check_run(command.asked(file, b"1" * (MOST_BYTES + 1)), *command.words(*word), shell=f"ulimit -v {LITTLE_MEMORY}; {shell}")


def check_bytes_read(command, path, *word):
    """No more is taken from standard input than one byte after the most that a sheet may have."""
    path.write_bytes(b"W 1\n" * MOST_BYTES)
    with open(path, "rb", buffering=0) as file:
        run(*command.words(*word), stdin=file)
        if file.tell() != MOST_BYTES + 1:
            raise Fault(f"it took {file.tell()} bytes")


class Terminal:
    """A command whose standard input is a terminal."""

    def __init__(self, command, *word):
        self.command = command
        self.ours, theirs = pty.openpty()
        # unbuffered, so that one line can be read and the rest is still there
        self.process = subprocess.Popen(command.words(*word), bufsize=0, stdin=theirs, stdout=subprocess.PIPE, stderr=subprocess.PIPE)
        os.close(theirs)
        self.timer = threading.Timer(MOMENT, self.process.kill)
        self.timer.start()

    def hold_to_waiting(self):
        said = self.process.stderr.readline().decode()
        if said != f"{self.command.name}: waiting for a sheet on standard input; end it with Ctrl-D\n":
            raise Fault(f"on a terminal it said {said!r}")

    def ended(self):
        out, err = self.process.communicate()
        return ended(self.process.returncode, out, err)

    def __enter__(self):
        return self

    def __exit__(self, *_):
        self.process.kill()
        self.process.communicate()
        self.timer.cancel()
        os.close(self.ours)


def check_terminal(command, sheet, *word):
    with Terminal(command, *word) as terminal:
        terminal.hold_to_waiting()
        os.write(terminal.ours, sheet + b"\x04")
        hold(terminal.ended(), command.asked(INPUT, sheet))


def hold_to_interrupt(found):
    """It ends as other programs do."""
    if found.status not in (-signal.SIGINT, 128 + signal.SIGINT) or found.out or found.said.count("\n") > 1:
        raise Fault(f"interrupted it ended with status {found.status}, wrote {found.out!r:.300} and said {found.said!r:.900}")


def check_interrupt(command, *word):
    """Ctrl-C while it waits."""
    with Terminal(command, *word) as terminal:
        terminal.hold_to_waiting()
        terminal.process.send_signal(signal.SIGINT)
        hold_to_interrupt(terminal.ended())


@functools.lru_cache(maxsize=None)
def nobody():
    """Options of `run` for one who may not read and write every file: root becomes nobody. None where nobody cannot run a command."""
    options = {"user": "nobody"} if os.geteuid() == 0 else {}
    try:
        return None if run(ROOT / "curve", "--version", **options).status else options
    except (OSError, LookupError):
        return None


def check_no_permission(command, path):
    """Left out where root cannot become another."""
    path.write_bytes(COIN_TOSS)
    path.chmod(0)
    if nobody() is not None:
        check_run(failed(command, path, "Permission denied"), *command.words(path), **nobody())


def check_odd_name(command, folder, name, sheet):
    """A file by its name in bytes, with a sheet that is refused; or, without one, no such file. One line tells it."""
    path = os.path.join(os.fsencode(folder), name)
    if sheet is None:
        check_run(Asked(2, b"", rf"{command.name}: .+: No such file or directory\n"), *command.words(path))
        return
    with open(path, "wb") as file:
        file.write(sheet)
    asked = command.asked("FILE", sheet)
    check_run(asked._replace(said=asked.said.replace("FILE", ".+")), *command.words(path))


def odd_name_checks(command, slip, room):
    for kind, sheet in ("there", slip), ("not there", None):
        folder = room / kind
        folder.mkdir()
        for odd in b"new\nline", b"bytes \xff\xfe\x80", b"\x1b[31mred", "M\u00fcller {0} %s".encode():
            yield f"the file {odd}, {kind}", partial(check_odd_name, command, folder, odd, sheet)


def stdin_checks(command, good, slip, room, word):
    """Standard input, with these words for it."""
    for name, sheet in ("a good sheet", good), ("a slip", slip), ("nothing at all", b""):
        yield f"{name} on a pipe", partial(check_pipe, command, sheet, *word)
    yield "a slow pipe", partial(check_slow_pipe, command, good, *word)
    yield "a terminal", partial(check_terminal, command, good, *word)
    yield "a slip on a terminal", partial(check_terminal, command, slip, *word)
    yield "a terminal, interrupted", partial(check_interrupt, command, *word)
    yield "/dev/zero for input", partial(check_endless, command, '"$@" </dev/zero', INPUT, *word)
    yield "an endless pipe", partial(check_endless, command, 'yes | "$@"', INPUT, *word)
    yield "bytes read", partial(check_bytes_read, command, room / "many bytes", *word)
    for shell, why in ('"$@" <.', ".*directory"), ('"$@" <&-', ".*closed.*"), ('"$@" </proc/self/mem', "Input/output error"):
        yield shell, partial(check_run, failed(command, INPUT, why), *command.words(*word), shell=shell)


def file_checks(command, good, slip, room):
    for name, sheet in ("a good sheet", good), ("a slip", slip):
        yield f"{name} in a file", partial(check_sheet, command, room / name, sheet)
    unread = room / "unread"
    unread.write_bytes(good)
    for shell in '"$@" <.', '"$@" <&-':
        yield f"a file, and {shell}", partial(check_run, command.asked(unread, good), *command.words(unread), shell=shell)
    yield "the file /dev/zero", partial(check_endless, command, '"$@"', "/dev/zero", "/dev/zero")
    faults = {room / "none": "No such file or directory", room: "Is a directory", "/proc/self/mem": "Input/output error"}
    for file, why in faults.items():
        yield f"the file {file}", partial(check_run, failed(command, file, why), *command.words(file))
    yield "a file that may not be read", partial(check_no_permission, command, room / "locked")
    yield "an empty name", partial(check_run, Asked(2, b"", rf"{command.name}: .*No such file or directory\n"), *command.words(""))
    yield from odd_name_checks(command, slip, room)


def input_checks(command, good, slip, room, word):
    """A good sheet, and one with a slip that is refused, in all the ways that there are; `word` are the words for standard input."""
    yield from stdin_checks(command, good, slip, room, word)
    yield from file_checks(command, good, slip, room)


# ---- output

def check_closed_pipe(words):
    """Nobody reads what is written, and knows it."""
    ours, theirs = os.pipe()
    os.close(ours)
    try:
        check_run(Asked(2, b"", ""), *words, stdout=theirs)
    finally:
        os.close(theirs)


def output_checks(command, words):
    """What is written goes nowhere."""
    yield "a full disk", partial(check_run, failed(command, OUTPUT, "No space left on device"), *words, shell='"$@" >/dev/full')
    yield "a closed output", partial(check_run, failed(command, OUTPUT), *words, shell='"$@" >&-')
    yield "a closed pipe", partial(check_closed_pipe, words)


def check_size_limit(command, words, path):
    """A file may have 512 bytes, or 1,024 by some shells."""
    check_run(failed(command, OUTPUT, "File too large"), *words, shell=f'ulimit -f 1; "$@" >{shlex.quote(str(path))}')


def check_silent(words):
    """Where nothing can be said, the rest is as ever."""
    usual = run(*words)
    for shell in '"$@" 2>&-', '"$@" 2>/dev/full', '"$@" <&- 2>&-':
        check_run(usual._replace(said=""), *words, shell=shell)
