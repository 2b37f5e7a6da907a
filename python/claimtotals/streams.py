"""Files and standard streams as the commands use them."""
from __future__ import annotations

import contextlib
import os
import signal
import sys
import traceback
from typing import IO, Callable, Iterator

from claimtotals.library import MOST_BYTES

# Exit statuses.
SUCCESS, REFUSED, FAILED = 0, 1, 2

INPUT, OUTPUT = "standard input", "standard output"


class Failed(Exception):
    """Input or output that failed. What is to be said of it; nothing where a pipe was closed by its reader, who knows."""


@contextlib.contextmanager
def reporting(name: str) -> Iterator[None]:
    """What fails inside is told with this name, in the system's words."""
    try:
        yield
    except BrokenPipeError:
        raise Failed("") from None
    except OSError as fault:
        raise Failed(f"{name}: {fault.strerror or fault}") from None
    except ValueError as fault:  # a path with a zero byte
        raise Failed(f"{name}: {fault}") from None


def show(line: str) -> None:
    """On standard error, where there is one and it takes anything. Without one, `print` would turn to standard output."""
    if sys.stderr is not None:
        with contextlib.suppress(OSError):
            print(line, file=sys.stderr, flush=True)


def say(command: str, sentence: str) -> None:
    show(f"{command}: {sentence}")


def status(command: str, run: Callable[[], int]) -> int:
    """That of a command. One that is interrupted ends as other programs do."""
    signal.signal(signal.SIGINT, signal.SIG_DFL)
    try:
        return run()
    except (Failed, OSError) as fault:
        if str(fault):
            say(command, str(fault))
    except Exception:  # a fault of ours; Python's own status for it would say that something was refused
        traceback.print_exc()
    return FAILED


def on_one_line(text: str) -> str:
    """Where it has line ends, or letters that would not be seen, they are written out."""
    return text if text and text.isprintable() else ascii(text)


def source(path: str) -> str:
    """What a file is called; `-` is standard input."""
    return INPUT if path == "-" else on_one_line(path)


def read_bytes(file: IO, most: int) -> bytes:
    """At most one byte more than what is read may have, so that a longer file is told from it and yet never read whole."""
    content = b""
    while True:
        piece = os.read(file.fileno(), most + 1 - len(content))
        if not piece:
            return content
        content += piece


def read_input(command: str, path: str, what: str, most: int) -> bytes:
    """Of a file, or of standard input, where a person at a terminal is told what is waited for."""
    with reporting(source(path)):
        if path != "-":
            with open(path, "rb", buffering=0) as file:
                return read_bytes(file, most)
        if sys.stdin is None:
            raise OSError("it is closed, or a directory")
        if sys.stdin.isatty():
            say(command, f"waiting for {what} on standard input; end it with Ctrl-D")
        return read_bytes(sys.stdin, most)


def read_sheet_bytes(command: str, path: str) -> bytes:
    return read_input(command, path, "a sheet", MOST_BYTES)


def write_all(number: int, content: bytes) -> None:
    """To an open file. It is closed then, as some systems tell only there that there was no room."""
    while content:
        content = content[os.write(number, content):]
    os.close(number)


def write_output(content: bytes) -> None:
    """To standard output, and nothing more may follow."""
    with reporting(OUTPUT):
        if sys.stdout is None:
            raise OSError("it is closed")
        write_all(sys.stdout.fileno(), content)


def write_file(path: str, content: bytes) -> None:
    with reporting(source(path)):
        write_all(os.open(path, os.O_WRONLY | os.O_CREAT | os.O_TRUNC, 0o666), content)
