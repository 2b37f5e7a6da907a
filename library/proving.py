"""Proves the crates, and builds the program and the library, where that is due: for the commands of the repository."""
import contextlib
import fcntl
import os
import pathlib
import re
import shutil
import subprocess
import sys
import time

if sys.version_info < (3, 9):
    sys.stderr.write("this needs Python 3.9 or newer\n")
    sys.exit(2)

ROOT = pathlib.Path(__file__).resolve().parent.parent
sys.path.insert(0, str(ROOT / "python"))

from claimtotals.streams import Failed, show as say

TARGET = ROOT / "target"
PROGRAM = TARGET / "bin/curve"
LIBRARY = TARGET / "library"
HEADER = ROOT / "library/claimtotals.h"

# The crates of which the two are made, and what rt builds of them.
PROGRAM_CRATE, LIBRARY_CRATE = "curve", "interface"
BUILT_PROGRAM, BUILT_LIBRARY = ROOT / "crates/curve/out/curve", ROOT / "crates/interface/out/libinterface.a"

# The program's stored case: what it is given, and what it must write.
CASE, ANSWER = ROOT / "crates/curve/stdin", ROOT / "crates/curve/stdout"

# What is built runs on every processor of the kind x86-64, and not on newer ones alone: an archive does not look at the processor.
FLAGS = ["--cpu", "x86-64"]

# All that the last command of the kit said, and what the program wrote of its case.
LOG, WRITTEN = TARGET / "log", TARGET / "curve.stdout"

# The time of such a file is that at which the last build that passed began.
PROGRAM_STAMP, LIBRARY_STAMP = TARGET / "curve.passed", TARGET / "library.passed"


def version():
    return (ROOT / "VERSION").read_text().strip()


# ---- what is due

def newest(*paths):
    """The latest time at which one of these files was changed, or one of these folders with all that they hold. Links are not followed: an
    editor may leave some that lead nowhere."""
    found = [*paths, *(os.path.join(folder, name) for path in paths for folder, *names in os.walk(path) for name in sum(names, []))]
    return max(os.lstat(path).st_mtime_ns for path in found)


def crate_parts():
    """The files and folders of all crates. What rt keeps in a crate's out/ is none of them, and changes the time of the crate's folder."""
    return [path for path in (ROOT / "crates").glob("*/*") if path.name != "out"]


def is_due(stamp, built, *sources):
    """Whether it is not there, or a file that it is made of is newer."""
    return not (stamp.exists() and built.exists()) or stamp.stat().st_mtime_ns < newest(ROOT / "crates.txt", *crate_parts(), *sources)


def program_is_due():
    return is_due(PROGRAM_STAMP, PROGRAM)


def library_is_due():
    """Of its folder these files alone count, as Python keeps there what it has compiled of this one."""
    sources = "library/claimtotals.h", "library/proving.py", "VERSION"
    return is_due(LIBRARY_STAMP, LIBRARY / "libclaimtotals.so", *(ROOT / path for path in sources))


def pass_build(stamp, began):
    """What is changed while it is built is newer."""
    stamp.touch()
    os.utime(stamp, ns=(began, began))


# ---- proving

def dependencies():
    """What crates.txt says that each crate depends on. Words behind a name say how it is built."""
    lines = [line.split("#")[0].split(":") for line in (ROOT / "crates.txt").read_text().splitlines()]
    return {words[0].split()[0]: words[1].split() for words in lines if len(words) > 1}


def needed(crates):
    """The crates and all that they depend on, but for the kit's."""
    depends, found, todo = dependencies(), set(), list(crates)
    while todo:
        name = todo.pop()
        if name in depends and name not in found:
            found.add(name)
            todo += depends[name]
    return found


class Progress:
    """Says how long it will take, and shows each crate once, as it is proved."""

    def __init__(self, crates):
        self.missing = needed(crates)
        self.count = len(self.missing)
        self.checked = None
        say("proving and building, which takes many minutes where nothing is proved yet")

    def see(self, line):
        """Rattle names the crate that it has checked, and then says whether it is proved."""
        found = re.match(r"crate (\w+): ", line)
        if found:
            self.checked = found[1]
        elif line.startswith("logic=proved") and self.checked:
            self.show(self.checked)

    def show(self, crate):
        """A crate that is proved, and before it what it depends on: nothing is said of what was proved earlier."""
        proved = needed([crate])
        for name in sorted(proved & self.missing, key=lambda name: (len(needed([name])), name)):
            self.missing.remove(name)
            say(f"{self.count - len(self.missing)} of {self.count}: {name}")


def fault_of(lines):
    """What a run says of its fault: its first errors, else what comes last."""
    errors = [line for line in lines if re.search(r": (?:fatal )?error\b", line)]
    return "\n".join(line[:400] for line in errors[:3] or lines[-4:])


def place_of(lines, crate):
    """The crate that failed: this one, or one that it depends on. Errors name the files of that crate alone."""
    found = [re.match(r"rt: the library (\w+) did not build", line) for line in lines]
    return next((line[1] for line in found if line), crate)


def prove(progress, verb, crate, **streams):
    """Runs a command of the kit in the crate's folder."""
    lines, command, folder = [], ["rt", verb, *FLAGS], ROOT / "crates" / crate
    with open(LOG, "w") as log, subprocess.Popen(command, cwd=folder, text=True, errors="replace", **streams) as run:
        for line in run.stderr or run.stdout:
            log.write(line)
            lines.append(line.rstrip("\n"))
            progress.see(line)
    if run.returncode:
        raise Failed(f"a proof or the building of the crate {place_of(lines, crate)} failed, so nothing was built; "
                     f"{LOG.relative_to(ROOT)} has all that was said:\n{fault_of(lines)}")
    progress.show(crate)


# ---- the program and the library

def run_case(progress):
    """Proves, builds and runs the program, which must write of its stored case what is stored."""
    with open(CASE, "rb") as case, open(WRITTEN, "wb") as written:
        prove(progress, "run", PROGRAM_CRATE, stdin=case, stdout=written, stderr=subprocess.PIPE)
    if WRITTEN.read_bytes() != ANSWER.read_bytes():
        raise Failed(f"the program is proved, and what it wrote is not what its file {ANSWER.relative_to(ROOT)} has; "
                     f"{WRITTEN.relative_to(ROOT)} has what it wrote")


def build_program(progress):
    began = time.time_ns()
    for path in PROGRAM_STAMP, PROGRAM:
        path.unlink(missing_ok=True)
    run_case(progress)
    PROGRAM.parent.mkdir(exist_ok=True)
    shutil.copy(BUILT_PROGRAM, PROGRAM)
    pass_build(PROGRAM_STAMP, began)


def shared_name():
    """The library's file, which is also its SONAME. Before 1.0 a minor version may change calls."""
    return f"libclaimtotals.so.{version().rpartition('.')[0]}"


def link(archive, folder):
    """The shared library of an archive, and the name by which programs are linked with it."""
    shared = folder / shared_name()
    command = ["cc", "-shared", f"-Wl,-soname,{shared.name}", "-o", shared, "-Wl,--whole-archive", archive, "-Wl,--no-whole-archive"]
    ended = subprocess.run(command, stdin=subprocess.DEVNULL, capture_output=True, text=True)
    if ended.returncode:
        raise Failed(f"the library was not linked:\n{fault_of(ended.stderr.splitlines())}")
    (folder / "libclaimtotals.so").symlink_to(shared.name)


def library_files():
    """What is built for those who call, by name."""
    return "libclaimtotals.a", "libclaimtotals.so", shared_name(), HEADER.name


def clear(folder):
    """Takes the files of an earlier build away, so that none is left where this one fails."""
    if folder == HEADER.parent:
        raise Failed(f"{folder} has the header that is copied, so the library is built elsewhere")
    folder.mkdir(parents=True, exist_ok=True)
    for name in library_files():
        (folder / name).unlink(missing_ok=True)


def build_files(progress, folder):
    """The static and the shared library in this folder, with the header beside them."""
    clear(folder)
    prove(progress, "lib", LIBRARY_CRATE, stdin=subprocess.DEVNULL, stdout=subprocess.PIPE, stderr=subprocess.STDOUT)
    shutil.copy(BUILT_LIBRARY, folder / "libclaimtotals.a")
    shutil.copy(HEADER, folder)
    link(folder / "libclaimtotals.a", folder)


def build_library(progress):
    began = time.time_ns()
    LIBRARY_STAMP.unlink(missing_ok=True)
    build_files(progress, LIBRARY)
    pass_build(LIBRARY_STAMP, began)


# ---- for the commands

def lock_build(lock):
    """Where two commands build at once, the second waits for the first."""
    try:
        fcntl.flock(lock, fcntl.LOCK_EX | fcntl.LOCK_NB)
    except BlockingIOError:
        say("another command is building here: waiting for it")
        fcntl.flock(lock, fcntl.LOCK_EX)


@contextlib.contextmanager
def build_lock():
    """Where the tools are there and the folder can be written."""
    for tool, source in ("rt", "the Rattle kit"), ("cc", "a C compiler"):
        if not shutil.which(tool):
            raise Failed(f"missing: {tool}, which comes with {source}; it is needed to build")
    try:
        TARGET.mkdir(exist_ok=True)
        with open(TARGET / "building", "w") as lock:
            lock_build(lock)
            yield
    except OSError as fault:
        raise Failed(f"nothing can be built here: {fault.filename or TARGET}: {fault.strerror}") from None


PARTS = {PROGRAM_CRATE: (program_is_due, build_program), LIBRARY_CRATE: (library_is_due, build_library)}


def due(crates):
    return [crate for crate in crates if PARTS[crate][0]()]


def build(crates):
    progress = Progress(crates)
    for crate in crates:
        PARTS[crate][1](progress)


def ready(*crates):
    """Builds what is made of these crates, where that is due."""
    if due(crates):
        with build_lock():
            still_due = due(crates)  # another command may have built it meanwhile
            if still_due:
                build(still_due)
