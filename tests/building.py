"""How the commands prove and build what they need, for tests/curve: copies of the scripts, each in a folder of its own, with a stand-in for
`rt` that says what rt says and makes what rt makes."""
import os
import re
import shutil
import signal
import subprocess
import sys
import time
from functools import partial

from channels import hold_to_interrupt, nobody
from commands import COIN_TOSS, MOMENT, ROOT, SLIP, Asked, Fault, check_run, ended, hold, refused_line, run, written

PROGRAM, LIBRARY = "curve", "interface"

# FAILS is a crate that is not proved, `its run` where the program does not write what it is to, or `the call` where crates.txt is wrong.
# CHANGES is set where somebody saves a file meanwhile, PAUSE where a command is stopped or another waits for it. As rt does, it works in a
# crate's folder, says nothing of what its out/ has proved already, and writes on standard error where it runs a program.
STAND_IN = """\
#!/bin/sh
top=$(cd ../.. && pwd)
echo "$*" >>"$top/called"
case "$PWD $*" in
*"/crates/curve run --cpu x86-64") crates="{program}" made=curve from=bin/curve; exec 3>&1 1>&2 ;;
*"/crates/interface lib --cpu x86-64") crates="{library}" made=libinterface.a from=library/libclaimtotals.a ;;
*) echo "rt: no such call: $* in $PWD" >&2; exit 2 ;;
esac
[ "$FAILS" != "the call" ] || {{ echo "rt: $top/crates.txt: this line is none" >&2; exit 2; }}
for name in $crates; do
    folder="$top/crates/$name"
    mkdir -p "$folder/out/rlib"
    [ "$folder/out/rlib/stamp" -nt "$top/crates/algebra/src/lib.rt" ] && [ "$name" != "$FAILS" ] && [ "$folder" != "$PWD" ] && continue
    echo "statements std: modules loaded=0 checked=0"
    if [ "$name" = "$FAILS" ]; then
        echo "rattle build: nothing was built, since only a proved crate is built"
        echo "src/lib.rt:36:19: error[unknown-name]: cannot find value \\`limt\\` in this scope"
        [ "$folder" = "$PWD" ] || echo "rt: the library $name did not build, so nothing above it was checked" >&2
        exit 1
    fi
    echo "fn $name::first: proved"
    echo "crate $name: modules loaded=0 checked=40"
    echo "logic=proved functions=1"
    touch "$folder/out/rlib/stamp"
done
[ -z "$CHANGES" ] || {{ sleep 0.05; echo "// changed" >>"$top/crates/algebra/src/lib.rt"; }}
sleep "${{PAUSE:-0}}"
cp "{root}/target/$from" "out/$made"
if [ "$made" = curve ]; then
    echo "rt: running out/curve; to give it other input, run that file yourself"
    [ "$FAILS" != "its run" ] || {{ echo "REFUSED 1 0" >&3; exit 0; }}
    exec ./out/curve >&3
fi
"""

TABLE = Asked(0, written(COIN_TOSS).encode(), "")
ANYTHING = "(?s:.*)"


def needed(*crates):
    """These and what they depend on, but for the kit's: the lines of crates.txt come in such an order. Words behind a name say how it is
    built."""
    lines = [line.split(":") for line in (ROOT / "crates.txt").read_text().splitlines() if line and not line.startswith("#")]
    depends = {name.split()[0]: others.split() for name, others in lines}
    found = set(crates)
    for name, others in reversed(depends.items()):
        if name in found:
            found |= set(others)
    return [name for name in depends if name in found]


# ---- copies

def put(path, content, mode=0o755):
    path.parent.mkdir(parents=True, exist_ok=True)
    path.write_text(content)
    path.chmod(mode)


def copy_scripts(folder):
    for name in "curve", "claimtotals", "VERSION":
        shutil.copy(ROOT / name, folder / name)
    shutil.copytree(ROOT / "python", folder / "python")


class Copy:
    """A copy of the repository in a new folder, where nothing is built yet and the crates are no more than a file."""

    def __init__(self, room, name):
        self.folder = room / name
        self.folder.mkdir()
        copy_scripts(self.folder)
        shutil.copy(ROOT / "crates.txt", self.folder)
        shutil.copytree(ROOT / "library", self.folder / "library")
        self.source = self.folder / "crates/algebra/src/lib.rt"
        put(self.source, "// a crate\n", 0o644)
        for crate in PROGRAM, LIBRARY:
            (self.folder / "crates" / crate).mkdir()
        for file in "stdin", "stdout":
            shutil.copy(ROOT / "crates" / PROGRAM / file, self.folder / "crates" / PROGRAM / file)
        put(self.folder / "bin/rt", STAND_IN.format(program=" ".join(needed(PROGRAM)), library=" ".join(needed(LIBRARY)), root=ROOT))

    def environment(self, **more):
        return {**os.environ, "PATH": f"{self.folder}/bin{os.pathsep}{os.environ['PATH']}", **more}

    def run(self, command, *words, shell="", options=None, **more):
        """With these variables of the environment."""
        return run(self.folder / command, *words, given=COIN_TOSS, shell=shell, env=self.environment(**more), **(options or {}))

    def start(self, command, **more):
        """Is not waited for; a signal reaches what it has started too."""
        return subprocess.Popen([self.folder / command, ROOT / "examples/coin_toss.txt"], bufsize=0, env=self.environment(**more),
                                stdin=subprocess.DEVNULL, stdout=subprocess.PIPE, stderr=subprocess.PIPE, start_new_session=True)

    def hold_to_calls(self, count):
        """How often the stand-in was called so far."""
        called = self.folder / "called"
        found = called.read_text().splitlines() if called.exists() else []
        if len(found) != count:
            raise Fault(f"rt was called {len(found)} times, not {count}: {found}")

    def library_files(self):
        return sorted(path.name for path in (self.folder / "target/library").glob("*claimtotals*"))

    def change(self, name):
        """A file is now newer than what was built of it."""
        time.sleep(0.01)
        os.utime(self.folder / name)


def path_of(folder, *tools):
    """A path with these tools alone and what the scripts themselves need."""
    folder.mkdir()
    for name in "bash", "dirname", "realpath", *tools:
        (folder / name).symlink_to(shutil.which(name))
    put(folder / "python3", f'#!{shutil.which("sh")}\nexec {sys.executable} "$@"\n')
    return str(folder)


# ---- what is asked for

def hold_to_progress(found, crates):
    """How long it takes, then each crate once, counted; and the table."""
    first, *lines = found.said.splitlines() or [""]
    told = [re.fullmatch(r"(\d+) of (\d+): (\w+)", line) for line in lines]
    if "minute" not in first or not all(told):
        raise Fault(f"it does not say how long it takes, or says something else than that and its progress: {found.said!r:.900}")
    if [(int(line[1]), int(line[2])) for line in told] != [(place, len(crates)) for place in range(1, len(crates) + 1)]:
        raise Fault(f"{len(crates)} crates are counted otherwise: {found.said!r:.900}")
    if {line[3] for line in told} != set(crates):
        raise Fault(f"it shows other crates than {crates}: {found.said!r:.900}")
    hold(found, TABLE._replace(said=ANYTHING))


def hold_to_failure(found, said, most):
    """Nothing is written, and this pattern is said, on so many lines at most beside the progress."""
    hold(found, Asked(2, b"", ANYTHING))
    lines = [line for line in found.said.splitlines() if not re.match(r"\d+ of \d+: |proving and building", line)]
    if not re.search(said, found.said, re.S) or len(lines) > most:
        raise Fault(f"it said {found.said!r:.900}, and not {said!r} on {most} lines at most")


def hold_to_no_library(copy):
    if copy.library_files():
        raise Fault(f"a library is there: {copy.library_files()}")


# ---- what is due

def check_building(room):
    """From nothing; then nothing is due; then some file is newer, of which both are made or one."""
    copy = Copy(room, "from nothing")
    hold_to_progress(copy.run("curve"), needed(PROGRAM, LIBRARY))
    hold(copy.run("curve"), TABLE)
    hold(copy.run("claimtotals", "table", "-"), TABLE)
    copy.hold_to_calls(2)
    copy.change("crates/algebra/src/lib.rt")
    hold_to_progress(copy.run("curve"), needed(PROGRAM, LIBRARY))
    copy.change("library/claimtotals.h")
    hold_to_progress(copy.run("curve"), needed(LIBRARY))
    copy.change("crates.txt")
    hold_to_progress(copy.run("claimtotals", "table", "-"), needed(LIBRARY))
    hold_to_progress(copy.run("curve"), needed(PROGRAM))
    copy.hold_to_calls(7)


def check_nothing_due(room):
    """What Python keeps beside its files, and a link that an editor leaves, are nothing that a build is made of. No tool is needed then."""
    copy = Copy(room, "nothing due")
    (copy.folder / "crates/algebra/src/.#lib.rt").symlink_to("somebody@somewhere")
    hold_to_progress(copy.run("curve"), needed(PROGRAM, LIBRARY))
    put(copy.folder / "library/__pycache__/proving.pyc", "")
    path = path_of(room / "no tools")
    hold(copy.run("curve", PATH=path), TABLE)
    hold(copy.run("claimtotals", "table", "-", PATH=path), TABLE)


def check_changed_meanwhile(room):
    """A file that is saved during a build is newer than what was built."""
    copy = Copy(room, "changed")
    hold_to_progress(copy.run("curve", CHANGES="1"), needed(PROGRAM, LIBRARY))
    hold_to_progress(copy.run("curve"), needed(PROGRAM, LIBRARY))
    hold(copy.run("curve"), TABLE)


def check_two_at_once(room):
    """The second says that it waits for the first, and has nothing to build then."""
    copy = Copy(room, "two")
    first = copy.start("curve", PAUSE="0.7")
    begins = first.stderr.readline()
    second = copy.start("curve")
    outputs = [process.communicate(timeout=MOMENT) for process in (first, second)]
    hold_to_progress(ended(first.returncode, outputs[0][0], begins + outputs[0][1]), needed(PROGRAM, LIBRARY))
    hold(ended(second.returncode, *outputs[1]), TABLE._replace(said="another command is building here: waiting for it\n"))
    copy.hold_to_calls(2)


def check_nothing_needed(room):
    """Help, the version and a file that is not there need nothing that is built."""
    copy = Copy(room, "nothing needed")
    hold(copy.run("curve", "no such"), Asked(2, b"", "curve: no such: No such file or directory\n"))
    for command, word in ("curve", "--help"), ("curve", "--version"), ("claimtotals", "--help"), ("claimtotals", "--version"):
        found = copy.run(command, word)
        hold(found, Asked(0, found.out, ""))
    copy.hold_to_calls(0)


# ---- where it fails

def check_missing(room, tool):
    """Without a tool."""
    copy, folder = Copy(room, f"without {tool}"), room / f"path without {tool}"
    path = path_of(folder, *{"cc", "sh"} - {tool})
    if tool == "rt":
        (copy.folder / "bin/rt").unlink()
    (folder / tool).unlink(missing_ok=True)
    found = copy.run("curve", PATH=f"{copy.folder}/bin{os.pathsep}{path}")
    hold_to_failure(found, f"curve: missing: {tool}", most=1)


def check_old_python(room):
    """A Python that says it is 3.8."""
    copy, path = Copy(room, "old"), path_of(room / "path of an old Python")
    code = "import os, runpy, sys; sys.version_info = 3, 8, 9; del sys.argv[0]; sys.path[0] = os.path.dirname(sys.argv[0])"
    put(room / "path of an old Python/python3",
        f"#!{shutil.which('sh')}\nexec {sys.executable} -c '{code}; runpy.run_path(sys.argv[0])' \"$@\"\n")
    for command in "curve", "claimtotals":
        hold(copy.run(command, PATH=path), Asked(2, b"", rf"{command}: this needs Python 3\.9 or newer, .*3\.8\n"))


# What fails, and what is to be seen of it.
FAULT = "error[unknown-name]: cannot find"
FAILURES = {**{crate: f"the crate {crate} failed, .*{re.escape(FAULT)}" for crate in ("algebra", "compound", LIBRARY, PROGRAM)},
            "its run": "what it wrote is not", "the call": "crates.txt: this line is none"}


def check_failure(room, fails, said):
    """After a good build: the fault is shown, and no old program or library is left to be used. Then all is well again."""
    copy = Copy(room, f"fails {fails}")
    copy.run("curve")
    copy.change("crates/algebra/src/lib.rt")
    for _ in range(2):
        hold_to_failure(copy.run("curve", FAILS=fails), said, most=5)
    if fails in needed(LIBRARY):
        hold_to_no_library(copy)
    hold(copy.run("curve"), TABLE._replace(said=ANYTHING))


def check_library_build(room):
    """`library/build` shows a fault too, and leaves no old library."""
    copy = Copy(room, "library")
    copy.run("library/build")
    if copy.library_files() != ["claimtotals.h", "libclaimtotals.a", "libclaimtotals.so", "libclaimtotals.so.0.8"]:
        raise Fault(f"it left {copy.library_files()}")
    hold_to_failure(copy.run("library/build", FAILS="model"), re.escape(FAULT), most=5)
    hold_to_no_library(copy)


def check_library_folder(room):
    """In a folder that is given other files stay, those of another version too; in the header's own nothing is built."""
    copy, folder = Copy(room, "library elsewhere"), room / "given"
    others = [folder / name for name in ("passed", "libclaimtotals.so.0.0", "notes")]
    for path in others:
        put(path, path.name)
    hold(copy.run("library/build", folder), Asked(0, b"", ANYTHING))
    if not all(path.exists() and path.read_text() == path.name for path in others) or not (folder / "libclaimtotals.so").exists():
        raise Fault(f"it left {sorted(path.name for path in folder.iterdir())}")
    hold_to_failure(copy.run("library/build", copy.folder / "library"), "has the header", most=1)
    if not (copy.folder / "library/claimtotals.h").exists():
        raise Fault("the header is gone")


def check_no_room(room):
    """A file is in the place of the folder for what is built."""
    copy = Copy(room, "no room")
    (copy.folder / "target").write_text("")
    for command, *words in ["curve"], ["claimtotals", "table", "-"], ["library/build"]:
        hold_to_failure(copy.run(command, *words), f"{command}: ", most=2)
    copy.hold_to_calls(0)


def check_locked(room):
    """The folder may not be written; left out where root cannot become another."""
    copy = Copy(room, "locked")
    copy.folder.chmod(0o555)
    if nobody() is not None:
        hold_to_failure(copy.run("curve", options=nobody()), f"curve: nothing can be built here: {copy.folder}/target", most=2)
    copy.folder.chmod(0o755)


def check_silent_build(room, shell):
    """Where nothing can be said, the table is as ever."""
    copy = Copy(room, f"silent {shell}".replace("/", " "))
    hold(copy.run("curve", ROOT / "examples/coin_toss.txt", shell=shell), TABLE)


def check_stopped(room):
    """Ctrl-C while it builds."""
    process = Copy(room, "stopped").start("curve", PAUSE="20")
    if b" of " not in process.stderr.readline() + process.stderr.readline():
        raise Fault("it does not say that it builds")
    os.killpg(process.pid, signal.SIGINT)
    out, err = process.communicate(timeout=MOMENT)
    found = ended(process.returncode, out, err)
    hold_to_interrupt(found._replace(said=re.sub(r"(?m)^\d+ of \d+: \w+\n", "", found.said)))


# ---- the archive's layout

def archive(room, name):
    """A folder as a release has it, without crates."""
    folder = room / name
    for part in "bin", "lib":
        (folder / part).mkdir(parents=True)
    copy_scripts(folder)
    shutil.copy(ROOT / "target/bin/curve", folder / "bin/curve")
    shutil.copy(ROOT / "target/library/libclaimtotals.so", folder / "lib/libclaimtotals.so")
    return folder


def check_archive(room):
    """Nothing is built, and nothing is needed but Python."""
    folder, environment = archive(room, "archive"), {"PATH": path_of(room / "path for the archive")}
    check_run(TABLE, folder / "curve", given=COIN_TOSS, env=environment)
    check_run(TABLE, folder / "claimtotals", "table", "-", given=COIN_TOSS, env=environment)
    refused = Asked(1, written(SLIP).encode(), refused_line("curve", "standard input", SLIP))
    check_run(refused, folder / "curve", given=SLIP, env=environment)
    if (folder / "target").exists():
        raise Fault("it made target/")


def check_damaged(room, part, command, *words):
    """A part of the archive that is missing or is for no machine is told on one line."""
    path = archive(room, f"damaged {command}") / part
    for content in b"\x7fELF and no more", b"", None:
        path.unlink()
        if content is not None:
            path.write_bytes(content)
            path.chmod(0o755)
        check_run(Asked(2, b"", rf"{command}: .*{re.escape(path.name)}.*\n"), path.parents[1] / command, *words, given=COIN_TOSS)


def version_call(major, minor, patch):
    """In C, of a library that has no other call."""
    return f"unsigned long claimtotals_version(void) {{ return {10_000 * major + 100 * minor + patch}; }}\n"


def check_other_library(room):
    """A library of another version, the last number apart, or one that lacks a call."""
    folder = archive(room, "other library")
    major, minor, patch = map(int, (ROOT / "VERSION").read_text().split("."))
    others = [(major, minor - 1, patch), (major, minor + 1, patch), (major + 1, minor, patch)]
    libraries = {version_call(*other): "version {}, and not {}.{}".format(".".join(map(str, other)), major, minor) for other in others}
    libraries.update({version_call(major, minor, patch + 1): "no claimtotals_start_mean", "": "no claimtotals_version"})
    for source, has in libraries.items():
        run("cc", "-shared", "-o", folder / "lib/libclaimtotals.so", "-x", "c", "-", given=source.encode())
        said = f"libclaimtotals.so has {has}: it is another version's, and is to be built anew\n"
        check_run(Asked(2, b"", f"claimtotals: .*{re.escape(said)}"), folder / "claimtotals", "table", "-", given=COIN_TOSS)


def check_safe_path(room):
    """Where Python is told not to look for modules beside a script."""
    for command, *words in ["curve"], ["claimtotals", "table", "-"]:
        check_run(TABLE, ROOT / command, *words, given=COIN_TOSS, env={**os.environ, "PYTHONSAFEPATH": "1"})


def building_checks(room):
    alone = check_building, check_nothing_due, check_changed_meanwhile, check_two_at_once, check_nothing_needed, check_old_python, \
        check_library_build, check_library_folder, check_no_room, check_locked, check_stopped, check_archive, \
        check_other_library, check_safe_path
    for check in alone:
        yield check.__name__.replace("check_", "").replace("_", " "), partial(check, room)
    for tool in "rt", "cc", "python3":
        yield f"without {tool}", partial(check_missing, room, tool)
    for fails, said in FAILURES.items():
        yield f"{fails} fails", partial(check_failure, room, fails, said)
    for shell in '"$@" 2>&-', '"$@" 2>/dev/full':
        yield shell, partial(check_silent_build, room, shell)
    yield "an archive without the program", partial(check_damaged, room, "bin/curve", "curve")
    yield "an archive without the library", partial(check_damaged, room, "lib/libclaimtotals.so", "claimtotals", "table", "-")
