"""What python/build and release/build share: which files are packed, with which dates, and how the two are called."""
import os
import pathlib
import shutil
import subprocess

import proving
from claimtotals import streams
from claimtotals.usage import Parser

ROOT = proving.ROOT

# Every packed file has this date, the first that a zip file can tell, so that the same files always give the same bytes.
DATE = 1980, 1, 1, 0, 0, 0


def by_git(folder):
    """The files that git tracks there, by path."""
    command = ["git", "ls-files", "-z", "--", folder]
    with streams.reporting("git"):
        ended = subprocess.run(command, cwd=ROOT, stdin=subprocess.DEVNULL, stdout=subprocess.PIPE, stderr=subprocess.PIPE)
    if ended.returncode:
        raise streams.Failed(f"git does not tell which files belong to the repository: {ended.stderr.decode(errors='replace').strip()}")
    return [os.fsdecode(path) for path in ended.stdout.split(b"\0")[:-1]]


def by_name(folder):
    """All files but hidden ones and what Python keeps for itself."""
    paths = [path.relative_to(ROOT) for path in (ROOT / folder).rglob("*") if path.is_file()]
    return [path.as_posix() for path in paths if not any(part.startswith(".") or part == "__pycache__" for part in path.parts)]


def tracked(folder):
    """The files of a folder that belong to the repository, so that no other that lies about there is packed. Where there is no git that
    could tell, or a copy without the repository's own folder, all do."""
    return sorted(by_git(folder) if (ROOT / ".git").exists() and shutil.which("git") else by_name(folder))


def mode(path):
    """Of two kinds alone, whatever the mask was when the files came here."""
    return 0o755 if path.stat().st_mode & 0o100 else 0o644


def build(folder, pattern, make):
    """Writes the files that `make` gives by name and content. Those of an earlier build go first, so that none is left where it fails."""
    with streams.reporting(str(folder)):
        folder.mkdir(parents=True, exist_ok=True)
        for path in folder.glob(pattern):
            path.unlink()
    files = make()
    for name, content in files.items():
        streams.write_file(str(folder / name), content)
    proving.say(f"built in {folder}: {', '.join(files)}")
    return streams.SUCCESS


def main(command, description, pattern, make):
    """The status of such a command."""
    words = Parser(command, prog=command, description=description, epilog=f"example: {command} target/dist")
    words.add_argument("folder", metavar="FOLDER", nargs="?", type=pathlib.Path, default=proving.TARGET / "dist",
                       help="target/dist without it")
    return streams.status(command, lambda: build(words.parse_args().folder.resolve(), pattern, make))
