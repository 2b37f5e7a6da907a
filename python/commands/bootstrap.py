"""What each command of this folder begins with: a Python that is new enough, and the way to the package. In the repository there is also
that to library/proving.py, which proves and builds; a release has all that is built."""
import os
import pathlib
import sys

if sys.version_info < (3, 9):
    name = os.path.basename(sys.argv[0])[:-len(".py")]
    sys.stderr.write("{}: this needs Python 3.9 or newer, and python3 is {}.{}\n".format(name, *sys.version_info))
    sys.exit(2)

ROOT = pathlib.Path(__file__).resolve().parents[2]
IS_REPOSITORY = (ROOT / "crates").is_dir()
VERSION = (ROOT / "VERSION").read_text().strip()
sys.path[:0] = [str(ROOT / "python"), str(ROOT / "library")]
