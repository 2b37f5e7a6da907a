"""The wheel: the package with the proved library in it, as pip installs it."""
import ast
import base64
import hashlib
import io
import re
import zipfile

import packing
import proving
from claimtotals.streams import Failed

PACKAGE = "python/claimtotals"
VERSION = proving.version()
INFO = f"claimtotals-{VERSION}.dist-info"

# Every Python 3 can use it, as nothing in it is compiled for Python: ctypes opens the library.
PYTHON = "py3-none"

# It is for Linux on x86-64 with the GNU C library, from this version on: `check_library` reads off the library what it asks for, which is
# 2.14 today, and 2.17 is the next one that older pips have a name for, the second. Elsewhere pip refuses the wheel, and rightly: a C
# library such as musl does not have these versions of symbols.
GLIBC = 2, 17
PLATFORMS = "manylinux_2_17_x86_64", "manylinux2014_x86_64"

ELF_OF_64_BITS, X86_64 = b"\x7fELF\2\1", b"\x3e\0"

METADATA = """\
Metadata-Version: 2.1
Name: claimtotals
Version: {version}
Summary: {summary}
Requires-Python: >=3.9
Description-Content-Type: text/markdown

{description}
"""

WHEEL = """\
Wheel-Version: 1.0
Generator: python/build
Root-Is-Purelib: false
"""

ENTRY_POINTS = """\
[console_scripts]
claimtotals = claimtotals.command:main
"""


def name():
    return f"claimtotals-{VERSION}-{PYTHON}-{'.'.join(PLATFORMS)}.whl"


def is_offered(version):
    """Whether the oldest C library that the wheel is for has a version of symbols."""
    return bool(re.fullmatch(r"[0-9.]+", version)) and tuple(map(int, version.split("."))) <= GLIBC


def check_library(content):
    """That the tag is true of the library. In it stand the names of the files that it needs and of the versions of their symbols, each
    with a zero byte behind. Where other bytes look like a name, no wheel is made: that is the safe side."""
    if not content.startswith(ELF_OF_64_BITS) or content[18:20] != X86_64:
        raise Failed("the library is not for Linux on x86-64, and the wheel would say that it is")
    needed = {found.decode() for found in re.findall(rb"([\w.+-]+\.so[\w.]*)\0", content)} - {proving.shared_name(), "libc.so.6"}
    if needed:
        raise Failed(f"the library needs {', '.join(sorted(needed))}, and the wheel would say that it needs the C library alone")
    versions = {found.decode() for found in re.findall(rb"GLIBC_(\w[\w.]*)\0", content)}
    newer = sorted(version for version in versions if not is_offered(version))
    if newer:
        least = ".".join(map(str, GLIBC))
        raise Failed(f"the library asks for GLIBC_{', GLIBC_'.join(newer)}, and the wheel would say that the C library {least} is enough")


def library():
    """Its bytes: a wheel has no links."""
    content = (proving.LIBRARY / "libclaimtotals.so").read_bytes()
    check_library(content)
    return content


def metadata():
    """What the package says of itself."""
    words = ast.get_docstring(ast.parse((packing.ROOT / PACKAGE / "__init__.py").read_text(encoding="utf-8")))
    return METADATA.format(version=VERSION, summary=" ".join(words.partition("\n\n")[0].split()), description=words)


def tags():
    return "".join(f"Tag: {PYTHON}-{platform}\n" for platform in PLATFORMS)


def record(files):
    """Every file with its sum and its size; its own line has neither."""
    lines = []
    for path, content in files.items():
        digest = base64.urlsafe_b64encode(hashlib.sha256(content).digest()).rstrip(b"=").decode()
        lines.append(f"{path},sha256={digest},{len(content)}\n")
    return "".join([*lines, f"{INFO}/RECORD,,\n"]).encode()


def files():
    """By path, in the order in which they are packed: what is said of the wheel comes last, as it should."""
    package = {path[len("python/"):]: (packing.ROOT / path).read_bytes() for path in packing.tracked(PACKAGE)}
    package["claimtotals/libclaimtotals.so"] = library()
    said = {"METADATA": metadata(), "WHEEL": WHEEL + tags(), "entry_points.txt": ENTRY_POINTS}
    found = {**dict(sorted(package.items())), **{f"{INFO}/{path}": text.encode() for path, text in said.items()}}
    return {**found, f"{INFO}/RECORD": record(found)}


def content():
    """The wheel's bytes. Nothing is compressed, as that gives other bytes where zlib is another one."""
    buffer = io.BytesIO()
    with zipfile.ZipFile(buffer, "w") as wheel:
        for path, stored in files().items():
            info = zipfile.ZipInfo(path, packing.DATE)
            info.create_system = 3  # Unix, so that the mode below counts
            info.external_attr = (0o100755 if path.endswith(".so") else 0o100644) << 16
            wheel.writestr(info, stored)
    return buffer.getvalue()


def build():
    """The wheel by name and content."""
    proving.ready(proving.LIBRARY_CRATE)
    return {name(): content()}
