"""./curve [SHEET]"""
import sys

from bootstrap import IS_REPOSITORY, ROOT, VERSION

from claimtotals import program


def built():
    """The program; and the library, from which the words of a refusal come."""
    import proving
    proving.ready(proving.LIBRARY_CRATE, proving.PROGRAM_CRATE)
    return proving.PROGRAM


def released():
    return ROOT / "bin/curve"


sys.exit(program.main(sys.argv[1:], VERSION, built if IS_REPOSITORY else released))
