"""./claimtotals COMMAND .."""
import sys

from bootstrap import IS_REPOSITORY, VERSION

from claimtotals import command, library


def built():
    import proving
    proving.ready(proving.LIBRARY_CRATE)
    return library.stored()


if IS_REPOSITORY:
    library.find = built
sys.exit(command.main(version=lambda: VERSION))
