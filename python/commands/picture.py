"""./picture [TABLE] [--title TEXT]"""
import sys

import bootstrap  # finds the package

from claimtotals import printed

sys.exit(printed.main(sys.argv[1:]))
