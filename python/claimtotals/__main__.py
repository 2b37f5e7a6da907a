"""python3 -m claimtotals: the command."""
import sys

from claimtotals.command import main

sys.exit(main())
