"""python3 -m mutants is the command mutants."""

import sys

from mutants.command import main

sys.exit(main())
