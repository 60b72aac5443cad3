"""`python3 -m tagzirk` is the command tagzirk."""

import sys

from .command import main

sys.exit(main())
