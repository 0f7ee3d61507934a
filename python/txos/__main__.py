"""`python3 -m txos` is `txos-record`."""

import sys

from .command import main

sys.exit(main())
