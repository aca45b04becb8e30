"""`python3 -m yavdocsil`."""

import sys

from .command import main

sys.exit(main())
