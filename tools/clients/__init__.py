"""What the checks share that start programs which serve: `stand` has ports, the programs on them, and a broker with a relay before it."""

import sys

if sys.version_info < (3, 9):
    sys.exit(f"Python 3.9 or later is needed, and this is {sys.version.split()[0]}")
