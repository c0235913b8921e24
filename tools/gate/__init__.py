"""What the tools share that start programs or ask the prover; docs/GATE.md says how they are run.

commands    starting programs, their time, signals, and ending all of them
checks      the command line of check scripts, and checks as methods or tests
crates      crates.txt, the words by which the checker is called for one crate, and what came out as it must before
schedule    how much has room side by side
meter       how much processor time rt ci takes for each crate
wrong       wrong code that must be refused: reading it, and applying it to a crate's texts
verdicts    reading what a check says
trials      wrong bodies that only a test or a case refuses
cases       lines for the program, and what it must answer
rows        many small cases in one text
whole       the gate itself: the list of checks
"""

import sys

if sys.version_info < (3, 9):
    sys.exit(f"Python 3.9 or later is needed, and this is {sys.version.split()[0]}")

from rules.ending import without_traceback  # noqa: E402  pylint: disable=wrong-import-position

without_traceback()
