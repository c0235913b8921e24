"""What goes wrong: for good, or for a time, which is said once when it begins and once when it ends."""

from __future__ import annotations

from typing import Optional

from broker.output import say


class Ended(Exception):
    """This broker can't start, or can't go on, and why."""


class Trouble:
    def __init__(self, begins: str, ends: str) -> None:
        self._begins, self._ends = begins, ends
        # What is wrong, or None.
        self.why: Optional[str] = None

    def __str__(self) -> str:
        return f"{self._begins}: {self.why}"

    def is_there(self, why: str) -> None:
        if self.why is None:
            say(f"{self._begins}: {why}")
        self.why = why

    def is_well(self) -> None:
        if self.why is not None:
            say(self._ends)
        self.why = None
