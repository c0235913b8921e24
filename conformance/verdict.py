"""How a case ends before its end."""

from __future__ import annotations


class Failed(Exception):
    """Something that has to hold doesn't. It is a minor matter where a client gets along with it."""

    def __init__(self, words: str, is_minor: bool = False) -> None:
        super().__init__(words)
        self.is_minor = is_minor


class Late(Failed):
    """Something doesn't come about in time."""


class NotRun(Exception):
    """The case can't be played with this broker, and why."""


class StandsOn(NotRun):
    """A case failed on which this one stands."""
