"""Faults that are brought to replies: lines such as `heartbeat refuse 14`, `join 2 lose`, `commit every 3 refuse 113`.

A line is WHICH, when (a number for the N-th, `every N`, `all`; the next one if nothing is said), what is done, and a value:

    lose            the request counts, its reply is lost, and the connection answers nothing any more
    close           the request counts, and the connection closes in place of the reply
    cut             the request doesn't count, and the connection closes
    delay S         the reply comes S seconds late
    refuse CODE     the request doesn't count, and is refused
    repeat          the reply comes twice
    interval MS, epoch N, member ID, throttle MS
                    the reply has this value

WHICH is heartbeat, join, leave, beat (a heartbeat that is neither), report (a beat that says what is owned), empty (one that says that nothing
is), short (one that doesn't say it), commit, lookup, offsets, or the name of an API.
"""

from __future__ import annotations

import dataclasses
import pathlib
from typing import Any, List, Optional, Sequence

from conformance.members.codec import APIS
from conformance.members.record import Frame

PLAIN, NUMBERS, TEXTS = ("lose", "close", "cut", "repeat"), ("delay", "refuse", "interval", "epoch", "throttle"), ("member",)
KINDS = ("heartbeat", "join", "leave", "beat", "report", "empty", "short")


class BadFault(ValueError):
    """A line that is no fault, and why."""


@dataclasses.dataclass
class Fault:
    """What is done to the requests that a word means: from the `first` on, of every so many, or to one alone if `every` is 0."""

    which: str
    first: int
    every: int
    act: str
    value: Any = None
    seen: int = 0

    def takes(self, frame: Frame) -> bool:
        """Whether it is for this request; it counts those that it sees."""
        if self.which not in frame.words:
            return False
        self.seen += 1
        past = self.seen - self.first
        return past >= 0 and past % self.every == 0 if self.every else past == 0

    @property
    def is_over(self) -> bool:
        return not self.every and self.seen >= self.first

    @property
    def text(self) -> str:
        return self.act if self.value is None else f"{self.act} {self.value}"


def parse(line: str) -> Fault:
    words = line.split()
    names = {api.name.lower(): api.name for api in APIS.values()}
    names.update(commit="OffsetCommit", lookup="FindCoordinator", offsets="OffsetFetch")
    which = words.pop(0) if words else ""
    if which not in KINDS and which.lower() not in names:
        raise BadFault(f"{which!r} is no request")
    first, every = 1, 0
    if words and words[0] == "all":
        every, words = 1, words[1:]
    elif words[:1] == ["every"] and len(words) > 1 and words[1].isdigit() and int(words[1]) > 0:
        first = every = int(words[1])
        words = words[2:]
    elif words and words[0].isdigit():
        first, words = max(1, int(words[0])), words[1:]
    act, value = (words + ["", ""])[:2]
    if len(words) == 1 and act in PLAIN:
        return Fault(names.get(which.lower(), which), first, every, act)
    if len(words) == 2 and act in NUMBERS + TEXTS:
        return Fault(names.get(which.lower(), which), first, every, act, value if act in TEXTS else number(act, value))
    raise BadFault(f"{' '.join(words)!r} is nothing that can be done to a reply")


def number(act: str, word: str) -> float:
    try:
        return float(word) if act == "delay" else int(word)
    except ValueError:
        raise BadFault(f"{word!r} is no number") from None


class Faults:
    """Those that are to be brought, in their order: to a request the first one that takes it."""

    def __init__(self, file: Optional[pathlib.Path] = None) -> None:
        self.file, self.read_at = file, 0
        self.waiting: List[Fault] = []
        self.reread()

    def add(self, *lines: str) -> None:
        self.waiting += map(parse, lines)

    def clear(self) -> None:
        self.waiting = []

    def reread(self) -> None:
        """Takes the lines of the file if it has changed. One that can't be read keeps those that there are. Raises BadFault."""
        if self.file is None:
            return
        changed = self.file.stat().st_mtime_ns
        if changed != self.read_at:
            self.read_at = changed
            lines = self.file.read_text(encoding="utf-8").splitlines()
            self.waiting = lines_of(lines)

    def take(self, frame: Frame) -> Optional[Fault]:
        found = next((fault for fault in self.waiting if fault.takes(frame)), None)
        self.waiting = [fault for fault in self.waiting if not fault.is_over]
        return found


def lines_of(lines: Sequence[str]) -> List[Fault]:
    faults = []
    for place, line in enumerate(lines, 1):
        if line.strip() and not line.startswith("#"):
            try:
                faults.append(parse(line))
            except BadFault as why:
                raise BadFault(f"line {place}: {why}") from None
    return faults
