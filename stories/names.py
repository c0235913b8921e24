"""Names for what scripts and outputs give as numbers and ids."""

from __future__ import annotations

import uuid
from typing import Dict, Iterable, Tuple

from conformance.rules import codes

# A topic's id, and the partition's index; the id of each topic and how many partitions it has, by its name.
Partition = Tuple[bytes, int]
Image = Dict[str, Tuple[bytes, int]]

# Those of the coordinator, and what else a broker may say of it.
CODES = {**codes.NAMES, 0: "NONE", 14: "COORDINATOR_LOAD_IN_PROGRESS", 16: "NOT_COORDINATOR"}
FAULTS = {
    1: "no client has this name",
    2: "no message has this number",
    3: "the client's state doesn't allow it",
    4: "out of memory",
    5: "larger than a frame may be",
    6: "the group has forgotten its id",
}
# What a request of each kind is called.
KINDS = {"join": "join", "short": "heartbeat", "owned": "heartbeat", "full": "full heartbeat", "leave": "leaves", "away": "goes away"}


def code_name(code: int) -> str:
    return CODES.get(code, f"error {code}")


def fault_name(fault: int) -> str:
    return FAULTS.get(fault, f"fault {fault}")


def printable(text: str) -> str:
    """A text in one line, of characters that every reader of it accepts."""
    return "".join(it if it.isprintable() else "\ufffd" for it in text)


def shortened(text: str, most: int) -> str:
    return text if len(text) <= most else text[: most - 1] + "…"


def moment_text(moment: int) -> str:
    """A time in whole seconds or milliseconds, as stories have it."""
    return f"{moment} ms" if moment % 1_000 else f"{moment // 1_000} s"


def counted(count: int, one: str) -> str:
    return f"{count} {one}" if count == 1 else f"{count} {one}s"


class Topics:
    """What topics are called: by their first name, with a number where another id had that name before."""

    def __init__(self) -> None:
        self.labels: dict[bytes, str] = {}
        self.ids: dict[str, int] = {}

    def next(self, name: str) -> str:
        """What the next topic of a name is called."""
        return printable(name) + (f"({self.ids[name] + 1})" if name in self.ids else "")

    def add(self, name: str, topic: bytes) -> None:
        if topic not in self.labels:
            self.labels[topic] = self.next(name)
            self.ids[name] = self.ids.get(name, 0) + 1

    def label(self, topic: bytes) -> str:
        return self.labels.get(topic) or f"{str(uuid.UUID(bytes=topic))[:8]}.."

    def partition(self, partition: Partition) -> str:
        return f"{self.label(partition[0])}/{partition[1]}"

    def text(self, partitions: Iterable[Partition], most: int = 60) -> str:
        """Partitions by topic and index, neighbours as ranges: `t/0,1 u/0-5`. Of many, the first ones and how many more there are."""
        text, left, before = "", len([*partitions]), None
        for topic, first, last in runs_of(partitions):
            run = f"{first}-{last}" if first < last else f"{first}"
            run = f",{run}" if topic == before else f"{' ' if text else ''}{self.label(topic)}/{run}"
            if text and len(text) + len(run) > most:
                return f"{text} and {left} more"
            text, left, before = text + run, left - (last - first + 1), topic
        return text or "-"


def runs_of(partitions: Iterable[Partition]) -> list[tuple[bytes, int, int]]:
    """Partitions as topics with first and last indexes; two neighbours are one by one."""
    runs: list[tuple[bytes, int, int]] = []
    for topic, index in sorted(partitions):
        if runs and runs[-1][0] == topic and runs[-1][2] == index - 1:
            runs[-1] = topic, runs[-1][1], index
        else:
            runs.append((topic, index, index))
    ones = (((topic, first, first), (topic, last, last)) if first + 1 == last else ((topic, first, last),) for topic, first, last in runs)
    return [part for parts in ones for part in parts]
