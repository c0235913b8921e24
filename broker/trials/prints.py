"""What consumers print: who owned what and when, and what was read."""

import collections
from typing import Dict, Iterable, List, NamedTuple, Set, Tuple

FOREVER = float("inf")
# What changes who owns what.
CHANGES = ("ASSIGN", "REVOKE", "LOST")


class Print(NamedTuple):
    """A line of a consumer: the moment in seconds, its name, and what happened."""

    moment: float
    name: str
    kind: str
    text: str


class Span(NamedTuple):
    """A consumer owned a partition, as T:P, from a moment to another."""

    partition: str
    start: float
    end: float
    name: str


def print_of(line: str) -> Print:
    moment, name, kind, *text = line.rstrip("\n").split(" ", 3)
    return Print(float(moment), name, kind, text[0] if text else "")


def partitions_of(it: Print) -> Set[str]:
    return set() if it.text in ("", "-") else {*it.text.split(",")}


class Owners:
    """Who owned what. What a consumer has ends at its moments of `ends`: it was killed or stopped, or knows by its own clock that it is out. What it
    is assigned while it closes isn't counted but in `late`, since it reads nothing of it. What can't be is told in `faults`."""

    def __init__(self, prints: Iterable[Print], ends: Dict[str, List[float]]) -> None:
        self.ends, self.late = ends, 0
        self.spans: List[Span] = []
        self.faults: List[str] = []
        self.since: Dict[Tuple[str, str], float] = {}
        self.closing: Set[str] = set()
        for it in sorted(prints):
            self.take(it)
        for name, partition in [*self.since]:
            self.close(name, partition, FOREVER)

    def close(self, name: str, partition: str, moment: float) -> None:
        start = self.since.pop((name, partition))
        self.spans.append(Span(partition, start, min([moment] + [end for end in self.ends.get(name, []) if end >= start]), name))

    def take(self, it: Print) -> None:
        mine, named = {partition for name, partition in self.since if name == it.name}, partitions_of(it)
        is_closing = it.name in self.closing
        if it.kind == "CLOSING":
            self.closing.add(it.name)
        elif it.kind == "ASSIGN" and is_closing:
            self.late += len(named)
        elif it.kind == "ASSIGN":
            self.faults += [f"{it.name} is assigned {partition}, which it has" for partition in sorted(named & mine)]
            self.since.update({(it.name, partition): it.moment for partition in named})
        elif it.kind in ("REVOKE", "LOST", "START", "CLOSED"):
            given_up = named if it.kind in CHANGES else mine
            self.faults += [f"{it.name} gives up {partition}, which it hasn't" for partition in sorted(given_up - mine) if not is_closing]
            for partition in mine & given_up:
                self.close(it.name, partition, it.moment)
            self.closing -= set() if it.kind in CHANGES else {it.name}


def overlaps(found: Iterable[Span]) -> List[Tuple[Span, Span]]:
    """Spans of two consumers that owned one partition at a time."""
    by_partition: Dict[str, List[Span]] = collections.defaultdict(list)
    for span in found:
        by_partition[span.partition].append(span)
    pairs = []
    for of_one in by_partition.values():
        of_one.sort(key=lambda span: span.start)
        pairs += [(one, two) for one, two in zip(of_one, of_one[1:]) if two.start < one.end and one.name != two.name]
    return pairs


def records_read(prints: Iterable[Print]) -> Dict[Tuple[str, int], Set[int]]:
    """The offsets that were read of each partition."""
    read: Dict[Tuple[str, int], Set[int]] = collections.defaultdict(set)
    for it in prints:
        if it.kind == "RECORD":
            topic, index, offset, _value = it.text.split(" ", 3)
            read[topic, int(index)].add(int(offset))
    return read
