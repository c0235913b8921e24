"""Counts and times, and Prometheus' text format of them."""

from __future__ import annotations

from typing import Dict, Iterable, List, Sequence, Tuple

Labels = Tuple[Tuple[str, str], ...]


def line(name: str, labels: Labels, value: float) -> str:
    """One sample."""
    shown = ",".join(f'{key}="{_escaped(text)}"' for key, text in labels)
    return f"{name}{{{shown}}} {value}" if shown else f"{name} {value}"


def _escaped(text: str) -> str:
    return text.replace("\\", "\\\\").replace("\n", "\\n").replace('"', '\\"')


def head(name: str, kind: str, meaning: str) -> List[str]:
    return [f"# HELP {name} {meaning}", f"# TYPE {name} {kind}"]


def gauge(name: str, meaning: str, samples: Iterable[Tuple[Labels, float]]) -> List[str]:
    return head(name, "gauge", meaning) + [line(name, labels, value) for labels, value in samples]


class Counter:
    """Counts, by the values of labels. There have to be few values."""

    def __init__(self, name: str, meaning: str) -> None:
        self.name, self.meaning = name, meaning
        self.counts: Dict[Labels, int] = {}

    def add(self, labels: Labels = (), count: int = 1) -> None:
        self.counts[labels] = self.counts.get(labels, 0) + count

    def lines(self) -> List[str]:
        return head(self.name, "counter", self.meaning) + [line(self.name, *each) for each in sorted(self.counts.items())]


class Histogram:
    """How many seconds things took, by the values of labels."""

    def __init__(self, name: str, meaning: str, bounds: Sequence[float]) -> None:
        self.name, self.meaning, self.bounds = name, meaning, tuple(bounds)
        self.counts: Dict[Labels, List[int]] = {}
        self.sums: Dict[Labels, float] = {}

    def observe(self, seconds: float, labels: Labels = ()) -> None:
        counts = self.counts.setdefault(labels, [0] * (len(self.bounds) + 1))
        counts[sum(bound < seconds for bound in self.bounds)] += 1
        self.sums[labels] = self.sums.get(labels, 0.0) + seconds

    def lines(self) -> List[str]:
        return head(self.name, "histogram", self.meaning) + [each for labels in sorted(self.counts) for each in self._of(labels)]

    def _of(self, labels: Labels) -> Iterable[str]:
        """A bucket counts all that took as long as its bound or less."""
        below = 0
        for bound, count in zip((*map(str, self.bounds), "+Inf"), self.counts[labels]):
            below += count
            yield line(f"{self.name}_bucket", (*labels, ("le", bound)), below)
        yield line(f"{self.name}_sum", labels, self.sums[labels])
        yield line(f"{self.name}_count", labels, below)
