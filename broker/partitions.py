"""Sets of partitions, which may be large: they are compared and united topic by topic, and shown as runs of indexes."""

from __future__ import annotations

from typing import Dict, FrozenSet, Iterable, List, Mapping, Optional, Tuple

Run = Tuple[int, int]
NO_INDEXES: FrozenSet[int] = frozenset()


class Partitions:
    """Indexes of topics, by the topics' names. It doesn't change."""

    def __init__(self, topics: Mapping[str, FrozenSet[int]]) -> None:
        self.topics = {name: indexes for name, indexes in topics.items() if indexes}
        self._count = sum(map(len, self.topics.values()))
        self._runs: Optional[Dict[str, List[Run]]] = None

    def __len__(self) -> int:
        return self._count

    def __eq__(self, other: object) -> bool:
        return isinstance(other, Partitions) and (self is other or self.topics == other.topics)

    def __hash__(self) -> int:
        return hash(frozenset(self.topics.items()))

    def __or__(self, other: Partitions) -> Partitions:
        return union([self, other])

    def __sub__(self, other: Partitions) -> Partitions:
        if self is other:
            return NOTHING
        return Partitions({name: indexes - other.topics.get(name, NO_INDEXES) for name, indexes in self.topics.items()})

    def runs(self) -> Dict[str, List[Run]]:
        """Each topic's indexes as runs, each from its first to its last."""
        if self._runs is None:
            self._runs = {name: runs_of(indexes) for name, indexes in sorted(self.topics.items())}
        return self._runs


NOTHING = Partitions({})


def union(several: Iterable[Partitions]) -> Partitions:
    by_name: Dict[str, List[FrozenSet[int]]] = {}
    for each in several:
        for name, indexes in each.topics.items():
            by_name.setdefault(name, []).append(indexes)
    return Partitions({name: sets[0].union(*sets[1:]) for name, sets in by_name.items()})


def runs_of(indexes: Iterable[int]) -> List[Run]:
    rising = sorted(indexes)
    if rising and rising[-1] - rising[0] + 1 == len(rising):
        return [(rising[0], rising[-1])]
    lasts = [place for place, (index, following) in enumerate(zip(rising, rising[1:])) if following != index + 1]
    edges = [-1, *lasts, len(rising) - 1]
    return [(rising[before + 1], rising[last]) for before, last in zip(edges, edges[1:])] if rising else []
