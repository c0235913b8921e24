"""The committed offsets, as a broker keeps them for OffsetFetch.

They are learned from the commits that pass and are answered with 0. What was committed before this program began, or past it, isn't known,
unless there is a log of it.
"""

from __future__ import annotations

import dataclasses
from typing import Dict, Iterator, NamedTuple, Sequence, Tuple

# All entries together, and the bytes of all their texts.
MOST_OFFSETS = 1_000_000
MOST_TEXT_BYTES = 64 << 20


class Committed(NamedTuple):
    """(A tuple of such fields costs no time at garbage collections, of which there would be some for a million of them.)"""

    offset: int
    leader_epoch: int
    metadata: str


# What a partition has in which nothing was committed.
NOTHING = Committed(-1, -1, "")


@dataclasses.dataclass
class OfTopic:
    """What a group has committed of a topic: by partition; the sum of the offsets; and how often something was committed."""

    entries: Dict[int, Committed] = dataclasses.field(default_factory=dict)
    total: int = 0
    revision: int = 0

    def lag(self, end_offset: int) -> int:
        """How many records are between the committed offsets and the ends, of the partitions in which something was committed."""
        return max(0, len(self.entries) * end_offset - self.total)


class Offsets:
    """The last committed offset of each group, topic and partition."""

    def __init__(self) -> None:
        self._groups: Dict[str, Dict[str, OfTopic]] = {}
        self.count = self.text_bytes = 0

    def has_room(self, group: str, commits: Sequence[Tuple[str, int, Committed]]) -> bool:
        """Whether all of these could be stored."""
        text_bytes = sum(len(group) + len(topic) + len(committed.metadata) for topic, _, committed in commits)
        return self.count + len(commits) <= MOST_OFFSETS and self.text_bytes + 4 * text_bytes <= MOST_TEXT_BYTES

    def store(self, group: str, topic: str, partition: int, committed: Committed) -> None:
        of_topic = self._groups.setdefault(group, {}).setdefault(topic, OfTopic())
        former = of_topic.entries.get(partition)
        self.count += former is None
        self.text_bytes += 4 * len(committed.metadata)
        self.text_bytes -= 4 * len(former.metadata) if former else -4 * (len(group) + len(topic))
        of_topic.entries[partition] = committed
        of_topic.total += committed.offset - (former.offset if former else 0)
        of_topic.revision += 1

    def of_group(self, group: str) -> Dict[str, OfTopic]:
        """All offsets of a group, by topic."""
        return self._groups.get(group, {})

    def groups(self) -> Iterator[str]:
        return iter(self._groups)
