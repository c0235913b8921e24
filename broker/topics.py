"""The topics: their names, ids and numbers of partitions, which the coordinator has to have too."""

from __future__ import annotations

import dataclasses
import re
import uuid
from typing import Dict, FrozenSet, Iterator, Optional, Sequence

MOST_TOPICS = 10_000
MOST_PARTITIONS_OF_A_TOPIC = 100_000
MOST_PARTITIONS = 1_000_000
NAME = re.compile(r"[a-zA-Z0-9._-]{1,249}")


@dataclasses.dataclass(frozen=True)
class Topic:
    name: str
    id: uuid.UUID
    count: int

    def has(self, partition: int) -> bool:
        return 0 <= partition < self.count

    def among(self, indexes: FrozenSet[int]) -> FrozenSet[int]:
        """Those of the indexes that it has."""
        return indexes if not indexes or 0 <= min(indexes) and max(indexes) < self.count else indexes & {*range(self.count)}

    def word(self) -> str:
        """As on a command line."""
        return f"{self.name}:{self.id}:{self.count}"


def read(word: str) -> Topic:
    """A topic as on a command line, NAME:COUNT or NAME:UUID:COUNT. Raises ValueError, which says what is wrong."""
    name, _, rest = word.partition(":")
    id_text, _, count_text = rest.rpartition(":")
    if not NAME.fullmatch(name):
        raise ValueError(f"{word!r} wants a name of 1 to 249 letters, digits, dots, underscores and hyphens")
    if not re.fullmatch(r"[1-9]\d{0,5}", count_text) or int(count_text) > MOST_PARTITIONS_OF_A_TOPIC:
        raise ValueError(f"{word!r} wants a number of partitions from 1 to {MOST_PARTITIONS_OF_A_TOPIC} at its end")
    try:
        return Topic(name, uuid.UUID(id_text) if ":" in rest else id_of(name), int(count_text))
    except ValueError:
        raise ValueError(f"{word!r} wants a UUID after its first colon") from None


def id_of(name: str) -> uuid.UUID:
    """The id of a topic that is given without one: the same at each start."""
    return uuid.uuid5(uuid.NAMESPACE_DNS, name)


class Topics:
    """All topics, found by name or by id. Raises ValueError if they can't be a cluster's."""

    def __init__(self, topics: Sequence[Topic]) -> None:
        self.by_name: Dict[str, Topic] = {topic.name: topic for topic in topics}
        self.by_id: Dict[uuid.UUID, Topic] = {topic.id: topic for topic in topics}
        if not len(self.by_name) == len(self.by_id) == len(topics):
            raise ValueError("two topics have the same name or the same id")
        if len(topics) > MOST_TOPICS or sum(topic.count for topic in topics) > MOST_PARTITIONS:
            raise ValueError(f"there are more than {MOST_TOPICS} topics or {MOST_PARTITIONS} partitions")

    def put(self, topic: Topic) -> None:
        """Takes a topic in place of the one of its name."""
        self.by_name[topic.name] = self.by_id[topic.id] = topic

    def __iter__(self) -> Iterator[Topic]:
        return iter(self.by_name.values())

    def has(self, name: Optional[str], partition: int) -> bool:
        topic = self.by_name.get(name or "")
        return topic is not None and topic.has(partition)
