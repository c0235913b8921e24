"""The assignors: which member owns which partition.

The rule of uniform is this project's own: KIP-848, "Server Side Assignors", leaves it open. Member order: the members with an instance, by
its bytes; then the others; ties and the others by the member id's bytes. Partition order: by the topic's name, then by the index.

- Keep: a partition stays with its former owner where that one still subscribes its topic.
- Fill: the others, in partition order, each go to the subscriber with the fewest partitions, ties by member order.
- Level: while some owner m has a partition p that a subscriber n of its topic could take with count(n) + 1 < count(m),
  one moves. Of such owners m has the most (ties by member order), p is its first such partition, and n is the subscriber of its
  topic with the fewest (ties by member order).
"""

from __future__ import annotations

from typing import Optional, Protocol

# A partition as its topic's id and its index, and the owner of each that has one.
Partition = tuple[bytes, int]
Owners = dict[Partition, str]
# The id and the number of partitions of each topic, by its name.
View = dict[str, tuple[bytes, int]]


class Subscriber(Protocol):
    """What the assignors look at of a member's record."""

    instance: Optional[str]
    assignor: Optional[str]
    names: frozenset[str]


def owners(records: dict[str, Subscriber], view: View, former: Owners) -> Owners:
    """The target under the assignor that most members name: uniform where as many name the one as the other."""
    votes = [record.assignor for record in records.values()]
    order = sorted(records, key=lambda m: (records[m].instance is None, (records[m].instance or "").encode(), m.encode()))
    subscribers = {name: [m for m in order if name in records[m].names] for name in view}
    if votes.count("range") > votes.count("uniform"):
        return range_owners(view, subscribers)
    return Uniform(order, view, subscribers, former).owners()


def range_owners(view: View, subscribers: dict[str, list[str]]) -> Owners:
    owner = {}
    for name, (topic, count) in view.items():
        each, more = divmod(count, len(subscribers[name]))
        index = 0
        for place, member in enumerate(subscribers[name]):
            for _ in range(each + (place < more)):
                owner[topic, index] = member
                index += 1
    return owner


class Uniform:
    """Who owns what, while it is worked out by the rule of uniform."""

    def __init__(self, order: list[str], view: View, subscribers: dict[str, list[str]], former: Owners) -> None:
        self.order, self.subscribers, self.former = order, subscribers, former
        self.rank = {member: at for at, member in enumerate(order)}
        names = sorted(view, key=str.encode)
        self.partitions = [((view[name][0], index), name) for name in names for index in range(view[name][1])]
        self.owner: Owners = {}
        self.count = dict.fromkeys(order, 0)

    def owners(self) -> Owners:
        self.keep()
        self.fill()
        self.level()
        return self.owner

    def give(self, partition: Partition, member: str) -> None:
        if partition in self.owner:
            self.count[self.owner[partition]] -= 1
        self.owner[partition] = member
        self.count[member] += 1

    def fewest(self, name: str) -> str:
        return min(self.subscribers[name], key=lambda m: (self.count[m], self.rank[m]))

    def keep(self) -> None:
        may = {name: set(members) for name, members in self.subscribers.items()}
        for partition, name in self.partitions:
            owner = self.former.get(partition)
            if owner in may[name]:
                self.give(partition, owner)

    def fill(self) -> None:
        for partition, name in self.partitions:
            if partition not in self.owner:
                self.give(partition, self.fewest(name))

    def level(self) -> None:
        while move := self.next_move():
            self.give(*move)

    def next_move(self) -> Optional[tuple[Partition, str]]:
        """The partition that moves next and who takes it, or None."""
        fewest: dict[str, str] = {}
        for owner in sorted(self.order, key=lambda m: (-self.count[m], self.rank[m])):
            for partition, name in self.partitions:
                if self.owner[partition] == owner:
                    to = fewest[name] if name in fewest else fewest.setdefault(name, self.fewest(name))
                    if self.count[to] + 1 < self.count[owner]:
                        return partition, to
        return None
