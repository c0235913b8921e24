"""The coordinator that is played: the rules of the protocol, and what a case makes of their target."""

from __future__ import annotations

import re
import uuid
from typing import Dict, FrozenSet, List, Optional, Tuple

from conformance.messages import Heartbeat, Partition, Told, Topic
from conformance.rules import messages as rules
from conformance.rules.group import Closes, Group, Refusal

UNKNOWN_MEMBER_ID, GROUP_ID_NOT_FOUND, INVALID_EXPRESSION = 25, 69, 128
# Who has what the client under test isn't to have.
OTHER = "another member"


def topic(name: str, count: int) -> Topic:
    return Topic(name, uuid.uuid5(uuid.NAMESPACE_DNS, name).bytes, count)


def refusal(code: int) -> Told:
    return Told(code, rules.TEXTS.get(code), None, 0, 0, None)


class Coordinator:
    def __init__(self, topics: List[Topic], interval: int) -> None:
        """The interval is in milliseconds."""
        self.topics, self.interval = topics, interval
        self.groups: Dict[str, Group] = {}
        self.stamps = 0
        # Who joined last, and in which group.
        self.group, self.member = "", ""

    @property
    def image(self) -> Dict[str, Tuple[bytes, int]]:
        return {it.name: (it.id, it.count) for it in self.topics}

    def stamp(self) -> Tuple[int, int]:
        self.stamps += 1
        return 1, self.stamps

    @staticmethod
    def new_group() -> Group:
        return Group()

    def heartbeat(self, asked: Heartbeat, now: int) -> Told:
        try:
            names = None if asked.names is None and not asked.regex else [*(asked.names or ()), *self.matching(asked.regex or "")]
            owned = None if asked.owned is None else set(asked.owned)
            request = rules.Heartbeat(
                asked.group, asked.member, asked.epoch, asked.instance, asked.rack, asked.timeout, names, asked.assignor, owned
            )
            group = self.groups.get(asked.group) or Group()
            code, member, epoch, _, shown = group.heartbeat(request, self.stamp(), now, self.image, False)
            self.groups[asked.group] = group
        except Refusal as why:
            return refusal(why.code)
        except Closes:
            return refusal(UNKNOWN_MEMBER_ID)
        if asked.epoch == 0:
            self.group, self.member = asked.group, member
        return Told(code, None, member, epoch, self.interval, None if shown is None else frozenset(shown))

    def matching(self, expression: str) -> List[str]:
        """The topics whose whole names an expression fits."""
        try:
            return [it.name for it in self.topics if expression and re.fullmatch(expression, it.name)]
        except re.error:
            raise Refusal(INVALID_EXPRESSION) from None

    def commit(self, group: str, member: str, epoch: int, topics: List[Tuple[str, list]]) -> List[Tuple[str, List[Tuple[int, int]]]]:
        """The code of each partition, topic by topic."""
        known = self.groups.get(group)
        if known is None:
            return [(name, [(part[0], GROUP_ID_NOT_FOUND) for part in parts]) for name, parts in topics]
        return known.commit(rules.Commit(group, member, epoch, topics), self.image)

    def offset(self, group: str, name: str, index: int) -> Tuple[int, int, Optional[str]]:
        known = self.groups.get(group)
        return known.offsets.get((name, index), (-1, -1, "")) if known else (-1, -1, "")

    # -- what a case does

    def all_partitions(self) -> FrozenSet[Partition]:
        return frozenset(each for it in self.topics for each in it.partitions())

    @property
    def of_client(self) -> Group:
        return self.groups[self.group]

    def aim(self, wanted: FrozenSet[Partition]) -> None:
        """From now on these are the client's by the target, as after a rebalance: the next replies lead there."""
        group = self.of_client
        group.epoch += 1
        group.target_epoch = group.epoch
        group.target = {each: self.member if each in wanted else OTHER for each in self.all_partitions()}

    def withhold(self, group: str) -> None:
        """Another member has everything, and hasn't given it up."""
        self.groups.setdefault(group, Group()).held[OTHER] = set(self.all_partitions())

    def tells_again(self) -> None:
        """The next reply has the assignment, as that of a coordinator which doesn't know what was sent."""
        self.of_client.records[self.member].sent = None

    def free(self) -> None:
        self.of_client.held.pop(OTHER, None)
