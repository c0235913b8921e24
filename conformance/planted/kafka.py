"""A model of the group coordinator of Apache Kafka 4.1, written from memory: it takes the place of `rules/group.py` in a copy of the rules.

It isn't Kafka, and no line of it is Kafka's. It follows how the broker's GroupMetadataManager and CurrentAssignmentBuilder treat a group of the
consumer protocol: a member has a state, partitions that it is assigned, and partitions that it has still to give up. Regular expressions, racks,
classic members and records on disk are left out. The switches are choices that differ from release to release.
"""

from __future__ import annotations

import uuid
from typing import Any, Dict, FrozenSet, List, Optional, Set, Tuple

from .assignors import Owners, Partition, View, owners

SESSION, INTERVAL = 45_000, 5_000
AWAY, GREATEST_EPOCH, LONGEST_METADATA, MOST_MEMBERS = -2, 2_147_483_647, 4_096, 1_000
STABLE, UNREVOKED, UNRELEASED = "stable", "unrevoked", "unreleased"
# A member that has given partitions up gets to the next epoch, or stays at its own while it has more to give up.
STEP_EPOCH = True
# A static member that leaves for a while has given up what it was told to.
AWAY_DROPS_PENDING = True
# Who is a member may join anew at epoch 0 (KAFKA-19233); before that it was fenced.
REJOIN_FIXED = True
# Commits at an earlier epoch are accepted of partitions that the member has had since then (KIP-1251).
KIP_1251 = False
# A join that subscribes an empty list is refused.
REFUSES_EMPTY = True
# So many milliseconds pass between two targets of a group (KIP-1263).
BATCH = 0


class Refusal(Exception):
    def __init__(self, code: int) -> None:
        self.code = code


class Closes(Exception):
    pass


class Member:
    """What is recorded of a member."""

    def __init__(self, member: str) -> None:
        self.id, self.instance, self.assignor, self.timeout = member, None, None, -1
        self.names: FrozenSet[str] = frozenset()
        self.state, self.epoch, self.previous = STABLE, 0, -1
        self.assigned: FrozenSet[Partition] = frozenset()
        self.pending: FrozenSet[Partition] = frozenset()
        # Since which epoch it has each of its partitions; its deadlines, the second one with the epoch for which it holds.
        self.since: Dict[Partition, int] = {}
        self.session = 0
        self.release: Optional[Tuple[int, int]] = None

    def copy(self, member: Optional[str] = None) -> Member:
        it = Member(self.id)
        it.__dict__.update(self.__dict__)
        it.id = member or self.id
        return it

    def is_as(self, other: Member) -> bool:
        return all(getattr(self, name) == getattr(other, name) for name in ("state", "epoch", "previous", "assigned", "pending"))

    def becomes(self, state: str, epoch: int, assigned: Set[Partition], pending: Set[Partition]) -> Member:
        it = self.copy()
        it.state, it.previous, it.epoch = state, self.epoch, epoch
        it.assigned, it.pending = frozenset(assigned), frozenset(pending)
        it.since = {each: self.since.get(each, epoch) for each in {*assigned, *pending}}
        return it


def owns(owned: Optional[Set[Partition]], some: Set[Partition]) -> bool:
    """Whether a member may still have some partitions: who reports nothing may."""
    return owned is None or not some.isdisjoint(owned)


class Group:
    def __init__(self) -> None:
        self.epoch = self.target_epoch = self.clock = 0
        self.members: Dict[str, Member] = {}
        self.target: Owners = {}
        self.view: View = {}
        self.offsets: Dict[Tuple[str, int], Tuple[int, int, Optional[str]]] = {}
        self.renewed: Optional[int] = None

    # -- a heartbeat

    def heartbeat(self, q: Any, _stamp: object, moment: int, image: View, _full: bool) -> Tuple[int, str, int, int, Optional[Set[Partition]]]:
        validate(q)
        self.clock = now = max(self.clock, moment)
        if q.epoch != 0 and self.epoch == 0:
            raise Refusal(69)
        if q.epoch < 0:
            return self.leave(q)
        if q.epoch == 0 and q.member not in self.members and len(self.members) >= MOST_MEMBERS:
            raise Refusal(81)
        q.member = q.member or str(uuid.uuid4())
        before = self.dynamic(q) if q.instance is None else self.static(q)
        member = self.updated(q, before, image)
        if self.epoch > self.target_epoch and (self.renewed is None or now >= self.renewed + BATCH):
            self.target, self.target_epoch, self.renewed = owners(self.members, self.view, self.target), self.epoch, now
        member = self.members[member.id] = self.reconcile(member, q.owned, now)
        member.session = now + SESSION
        is_full = q.epoch == 0 or q.timeout != -1 and q.names is not None and q.owned is not None
        shown = set(member.assigned) if is_full or member.assigned != before.assigned else None
        return 0, member.id, member.epoch, INTERVAL, shown

    def updated(self, q: Any, before: Member, image: View) -> Member:
        """The member with what the request says, in its place; the group epoch rises if its subscription or its topics changed."""
        member = self.members[before.id] = before.copy()
        member.instance = member.instance if q.instance is None else q.instance
        member.timeout = member.timeout if q.timeout == -1 else q.timeout
        member.assignor = member.assignor if q.assignor is None else q.assignor
        member.names = member.names if q.names is None else frozenset(q.names)
        subscribed = {name for each in self.members.values() for name in each.names}
        view = {name: topic for name, topic in image.items() if name in subscribed}
        self.epoch += member.names != before.names or view != self.view or self.epoch == 0
        self.view = view
        return member

    def dynamic(self, q: Any) -> Member:
        member = self.members.get(q.member)
        if member is None and q.epoch != 0:
            raise Refusal(25)
        return self.fenced(q, member or Member(q.member))

    def static(self, q: Any) -> Member:
        there = self.by_instance(q.instance)
        if q.epoch != 0:
            return self.fenced(q, self.own(q, there))
        if there is None:
            return self.dynamic(q)
        if there.epoch != AWAY:
            raise Refusal(111)
        heir = there.copy(q.member)
        heir.epoch, heir.previous, heir.release = 0, 0, None
        del self.members[there.id]
        self.target = {partition: heir.id if owner == there.id else owner for partition, owner in self.target.items()}
        self.members[heir.id] = heir
        return heir

    def by_instance(self, instance: str) -> Optional[Member]:
        return next((member for member in self.members.values() if member.instance == instance), None)

    @staticmethod
    def own(q: Any, there: Optional[Member]) -> Member:
        if there is None:
            raise Refusal(25)
        if there.id != q.member:
            raise Refusal(82)
        return there

    @staticmethod
    def fenced(q: Any, member: Member) -> Member:
        """Refuses another epoch than the member's, but for the previous one with a part of what it is assigned."""
        is_rejoin = q.epoch == 0 and REJOIN_FIXED
        is_previous = q.epoch < member.epoch and q.epoch == member.previous and q.owned is not None and q.owned <= member.assigned
        if not is_rejoin and q.epoch != member.epoch and not is_previous:
            raise Refusal(110)
        return member

    # -- towards the target

    def reconcile(self, member: Member, owned: Optional[Set[Partition]], now: int) -> Member:
        if member.state == STABLE and member.epoch == self.target_epoch:
            return member
        epoch = member.epoch
        if member.state == UNREVOKED:
            if owns(owned, set(member.pending)):
                return member
            epoch += STEP_EPOCH
        it = self.next(member, epoch, owned)
        if not it.is_as(member):
            it.release = (now + it.timeout, it.epoch) if it.state == UNREVOKED else None
        return it

    def next(self, member: Member, epoch: int, owned: Optional[Set[Partition]]) -> Member:
        """First it gives up what the target hasn't for it; then it gets what nobody has."""
        target = {partition for partition, owner in self.target.items() if owner == member.id}
        kept = target & member.assigned
        revoked = set(member.assigned - kept)
        if revoked and owns(owned, revoked):
            return member.becomes(UNREVOKED, epoch, kept, revoked)
        taken = {partition for each in self.members.values() for partition in each.assigned | each.pending}
        free = target - kept - taken
        return member.becomes(UNRELEASED if target - kept - free else STABLE, self.target_epoch, kept | free, set())

    # -- leaving

    def leave(self, q: Any) -> Tuple[int, str, int, int, None]:
        member = self.members.get(q.member) if q.instance is None else self.own(q, self.by_instance(q.instance))
        if member is None:
            raise Refusal(25)
        if q.epoch == AWAY:
            member.epoch = AWAY
            member.pending = frozenset() if AWAY_DROPS_PENDING else member.pending
        else:
            self.remove(member.id)
        return 0, q.member, q.epoch, 0, None

    def remove(self, member: str) -> None:
        del self.members[member]
        self.target = {partition: owner for partition, owner in self.target.items() if owner != member}
        self.epoch += 1

    def tick(self, moment: int) -> int:
        self.clock = now = max(self.clock, moment)
        due = [it.id for it in self.members.values() if it.session <= now or it.release and it.release[0] <= now and it.release[1] == it.epoch]
        for member in due:
            self.remove(member)
        return len(due)

    # -- commits

    def commit(self, q: Any, image: View) -> List[Tuple[str, List[Tuple[int, int]]]]:
        def code(name: str, part: Tuple[int, int, int, Optional[str]]) -> int:
            return self.refusal(q, name, part[0], image) or self.store(name, part, image)

        return [(name, [(part[0], code(name, part)) for part in parts]) for name, parts in q.topics]

    def refusal(self, q: Any, name: str, index: int, image: View) -> int:
        if q.epoch < 0 and not self.members:
            return 0
        member = self.members.get(q.member)
        if member is None:
            return 25
        since = member.since.get((image[name][0], index)) if name in image else None
        is_since = KIP_1251 and since is not None and since <= q.epoch <= member.epoch
        return 0 if q.epoch == member.epoch or is_since else 113

    def store(self, name: str, part: Tuple[int, int, int, Optional[str]], image: View) -> int:
        index, offset, leader, metadata = part
        if name not in image or not 0 <= index < image[name][1]:
            return 3
        if metadata is not None and len(metadata) > LONGEST_METADATA:
            return 12
        self.offsets[name, index] = offset, leader, metadata
        return 0


def validate(q: Any) -> None:
    is_join = q.epoch == 0
    is_bad = not q.group or q.instance == "" or q.rack == "" or not q.member and not is_join or q.epoch < AWAY
    is_bad_join = is_join and (q.timeout == -1 or q.owned is None or bool(q.owned) or q.names is None or REFUSES_EMPTY and not q.names)
    if is_bad or is_bad_join or q.epoch == AWAY and q.instance is None:
        raise Refusal(42)
    if q.assignor is not None and q.assignor not in ("uniform", "range"):
        raise Refusal(112)
