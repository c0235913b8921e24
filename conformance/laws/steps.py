"""A group's state, and one event with what came of it, as the laws see them: values that no rule can change."""

from __future__ import annotations

import dataclasses
import functools
from typing import Any, Callable, Dict, FrozenSet, List, NamedTuple, Optional, Tuple

Partition = Tuple[bytes, int]
Stamp = Tuple[int, int]
View = Dict[str, Tuple[bytes, int]]
AWAY = "away"
GREATEST_EPOCH, GREATEST_MOMENT, SERIALS = 2_147_483_647, 18_446_744_073_709_551_615, 18_446_744_073_709_551_616
SESSION_TIMEOUT, HEARTBEAT_INTERVAL, LONGEST_METADATA = 45_000, 5_000, 4_096
HEARTBEAT, COMMIT, TICK, IMAGE = "heartbeat", "commit", "tick", "image"


def law(it: Callable[[Step], bool]) -> Callable[[Step], bool]:
    """A law that speaks of each step."""
    it.speaks_of = "steps"  # type: ignore[attr-defined]
    return it


def by_hand(it: Callable[[Any], bool]) -> Callable[[Any], bool]:
    """A law that speaks of the rules: of what was worked out by hand."""
    it.speaks_of = "rules"  # type: ignore[attr-defined]
    return it


class Limits(NamedTuple):
    """How many members, former members and groups there may be: smaller in some runs than the limits are."""

    members: int = 10_000
    past: int = 4_096
    groups: int = 100_000


class Record(NamedTuple):
    instance: Optional[str]
    rack: Optional[str]
    names: FrozenSet[str]
    assignor: Optional[str]
    rebalance_timeout: int
    epoch: Any
    previous_epoch: int
    stamp: Stamp
    sent: Optional[FrozenSet[Partition]]
    session_deadline: int
    release_deadline: Optional[int]

    @property
    def last_epoch(self) -> int:
        """The last member epoch that was a number."""
        return self.previous_epoch if self.epoch == AWAY else self.epoch


BLANK = Record(None, None, frozenset(), None, 0, 0, 0, (0, 0), None, 0, None)


@dataclasses.dataclass(frozen=True)
class State:
    """A group."""

    epoch: int = 0
    target_epoch: int = 0
    records: Dict[str, Record] = dataclasses.field(default_factory=dict)
    target: Dict[Partition, str] = dataclasses.field(default_factory=dict)
    grants: FrozenSet[Tuple[str, Partition]] = frozenset()
    offsets: Dict[Tuple[str, int], Any] = dataclasses.field(default_factory=dict)
    view: View = dataclasses.field(default_factory=dict)
    clock: int = 0
    serial: int = 1
    past: Tuple[Tuple[str, Stamp], ...] = ()

    def held(self, member: str) -> FrozenSet[Partition]:
        return frozenset(p for m, p in self.grants if m == member)

    def wanted(self, member: str) -> FrozenSet[Partition]:
        return frozenset(p for p, m in self.target.items() if m == member)

    def former(self, member: str) -> Optional[Stamp]:
        """The stamp beside an id among the former members."""
        return next((stamp for m, stamp in self.past if m == member), None)

    def knows(self, member: str) -> bool:
        return member in self.records or self.former(member) is not None

    def with_instance(self, instance: Optional[str], other_than: str) -> List[str]:
        return [m for m, r in self.records.items() if instance is not None and r.instance == instance and m != other_than]


def record_of(r: Any) -> Record:
    sent = None if r.sent is None else frozenset(r.sent)
    return Record(r.instance, r.rack, r.names, r.assignor, r.timeout, r.epoch, r.previous, tuple(r.stamp), sent, r.session, r.release)


def state_of(g: Any) -> State:
    """The state of a group of the rules."""
    records = {m: record_of(r) for m, r in g.records.items()}
    grants = frozenset((m, p) for m, parts in g.held.items() for p in parts)
    return State(g.epoch, g.target_epoch, records, {**g.target}, grants, {**g.offsets}, {**g.view}, g.clock, g.serial, (*map(tuple, g.past),))


class Reply(NamedTuple):
    code: int
    message: Optional[str]
    member: Optional[str]
    epoch: int
    interval: int
    assignment: Optional[FrozenSet[Partition]]


@dataclasses.dataclass
class Step:
    """One event at one group of a node. Of a group that isn't there `g` is a new one; of an image there is none."""

    kind: str
    q: Any = None
    stamp: Stamp = (0, 0)
    moment: int = 0
    # A heartbeat's reply, or None where the connection is closed; a commit's codes by topic; how many members a tick took from all groups.
    answer: Any = None
    frame: bytes = b""
    g: State = State()
    new: State = State()
    # The node before and after: its groups by their names, and its topics.
    before: Dict[str, State] = dataclasses.field(default_factory=dict)
    after: Dict[str, State] = dataclasses.field(default_factory=dict)
    image: View = dataclasses.field(default_factory=dict)
    new_image: View = dataclasses.field(default_factory=dict)
    limits: Limits = Limits()
    # What was answered before: the last stamp that was accepted under the heartbeat's id, as long as the group knows the id; and what commits
    # have stored by their codes, this one's too.
    accepted_before: Optional[Stamp] = None
    stored: Dict[Tuple[str, int], Any] = dataclasses.field(default_factory=dict)
    # The rules, and the group of theirs as it was before, where a law asks what they would make of another event.
    rules: Any = None
    group: Any = None

    @functools.cached_property
    def is_sound(self) -> bool:
        return is_sound(self.new, self.limits)

    @property
    def code(self) -> Optional[int]:
        return self.answer.code if isinstance(self.answer, Reply) else None

    @property
    def accepted(self) -> bool:
        return self.code == 0

    @property
    def takes_in(self) -> bool:
        """A join or a beat that is accepted."""
        return self.kind == HEARTBEAT and self.q.epoch >= 0 and self.accepted

    @property
    def now(self) -> int:
        return max(self.g.clock, self.moment)

    @property
    def own(self) -> Optional[Record]:
        return self.g.records.get(self.q.member) if self.q.member else None

    @functools.cached_property
    def old(self) -> Optional[str]:
        """The id whose place an accepted join takes over under another one."""
        heir = self.answer.member if self.takes_in else None
        if heir is None or heir in self.g.records:
            return None
        return next((m for m in self.g.records if m not in self.new.records), None)

    @property
    def record_before(self) -> Optional[Record]:
        """Of an accepted join or beat: its member's record, or that of the one whose place it takes over."""
        return self.g.records.get(self.old if self.old is not None else self.answer.member)

    @property
    def after_record(self) -> Record:
        return self.new.records[self.answer.member]


# -- words of the laws


def later(moment: int, millis: int) -> int:
    return min(moment + millis, GREATEST_MOMENT)


def is_invalid(q: Any) -> bool:
    """A reason for INVALID_REQUEST holds."""
    joins = q.epoch == 0
    of_any = (q.group == "", q.epoch < -2, q.member == "" and not joins, q.epoch == -2 and q.instance is None, q.epoch >= 0 and q.timeout < -1)
    return any(of_any) or joins and (q.timeout == -1 or q.names is None or q.instance == "" or bool(q.owned))


def is_unsupported(q: Any) -> bool:
    return q.epoch >= 0 and q.assignor is not None and q.assignor not in ("range", "uniform")


def is_full(q: Any) -> bool:
    return q.epoch == 0 or q.timeout != -1 and q.names is not None and q.owned is not None


def is_in_order(s: Step) -> bool:
    """Nothing is wrong with the heartbeat itself; who goes away is the member with the instance that it names."""
    if is_invalid(s.q) or is_unsupported(s.q):
        return False
    return s.q.epoch != -2 or s.own is not None and s.own.instance == s.q.instance


def is_overtaken(s: Step) -> bool:
    """Its stamp isn't above the last one of its member; of a join also of a former member."""
    last = s.own.stamp if s.own is not None else s.g.former(s.q.member) if s.q.epoch == 0 else None
    return last is not None and not is_above(s.stamp, last)


def is_above(stamp: Stamp, last: Stamp) -> bool:
    return stamp[0] > last[0] or stamp[0] == last[0] and stamp[1] > last[1]


def reported(q: Any) -> Optional[FrozenSet[Partition]]:
    return frozenset() if q.epoch == 0 else q.owned


def view_for(image: View, records: Dict[str, Record]) -> View:
    return {name: topic for name, topic in image.items() if any(name in r.names for r in records.values())}


def partitions(view: View) -> Dict[Partition, str]:
    """The partitions of a view, each with its topic's name."""
    return {(topic, index): name for name, (topic, count) in view.items() for index in range(count)}


def subscribers(g: State, name: str) -> List[str]:
    return [m for m, r in g.records.items() if name in r.names]


def is_lawful(g: State, target: Dict[Partition, str]) -> bool:
    """Each partition of the view that somebody subscribes has one owner, who subscribes it; nothing else is owned."""
    parts = partitions(g.view)
    owned = all(p in target and target[p] in subscribers(g, name) if subscribers(g, name) else p not in target for p, name in parts.items())
    return owned and all(p in parts for p in target)


def is_even(g: State, target: Dict[Partition, str]) -> bool:
    parts, owners = partitions(g.view), [*target.values()]
    return all(owners.count(m) <= owners.count(n) + 1 for p, m in target.items() for n in subscribers(g, parts[p]))


def is_sound(g: State, limits: Limits) -> bool:
    holders = [p for _, p in g.grants]
    instances = [r.instance for r in g.records.values() if r.instance is not None]
    past, parts = [m for m, _ in g.past], partitions(g.view)
    return (
        len(holders) == len({*holders})
        and all(m in g.records for m, _ in g.grants)
        and all(m in g.records for m in g.target.values())
        and is_image(g.view)
        and all(p in parts for p in g.target)
        and all(r.last_epoch <= g.target_epoch for r in g.records.values())
        and all(g.held(m) <= g.wanted(m) for m, r in g.records.items() if r.last_epoch == g.target_epoch)
        and g.target_epoch <= g.epoch <= GREATEST_EPOCH
        and len(instances) == len({*instances})
        and "" not in g.records
        and all(m and m not in g.records for m in past)
        and len(past) == len({*past})
        and len(g.records) <= limits.members
        and len(past) <= limits.past
    )


def is_image(view: View) -> bool:
    return len({topic for topic, _ in view.values()}) == len(view) and all(0 < count <= 100_000 for _, count in view.values())
