"""The checker: it goes over all that was seen of a client in a case, and says what no client may do.

What a member holds is followed from the coordinator's side: a partition is a member's from the reply that shows it until the member reports
without it, joins again, leaves, or is told that it is no member any more.
"""

from __future__ import annotations

import collections
import dataclasses
import math
from typing import Deque, Dict, FrozenSet, List, NamedTuple, Optional, Set, Tuple, Union

from conformance.members.coordinator import Coordinator
from conformance.members.record import COMMIT, FETCH, HEARTBEAT, Frame, Printed, Record, asked_of
from conformance.messages import JOIN, NOTHING, Heartbeat, Partition, Told
from conformance.story import runs

OUT = (25, 110)
# How long after a report, a fence, a reply, and a leave something may still come that crossed it. And how much a line may be late.
REPORT_GRACE, LOST_GRACE, CROSSING, LEAVE_GRACE, PRINT_GRACE = 0.4, 1.0, 0.7, 0.5, 0.7
# A heartbeat whose reply is waited for this long may be given up while its connection stays.
GIVEN_UP = 2.0
MOST_IN_A_SECOND, MOST_EARLY = 30, 3
# So many intervals and seconds after a reply the next heartbeat is late.
LATE_INTERVALS, LATE_SECONDS = 2.0, 1.5


class Finding(NamedTuple):
    """A rule that is broken, by its case's name, and how."""

    rule: str
    words: str


@dataclasses.dataclass
class Watch:
    """What is known of the client at a moment of its record."""

    record: Record
    coordinator: Coordinator
    group: str
    interval: float
    found: Dict[str, Finding] = dataclasses.field(default_factory=dict)
    # Until when each partition may be fetched and committed, and those that are printed as assigned.
    held: Dict[Partition, float] = dataclasses.field(default_factory=dict)
    # What it was shown last, and what it lost: it isn't to be committed, and a commit of it is refused.
    shown: FrozenSet[Partition] = NOTHING
    lost: Set[Partition] = dataclasses.field(default_factory=set)
    printed: Set[Partition] = dataclasses.field(default_factory=set)
    # The epochs at which it may be: several if it isn't sure which reply it took. And until when the former one may be in a commit.
    epochs: Set[int] = dataclasses.field(default_factory=lambda: {JOIN})
    former: Dict[int, float] = dataclasses.field(default_factory=dict)
    ids: Set[str] = dataclasses.field(default_factory=set)
    last: Optional[Frame] = None
    given: Dict[str, object] = dataclasses.field(default_factory=dict)
    left_at: float = math.inf
    due: float = math.inf
    early: int = 0
    recent: Deque[float] = dataclasses.field(default_factory=collections.deque)

    def fault(self, rule: str, words: str) -> None:
        self.found.setdefault(rule, Finding(rule, words))

    def text(self, partitions: FrozenSet[Partition]) -> str:
        names = {it.id: it.name for it in self.coordinator.topics}
        topics: Dict[str, List[int]] = {}
        for topic, index in sorted(partitions):
            topics.setdefault(names.get(topic, topic.hex()), []).append(index)
        return " ".join(f"{name}[{runs(indexes)}]" for name, indexes in topics.items()) or "nothing"

    def present(self) -> str:
        return " or ".join(map(str, sorted(self.epochs)))

    # -- heartbeats

    def beats(self, frame: Frame, it: Heartbeat) -> None:
        at = frame.at
        self.judge_time(frame, it)
        if it.group != self.group:
            self.fault("always-id", f"a heartbeat for the group {it.group!r}")
        if it.epoch > 0 and it.epoch not in self.epochs:
            self.fault("always-epoch", f"a heartbeat at epoch {it.epoch}, where the last reply leaves it at {self.present()}")
        if it.epoch == JOIN:
            self.joins(at, it)
        elif self.ids and it.member not in self.ids:
            self.fault("always-id", f"a heartbeat under the member id {it.member!r}, which isn't the one that joined")
        if it.epoch > 0:
            self.judge_nulls(it)
        if it.owned is not None and it.epoch >= 0:
            self.reports(at, it.owned)
        self.given.update({name: value for name, value in said(it).items() if value is not None})
        if it.epoch < 0:
            self.left_at, self.due = at, math.inf
            self.loses(at, LEAVE_GRACE)
        self.last = frame

    def judge_time(self, frame: Frame, it: Heartbeat) -> None:
        at, last = frame.at, self.last
        self.recent.append(at)
        while self.recent[0] < at - 1.0:
            self.recent.popleft()
        if len(self.recent) > MOST_IN_A_SECOND:
            self.fault("always-storm", f"{len(self.recent)} heartbeats in a second")
        if at > self.due:
            self.fault("always-beats", f"no heartbeat for {at - self.due + self.late():.1f} s, where the interval is {self.interval:g} s")
        self.due = math.inf
        if last is None or last.beat is None:
            return
        is_open = self.record.closed.get(last.connection, math.inf) > at + CROSSING
        if (last.sent is None or last.sent > at) and is_open and it.epoch >= 0 and at < last.at + GIVEN_UP:
            self.fault("always-one", f"a heartbeat {at - last.at:.2f} s after another one that isn't answered yet")
        is_steady = last.sent is not None and last.told is not None and last.told.code == 0 and not last.fault
        if is_steady and it.epoch > 0 and it.owned is None and not any(said(it).values()) and at < (last.sent or at) + self.interval / 2:
            self.early += 1
            if self.early > MOST_EARLY:
                after = at - (last.sent or at)
                self.fault("always-early", f"a heartbeat with nothing new {after:.2f} s after a reply, where the interval is {self.interval:g} s")

    def joins(self, at: float, it: Heartbeat) -> None:
        if it.timeout <= 0 or it.names is None and not it.regex or it.owned:
            self.fault("always-join", f"a join with rebalance timeout {it.timeout}, names {it.names}, and {len(it.owned or ())} partitions owned")
        if len(set(it.names or ())) < len(it.names or ()):
            self.fault("always-join", f"a join with the names {it.names}, some of them twice")
        self.left_at, self.ids, self.epochs = math.inf, {it.member} - {""}, {JOIN}
        self.given, self.shown = {}, NOTHING
        self.drop(at + REPORT_GRACE)

    def judge_nulls(self, it: Heartbeat) -> None:
        is_full = it.timeout != -1 and it.owned is not None and (it.names is not None or bool(it.regex))
        same = [name for name, value in said(it).items() if value is not None and self.given.get(name) == value]
        if same and not is_full:
            self.fault("always-null", f"a heartbeat that isn't full says {' and '.join(same)} once more")

    def reports(self, at: float, owned: FrozenSet[Partition]) -> None:
        strange = frozenset(each for each in owned if self.held.get(each, 0.0) < at)
        if strange:
            self.fault("always-owned", f"it reports {self.text(strange)}, which it isn't assigned or has given up")
        for each in [*self.held]:
            if each not in owned | self.shown:
                self.held[each] = min(self.held[each], at + REPORT_GRACE)

    def drop(self, until: float) -> None:
        self.held = {each: min(old, until) for each, old in self.held.items()}

    def loses(self, at: float, grace: float) -> None:
        self.lost |= {each for each, until in self.held.items() if until > at}
        self.shown = NOTHING
        self.drop(at + grace)

    def late(self) -> float:
        return LATE_INTERVALS * self.interval + LATE_SECONDS

    def told(self, frame: Frame, asked: Heartbeat, told: Told) -> None:
        at = frame.sent or frame.at
        is_sure = frame.fault.split(" ")[0] not in ("delay", "repeat") and self.record.closed.get(frame.connection, math.inf) > at + CROSSING
        if asked.epoch < 0:
            return
        if told.code == 0:
            self.former.update({epoch: at + CROSSING for epoch in self.epochs})
            self.epochs = {told.epoch} | (set() if is_sure else self.epochs)
            self.ids |= {told.member or ""} - {""}
            self.interval = told.interval / 1000
            self.due = at + self.late() if is_sure else math.inf
            self.held.update({each: math.inf for each in told.assignment or ()})
            if told.assignment is not None:
                self.shown = told.assignment if is_sure else self.shown | told.assignment
                self.lost -= told.assignment
        elif told.code in OUT:
            self.epochs = {JOIN} | (set() if is_sure else self.epochs)
            self.loses(at, LOST_GRACE)

    # -- the rest

    def fetches(self, frame: Frame) -> None:
        strange = self.strange(frame)
        if strange:
            self.fault("always-fetch", f"it fetches {self.text(strange)}, which it isn't assigned, has given up, or lost")

    def strange(self, frame: Frame) -> FrozenSet[Partition]:
        ids = {it.name: it.id for it in self.coordinator.topics}
        asked = frozenset((ids.get(name, name.encode()), index) for name, index in asked_of(frame))
        return frozenset(each for each in asked if self.held.get(each, 0.0) < frame.at)

    def commits(self, frame: Frame) -> None:
        values, strange = frame.request.values, self.strange(frame)
        former = {epoch for epoch, until in self.former.items() if until >= frame.at}
        if strange:
            rule = "always-commit-lost" if strange <= self.lost else "always-commit"
            self.fault(rule, f"it commits {self.text(strange)}, which it isn't assigned, has given up, or lost")
            return
        if self.ids and values["member"] not in self.ids:
            self.fault("always-commit", f"it commits under the member id {values['member']!r}, which isn't its own")
        if values["epoch"] not in self.epochs | former:
            rule = "always-commit" if self.left_at == math.inf else "always-commit-lost"
            self.fault(rule, f"it commits at epoch {values['epoch']}, where it is at {self.present()}")

    def prints(self, it: Printed) -> None:
        if not it.is_assigned:
            self.printed -= it.partitions
            return
        early = frozenset(each for each in it.partitions if self.held.get(each, 0.0) < it.at - PRINT_GRACE)
        if early:
            self.fault("always-prints", f"it prints that it is assigned {self.text(early)}, which it isn't")
        self.printed |= it.partitions

    def judge_prints(self, at: float) -> None:
        kept = frozenset(each for each in self.printed - self.lost if self.held.get(each, 0.0) < at - PRINT_GRACE)
        if kept:
            self.fault("always-prints", f"it hasn't printed that it gave up {self.text(kept)}, which it has reported as given up")

    def sees(self, frame: Frame, is_reply: bool) -> None:
        if is_reply:
            if frame.beat is not None and frame.told is not None:
                self.told(frame, frame.beat, frame.told)
            return
        if not frame.request.is_shortest:
            self.fault("always-shortest", f"a request of {frame.request.api.name} that has a shorter encoding")
        is_late = frame.at > self.left_at + LEAVE_GRACE
        if is_late and frame.key == COMMIT:
            self.fault("always-commit-lost", f"a commit {frame.at - self.left_at:.1f} s after the leave")
        elif is_late and (frame.key == FETCH or frame.beat is not None and frame.beat.epoch != JOIN):
            self.fault("always-gone", f"a request of {frame.request.api.name} {frame.at - self.left_at:.1f} s after the leave")
        elif frame.key == HEARTBEAT and frame.beat is not None:
            self.beats(frame, frame.beat)
        elif frame.key == FETCH:
            self.fetches(frame)
        elif frame.key == COMMIT and frame.request.values["topics"]:
            self.commits(frame)


def said(it: Heartbeat) -> Dict[str, object]:
    """What a heartbeat says of its member besides what it owns; null if it says nothing."""
    names = None if it.names is None else frozenset(it.names)
    timeout = None if it.timeout == -1 else it.timeout
    return {"a timeout": timeout, "names": names, "an expression": it.regex or None, "an assignor": it.assignor, "a rack": it.rack}


def judge(record: Record, coordinator: Coordinator, group: str, until: float, has_prints: bool) -> List[Finding]:
    """What the checker finds in a record. `until` is when the client was told to end, or ended."""
    watch = Watch(record, coordinator, group, coordinator.interval / 1000)
    events: List[Tuple[float, bool, Union[Frame, Printed]]] = [(it.at, False, it) for it in record.prints]
    for frame in record.frames:
        events.append((frame.at, False, frame))
        if frame.sent is not None:
            events.append((frame.sent, True, frame))
    for at, is_reply, it in sorted(events, key=lambda event: event[:2]):
        if isinstance(it, Frame):
            watch.sees(it, is_reply)
        else:
            watch.prints(it)
        if has_prints and at <= until and not record.is_unread(at, PRINT_GRACE):
            watch.judge_prints(at)
    if until > watch.due:
        watch.fault("always-beats", f"no heartbeat for {until - watch.due + watch.late():.1f} s, where the interval is {watch.interval:g} s")
    if record.unreadable:
        watch.fault("always-readable", record.unreadable[0])
    return [*watch.found.values()]
