"""The checker of invariants: it sees each message of a group, in every case, and says what no coordinator may do.

What a member may hold is followed from the coordinator's side. A partition may be a member's from the reply that shows it, taken or lost,
until the member reports without it, joins anew, leaves, or is told that it is no member any more. A member may be none any more, too, when
its session or its rebalance timeout may be over: then what it holds may be another's.
"""

from __future__ import annotations

import dataclasses
import time
from typing import Dict, List, Optional, Sequence, Set

from conformance.messages import AWAY, JOIN, LEAVE, NOTHING, Heartbeat, Partitions, Told, Topic
from conformance.story import Story

UNKNOWN_MEMBER_ID, FENCED_MEMBER_EPOCH = 25, 110


@dataclasses.dataclass
class Seen:
    """What is known of a member: what it may hold, what it was shown last, its last epoch, and what it ever subscribed."""

    name: str
    holds: Partitions = NOTHING
    shown: Partitions = NOTHING
    epoch: int = 0
    topics: Set[str] = dataclasses.field(default_factory=set)
    instance: Optional[str] = None
    is_away: bool = False
    # Its rebalance timeout in seconds; when it last sent what was accepted, and when what told it to give up what it still holds.
    timeout: float = 0.0
    heard: float = 0.0
    told: Optional[float] = None

    def may_be_over(self, session: float) -> bool:
        """Whether its session, or the time that it has for giving up partitions, may have ended by now."""
        now = time.monotonic()
        return now - self.heard >= session or self.told is not None and now - self.told >= self.timeout


class Watch:
    def __init__(self, story: Story, topics: Sequence[Topic], may_grow: bool, session: float) -> None:
        """Topics that may grow can have more partitions than is known here. The broker's session timeout is in seconds."""
        self.story, self.topics, self.may_grow, self.session = story, {topic.id: topic for topic in topics}, may_grow, session
        self.members: Dict[str, Seen] = {}
        # What was found, in words.
        self.faults: List[str] = []

    def fault(self, words: str) -> None:
        self.story.say(f"!! {words}")
        self.faults.append(words)

    def may_be_over(self, member: str) -> bool:
        """Whether a member that was there may be none any more, since its time may be over."""
        return member in self.members and self.members[member].may_be_over(self.session)

    def exchange(self, name: str, request: Heartbeat, reply: Told, sent: float) -> None:
        """A request, when it was sent, and its reply."""
        member = request.member or reply.member or ""
        if reply.code:
            if reply.code in (UNKNOWN_MEMBER_ID, FENCED_MEMBER_EPOCH) and member in self.members:
                self.members[member].holds = NOTHING
            return
        if request.epoch == LEAVE:
            self.members.pop(member, None)
            return
        seen = self.members.setdefault(member, Seen(name))
        seen.heard = sent
        if request.epoch == AWAY:
            # It is closed: what it was told to give up is given up.
            seen.is_away, seen.holds, seen.told = True, seen.holds & seen.shown, None
        else:
            self.beat(member, seen, request, reply)

    def beat(self, member: str, seen: Seen, request: Heartbeat, reply: Told) -> None:
        if request.epoch == JOIN:
            self.joins(member, seen, request)
        seen.topics |= {topic.name for topic in self.topics.values()} if request.regex else set(request.names or ())
        seen.timeout = seen.timeout if request.timeout == -1 else request.timeout / 1000
        # (What it claims to have and was never shown isn't its own.)
        seen.holds = seen.holds if request.owned is None else request.owned & (seen.holds | seen.shown)
        shown = seen.shown if reply.assignment is None else reply.assignment
        self.judge_epoch(seen, request, reply, shown)
        self.judge_assignment(member, seen, reply, shown)
        seen.holds |= reply.assignment or NOTHING
        if not seen.holds - shown:
            seen.told = None
        elif seen.told is None:
            seen.told = seen.heard
        seen.shown, seen.epoch = shown, max(seen.epoch, reply.epoch)

    def joins(self, member: str, seen: Seen, request: Heartbeat) -> None:
        """It holds nothing at first, and takes the place of the member that had its instance and went away."""
        seen.holds, seen.shown, seen.told = NOTHING, NOTHING, None
        seen.instance, seen.is_away = request.instance, False
        for other, it in list(self.members.items()):
            if other != member and it.is_away and request.instance is not None and it.instance == request.instance:
                seen.epoch = max(seen.epoch, it.epoch)
                self.members.pop(other)

    def judge_epoch(self, seen: Seen, request: Heartbeat, reply: Told, shown: Partitions) -> None:
        """What was asked back before is reported before the epoch rises, or given back. (The reply itself may ask for more.)"""
        if reply.epoch < seen.epoch:
            self.fault(f"the epoch of {seen.name} falls from {seen.epoch} to {reply.epoch}: member epochs never fall")
        unreleased = seen.holds - seen.shown - shown
        if request.epoch != JOIN and reply.epoch > seen.epoch and unreleased:
            self.fault(
                f"the epoch of {seen.name} rises to {reply.epoch} before it has reported that it gave up "
                f"{self.story.partitions(unreleased)}: its epoch rises when it has acknowledged the revocation"
            )

    def judge_assignment(self, member: str, seen: Seen, reply: Told, shown: Partitions) -> None:
        if reply.assignment is None:
            return
        for other, it in self.members.items():
            both = shown & it.holds if other != member else NOTHING
            if both and not it.may_be_over(self.session):
                self.fault(f"{self.story.partitions(both)} is assigned to {seen.name} while {it.name} may hold it: no partition has two members")
        if reply.is_listed_twice:
            self.fault(f"the assignment of {seen.name} lists a partition twice")
        known = {each: self.topics[each[0]] for each in shown if each[0] in self.topics}
        never = frozenset(each for each in shown if each not in known or known[each].name not in seen.topics)
        if never:
            self.fault(f"{seen.name} is assigned {self.story.partitions(never)}, a topic that it never subscribed")
        beyond = frozenset(each for each, topic in known.items() if not 0 <= each[1] < topic.count)
        if beyond and not self.may_grow:
            self.fault(f"{seen.name} is assigned {self.story.partitions(beyond)}, which its topic hasn't")
