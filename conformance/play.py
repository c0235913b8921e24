"""What a case plays with: members of a group, its requests and replies, and what has to hold."""

from __future__ import annotations

import contextlib
import dataclasses
import time
import uuid
from collections import Counter
from typing import Any, Callable, Dict, List, NoReturn, Optional, Sequence, Set, Tuple

from conformance.broker import Broker
from conformance.case import Case
from conformance.connection import Address, Connection
from conformance.member import ALONE, FIRST_PAUSE, JOIN_ANEW, LAST_PAUSE, SHARED, Member
from conformance.messages import (
    HEARTBEAT,
    OFFSET_COMMIT,
    OFFSET_FETCH,
    Commit,
    Fetched,
    Part,
    Partition,
    Partitions,
    Places,
    Told,
    Topic,
    offset_fetch_fields,
    read_commit_reply,
    read_offset_fetch_reply,
)
from conformance.story import Story, code_text, codes_text
from conformance.verdict import Failed, Late, NotRun, StandsOn
from conformance.watch import Watch

# (If there are very many partitions, each beat takes a while.)
LEAST_ROUNDS = 8
# How long a case may take at most: a slow one some sessions longer.
LONGEST_SECONDS, SLOW_SESSIONS = 120.0, 4
USUAL_ROUNDS = 3
GROUP_MAX_SIZE_REACHED, UNSUPPORTED_ASSIGNOR = 81, 112


@dataclasses.dataclass(frozen=True)
class Settings:
    """How long things may take, in seconds, and what makes partitions."""

    # Until members have what they should have.
    patience: float = 10.0
    # The broker's session timeout, and how much later it may notice its end.
    session: float = 45.0
    late: float = 10.0
    # A command that adds partitions to the first topic.
    grow: Optional[str] = None
    seed: int = 848
    # How many walks there are of each kind, and how long they go on, in seconds, if that is longer.
    rounds: int = USUAL_ROUNDS
    walks: float = 0.0


@dataclasses.dataclass
class SoFar:
    """What the cases that were played have shown: which failed, and after which free ones the broker ended."""

    failed: Set[str] = dataclasses.field(default_factory=set)
    ended: List[str] = dataclasses.field(default_factory=list)


class Play:
    """One run of one case."""

    def __init__(self, case: Case, broker: Broker, settings: Settings, so_far: SoFar) -> None:
        self.case, self.broker, self.settings, self.so_far = case, broker, settings, so_far
        slow = SLOW_SESSIONS * (settings.session + settings.late) if case.is_slow else 0
        self.until_when = time.monotonic() + LONGEST_SECONDS * max(1, settings.rounds / USUAL_ROUNDS) + settings.walks + slow
        # The cases that this one stands on.
        self.bases: Set[str] = set()
        self.story = Story(broker.topics)
        self.members: List[Member] = []
        self.notes: List[str] = []
        self._watches: Dict[str, Watch] = {}
        self._connections: List[Connection] = []
        self._group: Optional[str] = None

    # -- what there is

    @property
    def group(self) -> str:
        """The case's own group."""
        self._group = self._group or self.new_group()
        return self._group

    def new_group(self) -> str:
        return f"conformance-{self.case.name}-{uuid.uuid4().hex[:8]}"

    @property
    def version(self) -> int:
        version = self.broker.version(HEARTBEAT)
        assert version is not None
        return version

    def topic(self, number: int = 0, partitions: int = 1) -> Topic:
        """A topic with so many partitions at least."""
        found = [topic for topic in self.broker.topics if topic.count >= partitions]
        if len(found) <= number:
            raise NotRun(f"it needs {'a topic' if number == 0 else f'{number + 1} topics'} with {partitions} partitions or more")
        return found[number]

    def member(self, name: str, **settings: Any) -> Member:
        settings.setdefault("group", self.group)
        settings.setdefault("names", [self.topic(0).name])
        member = Member(self, name, **settings)
        self.members.append(member)
        return member

    def watch(self, group: str) -> Watch:
        if group not in self._watches:
            self._watches[group] = Watch(self.story, self.broker.topics, self.settings.grow is not None, self.settings.session)
        return self._watches[group]

    def connect(self, address: Optional[Address] = None) -> Connection:
        connection = self.broker.connect(address)
        self._connections.append(connection)
        return connection

    # -- what has to hold

    def stands_on(self, *names: str) -> None:
        """If one of these cases failed, what comes now would only tell that again."""
        self.bases |= {*names} - {self.case.name}
        for name in names:
            if name in self.so_far.failed and name != self.case.name:
                raise StandsOn(f"stands on {name}")

    def fail(self, words: str) -> NoReturn:
        raise Failed(words)

    def want(self, holds: bool, words: str) -> None:
        if not holds:
            self.fail(words)

    def want_code(self, what: str, code: int, *codes: int) -> None:
        """Refused is refused: of the two codes after which a client joins again, it doesn't matter much which one it is."""
        if code not in codes:
            is_minor = code in JOIN_ANEW and any(each in JOIN_ANEW for each in codes)
            raise Failed(f"{what} is answered with {code_text(code)}, and should be with {codes_text(codes)}", is_minor)

    def has_others(self, member: Member) -> bool:
        """Whether its group has other members."""
        return any(other is not member and other.is_in and other.group == member.group for other in self.members)

    def want_taken(self, member: Member, reply: Told) -> None:
        """A broker may have room for so many members and no more, and assignors by other names."""
        if reply.code == GROUP_MAX_SIZE_REACHED and self.has_others(member):
            raise NotRun("the broker takes no more members into the group")
        if reply.code == UNSUPPORTED_ASSIGNOR and member.assignor is not None:
            raise NotRun(f"the broker has no assignor {member.assignor}")

    def want_in_time(self, *members: Member) -> None:
        for member in members:
            if self.watch(member.group).may_be_over(member.id):
                raise NotRun(f"this machine or the link is too slow: the session of {member.name} may be over")

    def want_kept(self, who: Member, kept: Partitions, *others: Member) -> None:
        """What a member holds, or what is reserved for it, goes to nobody else while its session isn't over."""
        for other in others:
            if kept & other.owned:
                self.want_in_time(who)
                self.fail(f"{self.story.partitions(kept & other.owned)} goes to {other.name}, and is still that of {who.name}")

    def want_refused(self, what: str, code: int) -> None:
        self.want(code != 0, f"{what} is accepted, and should be refused")

    def note(self, words: str) -> None:
        """What the broker does where it is free."""
        self.story.say(f"-- {words}")
        self.notes.append(words)

    # -- members that go on until something holds

    def until(self, what: str, holds: Callable[[], bool], *members: Member, act: Optional[Callable[[Member], object]] = None) -> None:
        """The members beat, and do what they are told (or else `act`), until it holds."""
        until, pause, rounds = time.monotonic() + self.settings.patience, FIRST_PAUSE, 0
        while not holds():
            rounds += 1
            if time.monotonic() > until and rounds > LEAST_ROUNDS:
                raise Late(f"{self.settings.patience:g} s of heartbeats don't bring it about that {what}")
            for member in members:
                (act or Member.turn)(member)
            time.sleep(pause)
            pause = min(LAST_PAUSE, pause * 1.5)

    def settle(self, *members: Member) -> None:
        """The members beat until each partition that they subscribe has one owner, at one epoch of all, and nobody waits for a part."""
        members = members or tuple(member for member in self.members if member.is_in)
        self.stands_on(ALONE, *SHARED * (len(members) > 1))
        try:
            self.until("", lambda: self.is_settled(members) and not self.idle(members), *members)
        except Late:
            idle = " ".join(member.name for member in self.idle(members))
            lacks = self.lacks(members) or f"{idle} is left without partitions, of a topic that has enough for all"
            raise Failed(f"after {self.settings.patience:g} s of heartbeats {lacks}", is_minor=not self.lacks(members)) from None

    def is_settled(self, members: Sequence[Member]) -> bool:
        return not self.lacks(members)

    def idle(self, members: Sequence[Member]) -> List[Member]:
        """Who still waits for its part, of a topic that is enough for all."""
        shares = Counter(name for member in members for name in {*member.names})
        is_enough = {topic.name for topic in self.broker.topics if topic.count >= shares[topic.name]}
        return [member for member in members if not member.owned and not is_enough.isdisjoint(member.names)]

    def lacks(self, members: Sequence[Member]) -> str:
        """What isn't as it has to be in the end, or nothing."""
        names = {name for member in members for name in member.names}
        wanted = frozenset(each for topic in self.broker.topics if topic.name in names for each in topic.partitions())
        owned = [each for member in members for each in member.owned]
        missing, more = wanted - frozenset(owned), frozenset(owned) - wanted
        twice = frozenset(each for each, times in Counter(owned).items() if times > 1)
        words = [f"{member.name} is no member" for member in members if not member.is_in]
        rows = ((missing, "nobody's"), (twice, "two members'"), (more, "assigned, and nobody subscribes it"))
        words += [f"{self.story.partitions(some)} is {what}" for some, what in rows if some]
        if not self.are_steady(members):
            epochs = ", ".join(f"{member.name} is at {member.epoch}" for member in members)
            words.append(f"the epochs differ, or something isn't given up and reported: {epochs}")
        return "; ".join(words)

    @staticmethod
    def are_steady(members: Sequence[Member]) -> bool:
        """They have what they are assigned, have reported it, and are at one epoch."""
        are_done = all(member.is_in and member.owned == member.assigned and not member.has_news for member in members)
        return are_done and len({member.epoch for member in members}) <= 1

    # -- offsets

    def commit(
        self,
        member: Member,
        offsets: Dict[Partition, int],
        epoch: Optional[int] = None,
        member_id: Optional[str] = None,
        version: Optional[int] = None,
    ) -> List[int]:
        """A member commits offsets by partition; the code of each."""
        by_name: Dict[str, List[Part]] = {}
        names = {topic.id: topic.name for topic in self.broker.topics}
        for (topic, index), offset in offsets.items():
            by_name.setdefault(names[topic], []).append(Part(index, offset))
        commit = Commit(member.group, member.id if member_id is None else member_id, member.epoch if epoch is None else epoch, by_name)
        return [code for _, _, code in self.send_commit(member, commit, version)]

    def send_commit(self, member: Member, commit: Commit, version: Optional[int] = None) -> List[Tuple[str, int, int]]:
        """Topic, index and code of each partition."""
        version = self.broker.version(OFFSET_COMMIT) if version is None else version
        if version is None:
            raise NotRun("the broker offers no OffsetCommit that the suite speaks")
        self.story.committed(member.name, commit, version)
        asked = version

        def ask() -> List[Tuple[str, int, int]]:
            return read_commit_reply(member.connection.ask(OFFSET_COMMIT, asked, commit.fields(asked)), asked)

        results: List[Tuple[str, int, int]] = member.asks(ask, lambda found: found[0][2] if found else 0)
        member.judge_time(commit.group, commit.member, results[0][2] if results else 0)
        self.story.say(f"{member.name} <- {', '.join(code_text(code) for _, _, code in results) or 'nothing'}")
        return results

    def wants_commits(self) -> None:
        version = self.broker.version(OFFSET_COMMIT)
        if version is None or version < 9:
            raise NotRun("the broker offers no OffsetCommit of version 9, the first one with member epochs")

    def stored(self, member: Member, topic: Topic, index: int) -> Optional[int]:
        """The offset that OffsetFetch gives, -1 where there is none; None where the broker doesn't offer it."""
        version = self.broker.version(OFFSET_FETCH)
        if version is None:
            return None
        found = self.fetch(member, {topic.name: [index]})
        self.want_code("OffsetFetch", found.first_code(), 0)
        return found.parts[topic.name, index].offset if (topic.name, index) in found.parts else -1

    def fetch(self, member: Member, places: Places, member_id: Optional[str] = None, epoch: int = -1) -> Fetched:
        """What is stored for partitions by the topic's name, or for all of the group."""
        version = self.broker.version(OFFSET_FETCH)
        if version is None or places is None and version < 2:
            raise NotRun("the broker offers no OffsetFetch that the suite speaks")
        asked, fields = version, offset_fetch_fields(version, member.group, places, member_id, epoch)
        found = member.asks(lambda: read_offset_fetch_reply(member.connection.ask(OFFSET_FETCH, asked, fields), asked), Fetched.first_code)
        self.story.fetched(member.name, found)
        return found

    # -- the end

    def faults(self) -> List[str]:
        """What the checker found: the first of each group."""
        return [watch.faults[0] for watch in self._watches.values() if watch.faults]

    def judge(self) -> None:
        faults = self.faults()
        self.want(not faults, faults[0] if faults else "")

    def tell_of(self, other: Play) -> None:
        """From now on what happened is what happened in another run of the case."""
        self.story.lines, self._watches = other.story.lines, other._watches

    def go_on(self) -> None:
        """No case goes on for ever, whatever the broker does."""
        if time.monotonic() > self.until_when:
            raise NotRun("it takes too long: the broker, the link or this machine is too slow for it")

    def close(self, leaves: bool) -> None:
        """The members leave, so that the broker has nothing left of the case. What goes wrong here is no matter of the case."""
        with contextlib.suppress(Exception):
            for member in self.members:
                if leaves and (member.is_in or member.may_be_in):
                    member.leave_quietly()
        for connection in self._connections:
            connection.close()
