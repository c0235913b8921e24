"""What the frames that pass tell of the groups.

The coordinator's state isn't asked for. A member is known from its first accepted heartbeat that passes, and is taken to be removed when
the coordinator says that it doesn't know it, when it leaves, or when it has said nothing for a session's time.
"""

from __future__ import annotations

import dataclasses
from typing import Callable, Dict, FrozenSet, Iterable, Iterator, List, Optional, Tuple

from broker import codes
from broker.heartbeats import AWAY, JOIN, LEAVE, Asked, ById, Steady, Told
from broker.partitions import NOTHING, Partitions, union
from broker.topics import Topics
from broker.words import in_words, names_in_words, plain, short_id

SESSION_SECONDS = 45.0
# After this time without a change, of three heartbeats, members that could be assigned more are taken to wait for it.
WAIT_SECONDS = 15.0
MOST_GROUPS = 1_000
# The most that all members weigh: a character of their texts weighs 1, and each partition or topic that is listed the next number.
MOST_WEIGHT = 16 << 20
WEIGHT_OF_AN_ENTRY = 64


@dataclasses.dataclass
class Member:
    """A member, as far as its heartbeats and their replies tell. What is None isn't known: it was said before this program began."""

    id: str
    client: str
    instance: Optional[str] = None
    epoch: int = 0
    is_away: bool = False
    assignor: Optional[str] = None
    names: Optional[FrozenSet[str]] = None
    # What the last assignment shows, and what the member may still read: that, and what it hasn't said to have given up.
    assigned: Optional[Partitions] = None
    held: Partitions = NOTHING
    # What it is assigned that isn't among the topics here, in words.
    strange: str = ""
    # When it was heard of for the first time, and last.
    since: float = 0.0
    heard: float = 0.0

    def weight(self) -> int:
        texts = len(self.id) + len(self.client) + len(self.instance or "") + len(self.assignor or "")
        entries = len(self.names or ()) + len(self.assigned or ()) + len(self.held)
        return texts + WEIGHT_OF_AN_ENTRY * (1 + entries)


@dataclasses.dataclass
class Group:
    name: str
    members: Dict[str, Member] = dataclasses.field(default_factory=dict)
    # Since when a rebalance is under way, or None; and the epoch at which the group was last settled.
    since: Optional[float] = None
    settled_epoch: int = 0
    # When the last change was, and what the members have waited for since then: partitions of their topics that nobody is assigned.
    changed: float = 0.0
    waits_for: Optional[Partitions] = None

    def epoch(self) -> int:
        """The greatest epoch of a member that is known."""
        return max((member.epoch for member in self.members.values()), default=0)

    def is_settled(self, topics: Topics) -> Optional[bool]:
        """Whether all members have one epoch and just what they are assigned, and each partition of their topics is assigned. None where
        that isn't known."""
        members = self.members.values()
        if any(member.assigned is None or member.names is None for member in members):
            return None
        return self._agree() and len(self._assigned()) == sum(topics.by_name[name].count for name in self._subscribed(topics))

    def unassigned(self, topics: Topics) -> Partitions:
        """What nobody is assigned although the members have one epoch and just what they are assigned."""
        if self.is_settled(topics) is not False or not self._agree():
            return NOTHING
        wanted = {name: frozenset(range(topics.by_name[name].count)) for name in self._subscribed(topics)}
        return Partitions(wanted) - self._assigned()

    def _agree(self) -> bool:
        epochs = {member.epoch for member in self.members.values() if not member.is_away}
        return len(epochs) < 2 and all(member.held == member.assigned for member in self.members.values())

    def _assigned(self) -> Partitions:
        return union(member.assigned or NOTHING for member in self.members.values())

    def _subscribed(self, topics: Topics) -> FrozenSet[str]:
        return frozenset(name for member in self.members.values() for name in member.names or () if name in topics.by_name)


@dataclasses.dataclass
class Change:
    """What a heartbeat changed, in words; and the seconds that a rebalance took which it ended."""

    group: str
    member: str
    epoch: int
    phrases: List[str]
    converged: Optional[float] = None


class Groups:
    def __init__(self, topics: Topics) -> None:
        self.topics = topics
        self.groups: Dict[str, Group] = {}
        self.weight = 0
        # How many accepted heartbeats came of members that there was no room for.
        self.unwatched = 0

    # ---- heartbeats

    def heartbeat(self, client: Optional[str], asked: Asked, told: Told, now: float) -> Optional[Change]:
        """Takes a heartbeat and its reply, and says what they change, if anything."""
        if told.code != codes.NONE:
            return self._refused(asked, told.code, now)
        if asked.epoch in (LEAVE, AWAY):
            return self._left(asked, now)
        group = self.groups.get(asked.group)
        if group is None and len(self.groups) >= MOST_GROUPS:
            self.unwatched += 1
            return None
        group = group or Group(asked.group)
        former = group.members.get(told.member or "")
        # A take-over: the instance comes back under another id.
        heir_of = self._away_with(group, asked) if former is None else None
        if heir_of is not None:
            self._remove(group, heir_of.id)
        member = former or Member(told.member or "", client or "", since=now)
        return self._beat(group, former, self._after(member, asked, told, now), asked, now)

    def left_out(self) -> None:
        """There was no time for what has passed."""
        self.unwatched += 1

    def has_heard(self, steady: Steady, now: float) -> bool:
        """Takes a heartbeat that changes nothing, if that is so by what is known."""
        group = self.groups.get(steady.group)
        member = group.members.get(steady.member) if group else None
        if member is None or member.epoch != steady.epoch or member.is_away:
            return False
        member.heard = now
        return True

    def _after(self, member: Member, asked: Asked, told: Told, now: float) -> Member:
        """The member after the heartbeat."""
        after = dataclasses.replace(member, epoch=told.epoch, is_away=False, heard=now)
        if asked.epoch == JOIN:
            after.instance, after.held = asked.instance, NOTHING
        elif asked.owned is not None:
            after.held, _ = self._named(asked.owned)
        if asked.names is not None:
            after.names = frozenset(name for name in asked.names if name in self.topics.by_name)
        if asked.assignor is not None:
            after.assignor = asked.assignor
        if told.assigned is not None:
            after.assigned, after.strange = self._named(told.assigned)
            after.held |= after.assigned
        return after

    def _beat(self, group: Group, former: Optional[Member], member: Member, asked: Asked, now: float) -> Optional[Change]:
        if not self._keep(group, member):
            self.unwatched += 1
            return None
        phrases = list(_phrases(former, member, asked))
        return self._change(group, member.id, member.epoch, phrases, now) if phrases else None

    def _refused(self, asked: Asked, code: int, now: float) -> Change:
        group, phrases = self.groups.get(asked.group), [codes.name(code), *self._why(asked, code)]
        if group and asked.member in group.members and code in (codes.UNKNOWN_MEMBER_ID, codes.FENCED_MEMBER_EPOCH):
            # The member gives up all that it has, and joins again.
            self._remove(group, asked.member)
            return self._change(group, asked.member, asked.epoch, phrases, now)
        return Change(asked.group, asked.member, asked.epoch, phrases)

    def _why(self, asked: Asked, code: int) -> Iterator[str]:
        """The other side of a refusal, as far as it is known."""
        if code == codes.FENCED_MEMBER_EPOCH:
            yield from self.other_epoch(asked.group, asked.member, asked.epoch)
        elif code == codes.UNRELEASED_INSTANCE_ID:
            members = self.groups[asked.group].members.values() if asked.group in self.groups else ()
            yield from (f"instance {plain(it.instance)} is {short_id(it.id)}'s" for it in members if it.instance and it.instance == asked.instance)
        elif code == codes.UNSUPPORTED_ASSIGNOR:
            yield f"the assignor {plain(asked.assignor or '')} is neither range nor uniform"
        elif code == codes.INVALID_REQUEST and asked.regex:
            yield "regular expressions are not supported"
        elif code == codes.INVALID_REQUEST and asked.epoch == JOIN and asked.names is None:
            yield "its topic names are null in a join"

    def other_epoch(self, group: str, member: str, epoch: int) -> Iterator[str]:
        """At which epoch a member is, if that isn't this one."""
        known = self.groups[group].members.get(member) if group in self.groups else None
        if known is not None and known.epoch != epoch:
            yield f"the member is at {known.epoch}"

    def _left(self, asked: Asked, now: float) -> Optional[Change]:
        group = self.groups.get(asked.group)
        member = group.members.get(asked.member) if group else None
        if group is None or member is None:
            return Change(asked.group, asked.member, asked.epoch, ["leaves" if asked.epoch == LEAVE else "goes away"])
        if asked.epoch == LEAVE:
            self._remove(group, member.id)
            return self._change(group, member.id, member.epoch, ["leaves"], now)
        member.is_away, member.heard = True, now
        phrase = f"goes away, and instance {plain(member.instance or '')} has {SESSION_SECONDS:.0f} s to come back"
        return self._change(group, member.id, member.epoch, [phrase], now)

    def waiting(self, now: float) -> List[Change]:
        """Says which groups wait, once each."""
        changes = []
        for group in list(self.groups.values()):
            if group.since is not None and group.waits_for is None and now - group.changed > WAIT_SECONDS:
                group.waits_for = group.unassigned(self.topics)
                if group.waits_for:
                    changes.append(Change(group.name, "", group.epoch(), [self._waits(group.waits_for)]))
        return changes

    def expire(self, now: float) -> List[Change]:
        """Removes the members that said nothing for a session's time, as the coordinator does."""
        phrase = f"said nothing for {SESSION_SECONDS:.0f} s: its session is over"
        return self.remove(lambda _, member: now - member.heard > SESSION_SECONDS, phrase, now)

    def remove(self, is_over: Callable[[Group, Member], bool], phrase: str, now: float) -> List[Change]:
        """Removes members, and says so in a phrase."""
        changes = []
        for group in list(self.groups.values()):
            for member in [each for each in group.members.values() if is_over(group, each)]:
                self._remove(group, member.id)
                changes.append(self._change(group, member.id, member.epoch, [phrase], now))
        return changes

    # ---- the table

    def _away_with(self, group: Group, asked: Asked) -> Optional[Member]:
        if asked.instance is None or asked.epoch != JOIN:
            return None
        return next((each for each in group.members.values() if each.is_away and each.instance == asked.instance), None)

    def _keep(self, group: Group, member: Member) -> bool:
        """Keeps a member in its place. If there is no room, it isn't known any more."""
        former = group.members.get(member.id)
        more = member.weight() - (former.weight() if former else 0)
        if self.weight + more > MOST_WEIGHT:
            self._remove(group, member.id)
            return False
        self.weight += more
        group.members[member.id] = member
        self.groups[group.name] = group
        return True

    def _remove(self, group: Group, member_id: str) -> None:
        """Takes a member out, and its group if it was the last one."""
        member = group.members.pop(member_id, None)
        if member is not None:
            self.weight -= member.weight()
        if not group.members:
            self.groups.pop(group.name, None)

    def _waits(self, partitions: Partitions) -> str:
        topics = names_in_words(self.topics.by_name[name].word() for name in partitions.runs())
        return f"waits for {in_words(partitions)}, which the coordinator assigns to nobody: does it have {topics}?"

    def _named(self, by_id: ById) -> Tuple[Partitions, str]:
        """Partitions by their topics' names; and, in words, those that this program wasn't told of, which are left out."""
        known, strange = {}, {}
        for topic_id, indexes in by_id.items():
            topic = self.topics.by_id.get(topic_id)
            here = topic.among(indexes) if topic else frozenset()
            if topic:
                known[topic.name] = here
            if len(here) < len(indexes):
                strange[topic.name if topic else str(topic_id)] = indexes - here
        return Partitions(known), in_words(Partitions(strange)) if strange else ""

    def _change(self, group: Group, member: str, epoch: int, phrases: List[str], now: float) -> Change:
        """A change after which a group isn't settled begins a rebalance, if none is under way. One that moves nothing takes no time."""
        group.changed, group.waits_for = now, None
        began = now if group.since is None else group.since
        is_settled = group.is_settled(self.topics) if group.members else None
        group.since = began if is_settled is False else None
        converged = None
        if is_settled and (now > began or group.epoch() > group.settled_epoch):
            converged, group.settled_epoch = now - began, group.epoch()
        return Change(group.name, member, epoch, phrases, converged)


def _phrases(former: Optional[Member], member: Member, asked: Asked) -> Iterable[str]:
    """What a heartbeat changed of a member."""
    before = former or Member(member.id, member.client)
    if asked.epoch == JOIN:
        yield "joins again" if former else "joins"
    elif former is None:
        yield "is heard of for the first time"
    if before.names != member.names and member.names is not None:
        yield f"subscribes {names_in_words(sorted(member.names)) or 'no topic that is known here'}"
    yield from _moves(before, member, asked)
    if former is not None and former.epoch != member.epoch:
        yield f"was at epoch {former.epoch}"


def _moves(before: Member, member: Member, asked: Asked) -> Iterable[str]:
    """What partitions a heartbeat moved: given up in the request, assigned and revoked in the reply."""
    released = before.held - member.held if asked.epoch != JOIN else NOTHING
    if released:
        yield f"has given up {in_words(released)}"
    gained = (member.assigned or NOTHING) - (before.assigned or NOTHING)
    if gained:
        yield f"is assigned {in_words(gained)}"
    if member.strange and member.strange != before.strange:
        yield f"is assigned {member.strange}, which isn't known here: the coordinator has other topics"
    revoked = (before.assigned or NOTHING) - (member.assigned or NOTHING) - released
    if revoked and member.assigned is not None:
        yield f"revokes {in_words(revoked)}"
