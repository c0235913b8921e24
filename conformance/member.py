"""A member of a group, as a case plays it."""

from __future__ import annotations

import dataclasses
import time
import uuid
from typing import TYPE_CHECKING, Any, Callable, List, Optional, Sequence, Set

from conformance.broker import ASK_AGAIN
from conformance.connection import Address, Connection, Lost
from conformance.messages import AWAY, HEARTBEAT, JOIN, LEAVE, NOTHING, Heartbeat, Partition, Partitions, Told, read_heartbeat_reply
from conformance.story import code_text
from conformance.verdict import Failed, NotRun
from conformance.watch import FENCED_MEMBER_EPOCH, UNKNOWN_MEMBER_ID

if TYPE_CHECKING:
    from conformance.play import Play

# While something is waited for it is tried so often, in seconds: at once first, and then ever less often.
FIRST_PAUSE, LAST_PAUSE = 0.005, 0.25
NO_EPOCH_YET = 0
REBALANCE_MS = 60_000
# How long a broker may take, in seconds, to answer the leaves at a case's end.
LEAVE_SECONDS = 1.0
NOT_COORDINATOR = 16
# The cases on which others stand: what is said of one alone and of two that share is what most begin with.
ALONE, SHARED = "join-alone", ("beat-short", "join-raises-epoch")
JOIN_ANEW = (UNKNOWN_MEMBER_ID, FENCED_MEMBER_EPOCH)


@dataclasses.dataclass
class Member:
    """A member that follows KIP-848. It has a connection of its own to the group's coordinator."""

    play: Play
    name: str
    group: str
    names: List[str]
    id: str = ""
    instance: Optional[str] = None
    assignor: Optional[str] = None
    timeout: int = REBALANCE_MS
    epoch: int = NO_EPOCH_YET
    # What it was shown last, what it owns, and whether that has changed since it reported it.
    assigned: Partitions = NOTHING
    owned: Partitions = NOTHING
    has_news: bool = False
    # It is a member, or it may be one: it has sent a join and doesn't know its result.
    is_in: bool = False
    may_be_in: bool = False
    # The case is about the end of its time.
    may_end: bool = False
    # After which codes it asks again: the coordinator isn't ready, or isn't the one.
    asks_again: Sequence[int] = ASK_AGAIN
    _connection: Optional[Connection] = None
    ids: Set[str] = dataclasses.field(default_factory=set)

    def __post_init__(self) -> None:
        # From version 1 on members make their own ids.
        self.id = self.id or ("" if self.play.version == 0 else new_id())

    @property
    def connection(self) -> Connection:
        if self._connection is None:
            self._connection = self.play.connect(self.play.broker.coordinator_of(self.group))
        return self._connection

    def connects(self, address: Address) -> None:
        """From now on it sends to a broker of the case's choice."""
        self._connection = self.play.connect(address)

    def reconnect(self) -> None:
        if self._connection is not None:
            self._connection.close()
            self._connection = None

    # -- requests

    def request(self, kind: str, **changes: Any) -> Heartbeat:
        """A join, a beat (short; owned: with what it owns; full: with everything), a leave or away."""
        it = Heartbeat(self.group, self.id, {"join": JOIN, "leave": LEAVE, "away": AWAY}.get(kind, self.epoch))
        if kind in ("join", "full"):
            it = dataclasses.replace(it, instance=self.instance, timeout=self.timeout, names=list(self.names), assignor=self.assignor)
        if kind == "away":
            it = dataclasses.replace(it, instance=self.instance)
        if kind in ("join", "full", "owned"):
            it = dataclasses.replace(it, owned=NOTHING if kind == "join" else self.owned)
        it = dataclasses.replace(it, **changes)
        # Where names are given, clients say that there is no expression by an empty one.
        return dataclasses.replace(it, regex="") if it.names is not None and "regex" not in changes else it

    def any(self) -> Partition:
        """One of its partitions."""
        if not self.owned:
            raise NotRun(f"the assignor leaves {self.name} without partitions")
        return min(self.owned)

    def asks(self, ask: Callable[[], Any], code_of: Callable[[Any], int]) -> Any:
        """Asks, and asks again as a client does while the coordinator isn't ready, or isn't the one."""
        until, pause = time.monotonic() + self.play.broker.seconds, FIRST_PAUSE
        while True:
            found = ask()
            code = code_of(found)
            if code not in self.asks_again or time.monotonic() > until:
                return found
            self.play.story.say(f"{self.name} <- {code_text(code)}: it asks again")
            time.sleep(pause)
            pause = min(LAST_PAUSE, pause * 2)
            if code == NOT_COORDINATOR:
                self.reconnect()

    def ask(self, request: Heartbeat, lost: bool = False) -> Told:
        """Sends a request and gives its reply, which isn't taken yet."""
        version, sent = self.play.version, 0.0
        self.play.go_on()
        self.play.stands_on(ALONE)
        self.play.story.asked(self.name, request, lost)
        self.may_be_in = self.may_be_in or request.epoch == JOIN

        def ask() -> Told:
            nonlocal sent
            sent = time.monotonic()
            return read_heartbeat_reply(self.connection.ask(HEARTBEAT, version, request.fields(version)))

        try:
            reply: Told = self.asks(ask, lambda told: told.code)
        except Lost:
            self.reconnect()
            raise
        self.play.story.told(self.name, reply, lost)
        if reply.code == 0 and request.epoch == JOIN and reply.member:
            self.ids.add(reply.member)
        if request.owned is not None and reply.code == 0:
            self.has_news = False
        self.judge_time(request.group, request.member, reply.code)
        self.play.watch(request.group).exchange(self.name, request, reply, sent)
        return reply

    def judge_time(self, group: str, member: str, code: int) -> None:
        """If the link or this machine is too slow for the broker's session timeout, nothing can be said."""
        if code in JOIN_ANEW and not self.may_end and self.play.watch(group).may_be_over(member):
            raise NotRun(f"between two heartbeats of {self.name} its session may have ended")

    def take(self, reply: Told) -> Told:
        """Does what the reply says, but for the release of what isn't assigned any more."""
        if reply.code in (UNKNOWN_MEMBER_ID, FENCED_MEMBER_EPOCH):
            self.is_in, self.epoch, self.owned, self.assigned, self.has_news = False, 0, NOTHING, NOTHING, False
        if reply.code == 0:
            self.is_in, self.id, self.epoch = True, reply.member or self.id, reply.epoch
            if reply.assignment is not None:
                self.assigned = reply.assignment
                self.owns(self.owned | reply.assignment)
        return reply

    def owns(self, partitions: Partitions) -> None:
        self.has_news = self.has_news or partitions != self.owned
        self.owned = partitions

    def release(self) -> None:
        self.owns(self.owned & self.assigned)

    # -- what members do

    def tries_to_join(self, **changes: Any) -> Told:
        """A join, whatever comes of it."""
        self.owned = self.assigned = NOTHING
        return self.take(self.ask(self.request("join", **changes)))

    def join(self, **changes: Any) -> Told:
        self.play.stands_on(ALONE, *SHARED * self.play.has_others(self))
        reply = self.tries_to_join(**changes)
        self.play.want_taken(self, reply)
        if reply.code == FENCED_MEMBER_EPOCH:
            # (Nobody else is harmed: it is out until its session is over.)
            raise Failed(f"{self.name} may not join again while it is a member: {code_text(reply.code)}", is_minor=True)
        self.play.want_code(f"the join of {self.name}", reply.code, 0)
        self.play.want(bool(self.id), f"the join of {self.name} is answered without a member id")
        return reply

    def tries(self, kind: str = "short", **changes: Any) -> Told:
        """A beat, whatever comes of it."""
        return self.take(self.ask(self.request(kind, **changes)))

    def beat(self, kind: str = "short", **changes: Any) -> Told:
        reply = self.tries(kind, **changes)
        self.play.want_code(f"the heartbeat of {self.name}", reply.code, 0)
        return reply

    def turn(self, kind: str = "short") -> Told:
        """A beat as a client sends it: what it owns is reported where that has changed. What isn't assigned any more is released."""
        kind = "join" if self.epoch == NO_EPOCH_YET else "owned" if kind == "short" and self.has_news else kind
        reply = self.beat(kind)
        self.release()
        return reply

    def leave(self, kind: str = "leave", **changes: Any) -> Told:
        """Leaves for good, or, away, for a while."""
        reply = self.ask(self.request(kind, **changes))
        self.play.want_code(f"the leave of {self.name}", reply.code, 0)
        self.is_in, self.owned, self.assigned, self.has_news = False, NOTHING, NOTHING, False
        self.may_be_in = kind == "away"
        return reply

    def leave_quietly(self) -> None:
        """Whatever ids it may have in the group leave; nothing is judged."""
        version = self.play.version
        self.connection.seconds = min(self.connection.seconds, LEAVE_SECONDS)
        for member in {self.id, *self.ids} - {""}:
            self.connection.ask(HEARTBEAT, version, Heartbeat(self.group, member, LEAVE).fields(version))


def new_id() -> str:
    return str(uuid.uuid4())
