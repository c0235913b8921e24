"""Who may read which partition, as the heartbeats and commits alone tell it."""

import collections
import functools
import uuid
from typing import Counter, Dict, Iterable, List, Sequence, Set, Tuple

from broker.trials.log import Exchange, Partition

# The protocol's session time, and how much a moment at the relay may be off, in seconds.
SESSION = 45.0
SLACK = 0.1
# The codes after which a member has nothing.
FENCED = (25, 110)

Member = Tuple[str, str]


class Holds:
    """A member holds a partition from the reply that shows it until its request that reports without it, a leave, the end of its
    session, or the end of the time in which it was to give up."""

    def __init__(self, topics: Dict[str, str]) -> None:
        self.names = {uuid.UUID(of).bytes: name for name, of in topics.items()}
        self.held: Dict[str, Dict[Partition, str]] = collections.defaultdict(dict)
        self.heard: Dict[Member, float] = {}
        self.timeouts: Dict[Member, float] = {}
        # When a member was first told that it loses a partition which it has.
        self.losing: Dict[Tuple[str, str, Partition], float] = {}
        self.faults: List[str] = []
        self.heartbeat_codes: Counter = collections.Counter()
        self.commit_codes: Counter = collections.Counter()

    def walk(self, exchanges: Iterable[Exchange], restarts: Sequence[float]) -> "Holds":
        """Goes through requests and replies in their order. At a restart the coordinator has lost its groups."""
        steps = [(moment, 0, self.held.clear) for moment in restarts]
        for it in exchanges:
            if not it.is_commit and not it.closes:
                steps.append((it.sent, 1, functools.partial(self.take_request, it)))
            if it.is_commit or it.is_answered():
                steps.append((it.answered, 2, functools.partial(self.take_commit if it.is_commit else self.take_reply, it)))
        for _moment, _order, take in sorted(steps, key=lambda step: step[:2]):
            take()
        return self

    def take_request(self, it: Exchange) -> None:
        if it.asked.owned is not None or it.asked.epoch <= 0:
            self.let_go(it.asked.group, it.asked.member, (it.asked.epoch >= 0 and it.asked.owned) or set())

    def let_go(self, group: str, member: str, kept: Set[Partition]) -> None:
        for partition in [p for p, m in self.held[group].items() if m == member and p not in kept]:
            del self.held[group][partition]
            self.losing.pop((group, member, partition), None)

    def take_reply(self, it: Exchange) -> None:
        group, member = it.asked.group, it.member()
        self.heartbeat_codes[it.told.code] += 1
        if it.told.code in FENCED:
            self.let_go(group, member, set())
        if it.told.code:
            return
        self.heard[group, member] = it.answered
        if it.asked.timeout >= 0:
            self.timeouts[group, member] = it.asked.timeout / 1000
        if it.told.assignment is not None:
            self.grant(group, member, it.told.assignment, it.answered)

    def grant(self, group: str, member: str, assignment: Set[Partition], moment: float) -> None:
        for partition in assignment:
            other = self.held[group].get(partition, member)
            if other != member and not self.may_be_out(group, other, moment):
                self.faults.append(f"{self.text(partition)} of {group} is granted to {member} while {other} holds it")
            self.held[group][partition] = member
        for partition in [p for p, m in self.held[group].items() if m == member]:
            if partition in assignment:
                self.losing.pop((group, member, partition), None)
            else:
                self.losing.setdefault((group, member, partition), moment)

    def may_be_out(self, group: str, member: str, moment: float) -> bool:
        """The coordinator may have removed the member: its session, or its time to give up, is over."""
        if moment + SLACK >= self.heard.get((group, member), 0.0) + SESSION:
            return True
        limit = self.timeouts[group, member]
        return any(key[:2] == (group, member) and moment + SLACK >= since + limit for key, since in self.losing.items())

    def take_commit(self, it: Exchange) -> None:
        """A partition's commit is taken only of who holds it."""
        self.commit_codes.update(it.codes)
        parts = [(name, part[0]) for name, parts in it.asked.topics for part in parts]
        holders = {(self.names.get(p[0]), p[1]): m for p, m in self.held[it.asked.group].items()}
        for part, code in zip(parts, it.codes):
            if code == 0 and holders.get(part) != it.asked.member:
                self.faults.append(f"a commit of {it.asked.member} to {part[0]}:{part[1]} is taken, and {holders.get(part)} holds it")

    def text(self, partition: Partition) -> str:
        return f"{self.names.get(partition[0], partition[0].hex())}:{partition[1]}"
