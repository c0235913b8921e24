"""Sees the heartbeats and commits that pass, says what they change, and counts them."""

from __future__ import annotations

import asyncio
import collections
import time
from typing import Callable, Deque, Dict, Iterable, List, Optional, Tuple

from broker import codes, commits, heartbeats
from broker.groups import Change, Groups
from broker.metrics import Counter, Histogram, Labels
from broker.partitions import Partitions
from broker.topics import Topics
from broker.words import in_words, plain, short_id

MOST_LINES = 50
ANSWER_BOUNDS = (0.0001, 0.00025, 0.0005, 0.001, 0.0025, 0.005, 0.01, 0.05, 0.1, 0.5, 1, 5)
CONVERGE_BOUNDS = (0.5, 1, 2, 3, 5, 7.5, 10, 15, 30, 60, 120)
EXPIRY_SECONDS = 0.5


class Watch:
    """What passes is told by whoever answers it; or, if there is a log of it, by all who apply that. Then lines and counts are of what
    was answered here (`is_here`), and a member is removed when the log has it so."""

    def __init__(
        self, topics: Topics, say: Callable[[str], None], clock: Callable[[], float] = time.monotonic, has_log: bool = False
    ) -> None:
        self.groups = Groups(topics)
        self._say, self.clock, self._has_log = say, clock, has_log
        # The last lines that were said, each with its moment, and how much has been seen since the beginning.
        self.lines: Deque[Tuple[float, str]] = collections.deque(maxlen=MOST_LINES)
        self.revision = 0
        self.heartbeats = Counter("broker_heartbeats_total", "Heartbeats that were answered, by error code.")
        self.commits = Counter("broker_committed_partitions_total", "Partitions in commits that were answered, by error code.")
        self.seconds = Histogram("broker_answer_seconds", "From a request's last byte to its answer, by API.", ANSWER_BOUNDS)
        self.rebalances = Histogram(
            "broker_rebalance_seconds", "From a group's first change until all members have what they are assigned.", CONVERGE_BOUNDS
        )

    # ---- what passes

    def heartbeat(self, client: Optional[str], asked: heartbeats.Asked, told: heartbeats.Told, is_here: bool = True) -> None:
        if is_here:
            self.heartbeats.add(_labels(told.code))
        change = self.groups.heartbeat(client, asked, told, self.clock())
        if change is not None:
            self._changed(change, is_here)

    def has_heard(self, steady: heartbeats.Steady, is_here: bool = True) -> bool:
        """Takes a heartbeat that changes nothing, if that is so by what is known."""
        if not self.groups.has_heard(steady, self.clock()):
            return False
        if is_here:
            self.heartbeats.add(_labels(codes.NONE))
        return True

    def commit(self, asked: commits.Asked, results: List[commits.Result], is_here: bool = True) -> None:
        self.revision += 1
        if not is_here:
            return
        for code, count in sorted(collections.Counter(result.code for result in results).items()):
            self.commits.add(_labels(code), count)
            if code != codes.NONE:
                phrases = [f"{codes.name(code)}: its commit of {in_words(_of_code(results, code))}"]
                if code == codes.STALE_MEMBER_EPOCH:
                    phrases += self.groups.other_epoch(asked.group, asked.member, asked.epoch)
                self._changed(Change(asked.group, asked.member, asked.epoch, phrases))

    def answered(self, api: str, seconds: float) -> None:
        self.seconds.observe(seconds, (("api", api),))

    def removed(self, is_over: Callable[[str, str], bool], is_here: bool) -> None:
        """The coordinator has removed members: those of a group and an id of which this says so."""
        phrase = "is removed, since its session or its rebalance timeout is over"
        for change in self.groups.remove(lambda group, member: is_over(group.name, member.id), phrase, self.clock()):
            self._changed(change, is_here)

    async def run(self) -> None:
        """Takes out the members whose sessions are over, for ever."""
        while True:
            await asyncio.sleep(EXPIRY_SECONDS)
            self.expire()

    def expire(self) -> None:
        now = self.clock()
        for change in self.groups.waiting(now) + ([] if self._has_log else self.groups.expire(now)):
            self._changed(change)

    # ---- what is told of it

    def _changed(self, change: Change, is_here: bool = True) -> None:
        if not is_here:
            self.revision += 1
            return
        self.tell(f"{plain(change.group)}  {short_id(change.member) or '-'}  epoch {change.epoch}  {'; '.join(change.phrases)}")
        if change.converged is not None:
            self.rebalances.observe(change.converged)
            if change.converged > 0:
                self.tell(f"{plain(change.group)}  settled after {change.converged:.1f} s")

    def tell(self, line: str) -> None:
        self.revision += 1
        self.lines.append((self.clock(), line))
        self._say(line)

    def metrics(self) -> Iterable[str]:
        yield from self.heartbeats.lines()
        yield from self.commits.lines()
        yield from self.seconds.lines()
        yield from self.rebalances.lines()


def _of_code(results: List[commits.Result], code: int) -> Partitions:
    topics: Dict[str, List[int]] = {}
    for result in results:
        if result.code == code:
            topics.setdefault(result.topic, []).append(result.partition)
    return Partitions({topic: frozenset(indexes) for topic, indexes in topics.items()})


def _labels(code: int) -> Labels:
    return ("code", str(code)), ("error", codes.name(code))
