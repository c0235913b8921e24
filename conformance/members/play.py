"""What a case plays with: the broker, the coordinator and the client under test; what is waited for, and what has to hold."""

from __future__ import annotations

import dataclasses
import math
import re
import signal
import threading
import time
import uuid
from typing import Callable, FrozenSet, List, NoReturn, Optional, Pattern, Sequence, TypeVar

from conformance.members.coordinator import Coordinator, topic
from conformance.members.faults import Faults
from conformance.members.program import Program, filled, values_of
from conformance.members.record import COMMIT, FETCH, HEARTBEAT, Frame, Printed, Record, asked_of
from conformance.members.stage import Stage
from conformance.messages import Partitions
from conformance.play import Failed, NotRun
from conformance.story import Story

Found = TypeVar("Found")
ORDERS, BILLS = "orders", "bills"
INTERVAL_MS = 400
# How long a case may take, and a slow one.
LONGEST_SECONDS, LONGEST_SLOW = 60.0, 150.0
POLL_SECONDS, QUIT_SECONDS, HOLD_SECONDS = 0.05, 1.5, 0.6
# What is printed of a topic's partitions: its name, and then an index after not too much.
BETWEEN, MORE = r"\W{1,3}(?:partition\W{1,2})?", r"(\d+)(?!\w)"
MANY_RECORDS = 200
LAST_LINES = 12


@dataclasses.dataclass(frozen=True)
class Settings:
    """The client's command, what it prints, what it takes on its standard input, and how long is waited for what has to come."""

    command: Sequence[str]
    assigned: Optional[Pattern[str]] = None
    revoked: Optional[Pattern[str]] = None
    subscribe: Optional[str] = None
    unsubscribe: Optional[str] = None
    patience: float = 8.0
    # Until it joins.
    start: float = 20.0


class Stopped(Exception):
    """The run is interrupted: nothing goes on."""

    asked = threading.Event()


class Play:
    """One run of one case."""

    def __init__(self, name: str, settings: Settings, is_slow: bool = False) -> None:
        self.settings = settings
        self.ends_at = time.monotonic() + (LONGEST_SLOW if is_slow else LONGEST_SECONDS)
        self.group = f"{name}-{uuid.uuid4().hex[:8]}"
        self.instance = f"instance-{self.group}"
        self.coordinator = Coordinator([topic(ORDERS, 4), topic(BILLS, 2)], INTERVAL_MS)
        self.record, self.faults = Record(), Faults()
        self.stage = Stage(self.coordinator, self.record, self.faults)
        self.programs: List[Program] = []
        # When it was told to end, or ended.
        self.until_when: Optional[float] = None
        self.notes: List[str] = []
        self.marks: List[tuple] = []

    # -- the client

    @property
    def program(self) -> Optional[Program]:
        return self.programs[-1] if self.programs else None

    def start(self, subscribed: str = ORDERS, is_static: bool = False) -> None:
        """Starts the client; again if it has ended."""
        if is_static and not any("{instance}" in word for word in self.settings.command):
            raise NotRun("its command has no {instance}")
        values = values_of(self.stage.address, self.group, subscribed, "member", self.instance)
        self.until_when = None
        self.say(f"starts{' as ' + self.instance if is_static else ''}, to subscribe {subscribed}")
        self.programs.append(Program(filled(self.settings.command, values, is_static), self.takes_line))

    def takes_line(self, line: str) -> None:
        for is_assigned, form in ((True, self.settings.assigned), (False, self.settings.revoked)):
            found = form.search(line) if form else None
            if found:
                self.record.prints.append(Printed(time.monotonic(), is_assigned, self.named(line[found.start() :])))

    def named(self, text: str) -> Partitions:
        """The partitions that a text names, as `orders[0], orders [1]`, `orders-0` or `orders:0`."""
        found = set()
        for it in self.coordinator.topics:
            found |= {(it.id, int(index)) for index in re.findall(re.escape(it.name) + BETWEEN + MORE, text)}
        return frozenset(found)

    def settled(self, subscribed: str = ORDERS, is_static: bool = False) -> None:
        """The client has joined, is assigned all partitions, has reported them, and reads."""
        self.start(subscribed, is_static)
        self.settles()

    def settles(self) -> float:
        """Waits until what is the client's by the target is what it has reported, and is read. Gives the moment before."""
        since = time.monotonic()
        self.until("joins, and reports what it is assigned", self.is_settled, self.settings.start)
        self.reads(self.wanted(), since)
        return since

    def wanted(self) -> Partitions:
        """What is the client's by the target."""
        return frozenset(self.coordinator.of_client.wanted(self.coordinator.member))

    def is_settled(self) -> bool:
        member = self.coordinator.member
        if not member:
            return False
        record = self.coordinator.of_client.records.get(member)
        reports = [it.beat.owned for it in self.record.beats() if it.beat and it.beat.owned is not None and it.beat.member in (member, "")]
        return record is not None and record.epoch == self.coordinator.of_client.target_epoch and bool(reports) and reports[-1] == self.wanted()

    def reads(self, partitions: Partitions, since: float, seconds: Optional[float] = None) -> None:
        names = {(it.name, index) for it in self.coordinator.topics for index in range(it.count) if (it.id, index) in partitions}
        self.until(f"fetches {self.shown(partitions)}", lambda: names <= self.record.fetched(since), seconds)

    def quit(self, seconds: float = 10.0) -> None:
        """Tells the client to end: by the end of its input, and then by a signal. Waits for its end."""
        assert self.program is not None
        self.until_when = time.monotonic()
        self.say("is told to end")
        self.program.end_input()
        program, until = self.program, time.monotonic() + QUIT_SECONDS
        while program.status() is None and time.monotonic() < until and not self.leaves(self.until_when):
            time.sleep(POLL_SECONDS)
        if program.status() is None and not self.leaves(self.until_when):
            program.signal(signal.SIGTERM)
        self.until("ends", lambda: program.status() is not None, seconds, may_end=True)
        self.say(f"ended with status {program.status()}")

    def leaves(self, since: float) -> List[Frame]:
        return [it for it in self.record.beats(since) if it.beat and it.beat.epoch < 0]

    def hold(self) -> None:
        """The application waits from now on: what it prints isn't read."""
        assert self.program is not None
        self.stage.records = MANY_RECORDS
        self.say("what it prints isn't read from now on")
        self.record.unread.append([time.monotonic(), math.inf])
        self.program.hold()
        try:
            self.until("", self.program.is_held)
        except Failed:
            raise NotRun("it prints too little: nothing holds its application up") from None
        # (Until what it keeps to itself is full as well.)
        self.rest(HOLD_SECONDS)

    def hold_in_callback(self) -> None:
        """The application reads nothing any more, and waits when it prints next: if it is told of a rebalance, if it prints that."""
        assert self.program is not None
        self.stage.records = 0
        self.rest(0.5)
        self.say("the next line that it prints isn't read")
        self.record.unread.append([time.monotonic(), math.inf])
        self.program.hold()
        self.program.fill()

    def go_on(self) -> None:
        assert self.program is not None
        self.stage.records = 1
        self.say("what it prints is read again")
        self.record.unread[-1][1] = time.monotonic()
        self.program.go_on()

    def write(self, line: Optional[str], option: str, names: str = "") -> float:
        if line is None:
            raise NotRun(f"nothing says how its subscription is changed ({option})")
        assert self.program is not None
        self.program.write(line.replace("{topic}", names))
        self.say(f"is told to subscribe {names or 'nothing'}")
        return time.monotonic()

    # -- the coordinator

    def partitions(self, *indexes: int, of: str = ORDERS) -> Partitions:
        found = next(it for it in self.coordinator.topics if it.name == of)
        return frozenset((found.id, index) for index in indexes)

    def aim(self, *indexes: int) -> float:
        """A rebalance: these partitions of `orders` are the client's from now on. Gives the moment before."""
        since = time.monotonic()
        with self.stage.lock:
            self.coordinator.aim(self.partitions(*indexes))
        self.say(f"-- by a new target {self.shown(self.partitions(*indexes))} is the client's")
        return since

    def fault(self, *lines: str) -> float:
        since = time.monotonic()
        self.faults.add(*lines)
        return since

    def bring(self, line: str) -> Frame:
        """Brings a fault, and waits for the request to which it is done."""
        before = [it for it in self.record.frames[:] if it.fault]
        self.faults.add(line)
        what = f"sends what can be answered with `{line}`"
        return self.until(what, lambda: next((it for it in self.record.frames[:] if it.fault and it not in before), None))  # type: ignore

    def moves(self, node: Optional[int]) -> float:
        """Another node coordinates the group from now on, or none."""
        self.say(f"-- {'no node' if node is None else f'node {node + 1}'} coordinates the group")
        self.stage.coordinator_at = node
        return time.monotonic()

    # -- what is waited for

    def until(self, what: str, holds: Callable[[], Found], seconds: Optional[float] = None, may_end: bool = False) -> Found:
        """Waits until something holds, and gives it."""
        until = min(time.monotonic() + (seconds or self.settings.patience), self.ends_at)
        while True:
            found = holds()
            if found:
                return found
            self.look(may_end)
            if time.monotonic() > until:
                raise Failed(f"waited {seconds or self.settings.patience:g} s in vain that it {what}")
            with self.record.changed:
                self.record.changed.wait(POLL_SECONDS)

    def look(self, may_end: bool = False) -> None:
        """What ends a case, whatever it waits for."""
        if Stopped.asked.is_set():
            raise Stopped
        status = self.program.status() if self.program else 0
        if status is not None and not may_end:
            self.until_when = self.until_when or time.monotonic()
            raise Failed(f"the client ended with status {status}")
        if self.record.broken:
            raise Failed(f"the case broke off: {self.record.broken}")
        if self.record.floods():
            raise Failed("it floods the broker: " + ", ".join(f"{count} requests of {name}" for name, count in self.record.most_asked()))
        if time.monotonic() > self.ends_at:
            raise Failed("the case takes too long")

    def rest(self, seconds: float, may_end: bool = False) -> None:
        until = time.monotonic() + seconds
        while time.monotonic() < until:
            self.look(may_end)
            time.sleep(POLL_SECONDS)

    def intervals(self, count: float) -> float:
        return count * self.coordinator.interval / 1000

    def beat(self, what: str, since: float, holds: Callable[[Frame], object] = lambda _: True, seconds: Optional[float] = None) -> Frame:
        """The first heartbeat since a moment of which something holds."""
        return self.until(what, lambda: next((it for it in self.record.beats(since) if holds(it)), None), seconds)  # type: ignore[return-value]

    def join(self, since: float, seconds: Optional[float] = None) -> Frame:
        return self.beat("joins again", since, lambda it: it.beat.epoch == 0, seconds)  # type: ignore[union-attr]

    def hears(self, since: float) -> Frame:
        """The first reply since a moment that has an assignment."""
        told = lambda: next((it for it in self.record.beats() if (it.sent or 0) > since and it.told and it.told.assignment is not None), None)
        return self.until("beats, and is told of it", told)  # type: ignore[return-value]

    def report(self, partitions: Partitions, since: float, seconds: Optional[float] = None) -> Frame:
        what = f"reports {self.shown(partitions)}"
        return self.beat(what, since, lambda it: it.beat.owned == partitions and it.beat.epoch > 0, seconds)  # type: ignore[union-attr]

    def commit(self, since: float, seconds: Optional[float] = None) -> Frame:
        """The first commit since a moment; not run if the client commits nothing at all."""
        commits = lambda: [it for it in self.record.of(COMMIT, since) if it.sent and it.request.values["topics"]]
        try:
            return self.until("", commits, seconds)[0]
        except Failed:
            if any(it.request.values["topics"] for it in self.record.of(COMMIT)):
                raise Failed("it commits nothing any more") from None
            raise NotRun("it commits nothing") from None

    # -- what has to hold

    def want(self, holds: object, words: str, is_minor: bool = False) -> None:
        if not holds:
            raise Failed(words, is_minor)

    def fail(self, words: str) -> NoReturn:
        raise Failed(words)

    def want_full(self, frame: Frame, when: str) -> None:
        it = frame.beat
        assert it is not None
        owns = it.owned is not None or it.epoch == 0
        fields = (("a timeout", it.timeout != -1), ("what is subscribed", it.names or it.regex), ("what it owns", owns))
        missing = [name for name, is_there in fields if not is_there]
        self.want(not missing, f"{when} its heartbeat lacks {' and '.join(missing)}: it isn't full")

    def silent(self, seconds: float, since: float, may_end: bool = True, is_minor: bool = False) -> None:
        """Neither a heartbeat nor a fetch comes within so many seconds; the client may end."""
        self.rest(seconds, may_end)
        late = [it for it in self.record.frames[:] if it.at > since and (it.key == FETCH or it.beat is not None and it.beat.epoch >= 0)]
        names = sorted({it.request.api.name for it in late})
        self.want(not late, f"it goes on: {len(late)} requests of {' and '.join(names)}", is_minor)

    def note(self, words: str) -> None:
        self.say(f"-- {words}")
        self.notes.append(words)

    # -- words

    def shown(self, partitions: Partitions) -> str:
        return Story(self.coordinator.topics).partitions(partitions)

    def say(self, words: str) -> None:
        self.marks.append((time.monotonic(), words if words.startswith("--") else f"client {words}"))

    def story(self) -> List[str]:
        """All that was seen, as lines with their seconds."""
        story = Story(self.coordinator.topics)
        story.began = self.record.began
        rows = [(at, lambda words=words: story.say(words)) for at, words in self.marks]
        last: FrozenSet = frozenset({()})
        for frame in self.record.frames[:]:
            rows.append((frame.at, lambda frame=frame: self.tell_request(story, frame)))
            if frame.key == FETCH:
                asked, rows = frozenset(asked_of(frame)), rows[: -1 if frozenset(asked_of(frame)) == last else None]
                last = asked
            if frame.sent is not None and frame.told is not None:
                rows.append((frame.sent, lambda frame=frame: story.told("client", frame.told, False)))
        for it in self.record.prints:
            words = f"client prints that it {'is assigned' if it.is_assigned else 'gives up'} {self.shown(it.partitions)}"
            rows.append((it.at, lambda words=words: story.say(words)))
        for at, tell in sorted(rows, key=lambda row: row[0]):
            before = len(story.lines)
            tell()
            story.lines[before:] = [(at - self.record.began, line) for _, line in story.lines[before:]]
        return story.shown() + self.output()

    def tell_request(self, story: Story, frame: Frame) -> None:
        words = f" ({frame.fault})" if frame.fault else ""
        where = f"client (connection {frame.connection}, node {frame.node + 1})"
        if frame.key == HEARTBEAT and frame.beat is not None:
            story.asked(where, frame.beat, False)
        elif frame.key in (COMMIT, FETCH):
            known = {it.name: it.id for it in self.coordinator.topics}
            asked: Partitions = frozenset((known.get(name, b"?"), index) for name, index in asked_of(frame))
            epoch = f" at epoch {frame.request.values['epoch']}" if frame.key == COMMIT else ""
            story.say(f"{where} -> {'commits' if epoch else 'fetches'} {self.shown(asked)}{epoch}")
        else:
            story.say(f"{where} -> {frame.request.api.name}")
        if words and story.lines:
            at, line = story.lines[-1]
            story.lines[-1] = at, line + words

    def output(self) -> List[str]:
        """The end of what the client printed, without what it read."""
        lines = self.program.text().splitlines() if self.program else []
        return ["what it printed at the end:", *(f"  {line[:200]}" for line in lines[-LAST_LINES:])] if lines else ["it printed nothing"]

    def close(self) -> None:
        if self.until_when is None:
            self.until_when = time.monotonic()
        for program in self.programs:
            program.end()
        self.stage.end()

