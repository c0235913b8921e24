"""A small consumer: the client machine of the rules (`conformance/rules/client.py`) over sockets, for the suite to be tried with.

usage: python3 -m conformance.members.consumer HOST:PORT GROUP TOPIC [INSTANCE]

A TOPIC that begins with ^ is a regular expression; with commas there are several. It prints what it is assigned, reads and gives up, commits
twice a second, and closes with its standard input. Lines there: `subscribe TOPIC`, `unsubscribe`.
"""

from __future__ import annotations

import contextlib
import queue
import re
import select
import socket
import struct
import sys
import threading
import time
import uuid
from typing import Callable, Dict, Iterable, List, Optional, Set, Tuple

from conformance.members.codec import APIS, KEYS, Values, read_reply, write_request
from conformance.messages import Partition, by_topic
from conformance.rules.client import FENCED, GONE, INSIDE, OUTSIDE, Client
from conformance.rules.ending import without_traceback

CLIENT = "consumer"
TIMEOUT, PAUSE, COMMIT_SECONDS = 1.5, 0.3, 0.5
# A member whose application doesn't poll for so long leaves its group.
MAX_POLL_SECONDS = 5.0
REBALANCE_MS = 5_000
VERSIONS = {"ApiVersions": 3, "Metadata": 12, "FindCoordinator": 2, "ConsumerGroupHeartbeat": 1, "OffsetCommit": 9, "OffsetFetch": 9, "Fetch": 11}
STALE, UNKNOWN_MEMBER = 113, 25
ELSEWHERE = (15, 16)


class Lost(Exception):
    """No reply came."""


class Link:
    """A connection: requests of several threads, and each one's reply by its correlation id."""

    def __init__(self, address: Tuple[str, int]) -> None:
        try:
            self.socket = socket.create_connection(address, TIMEOUT)
        except OSError as why:
            raise Lost(str(why)) from None
        self.socket.settimeout(None)
        self.lock, self.correlation = threading.Lock(), 0
        self.waiting: Dict[int, "queue.SimpleQueue[bytes]"] = {}
        self.is_open = True
        threading.Thread(target=self.read, daemon=True).start()

    def read(self) -> None:
        with contextlib.suppress(OSError), self.socket.makefile("rb") as stream:
            head = stream.read(4)
            while len(head) == 4:
                body = stream.read(struct.unpack(">i", head)[0])
                waiting = self.waiting.pop(struct.unpack(">i", body[:4])[0], None)
                if waiting is not None:
                    waiting.put(body)
                head = stream.read(4)
        self.is_open = False
        for each in [*self.waiting.values()]:
            each.put(b"")

    def ask(self, name: str, values: Values) -> Values:
        key, version = KEYS[name], VERSIONS[name]
        with self.lock:
            self.correlation += 1
            number, mine = self.correlation, queue.SimpleQueue()  # type: ignore[var-annotated]
            self.waiting[number] = mine
            body = write_request(key, version, number, CLIENT, values)
            try:
                self.socket.sendall(struct.pack(">i", len(body)) + body)
            except OSError:
                self.is_open = False
                raise Lost("closed") from None
        try:
            reply = mine.get(timeout=TIMEOUT) if self.is_open or not mine.empty() else b""
        except queue.Empty:
            reply = b""
        if not reply:
            self.close()
            raise Lost(f"no reply to {name}")
        return read_reply(APIS[key], version, reply)[1]

    def close(self) -> None:
        self.is_open = False
        with contextlib.suppress(OSError):
            self.socket.shutdown(socket.SHUT_RDWR)


class Consumer:
    def __init__(self, bootstrap: str, group: str, topic: str, instance: Optional[str]) -> None:
        host, _, port = bootstrap.rpartition(":")
        self.bootstrap, self.group, self.topic, self.instance = (host, int(port)), group, topic, instance
        self.lock = threading.RLock()
        self.machine = self.new_machine(str(uuid.uuid4()))
        self.coordinator: Optional[Link] = None
        self.broker: Optional[Link] = None
        # What the heartbeats have to say at once; when the next one is due; and the interval.
        self.news, self.due, self.interval = threading.Event(), 0.0, 0.0
        self.names: Dict[bytes, str] = {}
        # Where it reads, what it printed as assigned, and what isn't committed yet.
        self.positions: Dict[Partition, int] = {}
        self.printed: Set[Partition] = set()
        self.dirty: Set[Partition] = set()
        self.polled, self.is_closing, self.wants_group = time.monotonic(), False, True
        self.says_names, self.is_fatal = False, False
        # What the heartbeats' thread has to print. (The application may wait for its reader.)
        self.later: "queue.SimpleQueue[Tuple[object, ...]]" = queue.SimpleQueue()

    def new_machine(self, member: str) -> Client:
        names = [] if self.topic.startswith("^") else self.topic.split(",")
        machine = Client(CLIENT, self.group, self.instance, None, REBALANCE_MS, names)
        machine.id = member
        return machine

    @staticmethod
    def say(*words: object) -> None:
        print(*words, flush=True)

    def text(self, partitions: Set[Partition]) -> str:
        return " ".join(f"{self.names.get(topic, topic.hex())}[{index}]" for topic, index in sorted(partitions)) or "nothing"

    # -- connections

    def ask_broker(self, name: str, values: Values) -> Values:
        if self.broker is None or not self.broker.is_open:
            self.broker = Link(self.bootstrap)
        return self.broker.ask(name, values)

    def ask_coordinator(self, name: str, values: Values) -> Values:
        link = self.coordinator
        if link is None or not link.is_open:
            with self.lock:
                found = self.ask_broker("FindCoordinator", {"key": self.group})
                if found["code"]:
                    raise Lost("no coordinator")
                link = self.coordinator = Link((found["host"], found["port"]))
        return link.ask(name, values)

    def forget_coordinator(self) -> None:
        if self.coordinator is not None:
            self.coordinator.close()
        self.coordinator = None

    # -- heartbeats, in a thread of their own

    def beats(self) -> None:
        while not self.is_closing:
            self.news.wait(max(0.0, min(0.05, self.due - time.monotonic())))
            with self.lock:
                is_due = time.monotonic() >= self.due or self.news.is_set()
                if self.machine.place == INSIDE and time.monotonic() > self.polled + MAX_POLL_SECONDS:
                    self.leaves("away too long")
                elif is_due and self.wants_group and self.machine.place != GONE:
                    self.beat()

    def kind(self) -> str:
        if self.machine.place == OUTSIDE:
            return "join"
        return "full" if self.says_names else "owned" if self.news.is_set() else "short"

    def beat(self) -> None:
        kind = self.kind()
        asked = self.machine.heartbeat(kind)
        self.news.clear()
        self.machine.has_asked(kind)
        number = self.machine.number
        values = {name: getattr(asked, name) for name in ("group", "member", "epoch", "instance", "rack", "timeout", "assignor", "names")}
        is_full = asked.names is not None
        if is_full:
            values.update(names=None if self.topic.startswith("^") else asked.names, regex=self.topic if self.topic.startswith("^") else "")
        owned = None if asked.owned is None else [{"topic": it, "indexes": some} for it, some in by_topic(frozenset(asked.owned)).items()]
        try:
            told = self.unlocked("ConsumerGroupHeartbeat", {**values, "owned": owned})
        except Lost:
            self.machine.give_up()
            self.forget_coordinator()
            self.due = time.monotonic() + PAUSE
            return
        self.says_names = self.says_names and kind != "full"
        self.take(number, told)

    def unlocked(self, name: str, values: Values) -> Values:
        """Asks the coordinator; the application goes on meanwhile."""
        self.lock.release()
        try:
            return self.ask_coordinator(name, values)
        finally:
            self.lock.acquire()

    def take(self, number: int, told: Values) -> None:
        assignment = told["assignment"]
        shown = None if assignment is None else {(it["topic"], index) for it in assignment["topics"] for index in it["indexes"]}
        code, before = told["code"], self.state()
        self.machine.take(number, code, told["member"], told["epoch"], shown)
        self.interval = told["interval"] / 1000 if code == 0 else self.interval
        self.due = time.monotonic() + (max(self.interval, PAUSE) if code == 0 else PAUSE)
        if code == 0 and self.state() != before:
            self.news.set()
        if code in ELSEWHERE:
            self.forget_coordinator()
        if self.machine.place == GONE:
            self.is_fatal = True
            self.later.put(("FATAL", code))
        if code in FENCED:
            self.due = time.monotonic()

    def state(self) -> Tuple[int, Set[Partition], Set[Partition]]:
        return self.machine.epoch, set(self.machine.own), set(self.machine.shown)

    def leaves(self, why: str) -> None:
        self.later.put(("LEAVES", why))
        kind = "leave" if self.instance is None or self.is_closing is False else "away"
        asked = self.machine.heartbeat(kind)
        self.machine.has_asked(kind)
        values = {"group": asked.group, "member": asked.member, "epoch": asked.epoch, "instance": asked.instance, "timeout": -1}
        with contextlib.suppress(Lost):
            self.unlocked("ConsumerGroupHeartbeat", values)

    # -- the application

    def rejoins(self) -> None:
        """A member that left since it didn't poll, or that subscribes again, joins again under its id."""
        self.machine = self.new_machine(self.machine.id)
        self.due = time.monotonic()

    def reconciles(self) -> None:
        """Prints what is assigned, and gives up what isn't any more, after a commit."""
        with self.lock:
            lost = self.printed - self.machine.own
            revoked = set(self.machine.own - self.machine.shown) if self.machine.may_release() else set()
        if lost:
            self.gives_up("LOST", lost)
        if revoked:
            self.commit()
            self.gives_up("REVOKED", revoked)
            with self.lock:
                for each in revoked:
                    self.machine.release(each)
            self.news.set()
        with self.lock:
            new = (self.machine.own & self.machine.shown) - self.printed
        known = {each for each in new if self.known(each[0])}
        if known:
            self.say("ASSIGNED", self.text(known))
            self.printed |= known
            self.begins(known)

    def known(self, topic: bytes) -> bool:
        """Whether Metadata has a topic's name."""
        if topic not in self.names:
            found = self.ask_broker("Metadata", {"topics": [{"id": topic}], "topic_operations": 0})["topics"]
            self.names.update({it["id"]: it["name"] for it in found if it["code"] == 0})
        return topic in self.names

    def gives_up(self, word: str, partitions: Set[Partition]) -> None:
        self.say(word, self.text(partitions & self.printed))
        self.printed -= partitions
        self.dirty -= partitions
        for each in partitions:
            self.positions.pop(each, None)

    def begins(self, partitions: Set[Partition]) -> None:
        """Asks where to read on."""
        topics = [{"name": self.names[it], "indexes": some} for it, some in by_topic(frozenset(partitions)).items()]
        of = {"group": self.group, "member": self.machine.id, "epoch": self.machine.epoch, "topics": topics}
        try:
            found = self.ask_coordinator("OffsetFetch", {"groups": [of], "stable": 0})["groups"][0]["topics"]
        except Lost:
            found = []
        offsets = {(it["name"], part["index"]): part["offset"] for it in found for part in it["parts"]}
        self.positions.update({each: max(0, offsets.get((self.names[each[0]], each[1]), 0)) for each in partitions})

    def topics(self, partitions: Iterable[Partition], part: Callable[[Partition], Values]) -> List[Values]:
        """The fields of partitions, by topic."""
        topics = by_topic(frozenset(partitions)).items()
        return [{"name": self.names[it], "parts": [{"index": index, **part((it, index))} for index in some]} for it, some in topics]

    def reads(self) -> None:
        with self.lock:
            mine = {each: at for each, at in self.positions.items() if each in self.machine.own and each in self.machine.shown}
        if not mine:
            time.sleep(0.05)
            return
        topics = self.topics(mine, lambda each: {"current": -1, "offset": mine[each], "start": -1, "most": 1 << 20})
        asked = {"replica": -1, "wait": 500, "least": 1, "most": 1 << 20, "session_epoch": -1, "topics": topics, "forgotten": [], "rack": ""}
        for it in self.ask_broker("Fetch", asked)["topics"]:
            for part in it["parts"]:
                self.takes_records(it["name"], part)

    def takes_records(self, name: str, part: Values) -> None:
        key = next((each for each in self.positions if self.names[each[0]] == name and each[1] == part["index"]), None)
        with self.lock:
            is_mine = key is not None and key in self.machine.own
        if key is None or not is_mine or not part["records"]:
            return
        base, count = struct.unpack(">q", part["records"][:8])[0], struct.unpack(">i", part["records"][57:61])[0]
        for offset in range(base, base + count):
            self.say("RECORD", name, part["index"], offset)
        self.positions[key] = base + count
        self.dirty.add(key)

    def commit(self) -> None:
        """What was read of what is owned. After a refusal for the epoch it is committed again at the next turn."""
        with self.lock:
            if self.machine.place != INSIDE:
                return
            dirty = {each for each in self.dirty if each in self.machine.own and each in self.positions}
            of = {"group": self.group, "member": self.machine.id, "epoch": self.machine.epoch, "instance": self.instance}
        if not dirty:
            return
        topics = self.topics(dirty, lambda each: {"offset": self.positions[each], "leader_epoch": -1, "metadata": ""})
        try:
            told = self.ask_coordinator("OffsetCommit", {**of, "topics": topics})["topics"]
        except Lost:
            return
        codes = {part["code"] for it in told for part in it["parts"]}
        if codes == {0}:
            self.dirty -= dirty
        if codes & {*ELSEWHERE}:
            self.forget_coordinator()
        if UNKNOWN_MEMBER in codes:
            self.dirty -= dirty

    # -- its life

    def does(self, line: str) -> None:
        verb, _, what = line.partition(" ")
        with self.lock:
            if verb == "unsubscribe" and self.machine.place == INSIDE:
                self.wants_group = False
                self.leaves("unsubscribes")
            elif verb == "subscribe":
                was_in, self.wants_group, self.topic = self.wants_group, True, what
                self.machine.names = what.split(",")
                self.says_names = was_in
                if not was_in:
                    self.rejoins()
                self.news.set()

    def listens(self) -> bool:
        """Does what its input says; false at its end."""
        while select.select([sys.stdin], [], [], 0)[0]:
            line = sys.stdin.readline()
            if not line:
                return False
            self.does(line.strip())
        return True

    def wants_version(self) -> None:
        """Ends if the broker doesn't offer the version of the heartbeat that is spoken here."""
        key, version = KEYS["ConsumerGroupHeartbeat"], VERSIONS["ConsumerGroupHeartbeat"]
        offered = None
        while offered is None:
            with contextlib.suppress(Lost):
                offered = self.ask_broker("ApiVersions", {"client": CLIENT, "release": "1"})["apis"]
        if not any(it["key"] == key and it["lowest"] <= version <= it["highest"] for it in offered):
            sys.exit(f"the broker doesn't offer version {version} of the heartbeat")

    def run(self) -> None:
        self.wants_version()
        threading.Thread(target=self.beats, daemon=True).start()
        due = 0.0
        while self.listens():
            self.polled = time.monotonic()
            while not self.later.empty():
                self.say(*self.later.get())
            with self.lock:
                if self.machine.place == GONE and self.wants_group and not self.is_fatal:
                    self.rejoins()
            try:
                self.reconciles()
                if time.monotonic() >= due:
                    self.commit()
                    due = time.monotonic() + COMMIT_SECONDS
                self.reads()
            except Lost:
                time.sleep(PAUSE)
        self.closes()

    def closes(self) -> None:
        with contextlib.suppress(Lost):
            self.commit()
        self.is_closing = True
        with self.lock:
            if self.machine.place == INSIDE and self.wants_group:
                if self.machine.waits:
                    self.machine.give_up()
                self.leaves("closes")
        self.say("CLOSED")


def main(words: List[str]) -> int:
    if len(words) not in (3, 4) or not re.fullmatch(r".+:\d+", words[0]):
        print(__doc__, file=sys.stderr)
        return 2
    Consumer(words[0], words[1], words[2], words[3] if len(words) == 4 else None).run()
    return 0


if __name__ == "__main__":
    without_traceback("consumer")
    sys.exit(main(sys.argv[1:]))
