"""The broker that is played: two nodes that listen, and a thread each for what comes over a connection and for what is answered."""

from __future__ import annotations

import contextlib
import dataclasses
import queue
import socket
import struct
import threading
import time
from typing import Callable, Dict, List, Optional, Set, Tuple

from broker.records import Record as KafkaRecord
from broker.records import record_batch
from conformance.members.codec import APIS, KEYS, Request, Values, read_request, write_reply
from conformance.members.coordinator import Coordinator, refusal
from conformance.members.faults import BadFault, Fault, Faults
from conformance.members.record import COMMIT, HEARTBEAT, Frame, Record
from conformance.messages import Heartbeat, Told, Topic, by_topic
from conformance.wire import Unreadable

HOST, NODES = "127.0.0.1", 2
LARGEST = 1 << 20
NOT_COORDINATOR, NOT_AVAILABLE, UNKNOWN_TOPIC, UNKNOWN_ID, UNSUPPORTED = 16, 15, 3, 100, 35
OUT = (25, 110)
NOT_TOLD = -(1 << 31)
# Each partition has a record at every offset. A fetch is answered after so many seconds with so many of each.
PACE, RECORDS = 0.1, 2
END_OFFSET = 1_000
LATEST = -1


class Closed(Exception):
    """A connection that ends here."""


class Muted(Exception):
    """A connection over which nothing is answered any more."""


def heartbeat_of(values: Values) -> Heartbeat:
    owned = values["owned"]
    pairs = None if owned is None else frozenset((entry["topic"], index) for entry in owned for index in entry["indexes"])
    plain = {name: values.get(name) for name in ("group", "member", "epoch", "instance", "rack", "timeout", "names", "regex", "assignor")}
    return Heartbeat(**plain, owned=pairs)  # type: ignore[arg-type]


class Stage:
    """The broker of one case. `coordinator_at` is the node that coordinates, or None; `hidden` topics aren't in Metadata yet."""

    def __init__(self, coordinator: Coordinator, record: Record, faults: Faults, ports: Tuple[int, ...] = (0,) * NODES) -> None:
        self.coordinator, self.record, self.faults = coordinator, record, faults
        self.coordinator_at: Optional[int] = 0
        self.hidden: Set[str] = set()
        self.records = RECORDS
        # The versions of the heartbeat that are offered.
        self.versions = APIS[HEARTBEAT].lowest, APIS[HEARTBEAT].highest
        # What is changed in an assignment before it is sent.
        self.edit: Callable[[Told], Told] = lambda told: told
        self.lock = threading.Lock()
        self.connections: Dict[int, socket.socket] = {}
        self.count = 0
        self.is_open = True
        self.listeners = [socket.create_server((HOST, port), backlog=256) for port in ports]
        self.ports = [it.getsockname()[1] for it in self.listeners]
        for node, listener in enumerate(self.listeners):
            threading.Thread(target=self.accept, args=(node, listener), daemon=True).start()

    @property
    def address(self) -> str:
        return f"{HOST}:{self.ports[0]}"

    # -- connections

    def accept(self, node: int, listener: socket.socket) -> None:
        while self.is_open:
            try:
                connection, _ = listener.accept()
            except OSError:
                return
            with self.lock:
                self.count += 1
                number = self.count
                self.connections[number] = connection
            threading.Thread(target=self.read, args=(node, number, connection), daemon=True).start()

    def read(self, node: int, number: int, connection: socket.socket) -> None:
        """Notes each request when it comes, and puts it where its turn is waited for."""
        waiting: "queue.SimpleQueue[Optional[Frame]]" = queue.SimpleQueue()
        threading.Thread(target=self.answer_all, args=(connection, waiting), daemon=True).start()
        with contextlib.suppress(OSError, Closed), connection.makefile("rb") as stream:
            connection.setsockopt(socket.IPPROTO_TCP, socket.TCP_NODELAY, 1)
            while self.is_open and not self.record.floods():
                frame = Frame(0.0, number, node, self.next_request(stream))
                frame.at = time.monotonic()
                if frame.key == HEARTBEAT:
                    frame.beat = heartbeat_of(frame.request.values)
                self.record.add(frame)
                waiting.put(frame)
        with self.record.changed:
            self.record.closed.setdefault(number, time.monotonic())
            self.record.changed.notify_all()
        waiting.put(None)
        self.connections.pop(number, None)
        shut(connection)

    def next_request(self, stream: object) -> Request:
        head = stream.read(4)  # type: ignore[attr-defined]
        if len(head) < 4:
            raise Closed
        size = struct.unpack(">i", head)[0]
        body = stream.read(size) if 0 < size <= LARGEST else b""  # type: ignore[attr-defined]
        try:
            if not 0 < size <= LARGEST:
                raise Unreadable(f"a request begins with a size of {size}")
            if len(body) < size:
                raise Closed
            return read_request(body)
        except Unreadable as why:
            self.record.unreadable.append(f"{why}: {body[:64].hex()}")
            raise Closed from None

    def answer_all(self, connection: socket.socket, waiting: "queue.SimpleQueue[Optional[Frame]]") -> None:
        """In the order of the requests, as Kafka's broker does."""
        frame = waiting.get()
        while frame is not None:
            try:
                self.answer(connection, frame)
            except Muted:
                while waiting.get() is not None:
                    pass
                return
            except (Closed, OSError):
                shut(connection)
                return
            except Exception as why:  # pylint: disable=broad-except
                # (A request that nobody thought of.)
                self.record.broken = f"{type(why).__name__}: {why}"
                shut(connection)
                return
            frame = waiting.get()

    def answer(self, connection: socket.socket, frame: Frame) -> None:
        fault = self.faults.take(frame)
        frame.fault = fault.text if fault else ""
        act = fault.act if fault else ""
        if act == "cut":
            raise Closed
        values = self.values(frame, fault)
        if act == "lose":
            raise Muted
        if act == "close":
            raise Closed
        if act == "delay":
            time.sleep(float(fault.value if fault else 0))
        version = frame.request.version if frame.request.version <= frame.request.api.highest else 0
        body = write_reply(frame.request.api, version, frame.request.correlation, values)
        frame.sent = time.monotonic()
        connection.sendall(framed(body) * (2 if act == "repeat" else 1))
        self.record.note()

    def tick(self) -> str:
        """Ends the sessions that are over, and reads the faults again. Gives why they can't be read, once."""
        with self.lock:
            for group in self.coordinator.groups.values():
                group.tick(int(time.monotonic() * 1000))
            try:
                self.faults.reread()
            except (OSError, BadFault) as why:
                return str(why)
        return ""

    def end(self) -> None:
        self.is_open = False
        for listener in self.listeners:
            with contextlib.suppress(OSError):
                listener.shutdown(socket.SHUT_RDWR)
            listener.close()
        self.cut()

    def cut(self) -> None:
        """Closes all connections."""
        for connection in [*self.connections.values()]:
            shut(connection)

    # -- replies

    def values(self, frame: Frame, fault: Optional[Fault]) -> Values:
        """The fields of the reply. Fetches wait outside of the lock."""
        name, version = frame.request.api.name, frame.request.version
        if name == "Fetch":
            time.sleep(min(PACE, frame.request.values["wait"] / 1000))
        with self.lock:
            code = int(fault.value) if fault and fault.act == "refuse" else None
            if name == "ConsumerGroupHeartbeat":
                values = self.heartbeat(frame, code, fault)
            else:
                made = {
                    "ApiVersions": self.api_versions,
                    "Metadata": self.metadata,
                    "FindCoordinator": self.find_coordinator,
                    "OffsetCommit": self.commit,
                    "OffsetFetch": self.offset_fetch,
                    "ListOffsets": self.list_offsets,
                    "OffsetForLeaderEpoch": self.leader_epochs,
                    "Fetch": self.fetch,
                }
                if name not in made:
                    raise Closed
                values = made[name](frame.request.values, version, code)
                if frame.key == COMMIT and code is None and frame.node != self.coordinator_at:
                    values = self.commit(frame.request.values, version, NOT_COORDINATOR)
        return values

    def heartbeat(self, frame: Frame, code: Optional[int], fault: Optional[Fault]) -> Values:
        assert frame.beat is not None
        if code is None and frame.node != self.coordinator_at:
            code = NOT_COORDINATOR if self.coordinator_at is not None else NOT_AVAILABLE
        if code is not None:
            told = refusal(code)
            group = self.coordinator.groups.get(frame.beat.group)
            if code in OUT and group is not None and frame.beat.member in group.records:
                group.drop(frame.beat.member, self.coordinator.stamp())
        else:
            told = self.edit(self.coordinator.heartbeat(frame.beat, int(time.monotonic() * 1000)))
        if fault and fault.act in ("interval", "epoch", "member", "throttle"):
            told = dataclasses.replace(told, **{fault.act: fault.value})
        frame.told = told
        listed = None if told.assignment is None else [{"topic": it, "indexes": indexes} for it, indexes in by_topic(told.assignment).items()]
        return {
            **{name: getattr(told, name) for name in ("throttle", "code", "message", "member", "epoch", "interval")},
            "assignment": None if listed is None else {"topics": listed},
        }

    def api_versions(self, _: Values, version: int, __: Optional[int]) -> Values:
        offered = {api.key: (api.lowest, api.highest) for api in APIS.values()}
        offered[HEARTBEAT] = self.versions
        rows = [{"key": key, "lowest": lowest, "highest": highest} for key, (lowest, highest) in offered.items()]
        return {"code": UNSUPPORTED if version > APIS[KEYS["ApiVersions"]].highest else 0, "apis": rows}

    def metadata(self, asked: Values, _: int, __: Optional[int]) -> Values:
        names = {it.name: it for it in self.coordinator.topics if it.name not in self.hidden}
        ids = {it.id: it for it in names.values()}
        wanted = [{"name": name} for name in names] if asked["topics"] is None else asked["topics"]
        topics = []
        for each in wanted:
            found = names.get(each["name"]) if each.get("name") is not None else ids.get(each["id"])
            code = 0 if found else UNKNOWN_TOPIC if each.get("name") is not None else UNKNOWN_ID
            it = found or Topic(each.get("name") or "", each.get("id") or bytes(16), 0)
            leader = {"leader": 1, "replicas": [1], "isr": [1], "offline": []}
            parts = [{"index": index, **leader} for index in range(it.count)]
            topics.append({"code": code, "name": it.name, "id": it.id, "parts": parts, "operations": NOT_TOLD})
        brokers = [{"node": node + 1, "host": HOST, "port": port} for node, port in enumerate(self.ports)]
        return {"brokers": brokers, "cluster": "members", "controller": 1, "topics": topics, "operations": NOT_TOLD}

    def find_coordinator(self, _: Values, __: int, code: Optional[int]) -> Values:
        node = self.coordinator_at
        if code or node is None:
            return {"code": code or NOT_AVAILABLE, "node": -1, "host": "", "port": -1}
        return {"node": node + 1, "host": HOST, "port": self.ports[node]}

    def commit(self, asked: Values, _: int, code: Optional[int]) -> Values:
        names = ("index", "offset", "leader_epoch", "metadata")
        topics = [(it["name"], [tuple(part[name] for name in names) for part in it["parts"]]) for it in asked["topics"]]
        codes = (
            [(name, [(part[0], code) for part in parts]) for name, parts in topics]
            if code is not None
            else self.coordinator.commit(asked["group"], asked["member"], asked["epoch"], topics)
        )
        return {"topics": [{"name": name, "parts": [{"index": index, "code": each} for index, each in parts]} for name, parts in codes]}

    def offset_fetch(self, asked: Values, _: int, code: Optional[int]) -> Values:
        def part(group: str, name: str, index: int) -> Values:
            offset, leader, metadata = self.coordinator.offset(group, name, index)
            return {"index": index, "offset": offset, "leader_epoch": leader, "metadata": metadata or ""}

        def topics(it: Values) -> List[Values]:
            each = [(topic["name"], topic["indexes"]) for topic in it["topics"] or []]
            return [{"name": name, "parts": [part(it["group"], name, index) for index in indexes]} for name, indexes in each]

        return {"groups": [{"group": it["group"], "code": code or 0, "topics": topics(it)} for it in asked["groups"]]}

    @staticmethod
    def each_part(asked: Values, answer: Callable[[str, Values], Values]) -> Values:
        def parts(it: Values) -> List[Values]:
            return [{"index": part["index"], **answer(it["name"], part)} for part in it["parts"]]

        return {"topics": [{"name": it["name"], "parts": parts(it)} for it in asked["topics"]]}

    def list_offsets(self, asked: Values, _: int, __: Optional[int]) -> Values:
        return self.each_part(asked, lambda _, part: {"time": -1, "offset": END_OFFSET if part["time"] == LATEST else 0})

    def leader_epochs(self, asked: Values, _: int, __: Optional[int]) -> Values:
        return self.each_part(asked, lambda *_: {"end": END_OFFSET * END_OFFSET})

    def fetch(self, asked: Values, _: int, __: Optional[int]) -> Values:
        def answer(name: str, part: Values) -> Values:
            at, index = max(0, part["offset"]), part["index"]
            end = at + self.records
            records = b"" if at == end else record_batch(at, [KafkaRecord(0, None, f"{name}/{index}/{each}".encode()) for each in range(at, end)])
            return {"high": end, "stable": end, "preferred": -1, "records": records}

        return self.each_part(asked, answer)


def framed(body: bytes) -> bytes:
    return struct.pack(">i", len(body)) + body


def shut(connection: socket.socket) -> None:
    with contextlib.suppress(OSError):
        connection.shutdown(socket.SHUT_RDWR)
    connection.close()
