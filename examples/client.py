#!/usr/bin/env python3
"""Takes two members of a consumer group through a rebalance, over sockets.

usage: client.py HOST:PORT [TOPIC]

The coordinator at HOST:PORT has to know TOPIC, which is `t` where none is given. The first member joins alone and holds
every partition. The second joins. The first is told what to give up, commits its offset there, gives it up and reports
what it still owns; the second is granted it. Each commits an offset for each partition that it holds, and leaves. After
each step a line says what both hold. The group is a new one at each run, so the output is the same each time.

A consumer would wait for the reply's heartbeat interval between two heartbeats, and read records meanwhile. This one
does neither, and it learns the topic's id from its assignment, since it asks for no metadata.

The status is 0 if all went well, 1 if it didn't, with one line on standard error, and 2 after a bad command line.
Messages are encoded from the Kafka protocol guide, KIP-482 and KIP-848 alone; nothing of this project is used.
"""

import socket
import struct
import sys
import uuid

# How long the coordinator may take to answer, and how many rounds of heartbeats a rebalance may take.
SECONDS = 10
ROUNDS = 10
LONGEST_REPLY = 1 << 20
REBALANCE_TIMEOUT_MS = 60_000
# The member epochs of KIP-848 that aren't counted.
JOINS, LEAVES = 0, -1
HEARTBEAT, COMMIT = (68, 0), (8, 9)
ERRORS = {
    3: "UNKNOWN_TOPIC_OR_PARTITION",
    12: "OFFSET_METADATA_TOO_LARGE",
    14: "COORDINATOR_LOAD_IN_PROGRESS",
    15: "COORDINATOR_NOT_AVAILABLE",
    16: "NOT_COORDINATOR",
    25: "UNKNOWN_MEMBER_ID",
    42: "INVALID_REQUEST",
    69: "GROUP_ID_NOT_FOUND",
    81: "GROUP_MAX_SIZE_REACHED",
    110: "FENCED_MEMBER_EPOCH",
    111: "UNRELEASED_INSTANCE_ID",
    112: "UNSUPPORTED_ASSIGNOR",
    113: "STALE_MEMBER_EPOCH",
}


class Fault(Exception):
    """Why the run ends before its time, in one line."""


# ---- writing


def varint(number):
    """Unsigned: seven bits a byte, the lowest first."""
    out = b""
    while number > 127:
        out += bytes([number & 127 | 128])
        number >>= 7
    return out + bytes([number])


NO_TAGS = varint(0)
NULL = varint(0)


def text(value):
    """A compact string, or a null one."""
    return NULL if value is None else varint(len(value.encode()) + 1) + value.encode()


def array(items):
    """A compact array of encoded items, or a null one."""
    return NULL if items is None else varint(len(items) + 1) + b"".join(items)


def topic_partitions(partitions):
    """The entries of TopicPartitions: each topic's id with its indexes."""
    if partitions is None:
        return NULL
    topics = sorted({topic for topic, _ in partitions})
    indexes = [[struct.pack(">i", index) for at, index in sorted(partitions) if at == topic] for topic in topics]
    return array([topic + array(of_topic) + NO_TAGS for topic, of_topic in zip(topics, indexes)])


# ---- reading


class Reader:
    """The bytes of a reply, from the front."""

    def __init__(self, data):
        self.data, self.at = data, 0

    def take(self, count):
        if count > len(self.data) - self.at:
            raise Fault("a reply ends inside a field")
        self.at += count
        return self.data[self.at - count : self.at]

    def number(self, form):
        return struct.unpack(form, self.take(struct.calcsize(form)))[0]

    def varint(self):
        value = shift = 0
        while True:
            byte = self.take(1)[0]
            value |= (byte & 127) << shift
            shift += 7
            if byte < 128:
                return value

    def text(self):
        """A compact string, or None."""
        length = self.varint()
        try:
            return None if length == 0 else self.take(length - 1).decode()
        except UnicodeDecodeError:
            raise Fault("a reply has a text that isn't UTF-8") from None

    def array(self, item):
        return [item() for _ in range(self.varint() - 1)]

    def tags(self):
        """Tagged fields, which are passed over."""
        for _ in range(self.varint()):
            self.varint()
            self.take(self.varint())

    def end(self):
        if self.at != len(self.data):
            raise Fault("a reply has bytes after its last field")


# ---- a connection


class Connection:
    """It asks one thing at a time, and waits for the answer."""

    def __init__(self, address):
        try:
            self.socket = socket.create_connection(address, SECONDS)
        except OSError as why:
            raise Fault(f"no connection to {address[0]}:{address[1]}: {why}") from None
        self.socket.setsockopt(socket.IPPROTO_TCP, socket.TCP_NODELAY, 1)
        self.correlation = 0

    def ask(self, api, fields):
        """Sends a request of an API and a version, and gives the fields of its reply."""
        self.correlation += 1
        client = b"example"
        header = struct.pack(">hhih", *api, self.correlation, len(client)) + client + NO_TAGS
        try:
            self.socket.sendall(struct.pack(">i", len(header + fields)) + header + fields)
            reply = Reader(self.read(self.size()))
        except socket.timeout:
            raise Fault(f"no answer came within {SECONDS} s") from None
        except OSError as why:
            raise Fault(f"the connection broke: {why}") from None
        if reply.number(">i") != self.correlation:
            raise Fault("a reply answers another request")
        reply.tags()
        return reply

    def size(self):
        size = struct.unpack(">i", self.read(4))[0]
        if not 0 < size <= LONGEST_REPLY:
            raise Fault(f"a reply of {size} bytes")
        return size

    def read(self, count):
        data = b""
        while len(data) < count:
            more = self.socket.recv(count - len(data))
            if not more:
                raise Fault("the coordinator closed the connection")
            data += more
        return data

    def close(self):
        self.socket.close()


# ---- a member


class Member:
    """A member of a group: its id, its member epoch, and the partitions that it owns."""

    def __init__(self, name, group, topic, address):
        self.name, self.group, self.topic = name, group, topic
        self.connection = Connection(address)
        self.id, self.epoch, self.owned, self.to_release = "", 0, set(), set()
        # It tells what it owns where that has changed since it last told.
        self.has_news = False

    def join(self):
        self.heartbeat(JOINS, REBALANCE_TIMEOUT_MS, [text(self.topic)], set())

    def beat(self):
        self.heartbeat(self.epoch, -1, None, self.owned if self.has_news else None)

    def heartbeat(self, epoch, timeout, topics, owned):
        """One ConsumerGroupHeartbeat. What it assigns is owned from now on; what it leaves out is to be released."""
        fields = text(self.group) + text(self.id) + struct.pack(">i", epoch) + text(None) + text(None)
        fields += struct.pack(">i", timeout) + array(topics) + text(None) + topic_partitions(owned) + NO_TAGS
        reply = self.connection.ask(HEARTBEAT, fields)
        reply.number(">i")
        code, message = reply.number(">h"), reply.text()
        if code:
            raise Fault(f"{self.name}: {ERRORS.get(code, 'error')} ({code}): {message}")
        self.id, self.epoch, _interval = reply.text(), reply.number(">i"), reply.number(">i")
        self.has_news = False
        if reply.number(">b") >= 0:
            self.assign({p for topic in reply.array(lambda: self.entry(reply)) for p in topic})
            reply.tags()
        reply.tags()
        reply.end()

    @staticmethod
    def entry(reply):
        topic = reply.take(16)
        indexes = reply.array(lambda: reply.number(">i"))
        reply.tags()
        return [(topic, index) for index in indexes]

    def assign(self, partitions):
        self.has_news = not partitions <= self.owned
        self.owned |= partitions
        self.to_release = self.owned - partitions

    def release(self):
        """Gives up what isn't assigned any more. The next heartbeat reports what is left."""
        self.owned -= self.to_release
        self.to_release = set()
        self.has_news = True

    def commit(self, partitions, offset):
        """One OffsetCommit, at the present member epoch."""
        entries = [struct.pack(">iqi", index, offset, -1) + text(None) + NO_TAGS for _, index in sorted(partitions)]
        fields = text(self.group) + struct.pack(">i", self.epoch) + text(self.id) + text(None)
        reply = self.connection.ask(COMMIT, fields + array([text(self.topic) + array(entries) + NO_TAGS]) + NO_TAGS)
        reply.number(">i")
        for index, code in [it for topic in reply.array(lambda: self.codes(reply)) for it in topic]:
            if code:
                raise Fault(f"{self.name}: the commit of partition {index}: {ERRORS.get(code, 'error')} ({code})")
        reply.tags()
        reply.end()

    @staticmethod
    def codes(reply):
        def partition():
            found = reply.number(">i"), reply.number(">h")
            reply.tags()
            return found

        reply.text()
        found = reply.array(partition)
        reply.tags()
        return found

    def leave(self):
        self.heartbeat(LEAVES, -1, None, None)
        self.owned = set()


# ---- the rebalance


def indexes(partitions):
    return " ".join(str(index) for _, index in sorted(partitions)) or "nothing"


def run(address, topic):
    group = f"example-{uuid.uuid4()}"
    first, second = (Member(name, group, topic, address) for name in ("first", "second"))

    def show(what):
        print(f"{what:<38} first holds {indexes(first.owned)}, second holds {indexes(second.owned)}", flush=True)

    first.join()
    every = frozenset(first.owned)
    if not every:
        raise Fault(f"the coordinator knows no topic {topic}")
    show(f"first joins, at member epoch {first.epoch}")
    second.join()
    show(f"second joins, at member epoch {second.epoch}")
    rounds = 0
    while first.epoch != second.epoch or first.owned | second.owned != every:
        rounds += 1
        if rounds > ROUNDS:
            raise Fault(f"the rebalance isn't over after {ROUNDS} rounds")
        for member in (first, second):
            turn(member, show)
    for member in (first, second):
        member.commit(member.owned, 100)
        show(f"{member.name} commits offset 100 of {indexes(member.owned)}")
    for member in (second, first):
        member.leave()
        show(f"{member.name} leaves")
        member.connection.close()


def turn(member, show):
    """One heartbeat, and what the member makes of its reply."""
    before = set(member.owned)
    member.beat()
    if member.to_release:
        given_up = set(member.to_release)
        show(f"{member.name} is told to give up {indexes(given_up)}")
        member.commit(given_up, 50)
        show(f"{member.name} commits offset 50 of {indexes(given_up)}")
        member.release()
        show(f"{member.name} gives up {indexes(given_up)}")
    elif member.owned != before:
        show(f"{member.name} is granted {indexes(member.owned - before)}")
    else:
        show(f"{member.name} beats, at member epoch {member.epoch}")


def main(words):
    host, colon, port = words[0].rpartition(":") if words else ("", "", "")
    if len(words) not in (1, 2) or not host or not port.isdigit() or not 0 < int(port) < 65_536:
        print("usage: client.py HOST:PORT [TOPIC]", file=sys.stderr)
        return 2
    try:
        run((host, int(port)), words[1] if words[1:] else "t")
    except Fault as why:
        print(f"client.py: {why}", file=sys.stderr)
        return 1
    return 0


if __name__ == "__main__":
    sys.exit(main(sys.argv[1:]))
