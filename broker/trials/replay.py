"""Plays recorded conversations again, and compares what is answered.

Each byte of an answer to a client has to be the recorded one, but for its size, for the values that conversation.py writes in place of those of a
run, and for these, which brokers choose:

    ApiVersions     further APIs, and further versions of the ones that were recorded
    Metadata        the cluster's id
    Fetch           the times of batches, and so their checksums
    OffsetFetch     whether the metadata of a partition without an offset are null or empty
"""

import collections
import pathlib
import re
import socket
import struct
import subprocess
import tempfile
import time
from typing import Deque, Dict, List, Sequence, Tuple

from broker.trials.conversation import RECORDS, Conversation, Pins
from broker.trials.log import COMMIT, HEARTBEAT, Event, first_version, head_of, replies_of
from clients.stand import HOST, Failed, Stand, read_frame
from rules.messages import framed

REPLY_SECONDS = 10
TICK_MS = 500
REPLAY_SECONDS = 60


API_VERSIONS = 18
# What may differ in an answer, by the key of its request, and what stands in its place on both sides. (A batch begins with base offset, length,
# leader epoch, format 2, checksum, attributes, last offset, two times, and no producer.)
MAY_DIFFER = {
    1: (rb"(?s)(.{12}\0{4}\x02).{4}(\0\0.{4}).{16}(?=\xff{8})", rb"\1\2"),
    3: (rb"[\x0c\x0d]coord-(serve|broker)", b""),
    9: (rb"(\xff{12})[\0\1]", rb"\1"),
}


class Differs(Failed):
    """What was answered isn't what the conversation has."""


# ---- the side of the clients


class Clients:
    """All clients of a conversation, at a broker."""

    def __init__(self, port: int) -> None:
        self.port, self.pins = port, Pins(port)
        self.sockets: Dict[int, socket.socket] = {}
        # The keys of the requests under way.
        self.keys: Dict[int, Deque[int]] = collections.defaultdict(collections.deque)

    def play(self, events: Sequence[Event], paced: bool) -> None:
        """Does one event after the other; if `paced`, with the recorded time between them."""
        for number, event in enumerate(events):
            if paced and number:
                time.sleep((event.moment - events[number - 1].moment) / 1000)
            try:
                self.do(event)
            except (OSError, Differs) as why:
                raise Differs(f"event {number} of the clients, {event.moment:.0f} ms, connection {event.connection}: {why}") from None

    def do(self, event: Event) -> None:
        if event.what.startswith("open"):
            self.sockets[event.connection] = socket.create_connection((HOST, self.port), REPLY_SECONDS)
            return
        connection = self.sockets[event.connection]
        if event.what == ">":
            self.keys[event.connection].append(head_of(event.frame).key)
            connection.sendall(self.pins.unpin(event.frame))
        elif event.what == "end near":
            connection.close()
        else:
            # (At the end that the other side makes nothing is there to be read.)
            found, key = self.pins.pin(read_frame(connection)), self.keys[event.connection].popleft() if event.frame else -1
            if not is_as(found, event.frame, key):
                raise Differs(f"it answers\n    {found.hex()}\nand not\n    {event.frame.hex()}")


def is_as(found: bytes, recorded: bytes, key: int) -> bool:
    """Whether an answer to a request of this key is as it was recorded, but for what may differ."""
    if key == API_VERSIONS and found and recorded:
        now = versions_in(found)
        return all(api in now and now[api][0] <= least and most <= now[api][1] for api, (least, most) in versions_in(recorded).items())
    pattern, kept = MAY_DIFFER.get(key, (b"(?!)", b""))
    return re.sub(pattern, kept, found[4:]) == re.sub(pattern, kept, recorded[4:])


def versions_in(reply: bytes) -> Dict[int, Tuple[int, int]]:
    """The least and the greatest version of each API in an answer of version 3: after correlation id and code are their number, and entries with a
    byte for tags each."""
    entries = struct.iter_unpack(">hhhx", reply[11:][: 7 * (reply[10] - 1)])
    return {api: (least, most) for api, least, most in entries}


def play_clients(it: Conversation, broker: Sequence[str]) -> None:
    """The clients, at the broker of this command."""
    with tempfile.TemporaryDirectory(prefix="conversation-") as folder:
        stand = Stand([*broker, *RECORDS], it.topics, pathlib.Path(folder), relay=None)
        clients = Clients(stand.port)
        try:
            clients.play(it.events, it.paced)
        finally:
            for connection in clients.sockets.values():
                connection.close()
            stand.end()


# ---- the coordinator's side


def lines_of(it: Conversation) -> List[str]:
    """The heartbeats and commits as lines for `coord reply`, with ticks between them."""
    lines = [" ".join(["image", *(f"{topic.name} {topic.id} {topic.count}" for topic in it.topics)])]
    now = 0
    counts: Dict[int, int] = collections.Counter()
    for event in (it.events[at] for at in asked_in(it)):
        while now // TICK_MS < int(event.moment) // TICK_MS:
            now = (now // TICK_MS + 1) * TICK_MS
            lines += [f"now {now}", "tick"]
        now = int(event.moment)
        counts[event.connection] += 1
        lines += [f"now {now}", f"stamp {event.connection} {counts[event.connection]}", f"req {framed(first_version(event.frame)[0]).hex()}"]
    return lines


def asked_in(it: Conversation) -> List[int]:
    """The places of the heartbeats and commits."""
    return [at for at, event in enumerate(it.events) if event.what == ">" and head_of(event.frame).key in (HEARTBEAT, COMMIT)]


def play_coordinator(it: Conversation, command: Sequence[str]) -> None:
    """The heartbeats and commits, as lines for a command that answers them."""
    given = "\n".join(lines_of(it)) + "\n"
    ran = subprocess.run(command, input=given, capture_output=True, text=True, timeout=REPLAY_SECONDS, check=False)
    if ran.returncode or ran.stderr:
        raise Differs(f"{command[-1]} ended with {ran.returncode}: {ran.stderr.strip()}")
    found, events = [line for line in ran.stdout.splitlines() if not line.startswith("removed")], it.events
    asked, replies = asked_in(it), replies_of(events)
    for at, is_now in zip(asked, found):
        was = events[replies[at]].frame.hex() if at in replies else "close"
        if was != is_now:
            raise Differs(f"the request {head_of(events[at].frame)} at {events[at].moment:.0f} ms is answered\n    {is_now}\nand not\n    {was}")
    if len(found) != len(asked):
        raise Differs(f"{len(asked)} requests have {len(found)} answers")
