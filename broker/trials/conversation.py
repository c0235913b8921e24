"""Recorded conversations of clients with a broker.

A file has lines `# TEXT`, which say what happens, then `topic NAME:UUID:COUNT` for each topic, if moments matter the line `paced`, and a line
for each event: the milliseconds since the first one, and connection and what happened as the relay of broker/trials records them. These values
of frames aren't as they were, since they differ from run to run:

    ports           of the broker, in what it says to clients of its address, are PORT
    salts           that the coordinator puts into the ids of the members that it names itself are zeros

and a Fetch that was answered without records is left out with its reply.
"""

import dataclasses
import pathlib
import re
import struct
from typing import List

from broker.trials.log import Event, event_of, head_of, replies_of
from clients.stand import HOST, Topic

PORT, FETCH = 9093, 1
# Each partition has a few records from the start, and none comes meanwhile, so that what is fetched doesn't hang on time.
RECORDS = ("--records", "5", "--rate", "0")
# Salt and serial of an id that a coordinator made, and the salt that is written in its place.
MADE = re.compile(rb"([0-9a-f]{8}-[0-9a-f]{4}-[0-9a-f]{4}-)(?=[0-9a-f]{4}-[0-9a-f]{12})")
NO_SALT = b"00000000-0000-0000-"


@dataclasses.dataclass
class Conversation:
    title: List[str]
    topics: List[Topic]
    paced: bool
    events: List[Event]


class Pins:
    """Puts the written values in place of those of a run, and back."""

    def __init__(self, port: int) -> None:
        self.address, self.written = (HOST.encode() + struct.pack(">i", it) for it in (port, PORT))
        self.salt = NO_SALT

    def pin(self, frame: bytes) -> bytes:
        found = MADE.search(frame)
        if found and found[1] != NO_SALT:
            self.salt = found[1]
        return MADE.sub(NO_SALT, frame).replace(self.address, self.written)

    def unpin(self, frame: bytes) -> bytes:
        return MADE.sub(lambda found: self.salt if found[1] == NO_SALT else found[1], frame)


def without_empty_fetches(events: List[Event], topics: List[Topic]) -> List[Event]:
    """(A record's value begins with its topic's name and a slash.)"""
    replies, empty = replies_of(events), set()
    for at, event in enumerate(events):
        reply = events[replies[at]].frame if at in replies else b""
        if event.what == ">" and head_of(event.frame).key == FETCH and not any(f"{topic.name}/".encode() in reply for topic in topics):
            empty |= {at, replies.get(at, at)}
    return [event for at, event in enumerate(events) if at not in empty]


def write(path: pathlib.Path, it: Conversation) -> None:
    lines = [f"# {text}" for text in it.title] + [f"topic {topic.word()}" for topic in it.topics] + ["paced"] * it.paced
    for event in it.events:
        lines.append(f"{event.moment:.0f} {event.connection} {event.what} {event.frame.hex()}".rstrip())
    path.write_text("\n".join(lines) + "\n", encoding="utf-8")


def read(path: pathlib.Path) -> Conversation:
    it = Conversation([], [], False, [])
    for line in path.read_text(encoding="utf-8").splitlines():
        words = line.split()
        if words[0] == "#":
            it.title.append(line[2:])
        elif words[0] == "topic":
            name, topic_id, count = words[1].split(":")
            it.topics.append(Topic(name, topic_id, int(count)))
        elif words[0] == "paced":
            it.paced = True
        else:
            it.events.append(event_of(line))
    return it
