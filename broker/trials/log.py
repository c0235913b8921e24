"""What a relay has recorded, read: frames, and each request with its reply."""

import collections
import dataclasses
from typing import Deque, Dict, Iterator, List, NamedTuple, Optional, Sequence, Set, Tuple, Union

from rules.fields import Reader
from rules.messages import Commit, Heartbeat, read_commit_reply, read_heartbeat_reply, read_request
from stories.recording import without_expression

COMMIT, HEARTBEAT = 8, 68
# A topic's id and an index.
Partition = Tuple[bytes, int]


class Event(NamedTuple):
    """A line of a record. The frame is empty if a connection opens or ends, and `what` says then how."""

    moment: float
    connection: int
    what: str
    frame: bytes


class Head(NamedTuple):
    key: int
    version: int
    correlation: int
    client: Optional[str]


class Told(NamedTuple):
    """A reply to a heartbeat; the assignment is None if it says nothing of it."""

    correlation: int
    code: int
    member: Optional[str]
    epoch: int
    assignment: Optional[Set[Partition]]


NOTHING = Told(-1, -1, None, 0, None)


@dataclasses.dataclass
class Exchange:
    """A heartbeat or a commit, and its reply. No reply, and `closes`: the broker ended the connection."""

    connection: int
    sent: float
    frame: bytes
    head: Head
    # As in its first version, and the regular expression that a heartbeat of version 1 has besides.
    asked: Union[Heartbeat, Commit]
    expression: Optional[str] = None
    answered: float = float("inf")
    closes: bool = False
    # What a heartbeat was told, and the codes of a commit's partitions.
    told: Told = NOTHING
    codes: Tuple[int, ...] = ()

    @property
    def is_commit(self) -> bool:
        return isinstance(self.asked, Commit)

    def is_answered(self) -> bool:
        return self.answered < float("inf")

    def member(self) -> str:
        return self.asked.member or self.told.member or ""

    def answer(self, event: Event) -> None:
        self.answered = event.moment
        if self.is_commit:
            self.codes = tuple(read_commit_reply(event.frame[4:]))
        else:
            self.told = Told(*read_heartbeat_reply(event.frame[4:]))


def head_of(frame: bytes) -> Head:
    reader = Reader(frame[4:])
    return Head(reader.int(2), reader.int(2), reader.int(4), reader.old_text())


def event_of(line: str) -> Event:
    moment, connection, *words = line.split()
    is_frame = words[0] in "<>"
    return Event(float(moment), int(connection), words[0] if is_frame else " ".join(words), bytes.fromhex(words[1]) if is_frame else b"")


def read_events(path: str) -> Iterator[Event]:
    """The events of a record. A last line that isn't whole, and lines that have no event, are left out."""
    with open(path, encoding="utf-8") as record:
        yield from (event_of(line) for line in record if line.endswith("\n") and len(line.split()) >= 3)


def replies_of(events: Sequence[Event]) -> Dict[int, int]:
    """The place of the reply of each request that has one, by the request's place."""
    waiting: Dict[int, Deque[int]] = collections.defaultdict(collections.deque)
    found = {}
    for at, event in enumerate(events):
        if event.what == ">":
            waiting[event.connection].append(at)
        elif event.what == "<":
            found[waiting[event.connection].popleft()] = at
    return found


def first_version(frame: bytes) -> Tuple[bytes, Optional[str]]:
    """The body of a heartbeat or a commit as the coordinator reads it, and the regular expression that it leaves out."""
    return without_expression(frame[4:]) if frame[4:8] == b"\0\x44\0\1" else (frame[4:], None)


def read_exchanges(path: str) -> List[Exchange]:
    """The heartbeats and commits, in the order of the requests."""
    found: List[Exchange] = []
    # Other requests are there as None.
    waiting: Dict[int, Deque[Optional[Exchange]]] = collections.defaultdict(collections.deque)
    for event in read_events(path):
        here = waiting[event.connection]
        if event.what == ">":
            here.append(exchange_of(event))
            found += [it for it in (here[-1],) if it]
        elif event.what == "<":
            it = here.popleft()
            if it:
                it.answer(event)
        elif event.what == "end far":
            for it in [it for it in here if it][:1]:
                it.closes = True
    return found


def exchange_of(event: Event) -> Optional[Exchange]:
    head = head_of(event.frame)
    if head.key not in (HEARTBEAT, COMMIT):
        return None
    body, expression = first_version(event.frame)
    return Exchange(event.connection, event.moment, event.frame, head, read_request(body), expression)
