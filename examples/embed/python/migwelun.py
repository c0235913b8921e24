"""A coordinator inside a Python program: the C library libmigwelun.so, as tools/build-library makes it, over ctypes.

    coordinator = migwelun.Coordinator("out/libmigwelun.so")
    coordinator.set_topics([("orders", uuid.UUID(int=1).bytes, 4)])
    reply = coordinator.answer(body, connection=1, frame=1, moment=now)

A Replica applies the entries of a log, so that its groups are there on each machine that has the log:

    replica = migwelun.Replica("out/libmigwelun.so", salt)
    entry = replica.propose(body, connection=1, frame=1, clock=now)
    (append the entry to the log, at the place replica.place().applied + 1)
    reply = replica.apply(replica.place().applied + 1, entry).reply
    snapshot = b"".join(replica.snapshot())

include/migwelun.h says what stamps, moments and clocks are. Calls from several threads wait for one another.
"""

from __future__ import annotations

import ctypes
import os
import secrets
import threading
from typing import Dict, Iterable, Iterator, NamedTuple, Optional, Tuple

CLOSES, YES = 1, 1
NO_MEMORY, SHORT, NO_MEMBER, NO_OFFSET = -2, -4, -6, -7
FAULTS: Dict[int, str] = {
    1: "two topics have one name",
    2: "two topics have one id",
    3: "there are more than 10000 topics or 1000000 partitions",
    4: "a topic has fewer than 1 partition or more than 100000",
}
ENTRY_FAULTS: Dict[int, str] = {
    2: "not the next place of the log",
    3: "an entry of another leadership",
    4: "the moment of the entry is before the log's",
    5: "this replica does not lead",
    11: "a field of the entry is no value of its type",
    12: "unknown version of an entry",
    13: "unknown kind of an entry",
    14: "a number of the entry is negative or too great",
    15: "the body of the entry has a length that no frame has",
    16: "bytes left after the entry",
    **{20 + fault: words for fault, words in FAULTS.items()},
}
SNAPSHOT_FAULTS: Dict[int, str] = {
    31: "a field of the snapshot is cut, or no value of its type",
    32: "a field of the snapshot has a value that can't stand there",
    33: "the snapshot is no state to which a log can come",
    34: "the snapshot is another encoding of a state, or bytes are left after it",
    35: "there is more of something than a snapshot can say",
}
KINDS = ("frame", "tick", "topics", "leads")
# Another place than the next, and a version that a later library knows: nothing is applied. What is refused otherwise is passed over.
HELD_UP = (2, 12)
KEYS, ID = 16, 16
FIRST_ROOM = 4096
# How many bytes a part of a snapshot has, about.
PART_BYTES = 256 * 1024
NO_TEXT = ctypes.c_size_t(-1).value
_POINTER, _BYTES, _SIZE = ctypes.c_void_p, ctypes.c_char_p, ctypes.c_size_t
_U32, _U64, _I32, _I64 = ctypes.c_uint32, ctypes.c_uint64, ctypes.c_int32, ctypes.c_int64
_TEXT = (_BYTES, _SIZE)
_ARGUMENTS = {
    "make": (_POINTER, _U64, _BYTES),
    "drop": (_POINTER,),
    "answer": (_POINTER, *_TEXT, _U64, _U64, _U64),
    "take": (_POINTER, _POINTER, _SIZE, _POINTER),
    "tick": (_POINTER, _U64, _POINTER),
    "add_topic": (_POINTER, *_TEXT, _BYTES, _I32),
    "set_topics": (_POINTER,),
    "remembers": (_POINTER, *_TEXT, *_TEXT),
    "epochs": (_POINTER, *_TEXT, *_TEXT, _POINTER, _POINTER),
    "committed": (_POINTER, *_TEXT, *_TEXT, _I32, _POINTER, _POINTER, _POINTER, _SIZE, _POINTER),
    "make_replica": (_POINTER, _U64, _BYTES),
    "restore": (_POINTER, *_TEXT, _BYTES, _POINTER),
    "snapshot": (_POINTER, _U64, _SIZE, _SIZE, _POINTER),
    "place": (_POINTER, _POINTER, _POINTER, _POINTER),
    "lead": (_POINTER,),
    "begin": (_POINTER, _U64),
    "propose": (_POINTER, *_TEXT, _U32, _U64, _U64),
    "propose_tick": (_POINTER, _U64),
    "propose_topics": (_POINTER,),
    "take_entry": (_POINTER, _POINTER, _SIZE, _POINTER),
    "apply": (_POINTER, _U64, *_TEXT, _POINTER, _POINTER, _POINTER),
}


class BadEntry(ValueError):
    """An entry is not proposed or not applied, and the replica is as it was."""


class BadSnapshot(ValueError):
    """Bytes are no snapshot, or a snapshot can't be written. The replica is as it was."""


class Committed(NamedTuple):
    """What was committed for a partition. Where nothing was said with the offset, `metadata` is None."""

    offset: int
    leader_epoch: int
    metadata: Optional[str]


class Place(NamedTuple):
    """How many entries were applied, the number of the last leadership that began, and the greatest moment of an entry."""

    applied: int
    leadership: int
    moment: int


class Applied(NamedTuple):
    """A place of the log that was applied, by the kind of its entry: 'frame', 'tick', 'topics' or 'leads'; or 'passed over', and `why`: then
    nothing else has changed. A frame has its connection, its number on that and its reply, with the size, or None where the connection is to
    be closed; a tick has how many members it removed."""

    kind: str
    leadership: int
    connection: int
    frame: int
    reply: Optional[bytes]
    removed: int
    why: Optional[str] = None


class _Slot(ctypes.Structure):
    _fields_ = [("at", ctypes.c_void_p), ("full", ctypes.c_ubyte)]


class _Embedded:
    """What a slot of the library has: a coordinator or a replica. It is freed by `close`, or at the end of a `with` block."""

    def __init__(self, library: str, make: str, salt: int) -> None:
        self._library = ctypes.CDLL(os.path.abspath(library))
        for name, arguments in _ARGUMENTS.items():
            function = getattr(self._library, f"migwelun_{name}")
            function.argtypes, function.restype = arguments, None if name == "drop" else _I32
        self._lock, self._slot = threading.RLock(), _Slot()
        self._room = ctypes.create_string_buffer(FIRST_ROOM)
        self._call(make, salt, secrets.token_bytes(KEYS))

    def __exit__(self, *_: object) -> None:
        self.close()

    def close(self) -> None:
        """Frees it. Nothing else may be called afterwards."""
        with self._lock:
            self._library.migwelun_drop(ctypes.byref(self._slot))

    def remembers(self, group: str, member: str) -> bool:
        """Whether a group has a member, or remembers it as a former one."""
        with self._lock:
            return self._call("remembers", *_texts(group, member)) == YES

    def epochs(self, group: str, member: str) -> Optional[Tuple[int, int]]:
        """A member's epoch (-2 while it is away), and the one before it."""
        epoch, previous = _I32(), _I32()
        with self._lock:
            code = self._call("epochs", *_texts(group, member), ctypes.byref(epoch), ctypes.byref(previous))
        return None if code == NO_MEMBER else (epoch.value, previous.value)

    def committed(self, group: str, topic: str, partition: int) -> Optional[Committed]:
        """What a group committed last for a partition."""
        offset, leader_epoch, size = _I64(), _I32(), _SIZE()
        words = (*_texts(group, topic), partition, ctypes.byref(offset), ctypes.byref(leader_epoch))
        with self._lock:
            while (code := self._call("committed", *words, self._room, len(self._room), ctypes.byref(size))) == SHORT:
                self._room = ctypes.create_string_buffer(size.value)
            text = None if size.value == NO_TEXT else self._room[: size.value].decode()
        return None if code == NO_OFFSET else Committed(offset.value, leader_epoch.value, text)

    def _add_topics(self, topics: Iterable[Tuple[str, bytes, int]]) -> None:
        texts = [(name.encode(), topic_id, partitions) for name, topic_id, partitions in topics]
        for text, topic_id, _ in texts:
            if len(topic_id) != ID:
                raise ValueError(f"the id of {text.decode()!r} has {len(topic_id)} bytes")
        for text, topic_id, partitions in texts:
            self._call("add_topic", text, len(text), topic_id, partitions)

    def _take(self, name: str = "take") -> bytes:
        size = _SIZE()
        while self._call(name, self._room, len(self._room), ctypes.byref(size)) == SHORT:
            self._room = ctypes.create_string_buffer(size.value)
        return self._room[: size.value]

    def _call(self, name: str, *words: object) -> int:
        code: int = getattr(self._library, f"migwelun_{name}")(ctypes.byref(self._slot), *words)
        if code == NO_MEMORY:
            raise MemoryError(f"migwelun_{name}")
        if code < 0 and code not in (SHORT, NO_MEMBER, NO_OFFSET):
            raise ValueError(f"migwelun_{name}: {code}")
        return code


class Coordinator(_Embedded):
    """A coordinator with no groups and no topics."""

    def __init__(self, library: str, salt: Optional[int] = None) -> None:
        super().__init__(library, "make", secrets.randbits(64) if salt is None else salt)

    def __enter__(self) -> Coordinator:
        return self

    def answer(self, body: bytes, connection: int, frame: int, moment: int) -> Optional[bytes]:
        """The frame of the reply to the body of a frame, or None where the connection is to be closed."""
        with self._lock:
            if self._call("answer", body, len(body), connection, frame, moment) == CLOSES:
                return None
            return self._take()

    def tick(self, moment: int) -> int:
        """How many members were removed, as their time was over at the moment."""
        removed = ctypes.c_size_t()
        with self._lock:
            self._call("tick", moment, ctypes.byref(removed))
        return removed.value

    def set_topics(self, topics: Iterable[Tuple[str, bytes, int]]) -> None:
        """Sets the topics of the cluster, by name, id and number of partitions. Raises ValueError, and the topics are as they were. After
        MemoryError nothing but `close` may be called."""
        with self._lock:
            self._add_topics(topics)
            fault = self._call("set_topics")
        if fault:
            raise ValueError(FAULTS[fault])


class Replica(_Embedded):
    """A replica of a log that has applied nothing yet. The salt is the same in all replicas of the log.

    The one that leads proposes entries, which change nothing by themselves. Each replica applies the entries that the log has, in their
    order: the one that leads too, and it answers only then. Clocks are milliseconds of a clock of this machine that isn't set back."""

    def __init__(self, library: str, salt: int) -> None:
        super().__init__(library, "make_replica", salt)

    def __enter__(self) -> Replica:
        return self

    def snapshot(self, size: int = PART_BYTES) -> Iterator[bytes]:
        """What this replica has come to, as the parts of its one spelling, which stand one behind the other. Each has so many bytes, or a
        group's more. Between the parts it may propose, but apply nothing: raises BadEntry where it has."""
        place, at = self.place().applied, _SIZE(0)
        while part := self._part(place, at, size):
            yield part

    def restore(self, snapshot: bytes) -> None:
        """This replica has come to what a snapshot says, whatever it had before, and doesn't lead. Raises BadSnapshot. Take snapshots from
        where you put them: a few bytes of somebody else can ask for much memory."""
        slot, at = _Slot(), _SIZE(0)
        code = self._library.migwelun_restore(ctypes.byref(slot), snapshot, len(snapshot), secrets.token_bytes(KEYS), ctypes.byref(at))
        if code == NO_MEMORY:
            raise MemoryError("migwelun_restore")
        if code:
            raise BadSnapshot(f"{SNAPSHOT_FAULTS[code]}, at byte {at.value}")
        with self._lock:
            self.close()
            self._slot = slot

    def place(self) -> Place:
        """How far this replica has come."""
        applied, leadership, moment = _U64(), _U32(), _U64()
        with self._lock:
            self._call("place", *map(ctypes.byref, (applied, leadership, moment)))
        return Place(applied.value, leadership.value, moment.value)

    def lead(self) -> bytes:
        """The entry by which the next leadership begins."""
        return self._proposed("lead")

    def begin(self, clock: int) -> None:
        """Leads from here on: this replica's own entry of the present leadership was applied."""
        with self._lock:
            self._call("begin", clock)

    def propose(self, body: bytes, connection: int, frame: int, clock: int) -> bytes:
        """The entry of a frame that came to this leader: its body, the number of its connection under this leadership, in the order of
        acceptance, and its number on that. Raises BadEntry where this replica does not lead."""
        if not 0 <= connection < 2**31:
            raise BadEntry(ENTRY_FAULTS[14])
        return self._proposed("propose", body, len(body), connection, frame, clock)

    def propose_tick(self, clock: int) -> bytes:
        """The entry of a tick. Raises BadEntry where this replica does not lead."""
        return self._proposed("propose_tick", clock)

    def propose_topics(self, topics: Iterable[Tuple[str, bytes, int]]) -> bytes:
        """The entry of the topics of the cluster, by name, id and number of partitions. Raises BadEntry where this replica does not lead, or
        the topics have a fault. After MemoryError nothing but `close` may be called."""
        with self._lock:
            self._add_topics(topics)
            return self._proposed("propose_topics")

    def apply(self, place: int, entry: bytes) -> Applied:
        """Applies a place of the log, of which the first is 1. What is refused there is passed over. Raises BadEntry where it isn't the next
        place, or the entry is of a version that a later library knows."""
        leadership, connection, frame = _U32(), _U32(), _U64()
        with self._lock:
            code = self._call("apply", place, entry, len(entry), *map(ctypes.byref, (leadership, connection, frame)))
            if code in HELD_UP:
                raise BadEntry(ENTRY_FAULTS[code])
            replies = self._take()
        if code not in (0, CLOSES):
            return Applied("passed over", leadership.value, 0, 0, None, 0, ENTRY_FAULTS[code])
        kind = KINDS[int.from_bytes(entry[2:4], "big")]
        numbers = (leadership.value, connection.value)
        if kind == "frame":
            return Applied(kind, *numbers, frame.value, None if code == CLOSES else replies, 0)
        return Applied(kind, *numbers, 0, None, frame.value)

    def _part(self, place: int, at: ctypes.c_size_t, size: int) -> bytes:
        with self._lock:
            code = self._call("snapshot", place, at.value, size, ctypes.byref(at))
            if code:
                raise BadSnapshot(SNAPSHOT_FAULTS[code]) if code in SNAPSHOT_FAULTS else BadEntry(ENTRY_FAULTS[code])
            return self._take("take_entry")

    def _proposed(self, name: str, *words: object) -> bytes:
        with self._lock:
            code = self._call(name, *words)
            if code:
                raise BadEntry(ENTRY_FAULTS[code])
            return self._take("take_entry")


def _texts(*texts: str) -> Iterable[object]:
    """Each text's bytes, and how many they are."""
    return [it for text in (text.encode() for text in texts) for it in (text, len(text))]
