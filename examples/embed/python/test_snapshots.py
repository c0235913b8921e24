"""Replicas that are written and restored, over random scripts of `tools/reply-lines`, also where memory is short.

MIGWELUN_LIBRARY is libmigwelun.so, MIGWELUN_REFUSING the same with examples/embed/refusals.c, and PYTHONPATH the folder conformance, whose rules
say what is to be answered. With MIGWELUN_TIMES=N all numbers are N times as great.
"""

import collections
import contextlib
import ctypes
import itertools
import os
import random
import resource
import unittest
import uuid
from typing import Any, Callable, Iterator, List, Optional, Sequence, Tuple

import migwelun
from rules import reply_lines

TIMES = int(os.environ.get("MIGWELUN_TIMES", "1"))
SCRIPTS, REFUSED_SCRIPTS, CHANGED, CUT = 100 * TIMES, 10 * TIMES, 2_000 * TIMES, 2 * TIMES
LIBRARY, REFUSING = os.environ["MIGWELUN_LIBRARY"], os.environ["MIGWELUN_REFUSING"]
# The calls that take memory.
TAKING = {"make_replica", "lead", "add_topic", "propose_topics", "propose", "propose_tick", "apply", "snapshot", "restore"}
SEED, LINES, KEPT, MOST_CUT = 1, 60, 100, 20_000
# A changed count may ask for much: that is to be refused, and not to take this machine's memory.
MEMORY = 4 << 30


def same(what: str, found: Any, wanted: Any) -> None:
    if found != wanted:
        raise AssertionError(f"{what}: {found!r}, and not {wanted!r}")


def written(replica: Any, size: int = 1 << 20) -> bytes:
    return b"".join(replica.snapshot(size))


class Played:
    """A script that is played: the entries, their results, and the snapshots after them."""

    def __init__(self, replica: Any, dice: random.Random) -> None:
        self.replica, self.dice, self.rules = replica, dice, reply_lines.Lines()
        self.entries, self.snapshots, self.applied = [], [], []  # type: List[bytes], List[bytes], List[Any]
        self.moment = self.requests = 0
        self.stamp: Optional[Tuple[int, int]] = None
        self.put(replica.lead())
        for line in reply_lines.script(dice, LINES):
            self.play(line)

    def put(self, entry: bytes) -> Any:
        self.entries.append(entry)
        self.applied.append(self.replica.apply(len(self.entries), entry))
        self.snapshots.append(written(self.replica, self.dice.choice([1, 64, 1 << 20])))
        self.replica.restore(self.snapshots[-1])
        same("what is written again", written(self.replica), self.snapshots[-1])
        self.replica.begin(self.replica.place().moment)
        return self.applied[-1]

    def play(self, line: str) -> None:
        kind, *words = line.split(" ")
        if kind == "now":
            # (A log's moments don't fall.)
            self.moment = max(self.moment, int(words[0]))
            line = f"now {self.moment}"
        wanted = self.rules.line(line)
        if kind == "image":
            self.put(self.replica.propose_topics((name, uuid.UUID(it).bytes, int(count)) for name, it, count in zip(*[iter(words)] * 3)))
        elif kind == "stamp":
            self.stamp = (int(words[0]), int(words[1]))
        elif kind == "tick":
            same("a tick", f"removed {self.put(self.replica.propose_tick(self.moment)).removed}", wanted)
        elif kind == "req":
            self.requests += 1
            stamp, self.stamp = self.stamp or (1, self.requests), None
            reply = self.put(self.replica.propose(bytes.fromhex(words[0])[4:], *stamp, self.moment)).reply
            same("a reply", "close" if reply is None else reply.hex(), wanted)


def play(library: str, dice: random.Random) -> Played:
    """A script; and its log again, by a replica that applies all of it, and by one that is restored at a random place."""
    with migwelun.Replica(library, 0) as it:
        played = Played(it, dice)
    for at in (0, dice.randrange(1, len(played.entries))):
        with migwelun.Replica(library, 0) as it:
            if at:
                it.restore(played.snapshots[at - 1])
            applied = [it.apply(place, entry) for place, entry in enumerate(played.entries[at:], at + 1)]
            same(f"the log after {at}", (applied, written(it)), (played.applied[at:], played.snapshots[-1]))
    return played


def changed(some: bytes, other: bytes, dice: random.Random) -> bytes:
    """A bit or bytes are others, left out, doubled, or there is another one's end."""
    at, to, size = dice.randrange(len(some)), dice.randrange(len(some)), dice.randint(1, 9)
    bit = bytes([some[at] ^ 1 << dice.randrange(8)])
    put = [bit, dice.choice([b"\0", b"\1", b"\x7f", b"\x80", b"\xff"]), dice.randbytes(4), b"", some[to : to + size], other[to:]]
    kind = dice.randrange(len(put))
    behind = at + [1, 1, 4, size, 0, len(some)][kind]
    return some[:at] + put[kind] + some[behind:]


def is_taken(replica: Any, snapshot: bytes) -> bool:
    """Whether a snapshot is. If so, it is written with the same bytes, and the log goes on after it."""
    try:
        replica.restore(snapshot)
    except (migwelun.BadSnapshot, MemoryError):
        return False
    same("what is written again", written(replica), snapshot)
    with contextlib.suppress(migwelun.BadEntry):
        # (No number comes behind the greatest one.)
        replica.apply(replica.place().applied + 1, replica.lead())
        replica.begin(0)
        replica.apply(replica.place().applied + 1, replica.propose_tick(1 << 40))
    return True


def mutations(replica: Any, logs: Sequence[Played], count: int, dice: random.Random) -> Iterator[bool]:
    """Whether each of so many changed snapshots and entries is taken. An entry that isn't has changed nothing."""
    for _ in range(count):
        log, other, is_applied = dice.choice(logs), dice.choice(logs), False
        at = dice.randrange(1, len(log.entries))
        yield is_taken(replica, changed(log.snapshots[at], dice.choice(other.snapshots), dice))
        replica.restore(log.snapshots[at - 1])
        with contextlib.suppress(migwelun.BadEntry, MemoryError):
            replica.apply(at + 1, changed(log.entries[at], dice.choice(other.entries), dice))
            is_applied = True
        same("whether an entry changed something", written(replica) != log.snapshots[at - 1], is_applied)
        yield is_taken(replica, written(replica)) and is_applied


class Refusing(migwelun.Replica):
    """Each call is made with its first allocation refused, then with its second, and so on, up to one in which none is refused."""

    refusals: "collections.Counter[str]" = collections.Counter()

    def _call(self, name: str, *words: object) -> int:
        return int(self._until_given(name, super()._call, name, *words))

    def restore(self, snapshot: bytes) -> None:
        self._until_given("restore", super().restore, snapshot)

    def _until_given(self, name: str, call: Callable[..., Any], *words: object) -> Any:
        left = ctypes.c_long.in_dll(self._library, "migwelun_left")
        for given in itertools.count():
            left.value = given
            try:
                done = call(*words)
            except MemoryError:
                self.refusals[name] += 1
                continue
            same(f"whether {name} was refused memory and is done", left.value < 0, False)
            left.value = -1
            return done


class Snapshots(unittest.TestCase):
    @classmethod
    def setUpClass(cls) -> None:
        resource.setrlimit(resource.RLIMIT_AS, (MEMORY, MEMORY))
        cls.dice = random.Random(SEED)
        cls.logs = collections.deque((play(LIBRARY, cls.dice) for _ in range(SCRIPTS)), KEPT)

    def test_a_snapshot_that_was_cut_is_refused(self) -> None:
        cut = [log.snapshots[-1] for log in self.logs if len(log.snapshots[-1]) < MOST_CUT][:CUT]
        with migwelun.Replica(LIBRARY, 0) as it:
            self.assertEqual([at for snapshot in cut for at in range(len(snapshot)) if is_taken(it, snapshot[:at])], [])

    def test_what_was_changed_is_refused_or_sound(self) -> None:
        with migwelun.Replica(LIBRARY, 0) as it:
            taken = sum(mutations(it, self.logs, CHANGED, self.dice))
        self.assertTrue(0 < taken < 2 * CHANGED)

    def test_each_allocation_is_refused_in_turn(self) -> None:
        """The bytes are those without refusals, and all memory is given back."""
        for seed in range(REFUSED_SCRIPTS):
            with Refusing(REFUSING, 0) as it:
                refused = Played(it, random.Random(seed))
            given = play(REFUSING, random.Random(seed))
            same("the bytes", *[(some.entries, some.applied, some.snapshots) for some in (refused, given)])
            same("what is left", ctypes.c_long.in_dll(ctypes.CDLL(REFUSING), "migwelun_blocks").value, 0)
        self.assertEqual(set(Refusing.refusals), TAKING)
