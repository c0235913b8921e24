"""Snapshots of a part's replica in etcd: what all entries up to a place came to. (snapshotting: how a leader writes them.)

A snapshot stands in pieces, each under a key of its own, and one more key names it.
"""

from __future__ import annotations

import hashlib
import json
from typing import List, NamedTuple, Optional

from broker import batches
from broker.etcd import Etcd, KeyValue

# The keys that name the last snapshot of each part. Every broker watches them; nobody watches the pieces, which come after all that is watched.
LAST, PIECES = "migwelun/cluster/snapshots/", "migwelun/snapshot/"
# How much of a log there is to a snapshot, if nothing else is said, and how much a piece has.
BYTES, PIECE_BYTES = 4 << 20, 512 << 10
DIGITS = 6


class BadSnapshot(ValueError):
    """What is in etcd is no snapshot, and why."""


class Snapshot(NamedTuple):
    """At which entry it is, how many bytes the batches up to there have, and at which entry the snapshot before was; how many pieces and bytes it
    has, and their SHA-256; and how many seconds it took to write."""

    place: int
    logged: int
    before: int
    pieces: int
    size: int
    checksum: str
    seconds: float

    def encoded(self) -> bytes:
        return json.dumps(self._asdict()).encode()


# There is none.
NONE = Snapshot(0, 0, 0, 0, 0, "", 0.0)


def decoded(value: bytes) -> Snapshot:
    """Raises BadSnapshot."""
    try:
        return Snapshot(**json.loads(value))
    except (ValueError, TypeError) as why:
        raise BadSnapshot(f"its key can't be read: {why}") from None


def folder(part: int, place: int) -> str:
    """What the keys of a snapshot's pieces begin with."""
    return f"{PIECES}{part}/{place:0{batches.DIGITS}d}"


def piece_key(part: int, place: int, number: int) -> str:
    return f"{folder(part, place)}/{number:0{DIGITS}d}"


async def last_of(etcd: Etcd, part: int) -> Optional[KeyValue]:
    """The key that names the last snapshot of a part. Raises Unanswered and Refused."""
    key = f"{LAST}{part}"
    found = await etcd.range(key, f"{key}\0")
    return found.pairs[0] if found.pairs else None


async def read(etcd: Etcd, part: int, snapshot: Snapshot) -> bytes:
    """The bytes of a snapshot. Raises BadSnapshot, also if another one has taken its place meanwhile; Unanswered and Refused."""
    pieces: List[bytes] = []
    for number in range(snapshot.pieces):
        key = piece_key(part, snapshot.place, number)
        found = await etcd.range(key, f"{key}\0")
        if not found.pairs:
            raise BadSnapshot(f"piece {number} isn't there")
        pieces.append(found.pairs[0].value)
    whole = b"".join(pieces)
    if len(whole) != snapshot.size or hashlib.sha256(whole).hexdigest() != snapshot.checksum:
        raise BadSnapshot("its bytes aren't those that were written")
    return whole
