"""How a part's leader writes snapshots, and cuts the log.

The leader writes one once the log has grown by so many bytes since the last one. While what the replica has come to is written down nothing is
applied; that comes to etcd besides everything else, piece by piece, and **what is written last is the key that names it**. Only then the log
is cut, up to the snapshot before: a follower that is a little behind finds its next entry, and one whose entry is gone begins with the snapshot.
Everything is written by transactions that fail unless the key of the leadership is there, and the last snapshot is the one that the leader
knows: so none does anything that is done after the next snapshot is named. What is deleted stands before the snapshot before: later ones are never
among it, whenever it is done. If a leader ends in the middle, its pieces are named by nobody, and the next leader deletes them.
"""

from __future__ import annotations

import asyncio
import contextlib
import hashlib
import time
from typing import Any, Awaitable, Callable, List, Optional

from broker import batches
from broker.etcd import Message, delete_range, get, modified_at, put
from broker.following import Deposed, Follower, Stopped
from broker.measures import Measures
from broker.snapshots import LAST, NONE, PIECE_BYTES, PIECES, BadSnapshot, Snapshot, decoded, folder, last_of, piece_key
from broker.trouble import Trouble

# Of how many places the log is deleted at a time: every broker hears of each key.
CUT_PLACES = 2_000
# What asks etcd until it answers. It raises Deposed once the leadership is over.
Ask = Callable[[Callable[[], Awaitable[Any]]], Awaitable[Any]]


class Writer:
    """Of one leadership: `is_led` holds as long as that lasts. There is a snapshot to so many bytes of the log, or to as many as the last one
    has, so that no more is written of snapshots than of the log."""

    def __init__(self, follower: Follower, is_led: Message, log_bytes: int, measures: Measures, ask: Ask) -> None:
        self._follower, self._is_led, self._log_bytes, self._measures, self._ask = follower, is_led, log_bytes, measures, ask
        self._number, self._etcd, self._key = follower.number, follower.etcd, f"{LAST}{follower.number}"
        # The last snapshot, and the revision at which its key was written; and how much there was of the log when one was tried last.
        self._last, self._revision, self._tried = NONE, 0, 0
        self._beside: Optional[asyncio.Future[None]] = None
        self._unwritten = Trouble(f"part {self._number} has no further snapshot, and its log grows", f"part {self._number} has snapshots again")

    async def begin(self) -> None:
        """Learns of the last snapshot, and deletes what a leader before this one left. Raises Deposed; and Stopped if there is one that this
        broker can't read, since it can't tell what else belongs to that."""
        found = await self._ask(lambda: last_of(self._etcd, self._number))
        try:
            self._last, self._revision = (decoded(found.value), found.modified) if found else (NONE, 0)
        except BadSnapshot as why:
            raise Stopped(f"the snapshot is refused: {why}") from None
        self._tried = self._last.logged
        self._beside = asyncio.ensure_future(_until_deposed(self._tidy_up(self._follower.place + 1)))

    async def look(self) -> None:
        """Writes one if it is time, and returns once the replica may go on."""
        is_due = self._follower.logged - self._tried >= max(self._log_bytes, self._last.size)
        if not is_due or self._beside and not self._beside.done():
            return
        self._tried, began = self._follower.logged, time.monotonic()
        try:
            whole = await asyncio.to_thread(lambda: b"".join(self._follower.replica.snapshot()))
        except (ValueError, MemoryError) as why:
            self._unwritten.is_there(str(why) or "there is no memory")
            return
        self._measures.wrote_snapshot(time.monotonic() - began)
        self._beside = asyncio.ensure_future(_until_deposed(self._put(whole, self._follower.place, began)))

    def end(self) -> None:
        if self._beside:
            self._beside.cancel()

    async def _put(self, whole: bytes, place: int, began: float) -> None:
        """Puts it into etcd; and deletes what it stands for, and has etcd forget that."""
        logged, starts = self._tried, range(0, len(whole), PIECE_BYTES)
        for number, at in enumerate(starts):
            await self._do(put(piece_key(self._number, place, number), whole[at : at + PIECE_BYTES]))
        seconds, checksum = round(time.monotonic() - began, 3), hashlib.sha256(whole).hexdigest()
        it = Snapshot(place, logged, self._last.place, len(starts), len(whole), checksum, seconds)
        forgotten, self._revision = self._revision, await self._name(it)
        self._last = it
        self._unwritten.is_well()
        self._measures.put_snapshot(seconds)
        await self._tidy()
        if forgotten:
            await self._ask(lambda: self._etcd.compact(forgotten))

    async def _tidy_up(self, first: int) -> None:
        """Deletes what leaders before this one left: pieces after the last snapshot and before the first entry of this leadership, too."""
        await self._do(delete_range(f"{folder(self._number, self._last.place)}0", folder(self._number, first)))
        await self._tidy()

    async def _tidy(self) -> None:
        """Deletes the log up to the snapshot before, and the pieces of those before that."""
        before = self._last.before
        await self._do(delete_range(f"{PIECES}{self._number}/", folder(self._number, before)))
        first, end = batches.key(self._number, 0), batches.key(self._number, before + 1)
        while (found := await self._ask(lambda: self._etcd.range(first, end, 1))).pairs:
            _, place = batches.part_and_place(found.pairs[0].key)
            await self._do(delete_range(first, batches.key(self._number, min(place + CUT_PLACES, before + 1))))

    async def _name(self, it: Snapshot) -> int:
        """Names the last snapshot: the revision of that. Raises Deposed."""
        found = await self._ask(lambda: self._etcd.txn(self._compared(), [put(self._key, it.encoded())], [get(self._key)]))
        if found.succeeded:
            return int(found.revision)
        # (It may have been done at an earlier try.)
        own = [pair.modified for pair in found.pairs if pair.value == it.encoded()]
        if not own:
            raise Deposed("etcd says that it isn't led from here any more")
        return int(own[0])

    async def _do(self, operation: Message) -> None:
        """Has this done, once or several times. Raises Deposed."""
        found = await self._ask(lambda: self._etcd.txn(self._compared(), [operation]))
        if not found.succeeded:
            raise Deposed("etcd says that it isn't led from here any more")

    def _compared(self) -> List[Message]:
        """It is led from here, and the last snapshot is the one that is known here."""
        return [self._is_led, modified_at(self._key, self._revision)]


async def _until_deposed(work: Awaitable[None]) -> None:
    # (Whoever serves meets it too, and says why.)
    with contextlib.suppress(Deposed):
        await work
