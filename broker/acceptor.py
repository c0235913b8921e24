"""Takes connections, one after the other, and serves a bounded number of them at a time.

A connection may be older than the moment at which it is accepted: it waits in the system until it is, and the client may send, give up and go on
elsewhere before that. So each has a moment at which it surely wasn't open for its client yet.
"""

from __future__ import annotations

import asyncio
import math
import socket
import struct
import sys
import time
from typing import Any, Awaitable, Callable, Coroutine, Iterable, NamedTuple, Optional, Set, Tuple

from broker.output import say

BACKLOG = 1024
NO_FILES_SECONDS = 1.0
END_SECONDS = 1.0
Work = Coroutine[Any, Any, None]
Address = Tuple[str, int]
# Where Linux says how many microseconds a round trip took, and how many segments were sent again: of a new connection, those of its beginning.
TRIP_AT, AGAIN_AT, INFO_SIZE = 68, 100, 104
COUNT = struct.Struct("=I")


class Accepted(NamedTuple):
    """A connection, who opened it, and a moment of `time.monotonic()` before which it wasn't open for its client."""

    socket: socket.socket
    address: Address
    since: float


def listen(host: str, port: int) -> socket.socket:
    listener = socket.create_server((host, port), backlog=BACKLOG)
    listener.setblocking(False)
    return listener


def port_of(listener: socket.socket) -> int:
    port: int = listener.getsockname()[1]
    return port


async def accept(
    listener: socket.socket, most: int, prepare: Callable[[Accepted], Work]
) -> None:
    """Accepts connections for ever. Each is prepared before the next is accepted; what that gives serves it. If `most` are served, the
    next one waits unaccepted. When this is cancelled, all of them are."""
    door, room = Door(listener), asyncio.Semaphore(most)
    serving: Set[asyncio.Task[None]] = set()

    def ended(task: asyncio.Task[None]) -> None:
        serving.discard(task)
        room.release()

    try:
        while True:
            if room.locked():
                say(f"{most} connections to port {port_of(listener)} are open: further ones wait")
            await room.acquire()
            task = asyncio.ensure_future(prepare(await door.accept()))
            serving.add(task)
            task.add_done_callback(ended)
    finally:
        # At the first cancellation a connection closes after what was written to it, at the second at once.
        for _ in range(2):
            for task in serving:
                task.cancel()
            await _all_ended(serving)


async def refuse(listener: socket.socket) -> None:
    """Closes all connections as they come, for ever."""
    door = Door(listener)
    while True:
        (await door.accept()).socket.close()


async def until_one_ends(works: Iterable[Awaitable[Any]]) -> None:
    """Runs them until one ends, and cancels the others. Raises what that one does."""
    tasks = [asyncio.ensure_future(work) for work in works]
    try:
        done, _ = await asyncio.wait(tasks, return_when=asyncio.FIRST_COMPLETED)
        for task in done:
            task.result()
    finally:
        for task in tasks:
            task.cancel()
        await asyncio.gather(*tasks, return_exceptions=True)


async def _all_ended(tasks: Set[asyncio.Task[None]]) -> None:
    if tasks:
        await asyncio.wait(tasks, timeout=END_SECONDS)


class Door:
    """Accepts what comes to a listener."""

    def __init__(self, listener: socket.socket) -> None:
        # A moment at which no connection waited.
        self._listener, self._empty = listener, -math.inf

    async def accept(self) -> Accepted:
        """The next connection. One that took its client several tries to open may be older than later ones, and is closed."""
        while True:
            looked = time.monotonic()
            try:
                client, address = self._listener.accept()
                client.setblocking(False)
            except BlockingIOError:
                self._empty = looked
                await self._wait()
                continue
            except OSError as why:
                say(f"no connection could be accepted: {why}")
                await asyncio.sleep(NO_FILES_SECONDS)
                continue
            opening = _opening_seconds(client)
            if opening is not None:
                return Accepted(client, address, self._empty - opening)
            say(f"closed the connection of {address[0]}:{address[1]}: it took long to open, and its client may have opened later ones since")
            client.close()

    async def _wait(self) -> None:
        loop = asyncio.get_running_loop()
        comes = loop.create_future()
        loop.add_reader(self._listener, lambda: comes.done() or comes.set_result(None))
        try:
            await comes
        finally:
            loop.remove_reader(self._listener)


def _opening_seconds(client: socket.socket) -> Optional[float]:
    """For how long a new connection may have been open for its client before it was for this system: the time from this side's answer to the
    client's. None if the answer was sent again, which begins after a second. (Other systems than Linux don't tell.)"""
    if not sys.platform.startswith("linux"):
        return 0.0
    info = client.getsockopt(socket.IPPROTO_TCP, socket.TCP_INFO, INFO_SIZE)
    if len(info) < INFO_SIZE:
        return 0.0
    return None if COUNT.unpack_from(info, AGAIN_AT)[0] else COUNT.unpack_from(info, TRIP_AT)[0] / 1_000_000
