"""Bounds on how long a stream may take."""

from __future__ import annotations

import asyncio
import contextlib
import fcntl
import struct
import termios
from typing import Any, Awaitable, Iterable, Tuple, TypeVar

Result = TypeVar("Result")
CLOSE_SECONDS = 60
AGAIN_SECONDS = 0.2


async def first_done(tasks: Iterable[asyncio.Future[Any]], seconds: float) -> None:
    """Waits until one of the tasks is done, at most so long. What has come while this process itself was stopped counts: when the time is
    over, it looks once more."""
    waiting = {*tasks}
    done, _ = await asyncio.wait(waiting, timeout=seconds, return_when=asyncio.FIRST_COMPLETED)
    if not done:
        await asyncio.wait(waiting, timeout=AGAIN_SECONDS, return_when=asyncio.FIRST_COMPLETED)


async def within(seconds: float, work: Awaitable[Result]) -> Result:
    """What the work gives, or asyncio.TimeoutError. (Before Python 3.12 `asyncio.wait_for` can lose a cancellation that comes as the work
    ends.)"""
    task = asyncio.ensure_future(work)
    try:
        await first_done([task], seconds)
        if task.done():
            return task.result()
    finally:
        task.cancel()
    raise asyncio.TimeoutError


async def taken(writer: asyncio.StreamWriter, seconds: float) -> None:
    """Waits until the other side has taken what was written, or raises asyncio.TimeoutError if it takes no byte for so long."""
    if not writer.transport.get_write_buffer_size():
        return
    left = _left(writer)
    while left[0]:
        try:
            await within(seconds, writer.drain())
        except asyncio.TimeoutError:
            if _left(writer) >= left:
                raise
        left = _left(writer)


def _left(writer: asyncio.StreamWriter) -> Tuple[int, int]:
    """How many bytes wait in this process, and in the system. (It asks for more only once much of its own is gone.)"""
    waiting = writer.transport.get_write_buffer_size()
    connection = writer.get_extra_info("socket")
    try:
        return waiting, struct.unpack("i", fcntl.ioctl(connection.fileno(), termios.TIOCOUTQ, bytes(4)))[0]
    except (OSError, ValueError):
        return waiting, 0


async def close(writer: asyncio.StreamWriter) -> None:
    """Closes after what was written. Bytes that the other side doesn't take are given up after a while, and at a cancellation."""
    writer.close()
    try:
        with contextlib.suppress(OSError, asyncio.TimeoutError):
            await within(CLOSE_SECONDS, writer.wait_closed())
    finally:
        writer.transport.abort()
