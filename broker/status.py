"""The status server: a page for people, the same as JSON, and metrics. It answers GET requests, one a connection."""

from __future__ import annotations

import asyncio
import pathlib
import socket
import time
from typing import Dict, Tuple

from broker.acceptor import Accepted, Work, accept
from broker.cluster import Cluster
from broker.report import Report
from broker.room import CutOff, Room
from broker.streams import close, taken, within
from broker.watch import Watch

PAGE = pathlib.Path(__file__).with_name("page.html")
# The oldest connection gives way to a further one, whatever it does.
MOST_CONNECTIONS = 64
MOST_HELD = 64 << 20
REQUEST_SECONDS = 10
UNREAD_SECONDS = 30
# An event is sent at a change, and else once in EVENT_SECONDS, since times and ends of logs go on.
LOOK_SECONDS, EVENT_SECONDS = 0.2, 1.0
# How much longer than it takes to make an event is the pause after it.
PAUSES = 4
TEXT, JSON = "text/plain; charset=utf-8", "application/json"
METRICS = "text/plain; version=0.0.4; charset=utf-8"
REASONS = {200: "OK", 400: "Bad Request", 404: "Not Found", 405: "Method Not Allowed"}
# The page loads nothing but its own events.
POLICY = "default-src 'none'; style-src 'unsafe-inline'; script-src 'unsafe-inline'; connect-src 'self'"


class Refused(Exception):
    """A request that isn't answered, by its HTTP status."""


class Status:
    def __init__(self, cluster: Cluster, watch: Watch) -> None:
        self.watch, self.report, self.room = watch, Report(cluster, watch), Room(MOST_HELD)
        # In the order in which they were accepted.
        self._open: Dict[asyncio.StreamWriter, None] = {}
        # One report is made at a time. The last event: of which revision it is, when it may be made anew, at a change or in any case, and its bytes.
        self._making = asyncio.Lock()
        self._event: Tuple[int, float, float, bytes] = (-1, 0.0, 0.0, b"")

    async def run(self, listener: socket.socket) -> None:
        """Serves for ever."""

        def prepare(it: Accepted) -> Work:
            return self._serve(it.socket)

        # (The oldest ones may be at their end.)
        await accept(listener, 2 * MOST_CONNECTIONS, prepare)

    async def _serve(self, client: socket.socket) -> None:
        reader, writer = await asyncio.open_connection(sock=client)
        writer.transport.set_write_buffer_limits(high=0)
        self._open[writer] = None
        if len(self._open) > MOST_CONNECTIONS:
            oldest = next(iter(self._open))
            del self._open[oldest]
            oldest.transport.abort()
        try:
            await self._answer(await within(REQUEST_SECONDS, _path(reader)), writer)
        except Refused as why:
            status = why.args[0]
            await self._send(writer, _response(status, TEXT, f"{status} {REASONS[status]}\n".encode()))
        except (OSError, CutOff, asyncio.TimeoutError, asyncio.IncompleteReadError):
            pass
        finally:
            self._open.pop(writer, None)
            await close(writer)

    async def _answer(self, path: str, writer: asyncio.StreamWriter) -> None:
        if path == "/":
            await self._send(writer, _response(200, "text/html; charset=utf-8", PAGE.read_bytes()))
        elif path == "/groups":
            async with self._making:
                text = await self.report.groups()
            await self._send(writer, _response(200, JSON, f"{text}\n".encode()))
        elif path == "/metrics":
            await self._send(writer, _response(200, METRICS, self.report.metrics().encode()))
        elif path == "/events":
            await self._events(writer)
        else:
            raise Refused(404)

    async def _events(self, writer: asyncio.StreamWriter) -> None:
        """Server-sent events, until the reader goes away."""
        await self._send(writer, _head(200, {"Content-Type": "text/event-stream", "Cache-Control": "no-store"}))
        sent = b""
        while not writer.transport.is_closing():
            event = await self._current_event()
            if event is not sent:
                await self._send(writer, event)
                sent = event
            await asyncio.sleep(LOOK_SECONDS)

    async def _current_event(self) -> bytes:
        """What is known as an event. It is made once for all who watch, and takes a part of the time alone."""
        async with self._making:
            revision, at_change, at_least, event = self._event
            began = time.monotonic()
            if began >= (at_least if revision == self.watch.revision else at_change):
                revision = self.watch.revision
                text = await self.report.groups(is_for_page=True)
                event = b"data: " + text.replace("\n", " ").encode() + b"\n\n"
                now = time.monotonic()
                self._event = revision, now + PAUSES * (now - began), now + max(EVENT_SECONDS, PAUSES * (now - began)), event
            return event

    async def _send(self, writer: asyncio.StreamWriter, data: bytes) -> None:
        writer.write(data)
        size = writer.transport.get_write_buffer_size()
        if size:
            with self.room.held(writer, size):
                await taken(writer, UNREAD_SECONDS)


async def _path(reader: asyncio.StreamReader) -> str:
    """The path of a request, once its header has come."""
    try:
        header = await reader.readuntil(b"\r\n\r\n")
    except asyncio.LimitOverrunError:
        raise Refused(400) from None
    words = header.split(b"\r\n", 1)[0].decode("latin-1").split(" ")
    if len(words) != 3 or not words[2].startswith("HTTP/1."):
        raise Refused(400)
    if words[0] != "GET":
        raise Refused(405)
    return words[1].partition("?")[0]


def _head(status: int, fields: Dict[str, str]) -> bytes:
    fields = {**fields, "Content-Security-Policy": POLICY, "X-Content-Type-Options": "nosniff", "Connection": "close"}
    lines = [f"HTTP/1.1 {status} {REASONS[status]}", *(f"{name}: {value}" for name, value in fields.items())]
    return "".join(f"{line}\r\n" for line in (*lines, "")).encode()


def _response(status: int, kind: str, body: bytes) -> bytes:
    return _head(status, {"Content-Type": kind, "Content-Length": str(len(body)), "Cache-Control": "no-store"}) + body
