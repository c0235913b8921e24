"""The status server over loopback."""

from __future__ import annotations

import asyncio
import contextlib
import json
import re
import unittest
from typing import Any, AsyncIterator, Dict, Tuple

from broker.acceptor import listen
from broker.status import Status
from broker.tests.support import HOST, SECONDS
from broker.tests.test_groups import REBALANCE, Conversation

Answer = Tuple[str, Dict[str, str], bytes]


@contextlib.asynccontextmanager
async def status(it: Conversation) -> AsyncIterator[int]:
    """The port of a status server that runs until the block ends."""
    with listen(HOST, 0) as listener:
        task = asyncio.ensure_future(Status(it.cluster, it.watch).run(listener))
        try:
            yield listener.getsockname()[1]
        finally:
            task.cancel()
            await asyncio.gather(task, return_exceptions=True)


async def ask(port: int, request: bytes) -> Answer:
    """The first line, the fields and the body of the answer."""
    reader, writer = await asyncio.open_connection(HOST, port)
    writer.write(request)
    answer = await asyncio.wait_for(reader.read(), SECONDS)
    writer.close()
    head, _, body = answer.partition(b"\r\n\r\n")
    first, *fields = head.decode().split("\r\n")
    return first, dict(field.split(": ", 1) for field in fields), body


async def get(port: int, path: str) -> Answer:
    return await ask(port, f"GET {path} HTTP/1.1\r\nHost: x\r\n\r\n".encode())


class TheStatus(unittest.IsolatedAsyncioTestCase):
    async def test_groups_after_a_rebalance(self) -> None:
        it = Conversation()
        it.rebalance()
        async with status(it) as port:
            first, fields, body = await get(port, "/groups")
        known = json.loads(body)
        self.assertEqual((first, fields["Content-Type"], len(body)), ("HTTP/1.1 200 OK", "application/json", int(fields["Content-Length"])))
        self.assertEqual([(each["seconds_ago"], each["line"]) for each in known["lines"]], [*zip((11, 5, 1, 0.5, 0, 0), REBALANCE)])
        held = {member["short_id"]: (member["epoch"], member["held"]) for member in known["groups"][0]["members"]}
        self.assertEqual(held, {"000001": (2, {"orders": [[0, 0]]}), "000002": (2, {"orders": [[1, 1]]})})

    async def test_metrics_after_a_rebalance(self) -> None:
        it = Conversation()
        it.rebalance()
        async with status(it) as port:
            first, fields, body = await get(port, "/metrics")
        self.assertEqual((first, fields["Content-Type"]), ("HTTP/1.1 200 OK", "text/plain; version=0.0.4; charset=utf-8"))
        self.assertIn(b'broker_heartbeats_total{code="0",error="NONE"} 6\n', body)

    async def test_the_page_stands_alone(self) -> None:
        async with status(Conversation()) as port:
            first, fields, body = await get(port, "/?x=y")
        links = re.findall(rb"(?:src|href)=\"([^\"]*)\"|(@import|url\(|https?://)", body)
        self.assertEqual((first, fields["Content-Type"], links), ("HTTP/1.1 200 OK", "text/html; charset=utf-8", [(b"groups", b""), (b"metrics", b"")]))

    async def test_events_follow_what_happens(self) -> None:
        it = Conversation()
        async with status(it) as port:
            reader, writer = await asyncio.open_connection(HOST, port)
            writer.write(b"GET /events HTTP/1.1\r\n\r\n")
            head = await asyncio.wait_for(reader.readuntil(b"\r\n\r\n"), SECONDS)
            events = [await self.event(reader)]
            it.rebalance()
            while not events[-1]["lines"]:
                events.append(await self.event(reader))
            writer.close()
        self.assertIn(b"Content-Type: text/event-stream\r\n", head)
        self.assertEqual((events[0]["lines"], [each["line"] for each in events[-1]["lines"]]), ([], REBALANCE))

    @staticmethod
    async def event(reader: asyncio.StreamReader) -> Dict[str, Any]:
        text = await asyncio.wait_for(reader.readuntil(b"\n\n"), SECONDS)
        found: Dict[str, Any] = json.loads(text[len(b"data: ") :])
        return found

    async def test_the_oldest_connection_gives_way(self) -> None:
        async with status(Conversation()) as port:
            watchers = [await asyncio.open_connection(HOST, port) for _ in range(70)]
            for _, writer in watchers[:64]:
                writer.write(b"GET /events HTTP/1.1\r\n\r\n")
            first, _, _ = await get(port, "/metrics")
            ended = await asyncio.wait_for(watchers[0][0].read(), SECONDS)
            for _, writer in watchers:
                writer.close()
        self.assertEqual((first, ended == b"" or ended.startswith(b"HTTP/1.1 200 OK")), ("HTTP/1.1 200 OK", True))

    async def test_other_requests_are_refused(self) -> None:
        rows = [
            (b"GET /other HTTP/1.1\r\n\r\n", "HTTP/1.1 404 Not Found"),
            (b"POST /groups HTTP/1.1\r\n\r\n", "HTTP/1.1 405 Method Not Allowed"),
            (b"GET /groups\r\n\r\n", "HTTP/1.1 400 Bad Request"),
            (b"\x00\x00\x00\x0a\r\n\r\n", "HTTP/1.1 400 Bad Request"),
            (b"x" * 70_000 + b"\r\n\r\n", "HTTP/1.1 400 Bad Request"),
        ]
        async with status(Conversation()) as port:
            found = [(request, (await ask(port, request))[0]) for request, _ in rows]
        self.assertEqual(found, rows)
