"""Between brokers and etcd, and between clients and brokers: what passes, and what becomes of it.

A request may be done long after its sender gave it up, or twice, or never, as TCP and a node of etcd that is stopped can bring it about. A frame of a
client comes once, and may be late over a connection that the client has left.
"""

import asyncio
import base64
import collections
import contextlib
import json
import random
from typing import Any, Callable, Counter, Dict, List, NamedTuple, Set, Tuple

from broker import batches
from broker.members import BROKERS, NUMBERS
from broker.part import LEADERS
from broker.settings import KEY
from broker.snapshots import LAST, PIECES
from broker.streams import within
from broker.trials.log import COMMIT, HEARTBEAT
from broker.trials.relay import head_of, read_frame
from clients.stand import HOST

# The kinds of requests that brokers make of etcd to change something, by their path or by what they do to which keys.
PATHS = {"lease/grant": "grant", "lease/keepalive": "keepalive", "lease/revoke": "revoke", "kv/compaction": "compact"}
PUT, DELETE = "request_put", "request_delete_range"
KEYS = {
    (PUT, KEY): "settings",
    (PUT, NUMBERS): "number",
    (PUT, BROKERS): "show",
    (PUT, LEADERS): "win",
    (DELETE, LEADERS): "give up",
    (PUT, batches.LOGS): "append",
    (DELETE, batches.LOGS): "cut",
    (PUT, PIECES): "piece",
    (PUT, LAST): "name",
    (DELETE, PIECES): "tidy",
}
KINDS = (*PATHS.values(), *KEYS.values())
# What becomes of a request or a frame: it passes; or passes later alone; or passes, and once more later; or never does, and there is no answer; or
# its connection is closed.
PASSES, LATE, TWICE, LOST, REFUSED = "passes", "late", "twice", "lost", "refused"
# How late.
LEAST_SECONDS, MOST_SECONDS = 0.5, 60.0
# Of so many requests, or frames, of a soak each has one of these fates.
SOAK = {LATE: 400, TWICE: 60, LOST: 400}
SOAK_FRAMES = {LATE: 300, LOST: 600}


class Fate(NamedTuple):
    """`seconds` is how late it is; or it is done right after an event, if that comes at all."""

    what: str
    seconds: float = 0.0
    behind: Any = None


def dice(numbers: random.Random, odds: Dict[str, int]) -> Fate:
    """One of these fates, or none of them, in a soak."""
    for what, count in odds.items():
        if numbers.randrange(count) == 0:
            return Fate(what, numbers.uniform(LEAST_SECONDS, MOST_SECONDS))
    return Fate(PASSES)


def kind_of(path: str, body: bytes) -> Tuple[str, str]:
    """What a request does, and the first key that it does that to. Nothing, of one that changes nothing."""
    if path in PATHS:
        return PATHS[path], ""
    with contextlib.suppress(ValueError, LookupError):
        operation, fields = next(iter(json.loads(body)["success"][0].items()))
        key = base64.b64decode(fields["key"]).decode()
        return next(kind for (does, prefix), kind in KEYS.items() if does == operation and key.startswith(prefix)), key
    return "", ""


class Late:
    """What is done later. It counts how much was."""

    def __init__(self) -> None:
        self.tasks: Set["asyncio.Task[Any]"] = set()
        self.begun: Counter[str] = collections.Counter()
        self.done: Counter[str] = collections.Counter()
        # The frames of clients that came late, or may have.
        self.frames: List[bytes] = []

    def begin(self, name: str, work: Any) -> None:
        self.begun[name] += 1
        task = asyncio.ensure_future(self.run(name, work))
        self.tasks.add(task)
        task.add_done_callback(self.tasks.discard)

    async def run(self, name: str, work: Any) -> None:
        with contextlib.suppress(OSError, asyncio.IncompleteReadError):
            await work
            self.done[name] += 1

    async def all(self) -> None:
        """Waits until all is done that is to be done later by now."""
        if self.tasks:
            await asyncio.wait({*self.tasks})


class Wire:
    """Passes requests on between a broker and an etcd. While it is cut nothing passes, and nothing is closed. `fate` says what becomes of a request,
    by its kind and its key; `passed` hears of each that is done."""

    def __init__(self, target: int, late: Late) -> None:
        self.target, self.port, self.whole, self.late = target, 0, asyncio.Event(), late
        self.whole.set()
        self.fate: Callable[[str, str], Fate] = lambda kind, key: Fate(PASSES)
        self.passed: Callable[[str, str], None] = lambda kind, key: None

    async def listen(self) -> None:
        server = await asyncio.start_server(self.accept, HOST, 0)
        self.port = server.sockets[0].getsockname()[1]

    async def accept(self, reader: asyncio.StreamReader, writer: asyncio.StreamWriter) -> None:
        # (In Python 3.11 what serves a connection may not be cancelled, so it is told to end in another way.)
        with contextlib.suppress(OSError, asyncio.CancelledError):
            await self.whole.wait()
            far_reader, far = await asyncio.open_connection(HOST, self.target)
            await asyncio.gather(self.pass_requests(reader, far), self.pass_answers(far_reader, writer))
        writer.close()

    async def pass_requests(self, reader: asyncio.StreamReader, far: asyncio.StreamWriter) -> None:
        with contextlib.suppress(OSError, asyncio.IncompleteReadError):
            while True:
                head = await reader.readuntil(b"\r\n\r\n")
                size = next(int(line.split(b":")[1]) for line in head.lower().split(b"\r\n") if line.startswith(b"content-length"))
                body = await reader.readexactly(size)
                await self.whole.wait()
                kind, key = kind_of(head.split(b" ")[1].decode()[len("/v3/") :], body)
                fate = self.fate(kind, key)
                if fate.what == REFUSED:
                    break
                if fate.what in (LATE, TWICE):
                    self.late.begin(kind, self.do_later(kind, key, head + body, fate))
                if fate.what in (PASSES, TWICE):
                    far.write(head + body)
                    await far.drain()
                    self.passed(kind, key)
        far.close()

    async def pass_answers(self, reader: asyncio.StreamReader, near: asyncio.StreamWriter) -> None:
        with contextlib.suppress(OSError):
            while data := await reader.read(1 << 16):
                await self.whole.wait()
                near.write(data)
                await near.drain()
        near.close()

    async def do_later(self, kind: str, key: str, request: bytes, fate: Fate) -> None:
        """Over a connection of its own, whatever has become of the one over which it came."""
        if fate.behind:
            with contextlib.suppress(asyncio.TimeoutError):
                await within(MOST_SECONDS, fate.behind.wait())
        await asyncio.sleep(fate.seconds)
        reader, far = await asyncio.open_connection(HOST, self.target)
        far.write(request)
        await reader.readuntil(b"\r\n\r\n")
        self.passed(kind, key)
        far.close()


class Gate:
    """Passes frames on between clients and a broker. Of a heartbeat or a commit that is late, the client hears that its connection is closed; the
    broker gets it over that connection later."""

    def __init__(self, target: int, late: Late) -> None:
        self.target, self.port, self.late = target, 0, late
        self.open: Set[Any] = set()
        self.fate: Callable[[], Fate] = lambda: Fate(PASSES)

    async def listen(self) -> None:
        server = await asyncio.start_server(self.accept, HOST, 0)
        self.port = server.sockets[0].getsockname()[1]

    async def accept(self, reader: asyncio.StreamReader, writer: asyncio.StreamWriter) -> None:
        # (Nobody else holds on to what serves a connection.)
        task = asyncio.current_task()
        self.open.add(task)
        with contextlib.suppress(OSError, asyncio.CancelledError):
            far_reader, far = await asyncio.open_connection(HOST, self.target)
            await asyncio.gather(self.pass_frames(reader, writer, far), self.pass_replies(far_reader, writer))
        writer.close()
        self.open.discard(task)

    async def pass_frames(self, reader: asyncio.StreamReader, near: asyncio.StreamWriter, far: asyncio.StreamWriter) -> None:
        """Until the client ends. What it had under way is answered."""
        with contextlib.suppress(OSError):
            await self.pass_each(reader, near, far)
        far.close()

    async def pass_each(self, reader: asyncio.StreamReader, near: asyncio.StreamWriter, far: asyncio.StreamWriter) -> None:
        while frame := await read_frame(reader):
            fate = self.fate() if head_of(frame)[0] in (HEARTBEAT, COMMIT) else Fate(PASSES)
            if fate.what == PASSES:
                far.write(frame)
                await far.drain()
                continue
            near.transport.abort()
            if fate.what == LATE:
                name = "heartbeat" if head_of(frame)[0] == HEARTBEAT else "commit"
                self.late.frames.append(frame)
                self.late.begin(name, asyncio.sleep(fate.seconds))
                await asyncio.sleep(fate.seconds)
                far.write(frame)
                await asyncio.sleep(1)
            return
        far.write_eof()
        await asyncio.sleep(1)

    @staticmethod
    async def pass_replies(reader: asyncio.StreamReader, near: asyncio.StreamWriter) -> None:
        with contextlib.suppress(OSError):
            while data := await reader.read(1 << 16):
                if not near.is_closing():
                    near.write(data)
                    await near.drain()
        near.close()


def counted(late: Late) -> str:
    """What was done late, in words."""
    return ", ".join(f"{count} {kind}" for kind, count in sorted(late.done.items())) or "nothing"
