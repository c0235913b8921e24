"""A client of etcd, over the JSON gateway that etcd has besides gRPC: POST requests to `/v3/..`, keys and values in base64, numbers of 64
bits as texts.

Whatever has no answer may have been done, or may be done later. So all that is written here is written by transactions that may be sent
again: to another node of etcd at once, and later by whoever called.
"""

from __future__ import annotations

import asyncio
import base64
import contextlib
import json
from typing import Any, AsyncIterator, Dict, List, NamedTuple, Sequence, Tuple

from broker.streams import first_done, within
from broker.trouble import Trouble

# How long a node may take to connect, and to answer before another one is asked as well. So many times at least one is asked.
OPEN_SECONDS, ANSWER_SECONDS, TRIES = 1.0, 2.0, 3
LIMIT = 1 << 20
# Codes of gRPC: canceled, deadline exceeded, unavailable. A node that answers so has no leader, or lost it on the way: nobody knows what
# became of the request.
NO_ANSWERS = (1, 4, 14)
# A lease isn't there, for one; the quota is reached, for one; and a revision is compacted already.
NOT_FOUND, RESOURCE_EXHAUSTED, OUT_OF_RANGE = 5, 8, 11
Message = Dict[str, Any]
Address = Tuple[str, int]


class Unanswered(Exception):
    """No node of etcd has answered. What was asked may have been done, or may be done later."""


class Refused(Exception):
    """etcd has answered with an error."""

    def __init__(self, code: int, message: str) -> None:
        super().__init__(message)
        self.code = code


class NoRoom(Refused):
    """The quota of etcd's data is reached. (It says so of a transaction that it did, too, if that reached the quota.)"""


class _Broken(Exception):
    """A connection has ended, or what came on it is no answer."""


class KeyValue(NamedTuple):
    key: str
    value: bytes
    created: int
    modified: int
    lease: int


class Range(NamedTuple):
    """The keys of a range in their order, as they were at a revision, and whether there are more."""

    revision: int
    pairs: List[KeyValue]
    has_more: bool


class Event(NamedTuple):
    """A key was written, or deleted."""

    pair: KeyValue
    is_deleted: bool


# ---- parts of requests


def text(key: str) -> str:
    return base64.b64encode(key.encode()).decode()


def put(key: str, value: bytes, lease: int = 0) -> Message:
    return {"request_put": {"key": text(key), "value": base64.b64encode(value).decode(), "lease": str(lease)}}


def get(key: str) -> Message:
    return {"request_range": {"key": text(key)}}


def delete(key: str) -> Message:
    return {"request_delete_range": {"key": text(key)}}


def delete_range(key: str, end: str) -> Message:
    return {"request_delete_range": {"key": text(key), "range_end": text(end)}}


def created_at(key: str, revision: int) -> Message:
    """A comparison: the key is there as it was created at a revision, or isn't there, for 0."""
    return {"key": text(key), "target": "CREATE", "result": "EQUAL", "create_revision": str(revision)}


def modified_at(key: str, revision: int) -> Message:
    """A comparison: the key is there as it was written at a revision, or isn't there, for 0."""
    return {"key": text(key), "target": "MOD", "result": "EQUAL", "mod_revision": str(revision)}


def nothing_in(key: str, end: str) -> Message:
    """A comparison: no key is there from one on, and before another one."""
    return {**created_at(key, 0), "range_end": text(end)}


def pair_of(found: Message) -> KeyValue:
    key, value = (base64.b64decode(found.get(name, "")) for name in ("key", "value"))
    return KeyValue(key.decode(), value, *(int(found.get(name, 0)) for name in ("create_revision", "mod_revision", "lease")))


# ---- the client


class Txn(NamedTuple):
    """What came of a transaction: whether its comparisons held, at which revision, and what its last request found."""

    succeeded: bool
    revision: int
    pairs: List[KeyValue]


class Etcd:
    """The nodes of one etcd. Each request goes to the node that answered last, and if that has no answer to each other one as well: the first
    answer counts. Says when none has one, and when one has one again."""

    def __init__(self, addresses: Sequence[Address], keeps_history: bool = False) -> None:
        self._keeps_history = keeps_history
        self._nodes = [_Node(*address) for address in addresses]
        self._first = self._nodes[0]
        self.unanswered = Trouble(f"{self} has no answer", f"{self} answers again")
        self.full = Trouble(f"{self} has no room left, and what isn't written isn't answered", f"{self} has room again")

    def __str__(self) -> str:
        return "etcd " + ",".join(map(str, self._nodes))

    async def call(self, path: str, request: Message, seconds: float = ANSWER_SECONDS) -> Message:
        """The answer to a request, which may have been sent to several nodes. After so many seconds without one the next node is asked too. Raises
        Unanswered, and Refused."""
        data, at = json.dumps(request).encode(), self._nodes.index(self._first)
        nodes = self._nodes[at:] + self._nodes[:at]
        asked: Dict[asyncio.Future[Message], _Node] = {}
        whys = []
        try:
            for number in range(max(TRIES, len(nodes))):
                if number >= len(nodes) and not asked:
                    break
                node = nodes[number % len(nodes)]
                asked[asyncio.ensure_future(node.call(path, data))] = node
                await first_done(asked, seconds)
                for task in [each for each in asked if each.done()]:
                    tried = asked.pop(task)
                    try:
                        answer = task.result()
                    except (OSError, asyncio.TimeoutError, _Broken) as why:
                        whys.append(f"{tried}: {str(why) or 'it takes no connection'}")
                        continue
                    self._first = tried
                    self.unanswered.is_well()
                    return answer
        finally:
            for task in asked:
                task.cancel()
        whys += [f"{node}: no answer" for node in asked.values()]
        self.unanswered.is_there(whys[0])
        raise Unanswered(whys[0])

    async def range(self, key: str, end: str, limit: int = 0, since: int = 0) -> Range:
        """The keys from one on, and before another one, as they are now; of those alone that were written at a revision or later."""
        answer = await self.call("kv/range", {"key": text(key), "range_end": text(end), "limit": str(limit), "min_mod_revision": str(since)})
        pairs = [pair_of(each) for each in answer.get("kvs", [])]
        return Range(int(answer["header"]["revision"]), pairs, bool(answer.get("more")))

    async def txn(self, compare: List[Message], success: List[Message], failure: Sequence[Message] = ()) -> Txn:
        """A transaction. It may be done twice, so its comparisons have to fail if it was done once."""
        try:
            answer = await self.call("kv/txn", {"compare": compare, "success": success, "failure": [*failure]})
        except NoRoom as why:
            self.full.is_there(str(why))
            raise
        if any("request_put" in each for each in success):
            self.full.is_well()
        responses = answer.get("responses") or [{}]
        pairs = [pair_of(each) for each in responses[-1].get("response_range", {}).get("kvs", [])]
        return Txn(bool(answer.get("succeeded")), int(answer["header"]["revision"]), pairs)

    async def compact(self, revision: int) -> None:
        """Has etcd forget what all its keys were before a revision, unless something else sees to that."""
        if self._keeps_history:
            return
        try:
            await self.call("kv/compaction", {"revision": str(revision)})
        except Refused as why:
            # (It has forgotten more already.)
            if why.code != OUT_OF_RANGE:
                raise

    @contextlib.asynccontextmanager
    async def watch(self, key: str, end: str, revision: int) -> AsyncIterator[_Stream]:
        """What happens to a range of keys from a revision on."""
        wanted = {"key": text(key), "range_end": text(end), "start_revision": str(revision), "fragment": True}
        try:
            connection = await within(OPEN_SECONDS, _Connection.open(self._first))
        except (OSError, asyncio.TimeoutError) as why:
            raise Unanswered(f"{self._first}: {why}") from None
        try:
            await within(ANSWER_SECONDS, connection.post("watch", json.dumps({"create_request": wanted}).encode()))
            yield _Stream(connection)
        except (OSError, EOFError, asyncio.TimeoutError) as why:
            raise Unanswered(f"a watch of {self._first} ended: {why!r}") from None
        finally:
            connection.close()

    def turn(self) -> None:
        """Goes on with another node."""
        self._first = self._nodes[(self._nodes.index(self._first) + 1) % len(self._nodes)]

    def close(self) -> None:
        for node in self._nodes:
            node.close()


class _Stream:
    """Answers that come one after the other."""

    def __init__(self, connection: _Connection) -> None:
        self._lines = connection.lines()

    async def events(self) -> List[Event]:
        """The next events, or none. Raises Unanswered at the end, and if etcd ends it: what was to be told is compacted, for instance."""
        try:
            message = json.loads(await self._lines.__anext__())
        except (StopAsyncIteration, EOFError, OSError, ValueError, _Broken) as why:
            raise Unanswered(f"a watch ended: {why!r}") from None
        result = message.get("result", {})
        if "error" in message or result.get("canceled"):
            raise Unanswered(f"a watch was ended: {message}")
        return [Event(pair_of(each["kv"]), each.get("type") == "DELETE") for each in result.get("events", [])]


class _Node:
    """A node of etcd, and the connections to it on which nothing is under way."""

    def __init__(self, host: str, port: int) -> None:
        self.host, self.port = host, port
        self._idle: List[_Connection] = []

    def __str__(self) -> str:
        return f"{self.host}:{self.port}"

    async def call(self, path: str, data: bytes) -> Message:
        return _answered(*await self._asked(path, data))

    async def _asked(self, path: str, data: bytes) -> Tuple[int, Message]:
        """A request's answer with its status. An idle connection may have ended meanwhile, and then another one is tried."""
        while self._idle:
            with contextlib.suppress(OSError, _Broken):
                return await self._ask(self._idle.pop(), path, data)
        return await self._ask(await within(OPEN_SECONDS, _Connection.open(self)), path, data)

    async def _ask(self, connection: _Connection, path: str, data: bytes) -> Tuple[int, Message]:
        try:
            status = await connection.post(path, data)
            answer = json.loads(b"".join([line async for line in connection.lines()]))
        except (ValueError, LookupError, EOFError, asyncio.LimitOverrunError) as why:
            connection.close()
            raise _Broken(f"no answer of etcd 3.4 or later: {why}") from None
        except BaseException:
            connection.close()
            raise
        self._idle.append(connection)
        return status, answer

    def close(self) -> None:
        for connection in self._idle:
            connection.close()


def _answered(status: int, answer: Message) -> Message:
    # (A stream has its messages, and its errors, in fields of their own.)
    error = answer.get("error")
    if status == 200 and error is None:
        result: Message = answer.get("result", answer)
        return result
    fields = error if isinstance(error, dict) else answer
    code, message = int(fields.get("code", fields.get("grpc_code", 0))), str(fields.get("message", answer))
    if code in NO_ANSWERS:
        raise _Broken(message)
    raise NoRoom(code, message) if code == RESOURCE_EXHAUSTED and "space" in message else Refused(code, message)


class _Connection:
    """One of HTTP/1.1, with a request under way at a time."""

    def __init__(self, node: _Node, reader: asyncio.StreamReader, writer: asyncio.StreamWriter) -> None:
        self._node, self._reader, self._writer = node, reader, writer
        self._fields: Dict[str, str] = {}

    @staticmethod
    async def open(node: _Node) -> _Connection:
        return _Connection(node, *await asyncio.open_connection(node.host, node.port, limit=LIMIT))

    async def post(self, path: str, data: bytes) -> int:
        """Sends a request, and gives its answer's status. The answer's body is to be read next."""
        head = f"POST /v3/{path} HTTP/1.1\r\nHost: {self._node}\r\nContent-Type: application/json\r\nContent-Length: {len(data)}\r\n\r\n"
        self._writer.write(head.encode() + data)
        lines = (await self._reader.readuntil(b"\r\n\r\n")).decode("latin-1").split("\r\n")
        fields = (line.partition(":") for line in lines[1:])
        self._fields = {name.lower(): value.strip() for name, _, value in fields}
        return int(lines[0].split(" ")[1])

    async def lines(self) -> AsyncIterator[bytes]:
        """The lines of the answer's body, as they come; the last one may have no end."""
        left: List[bytes] = []
        async for piece in self._pieces():
            first, *others = piece.split(b"\n")
            left.append(first)
            for other in others:
                yield b"".join(left)
                left = [other]
        if any(left):
            yield b"".join(left)

    async def _pieces(self) -> AsyncIterator[bytes]:
        if self._fields.get("transfer-encoding") != "chunked":
            yield await self._reader.readexactly(int(self._fields["content-length"]))
            return
        while True:
            size = int((await self._reader.readuntil(b"\r\n")).split(b";")[0], 16)
            if not size:
                break
            yield (await self._reader.readexactly(size + 2))[:-2]
        while await self._reader.readuntil(b"\r\n") != b"\r\n":
            pass

    def close(self) -> None:
        self._writer.transport.abort()
