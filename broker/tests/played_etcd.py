"""An etcd that is played: keys, leases, transactions and watches of one node, as far as brokers use them, with faults as a test wants them."""

from __future__ import annotations

import asyncio
import base64
import contextlib
import json
from typing import Any, AsyncIterator, Callable, Dict, List, Tuple

from broker.etcd import Etcd
from broker.tests.support import HOST

Message = Dict[str, Any]
# What becomes of a request: it is done and answered, or done alone, or neither, or it is done once the test says so; or an error is answered.
DONE, DONE_ALONE, LOST, LATE = "done", "done alone", "lost", "late"
NO_LEASE = {"error": "requested lease not found", "message": "etcdserver: requested lease not found", "code": 5}
NO_SPACE = {"error": "mvcc: database space exceeded", "message": "etcdserver: mvcc: database space exceeded", "code": 8}
COMPACTED = {"error": "required revision has been compacted", "message": "etcdserver: mvcc: required revision has been compacted", "code": 11}
TOO_LONG = {"error": "context deadline exceeded", "message": "context deadline exceeded", "code": 4}


def text_of(data: Any) -> str:
    """In base64; or, of a request, all values of its transaction as they are."""
    if isinstance(data, dict):
        puts = (each.get("request_put", {}).get("value", "") for each in data.get("success", []))
        return " ".join(map(unpacked, puts))
    return base64.b64encode(data.encode() if isinstance(data, str) else data).decode()


def unpacked(text: str) -> str:
    return base64.b64decode(text).decode("latin-1")


class PlayedEtcd:
    def __init__(self) -> None:
        self.revision, self.leases = 1, 0
        # For how many seconds each lease was granted; 0 if it is over.
        self.seconds: Dict[str, str] = {}
        self.pairs: Dict[str, Message] = {}
        self.history: List[Message] = []
        # The revisions up to which it was to forget.
        self.compacted: List[int] = []
        self.changed = asyncio.Condition()
        # The requests that are late, and all that were done with what came of them.
        self.late: List[Tuple[str, Message]] = []
        self.done: List[Tuple[str, Message, Message]] = []
        # What becomes of a request, by its path and its fields.
        self.fate: Callable[[str, Message], Any] = lambda path, request: DONE
        # How long each answer takes, and how many watches were begun; and whether they bring nothing.
        self.seconds_each, self.watches, self.is_mute = 0.0, 0, False
        self._writers: List[asyncio.StreamWriter] = []

    # ---- what it has

    def values(self, prefix: str) -> Dict[str, str]:
        return {unpacked(pair["key"]): unpacked(pair.get("value", "")) for key, pair in sorted(self.pairs.items()) if key.startswith(prefix)}

    def put(self, key: str, value: str, lease: str = "0") -> None:
        """Both in base64."""
        self.revision += 1
        created = self.pairs.get(unpacked(key), {}).get("create_revision", str(self.revision))
        pair = {"key": key, "value": value, "lease": lease, "create_revision": created, "mod_revision": str(self.revision)}
        self.pairs[unpacked(key)] = pair
        self.history.append({"kv": pair})

    def delete(self, key: str) -> None:
        if self.pairs.pop(unpacked(key), None):
            self.revision += 1
            self.history.append({"type": "DELETE", "kv": {"key": key, "mod_revision": str(self.revision)}})

    # ---- requests

    async def do(self, path: str, request: Message) -> Message:
        """Does a request, and tells those that watch."""
        answer = self.answer(path, request)
        self.done.append((path, request, answer))
        async with self.changed:
            self.changed.notify_all()
        return answer

    async def do_late(self) -> List[Message]:
        """Does the requests that are late, each for a first or another time."""
        late, self.late = self.late, []
        return [await self.do(*each) for each in late]

    def answer(self, path: str, request: Message) -> Message:
        header = {"revision": str(self.revision)}
        if path == "kv/range":
            return {"header": header, **self.range(request)}
        if path == "kv/txn":
            return self.txn(request)
        if path == "lease/grant":
            self.leases += 1
            self.seconds[str(self.leases)] = request["TTL"]
            return {"header": header, "ID": str(self.leases), "TTL": request["TTL"]}
        if path == "lease/keepalive":
            return {"result": {"header": header, "ID": request["ID"], "TTL": self.seconds.get(request["ID"], "0")}}
        if path == "kv/compaction":
            self.compacted.append(int(request["revision"]))
            return {"header": header}
        if self.seconds.get(request["ID"], "0") == "0":
            return NO_LEASE
        self.end_lease(request["ID"])
        return {"header": header}

    def end_lease(self, lease: str) -> None:
        self.seconds[lease] = "0"
        for pair in [pair for pair in self.pairs.values() if pair["lease"] == lease]:
            self.delete(pair["key"])

    def range(self, request: Message) -> Message:
        first = unpacked(request["key"])
        end = unpacked(request["range_end"]) if "range_end" in request else f"{first}\0"
        since = int(request.get("min_mod_revision", 0))
        found = [self.pairs[key] for key in sorted(self.pairs) if first <= key < end and int(self.pairs[key]["mod_revision"]) >= since]
        limit = int(request.get("limit", 0)) or len(found)
        return {"kvs": found[:limit], "more": len(found) > limit}

    def txn(self, request: Message) -> Message:
        def holds(compare: Message) -> bool:
            field = {"CREATE": "create_revision", "MOD": "mod_revision"}[compare["target"]]
            found = self.range(compare)["kvs"] or [{}]
            return all(pair.get(field, "0") == compare[field] for pair in found)

        succeeded = all(map(holds, request["compare"]))
        operations = request["success" if succeeded else "failure"]
        leases = {each.get("request_put", {}).get("lease", "0") for each in operations}
        if any(self.seconds.get(lease, "0") == "0" for lease in leases - {"0"}):
            return NO_LEASE
        responses = [self.operate(operation) for operation in operations]
        return {"header": {"revision": str(self.revision)}, "succeeded": succeeded, "responses": responses}

    def operate(self, operation: Message) -> Message:
        (kind, fields), = operation.items()
        if kind == "request_put":
            self.put(fields["key"], fields["value"], fields["lease"])
        if kind == "request_delete_range":
            for pair in self.range(fields)["kvs"]:
                self.delete(pair["key"])
        return {"response_range": self.range(fields)} if kind == "request_range" else {}

    # ---- over HTTP

    async def serve(self, reader: asyncio.StreamReader, writer: asyncio.StreamWriter) -> None:
        self._writers.append(writer)
        with contextlib.suppress(asyncio.IncompleteReadError, asyncio.CancelledError, OSError):
            while await self._serve_one(reader, writer):
                pass
        writer.close()

    async def _serve_one(self, reader: asyncio.StreamReader, writer: asyncio.StreamWriter) -> bool:
        head = (await reader.readuntil(b"\r\n\r\n")).decode()
        size = next(int(line.split(":")[1]) for line in head.split("\r\n") if line.lower().startswith("content-length"))
        path, request = head.split(" ")[1][len("/v3/") :], json.loads(await reader.readexactly(size))
        if path == "watch":
            await self._watch(request["create_request"], writer)
            return False
        await asyncio.sleep(self.seconds_each)
        fate = self.fate(path, request)
        answer = await self.do(path, request) if fate in (DONE, DONE_ALONE) else fate
        if fate == LATE:
            self.late.append((path, request))
        if fate in (DONE_ALONE, LOST, LATE):
            return False
        status, body = ("429 Too Many Requests" if "error" in answer else "200 OK"), answer
        data = json.dumps(body).encode()
        writer.write(f"HTTP/1.1 {status}\r\nContent-Length: {len(data)}\r\n\r\n".encode() + data)
        return True

    async def _watch(self, request: Message, writer: asyncio.StreamWriter) -> None:
        self.watches += 1
        first, end, told = unpacked(request["key"]), unpacked(request["range_end"]), 0
        writer.write(b"HTTP/1.1 200 OK\r\nTransfer-Encoding: chunked\r\n\r\n")
        self._chunk(writer, {"result": {"created": True}})
        while not writer.is_closing():
            for event in self.history[told:]:
                is_new = int(event["kv"]["mod_revision"]) >= int(request["start_revision"])
                if is_new and first <= unpacked(event["kv"]["key"]) < end:
                    self._chunk(writer, {"result": {"events": [event]}})
            told = len(self.history)
            async with self.changed:
                await self.changed.wait_for(lambda: len(self.history) > told and not self.is_mute)

    @staticmethod
    def _chunk(writer: asyncio.StreamWriter, message: Message) -> None:
        data = json.dumps(message).encode() + b"\n"
        writer.write(f"{len(data):x}\r\n".encode() + data + b"\r\n")

    def close(self) -> None:
        for writer in self._writers:
            writer.close()


@contextlib.asynccontextmanager
async def played_etcd() -> AsyncIterator[Tuple[PlayedEtcd, Etcd]]:
    """It, and a client of it, until the block ends."""
    played = PlayedEtcd()
    server = await asyncio.start_server(played.serve, HOST, 0)
    etcd = Etcd([server.sockets[0].getsockname()[:2]])
    try:
        yield played, etcd
    finally:
        etcd.close()
        played.close()
        server.close()
