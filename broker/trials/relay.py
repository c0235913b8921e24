"""Stands before brokers: passes frames on, records them, and loses or delays some on demand.

usage: relay.py --record FILE --control PORT [--serial] [--fetches] PORT:TARGET..

Each PORT:TARGET listens on a port of 127.0.0.1, and opens a connection to port TARGET there for each connection that comes, in their order.

FILE gets a line for each event: seconds, number of the connection, and what happened:

    open TARGET    a connection
    > HEX          a request, as it goes on
    < HEX          a reply, as it came
    end near       the connection's end by who opened it, or by a cut
    end far        by who was connected to

The frames of Fetch are passed on and not recorded, unless `--fetches` is given. Metadata and FindCoordinator name the brokers' ports to
clients; so that their connections come through here, TARGET is replaced by PORT in what a broker replies.

With `--serial` one request at a time is under way, but for Fetch, so that the record's order is the order in which all was done.

The control port takes lines, and answers each with one:

    cut CLIENT now              ends the connections over which the client sent heartbeats or commits
    cut CLIENT before|after     its next heartbeat is lost and the connection ends; or the heartbeat's reply
    cut CLIENT after-commit     the reply to its next commit
    cut-all                     ends all connections
    hold CLIENT heartbeat|commit SECONDS   its next one goes on so much later, and what comes after it on its connection too
    hold-reply CLIENT heartbeat|commit SECONDS   the same for the reply to its next one
"""

import argparse
import asyncio
import collections
import contextlib
import struct
import time
from typing import Deque, Dict, Set, TextIO, Tuple

HOST = "127.0.0.1"
FETCH, COMMIT, HEARTBEAT = 1, 8, 68
KINDS = {"heartbeat": HEARTBEAT, "commit": COMMIT}
LONGEST = 16 << 20
# How long replies may take that are under way when a client ends its connection.
LAST_REPLIES_SECONDS = 2
LOST = float("inf")
Side = Tuple[asyncio.StreamReader, asyncio.StreamWriter]


async def read_frame(reader: asyncio.StreamReader) -> bytes:
    """A whole frame; no bytes if the stream ends."""
    try:
        size = await reader.readexactly(4)
        count = struct.unpack(">i", size)[0]
        return size + await reader.readexactly(count) if 0 < count <= LONGEST else b""
    except (asyncio.IncompleteReadError, ConnectionError):
        return b""


def head_of(frame: bytes) -> Tuple[int, str]:
    """The API key and the client id of a request."""
    key, length = struct.unpack_from(">h", frame, 4)[0], struct.unpack_from(">h", frame, 12)[0]
    return key, frame[14 : 14 + max(length, 0)].decode(errors="replace")


class Relay:
    def __init__(self, record: TextIO, serial: bool, fetches: bool) -> None:
        self.record, self.serial, self.fetches = record, serial, fetches
        self.ports: Dict[bytes, bytes] = {}
        self.opened = 0
        self.opening, self.turn = asyncio.Lock(), asyncio.Lock()
        self.connections: Set[Connection] = set()
        # For each client, and the API's key: how its next request is cut, by how many seconds it is held, and its reply.
        self.cuts: Dict[Tuple[str, int], str] = {}
        self.holds: Dict[Tuple[str, int], float] = {}
        self.reply_holds: Dict[Tuple[str, int], float] = {}

    async def listen(self, port: int, target: int) -> None:
        self.ports[HOST.encode() + struct.pack(">i", target)] = HOST.encode() + struct.pack(">i", port)

        async def accept(*near: object) -> None:
            async with self.opening:
                try:
                    far = await asyncio.open_connection(HOST, target)
                except OSError:
                    near[1].close()
                    return
                self.opened += 1
                connection = Connection(self, self.opened, near, far)
                self.connections.add(connection)
                connection.say("open", target)
            await connection.run()
            self.connections.discard(connection)

        await asyncio.start_server(accept, HOST, port, limit=LONGEST)

    def command(self, verb: str, client: str = "", what: str = "", seconds: str = "") -> str:
        if verb == "cut-all" or verb == "cut" and what == "now":
            for connection in [it for it in self.connections if client in ("", it.client)]:
                connection.cut()
        elif verb == "cut":
            self.cuts[client, COMMIT if what == "after-commit" else HEARTBEAT] = what
        elif verb in ("hold", "hold-reply"):
            (self.holds if verb == "hold" else self.reply_holds)[client, KINDS[what]] = float(seconds)
        else:
            return "unknown"
        return "done"

    async def control(self, reader: asyncio.StreamReader, writer: asyncio.StreamWriter) -> None:
        while words := (await reader.readline()).decode().split():
            writer.write(f"{self.command(*words)}\n".encode())
        writer.close()


class Connection:
    """One that came, and the one that was opened for it."""

    def __init__(self, relay: Relay, number: int, near: Side, far: Side) -> None:
        self.relay, self.number = relay, number
        (self.near_reader, self.near), (self.far_reader, self.far) = near, far
        # The client that sent heartbeats or commits over it; the keys of the requests under way, and by how many seconds their
        # replies are late, or LOST.
        self.client = ""
        self.under_way: Deque[Tuple[int, float]] = collections.deque()
        self.ended = False
        self.replied = asyncio.Event()

    def say(self, *words: object) -> None:
        self.relay.record.write(f"{time.time():.6f} {self.number} {' '.join(map(str, words))}\n")

    def say_frame(self, mark: str, key: int, frame: bytes) -> None:
        if key != FETCH or self.relay.fetches:
            self.say(mark, frame.hex())

    async def run(self) -> None:
        replies = asyncio.ensure_future(self.pass_replies())
        with contextlib.suppress(ConnectionError):
            await self.pass_requests()
        await replies
        for writer in (self.near, self.far):
            writer.close()

    def end(self, by: str) -> None:
        if not self.ended:
            self.ended = True
            self.say("end", by)
        self.replied.set()

    def cut(self) -> None:
        self.end("near")
        for writer in (self.near, self.far):
            writer.transport.abort()

    async def pass_requests(self) -> None:
        while frame := await read_frame(self.near_reader):
            key, client = head_of(frame)
            if key in KINDS.values():
                self.client = client
                await asyncio.sleep(self.relay.holds.pop((client, key), 0.0))
            cut = self.relay.cuts.pop((self.client, key), "")
            if cut == "before":
                return self.cut()
            if self.ended:
                return
            late = LOST if cut else self.relay.reply_holds.pop((self.client, key), 0.0)
            if self.relay.serial and key != FETCH:
                async with self.relay.turn:
                    await self.send(frame, key, late)
                    await self.replied.wait()
            else:
                await self.send(frame, key, late)
        if self.under_way and not self.ended:
            with contextlib.suppress(asyncio.TimeoutError):
                await asyncio.wait_for(self.replied.wait(), LAST_REPLIES_SECONDS)
        self.end("near")
        self.far.close()

    async def send(self, frame: bytes, key: int, late: float) -> None:
        self.say_frame(">", key, frame)
        self.under_way.append((key, late))
        if not self.ended:
            self.replied.clear()
        self.far.write(frame)
        await self.far.drain()

    async def pass_replies(self) -> None:
        while frame := await read_frame(self.far_reader):
            key, late = self.under_way.popleft() if self.under_way else (-1, 0.0)
            self.say_frame("<", key, frame)
            if not self.under_way:
                self.replied.set()
            if late == LOST:
                return self.cut()
            await asyncio.sleep(late)
            for old, new in self.relay.ports.items():
                frame = frame.replace(old, new)
            with contextlib.suppress(ConnectionError):
                self.near.write(frame)
                await self.near.drain()
        self.end("far")
        self.near.close()


async def main() -> None:
    words = argparse.ArgumentParser(description=__doc__, formatter_class=argparse.RawDescriptionHelpFormatter)
    words.add_argument("--record", required=True)
    words.add_argument("--control", type=int, required=True)
    words.add_argument("--serial", action="store_true")
    words.add_argument("--fetches", action="store_true")
    words.add_argument("ways", nargs="+", metavar="PORT:TARGET")
    options = words.parse_args()
    with open(options.record, "w", buffering=1, encoding="utf-8") as record:
        relay = Relay(record, options.serial, options.fetches)
        for port, target in (word.split(":") for word in options.ways):
            await relay.listen(int(port), int(target))
        control = await asyncio.start_server(relay.control, HOST, options.control)
        print("listening", flush=True)
        await control.serve_forever()


if __name__ == "__main__":
    asyncio.run(main())
