"""A connection to a broker. Nothing here waits for ever: each wait has an end, and its end is a reason."""

from __future__ import annotations

import socket
import time
from typing import Tuple

from conformance.messages import framed, header, reply_fields
from conformance.wire import Reader

Address = Tuple[str, int]
LONGEST_REPLY = 64 << 20


class Lost(Exception):
    """No reply came, and why."""


class Silent(Lost):
    """The broker is there, and nothing comes from it."""


class Closed(Lost):
    """The broker closed the connection, or can't be reached."""


class Connection:
    def __init__(self, address: Address, seconds: float) -> None:
        """Connects. A reply may take so many seconds."""
        self.seconds = seconds
        self.correlation = 0
        try:
            self.socket = socket.create_connection(address, seconds)
        except OSError as why:
            raise Closed(f"{address[0]}:{address[1]} can't be reached: {why.strerror or why}") from None
        self.socket.setsockopt(socket.IPPROTO_TCP, socket.TCP_NODELAY, 1)

    def send(self, data: bytes) -> None:
        """Sends bytes as they are."""
        try:
            self.socket.settimeout(self.seconds)
            self.socket.sendall(data)
        except socket.timeout:
            raise Silent(f"the broker took no bytes for {self.seconds:g} s") from None
        except OSError as why:
            raise Closed(f"the broker closed the connection ({why.strerror or why})") from None

    def receive(self) -> bytes:
        """The body of the next frame."""
        until = time.monotonic() + self.seconds
        size = int.from_bytes(self._exactly(4, until), "big", signed=True)
        if not 0 < size <= LONGEST_REPLY:
            raise Lost(f"a reply begins with a size of {size}")
        return self._exactly(size, until)

    def _exactly(self, count: int, until: float) -> bytes:
        data = bytearray()
        while len(data) < count:
            try:
                self.socket.settimeout(max(0.001, until - time.monotonic()))
                more = self.socket.recv(min(count - len(data), 1 << 16))
            except socket.timeout:
                raise Silent(f"the broker sent no whole reply within {self.seconds:g} s") from None
            except OSError as why:
                raise Closed(f"the broker closed the connection ({why.strerror or why}) in place of a reply") from None
            if not more:
                raise Closed("the broker closed the connection in place of a reply")
            data += more
        return bytes(data)

    def ask(self, key: int, version: int, fields: bytes) -> Reader:
        """Sends a request, and gives a reader of its reply's fields."""
        self.correlation += 1
        self.send(framed(header(key, version, self.correlation) + fields))
        correlation, reply = reply_fields(key, version, self.receive())
        if correlation != self.correlation:
            raise reply.bad(f"the reply has correlation id {correlation}, and the request had {self.correlation}")
        return reply

    def close(self) -> None:
        self.socket.close()
