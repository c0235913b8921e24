"""A record of the frames that pass, in lines: README.md has their form."""

from __future__ import annotations

import time
from typing import Iterable, Optional

from broker.frames import Reply, framed
from broker.output import Output, Write, say
from broker.topics import Topic

VERSION = 1
# Several of the longest frames, as they wait to be written.
MOST_BYTES = 64 << 20


class Record:
    """Numbers the connections and, if it is written to a file, has a line for each thing that passes."""

    def __init__(self, write: Optional[Write] = None, topics: Iterable[Topic] = ()) -> None:
        self._opened = 0
        self._is_failing = False
        self._began = time.monotonic()
        self._output = write and Output(write, MOST_BYTES, lambda count: f"{self._seconds():.6f} 0 left-out {count}", self._failed)
        if self._output:
            self._output.line(" ".join(["record", str(VERSION), f"{time.time():.6f}", *(topic.word() for topic in topics)]))

    def opened(self, client: str, broker: str) -> int:
        """The number of a new connection."""
        self._opened += 1
        self._of(self._opened, "open", client, broker)
        return self._opened

    def request(self, connection: int, body: bytes) -> None:
        self._of(connection, "in", body=body)

    def reply(self, connection: int, reply: Reply) -> None:
        if self._output:
            self._of(connection, "out", body=b"".join(reply))

    def closed(self, connection: int) -> None:
        self._of(connection, "close")

    def end(self) -> None:
        if self._output:
            self._output.end()

    def _of(self, connection: int, *words: str, body: bytes = b"") -> None:
        if self._output:
            text = " ".join([f"{self._seconds():.6f}", str(connection), *words])
            self._output.line(f"{text} " if body else text, framed(body) if body else b"")

    def _seconds(self) -> float:
        return time.monotonic() - self._began

    def _failed(self, why: OSError) -> None:
        if not self._is_failing:
            say(f"lines of the record can't be written: {why}")
        self._is_failing = True
