"""A bound on what is held for clients that take or send it slowly."""

from __future__ import annotations

import asyncio
import contextlib
from typing import Dict, Iterator, Set


# What a stream has of its own in any case.
FEW_BYTES = 1 << 16


class CutOff(Exception):
    """Others wanted the room."""


class Room:
    """Bytes that are held for connections, at most so many of all together. If more are wanted, the connection that has held some for the
    longest time is cut off."""

    def __init__(self, most_bytes: int) -> None:
        self._most_bytes, self.bytes = most_bytes, 0
        # In the order in which they began to hold some.
        self._held: Dict[asyncio.StreamWriter, int] = {}
        self._cut: Set[asyncio.StreamWriter] = set()

    @contextlib.contextmanager
    def held(self, writer: asyncio.StreamWriter, size: int) -> Iterator[None]:
        """Holds so many bytes for a connection until the block ends, which then raises CutOff if it was cut off. Few bytes aren't counted."""
        if size <= FEW_BYTES:
            yield
            return
        self._held[writer] = size
        self.bytes += size
        while self.bytes > self._most_bytes and len(self._held) > 1:
            self._cut_off(next(iter(self._held)))
        try:
            yield
        finally:
            self.bytes -= self._held.pop(writer, 0)
            if writer in self._cut:
                self._cut.discard(writer)
                raise CutOff(f"it was the slowest, and all clients together may have {self._most_bytes} bytes wait")

    def _cut_off(self, writer: asyncio.StreamWriter) -> None:
        self.bytes -= self._held.pop(writer)
        self._cut.add(writer)
        writer.transport.abort()
