"""The records that the topics' partitions have.

Nobody produces here. Each partition has some records from the start and gets more at a steady rate, and the record at an offset is always the
same: its value is `topic/partition/offset`, so a reader can see that it got what it asked for. Records are made when they are fetched, and
none is kept.
"""

from __future__ import annotations

import math
import time
from typing import Callable, Optional

from broker.records import HEADER_SIZE, MOST_RECORD_OVERHEAD, Record, record_batch

MOST_RECORDS_OF_A_BATCH = 200
FIRST_OFFSET = 0


class Log:
    """Every partition's log. It began `age` seconds before this object's making, which `began_ms` dates in milliseconds since 1970, with
    `records` of them, of the timestamp 0. Other processes may have the same, and be so many seconds ahead by their clocks."""

    def __init__(
        self,
        rate: float,
        records: int = 0,
        clock: Callable[[], float] = time.monotonic,
        began_ms: Optional[int] = None,
        age: float = 0.0,
        ahead: float = 0.0,
    ) -> None:
        self.rate, self.records, self._clock, self._ahead = rate, records, clock, ahead
        self._began = clock() - age
        self.began_ms = int(time.time() * 1000) if began_ms is None else began_ms

    def end_offset(self) -> int:
        """The offset that the next record gets."""
        return self.records + int((self._clock() - self._began) * self.rate)

    def last_offset(self) -> int:
        """The greatest offset at which a reader can be, which may have read elsewhere."""
        return self.end_offset() + int(self._ahead * self.rate)

    def seconds_until(self, offset: int) -> float:
        """In how many seconds there is a record at this offset; 0 if there is one."""
        if offset < self.end_offset():
            return 0.0
        if not self.rate:
            return math.inf
        return max(0.0, self._began + (offset + 1 - self.records) / self.rate - self._clock())

    def timestamp(self, offset: int) -> int:
        """When the record at this offset came, in milliseconds since 1970."""
        return 0 if offset < self.records else self.began_ms + int((offset + 1 - self.records) * 1000 / self.rate)

    def offset_at(self, timestamp: int) -> int:
        """The first offset whose record came at this moment or later, or the end."""
        low, high = FIRST_OFFSET, self.end_offset()
        while low < high:
            middle = (low + high) // 2
            low, high = (low, middle) if self.timestamp(middle) >= timestamp else (middle + 1, high)
        return low

    def most_records(self, offset: int) -> int:
        """How many a batch from this offset on may have."""
        return max(0, min(self.end_offset() - offset, MOST_RECORDS_OF_A_BATCH))

    def batch(self, topic: str, partition: int, offset: int, most_bytes: int) -> bytes:
        """A batch of the records from this offset on: of one at least, or nothing at the end."""
        there = self.most_records(offset)
        if not there:
            return b""
        each = len(self.value(topic, partition, self.end_offset())) + MOST_RECORD_OVERHEAD
        fitting = max(1, (most_bytes - HEADER_SIZE) // each)
        offsets = range(offset, offset + min(there, fitting))
        return record_batch(offset, [Record(self.timestamp(at), None, self.value(topic, partition, at)) for at in offsets])

    @staticmethod
    def value(topic: str, partition: int, offset: int) -> bytes:
        return f"{topic}/{partition}/{offset}".encode()
