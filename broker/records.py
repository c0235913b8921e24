"""Record batches of version 2 (Kafka's "Message Format"), with their checksum CRC-32C (Castagnoli).

A batch is a header of 61 bytes and its records. Base offset and length stand before the checksum, and the records hold offsets
and timestamps as differences from the batch's first ones, so a log can be cut and copied batch by batch.
"""

from __future__ import annotations

import dataclasses
import struct
from typing import List, Optional, Sequence

from broker.fields import varint

HEADER_SIZE = 61
# What a record takes besides its key and value: attributes, and at most five bytes for each of its varints.
MOST_RECORD_OVERHEAD = 32
MAGIC = 2
# No producer id, no producer epoch, no sequence: the producer isn't idempotent.
NO_PRODUCER = (-1, -1, -1)


@dataclasses.dataclass(frozen=True)
class Record:
    """A record without headers. The timestamp is in milliseconds since 1970."""

    timestamp: int
    key: Optional[bytes]
    value: Optional[bytes]


def record_batch(base_offset: int, records: Sequence[Record], leader_epoch: int = 0) -> bytes:
    """The batch of one or more records at successive offsets, uncompressed."""
    first = records[0].timestamp
    last = len(records) - 1
    body = b"".join(_record(record, record.timestamp - first, delta) for delta, record in enumerate(records))
    latest = max(record.timestamp for record in records)
    checked = struct.pack(">hiqqqhii", 0, last, first, latest, *NO_PRODUCER, len(records)) + body
    # The length counts what stands after it: leader epoch (4), magic (1), checksum (4) and what is checked.
    return struct.pack(">qiibI", base_offset, 9 + len(checked), leader_epoch, MAGIC, crc32c(checked)) + checked


def _record(record: Record, timestamp_delta: int, offset_delta: int) -> bytes:
    fields = b"\0" + varint(timestamp_delta) + varint(offset_delta)
    fields += _data(record.key) + _data(record.value) + varint(0)
    return varint(len(fields)) + fields


def _data(data: Optional[bytes]) -> bytes:
    return varint(-1) if data is None else varint(len(data)) + data


def _table() -> List[int]:
    """What each byte adds to a checksum, by the reversed polynomial of Castagnoli."""
    table = []
    for number in range(256):
        for _ in range(8):
            number = number >> 1 ^ 0x82F63B78 * (number & 1)
        table.append(number)
    return table


_TABLE = _table()


def crc32c(data: bytes) -> int:
    checksum = 0xFFFFFFFF
    for byte in data:
        checksum = _TABLE[(checksum ^ byte) & 255] ^ checksum >> 8
    return checksum ^ 0xFFFFFFFF
