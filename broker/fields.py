"""The primitive fields of Kafka's messages: writing them, and a reader that takes them.

Names and layouts are those of the Kafka protocol guide. The compact ones, and tagged fields, are KIP-482's.
"""

from __future__ import annotations

import struct
import uuid
from typing import Awaitable, Callable, Iterable, List, Optional, Tuple, TypeVar

from broker.turns import Pace, Turns

Item = TypeVar("Item")
LONGEST_VARINT = 5
# Nobody sends any, and they are read in one piece.
MOST_TAGS = 100


class Unreadable(Exception):
    """Bytes that aren't what a message has there, and why."""


# ---- reading


class Reader:
    """Takes fields from the front of bytes. Arrays of structures may be long, and are read in pieces."""

    def __init__(self, data: bytes, pace: Optional[Pace] = None) -> None:
        self.data, self.at = data, 0
        self.pace = pace or Pace(Turns())

    def raw(self, size: int) -> bytes:
        if size < 0 or size > len(self.data) - self.at:
            raise Unreadable(f"a field of {size} bytes at byte {self.at}, where {len(self.data) - self.at} are left")
        self.at += size
        return self.data[self.at - size : self.at]

    def _number(self, form: str, size: int) -> int:
        number: int = struct.unpack(form, self.raw(size))[0]
        return number

    def int8(self) -> int:
        return self._number(">b", 1)

    def int16(self) -> int:
        return self._number(">h", 2)

    def int32(self) -> int:
        return self._number(">i", 4)

    def int64(self) -> int:
        return self._number(">q", 8)

    def boolean(self) -> bool:
        return self.int8() != 0

    def unsigned_varint(self) -> int:
        number = 0
        for place in range(LONGEST_VARINT):
            byte = self.raw(1)[0]
            number |= (byte & 127) << 7 * place
            if byte < 128:
                return number
        raise Unreadable(f"a varint of more than {LONGEST_VARINT} bytes at byte {self.at}")

    def uuid(self) -> uuid.UUID:
        return uuid.UUID(bytes=self.raw(16))

    def _text(self, size: int) -> str:
        try:
            return self.raw(size).decode()
        except UnicodeDecodeError:
            raise Unreadable(f"a text that isn't UTF-8 before byte {self.at}") from None

    def nullable_string(self) -> Optional[str]:
        size = self.int16()
        return None if size == -1 else self._text(size)

    def string(self) -> str:
        return self._text(self.int16())

    def compact_nullable_string(self) -> Optional[str]:
        size = self.unsigned_varint()
        return None if size == 0 else self._text(size - 1)

    def compact_string(self) -> str:
        return self._text(self.unsigned_varint() - 1)

    def _several(self, count: int) -> range:
        if count < 0:
            raise Unreadable(f"an array of {count} elements before byte {self.at}")
        return range(count)

    async def _items(self, count: int, one: Callable[[], Item]) -> List[Item]:
        return await self.pace.all(one() for _ in self._several(count))

    async def array(self, one: Callable[[], Item]) -> List[Item]:
        return await self._items(self.int32(), one)

    async def compact_array(self, one: Callable[[], Item]) -> List[Item]:
        return await self._items(self.unsigned_varint() - 1, one)

    async def compact_nullable_array(self, one: Callable[[], Item]) -> Optional[List[Item]]:
        count = self.unsigned_varint()
        return None if count == 0 else await self._items(count - 1, one)

    async def _nested(self, count: int, one: Callable[[], Awaitable[Item]]) -> List[Item]:
        items = []
        for _ in self._several(count):
            items.append(await one())
            await self.pace.pause()
        return items

    async def nested_array(self, one: Callable[[], Awaitable[Item]]) -> List[Item]:
        """An array of structures that have arrays."""
        return await self._nested(self.int32(), one)

    async def nested_compact_array(self, one: Callable[[], Awaitable[Item]]) -> List[Item]:
        return await self._nested(self.unsigned_varint() - 1, one)

    def _int32s(self, count: int) -> Tuple[int, ...]:
        return struct.unpack(f">{count}i", self.raw(4 * len(self._several(count))))

    def int32s(self) -> Tuple[int, ...]:
        """An array of numbers, at once: a million of them takes some milliseconds."""
        return self._int32s(self.int32())

    def compact_int32s(self) -> Tuple[int, ...]:
        return self._int32s(self.unsigned_varint() - 1)

    def tags(self) -> None:
        """Tagged fields, of which no meaning is known here."""
        count = self.unsigned_varint()
        if count > MOST_TAGS:
            raise Unreadable(f"{count} tagged fields before byte {self.at}, and at most {MOST_TAGS} may be there")
        for _ in range(count):
            self.unsigned_varint()
            self.raw(self.unsigned_varint())

    def end(self) -> None:
        if self.at != len(self.data):
            raise Unreadable(f"{len(self.data) - self.at} bytes are left after the last field")


# ---- writing


def int8(number: int) -> bytes:
    return struct.pack(">b", number)


def int16(number: int) -> bytes:
    return struct.pack(">h", number)


def int32(number: int) -> bytes:
    return struct.pack(">i", number)


def int64(number: int) -> bytes:
    return struct.pack(">q", number)


def boolean(value: bool) -> bytes:
    return int8(int(value))


def unsigned_varint(number: int) -> bytes:
    out = bytearray()
    while number > 127:
        out.append(number & 127 | 128)
        number >>= 7
    out.append(number)
    return bytes(out)


def varint(number: int) -> bytes:
    """Signed, as in records: 0, -1, 1, -2 .. are 0, 1, 2, 3 .. (zigzag)."""
    return unsigned_varint(number << 1 if number >= 0 else (-number << 1) - 1)


def nullable_string(text: Optional[str]) -> bytes:
    return int16(-1) if text is None else string(text)


def string(text: str) -> bytes:
    data = text.encode()
    return int16(len(data)) + data


def compact_nullable_string(text: Optional[str]) -> bytes:
    return NULL if text is None else compact_string(text)


def compact_string(text: str) -> bytes:
    data = text.encode()
    return unsigned_varint(len(data) + 1) + data


def array(items: Iterable[bytes]) -> bytes:
    written = list(items)
    return int32(len(written)) + b"".join(written)


def compact_array(items: Iterable[bytes]) -> bytes:
    written = list(items)
    return unsigned_varint(len(written) + 1) + b"".join(written)


NULL = b"\0"
NO_TAGS = b"\0"
