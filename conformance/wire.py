"""The primitive fields of Kafka's messages, written and read: the protocol guide's, and the compact ones and tagged fields of KIP-482."""

from __future__ import annotations

import struct
from typing import Callable, Dict, Iterable, List, Optional, Tuple, TypeVar

Item = TypeVar("Item")
LONGEST_VARINT = 5
# So many bytes of a reply that can't be read are shown.
SHOWN_BYTES = 160
NO_TAGS = b"\0"
NULL = b"\0"


class Unreadable(Exception):
    """Bytes that aren't what a reply has there, and why."""


class Reader:
    """Takes fields from the front of bytes."""

    def __init__(self, data: bytes) -> None:
        self.data, self.at = data, 0

    def bad(self, words: str) -> Unreadable:
        """That the bytes can't be read: why, before which one, and the bytes."""
        more = ".." if len(self.data) > SHOWN_BYTES else ""
        return Unreadable(f"{words}, before byte {self.at} of {len(self.data)}: {self.data[:SHOWN_BYTES].hex()}{more}")

    def raw(self, size: int) -> bytes:
        if size < 0 or size > len(self.data) - self.at:
            raise self.bad(f"a field of {size} bytes, and {len(self.data) - self.at} are left")
        self.at += size
        return self.data[self.at - size : self.at]

    def number(self, size: int) -> int:
        return int.from_bytes(self.raw(size), "big", signed=True)

    def varint(self) -> int:
        number = 0
        for place in range(LONGEST_VARINT):
            byte = self.raw(1)[0]
            number |= (byte & 127) << 7 * place
            if byte < 128:
                return number
        raise self.bad(f"a varint of more than {LONGEST_VARINT} bytes")

    def _text(self, size: int) -> str:
        try:
            return self.raw(size).decode()
        except UnicodeDecodeError:
            raise self.bad("a text that isn't UTF-8") from None

    def text(self, flexible: bool) -> str:
        text = self.text_or_null(flexible)
        if text is None:
            raise self.bad("null for a text that can't be null")
        return text

    def text_or_null(self, flexible: bool) -> Optional[str]:
        size = self.varint() - 1 if flexible else self.number(2)
        return None if size == -1 else self._text(size)

    def array(self, flexible: bool, one: Callable[[], Item]) -> List[Item]:
        items = self.array_or_null(flexible, one)
        if items is None:
            raise self.bad("null for an array that can't be null")
        return items

    def array_or_null(self, flexible: bool, one: Callable[[], Item]) -> Optional[List[Item]]:
        count = self.varint() - 1 if flexible else self.number(4)
        if count < -1:
            raise self.bad(f"an array of {count} elements")
        return None if count == -1 else [one() for _ in range(count)]

    def int32s(self) -> Tuple[int, ...]:
        """A compact array of INT32, which may be long."""
        count = self.varint() - 1
        if count < 0:
            raise self.bad("null for an array that can't be null")
        return struct.unpack(f">{count}i", self.raw(count * 4))

    def tags(self, flexible: bool = True) -> Dict[int, bytes]:
        """Tagged fields. None is known here, so they are only stepped over."""
        count = self.varint() if flexible else 0
        return {self.varint(): self.raw(self.varint()) for _ in range(count)}

    def end(self) -> None:
        if self.at != len(self.data):
            raise self.bad(f"{len(self.data) - self.at} bytes are left after the last field")


def int8(number: int) -> bytes:
    return struct.pack(">b", number)


def int16(number: int) -> bytes:
    return struct.pack(">h", number)


def int32(number: int) -> bytes:
    return struct.pack(">i", number)


def int64(number: int) -> bytes:
    return struct.pack(">q", number)


def varint(number: int) -> bytes:
    out = bytearray()
    while number > 127:
        out.append(number & 127 | 128)
        number >>= 7
    return bytes(out + bytes([number]))


def text(value: Optional[str], flexible: bool = True) -> bytes:
    """A text, or null."""
    data = b"" if value is None else value.encode()
    if flexible:
        return NULL if value is None else varint(len(data) + 1) + data
    return int16(-1 if value is None else len(data)) + data


def array(items: Optional[Iterable[bytes]], flexible: bool = True) -> bytes:
    """An array of elements that are written already, or null."""
    if items is None:
        return NULL if flexible else int32(-1)
    written = list(items)
    return (varint(len(written) + 1) if flexible else int32(len(written))) + b"".join(written)


def tags(flexible: bool = True, fields: Optional[Dict[int, bytes]] = None) -> bytes:
    """Tagged fields, in the order of their tags; none by default, and nothing at all in a message that isn't flexible."""
    if not flexible:
        return b""
    fields = fields or {}
    return varint(len(fields)) + b"".join(varint(tag) + varint(len(data)) + data for tag, data in sorted(fields.items()))
