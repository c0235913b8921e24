"""The bytes of fields, and back (Kafka protocol guide, KIP-482), and the kinds of fields of which messages are made."""

from typing import Any, Callable, NamedTuple

from .limits import LONGEST_STRING

# Why a field can't be read: it ends too early, a varint isn't in its shortest form, a length or a varint is too great, a text isn't UTF-8,
# tags don't rise, a count is null or negative where it may not be.
SHORT, NOT_SHORTEST, TOO_LONG, NOT_UTF8, TAG_ORDER, BAD_COUNT = range(1, 7)


class Unreadable(Exception):
    """Bytes that are no field, or no message; `fault` is one of the above, or None."""

    def __init__(self, fault=None):
        super().__init__(fault)
        self.fault = fault


class Reader:
    """Reads fields from the front of bytes, and counts the tagged fields that it has read."""

    def __init__(self, data):
        self.data, self.at, self.tag_count = data, 0, 0

    def take(self, count):
        if self.at + count > len(self.data):
            raise Unreadable(SHORT)
        self.at += count
        return self.data[self.at - count : self.at]

    def int(self, size):
        return int.from_bytes(self.take(size), "big", signed=True)

    def varint(self):
        value = 0
        for place in range(5):
            byte = self.take(1)[0]
            if place == 4 and byte > 15:
                raise Unreadable(TOO_LONG)
            value |= (byte & 127) << 7 * place
            if byte < 128:
                break
        if place and not byte:
            raise Unreadable(NOT_SHORTEST)
        return value

    def count(self, nullable=False):
        count = self.varint()
        if count == 0 and not nullable:
            raise Unreadable(BAD_COUNT)
        return count - 1 if count else None

    def text(self, nullable=False):
        length = self.count(nullable)
        if length is not None and length > LONGEST_STRING:
            raise Unreadable(TOO_LONG)
        return None if length is None else self.utf8(length)

    def old_text(self):
        length = self.int(2)
        if length < -1:
            raise Unreadable(BAD_COUNT)
        return None if length == -1 else self.utf8(length)

    def utf8(self, length):
        try:
            return self.take(length).decode()
        except UnicodeDecodeError:
            raise Unreadable(NOT_UTF8) from None

    def array(self, element, nullable=False):
        count = self.count(nullable)
        return None if count is None else [element() for _ in range(count)]

    def tags(self):
        count, last = self.varint(), -1
        for _ in range(count):
            tag = self.varint()
            if tag <= last:
                raise Unreadable(TAG_ORDER)
            last = tag
            self.take(self.varint())
        self.tag_count += count


def put_int(value, size):
    return value.to_bytes(size, "big", signed=True)


def put_varint(value):
    out = bytearray()
    while value > 127:
        out.append(value & 127 | 128)
        value >>= 7
    return bytes(out + bytes([value]))


def put_text(text):
    if text is None:
        return b"\0"
    data = text if isinstance(text, bytes) else text.encode()
    return put_varint(len(data) + 1) + data


def put_old_text(text):
    return put_int(-1, 2) if text is None else put_int(len(text), 2) + text


def put_array(elements):
    return b"\0" if elements is None else put_varint(len(elements) + 1) + b"".join(elements)


def put_tags(fields):
    """Tagged fields: pairs of a tag and its bytes."""
    return put_varint(len(fields)) + b"".join(put_varint(tag) + put_varint(len(value)) + value for tag, value in fields)


def by_topic(partitions):
    """The topics of partitions (topic id, index) by their ids' bytes, each with its indexes rising."""
    found = {}
    for topic, index in sorted(partitions):
        found.setdefault(topic, []).append(index)
    return [*found.items()]


class Kind(NamedTuple):
    """How a field is read and written; and for who walks over it, what it is, and of which parts."""

    name: str
    read: Callable[[Reader], Any]
    put: Callable[[Any], bytes]
    parts: tuple = ()


def number(size):
    return Kind("number", lambda reader: reader.int(size), lambda value: put_int(value, size), (size,))


def array(of, nullable=False):
    def put(value):
        return put_array(None if value is None else [of.put(it) for it in value])

    return Kind("array", lambda reader: reader.array(lambda: of.read(reader), nullable), put, (of, nullable))


def struct(*kinds):
    """Fields one after another, with tagged fields at the end, of which none are written. A value is a tuple."""

    def read(reader):
        values = tuple([it.read(reader) for it in kinds])
        reader.tags()
        return values

    return Kind("struct", read, lambda values: b"".join([it.put(value) for it, value in zip(kinds, values)]) + b"\0", kinds)


def optional(of):
    """A struct after a byte 1, or a byte -1 in place of it."""

    def read(reader):
        mark = reader.int(1)
        if mark not in (1, -1):
            raise Unreadable
        return of.read(reader) if mark == 1 else None

    return Kind("optional", read, lambda value: b"\xff" if value is None else b"\1" + of.put(value), (of,))


INT16, INT32, INT64 = map(number, (2, 4, 8))
UUID = Kind("uuid", lambda reader: reader.take(16), bytes)
TEXT = Kind("text", Reader.text, put_text, (False,))
NULLABLE = Kind("text", lambda reader: reader.text(True), put_text, (True,))
