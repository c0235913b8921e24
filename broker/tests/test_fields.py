"""Primitive fields, against the bytes that the protocol guide gives them."""

from __future__ import annotations

import asyncio
import inspect
import unittest
from typing import Any

from broker import fields
from broker.fields import Reader, Unreadable
from broker.tests.support import ORDERS, data

# What is written, its bytes, and what reads them.
WRITTEN = [
    (fields.int8(-1), "ff", Reader.int8, -1),
    (fields.int16(258), "0102", Reader.int16, 258),
    (fields.int32(-2), "fffffffe", Reader.int32, -2),
    (fields.int64(1 << 40), "0000010000000000", Reader.int64, 1 << 40),
    (fields.boolean(True), "01", Reader.boolean, True),
    (fields.unsigned_varint(0), "00", Reader.unsigned_varint, 0),
    (fields.unsigned_varint(127), "7f", Reader.unsigned_varint, 127),
    (fields.unsigned_varint(128), "8001", Reader.unsigned_varint, 128),
    (fields.unsigned_varint(300), "ac02", Reader.unsigned_varint, 300),
    (fields.unsigned_varint((1 << 32) - 1), "ffffffff0f", Reader.unsigned_varint, (1 << 32) - 1),
    (fields.string("ab"), "0002 'ab'", Reader.string, "ab"),
    (fields.nullable_string(None), "ffff", Reader.nullable_string, None),
    (fields.nullable_string(""), "0000", Reader.nullable_string, ""),
    (fields.compact_string("é"), "03 c3a9", Reader.compact_string, "é"),
    (fields.compact_nullable_string(None), "00", Reader.compact_nullable_string, None),
    (fields.compact_nullable_string(""), "01", Reader.compact_nullable_string, ""),
    (fields.array([b"\1", b"\2"]), "00000002 01 02", lambda it: it.array(it.int8), [1, 2]),
    (fields.compact_array([b"\1", b"\2"]), "03 01 02", lambda it: it.compact_array(it.int8), [1, 2]),
    (fields.NULL, "00", lambda it: it.compact_nullable_array(it.int8), None),
    (fields.array([fields.int32(3), fields.int32(-1)]), "00000002 00000003 ffffffff", Reader.int32s, (3, -1)),
    (fields.compact_array([fields.int32(3)]), "02 00000003", Reader.compact_int32s, (3,)),
    (ORDERS.bytes, "11111111 1111 1111 1111 111111111111", Reader.uuid, ORDERS),
    (data("02 00 03 'abc' 05 01 'd'"), "02 00 03 616263 05 01 64", Reader.tags, None),
]
# The signed varints of records.
VARINTS = [(0, "00"), (-1, "01"), (1, "02"), (63, "7e"), (-64, "7f"), (64, "8001"), (-65, "8101"), (1000, "d00f")]
# Bytes that aren't a field.
UNREADABLE = [
    ("01", Reader.int16),
    ("0003 'ab'", Reader.string),
    ("fffe", Reader.nullable_string),
    ("ffff", Reader.string),
    ("00", Reader.compact_string),
    ("04 'ab'", Reader.compact_string),
    ("02 ff", Reader.compact_string),
    ("ffffffff", lambda it: it.array(it.int8)),
    ("7fffffff 00000001", Reader.int32s),
    ("00", Reader.compact_int32s),
    ("65" + 101 * "00 00", Reader.tags),
    ("00", lambda it: it.compact_array(it.int8)),
    ("03 01", lambda it: it.compact_array(it.int8)),
    ("808080808001", Reader.unsigned_varint),
    ("01 00 02 00", Reader.tags),
    ("00", Reader.end),
]


class Fields(unittest.TestCase):
    def test_fields_are_written_and_read(self) -> None:
        wanted = [(text, data(text), value, len(data(text))) for _, text, _, value in WRITTEN]
        found = []
        for written, text, read, _ in WRITTEN:
            reader = Reader(data(text))
            found.append((text, written, _value(read(reader)), reader.at))
        self.assertEqual(found, wanted)

    def test_signed_varints(self) -> None:
        self.assertEqual([(number, fields.varint(number).hex()) for number, _ in VARINTS], VARINTS)

    def test_other_bytes_are_refused(self) -> None:
        read = [text for text, take in UNREADABLE if _is_read(text, take)]
        self.assertEqual(read, [])


def _is_read(text: str, take) -> bool:  # type: ignore[no-untyped-def]
    try:
        _value(take(Reader(data(text))))
        return True
    except Unreadable:
        return False


def _value(read: Any) -> Any:
    """What was read. Arrays of structures are read in pieces."""
    if not inspect.isawaitable(read):
        return read

    async def wait() -> Any:
        return await read

    return asyncio.run(wait())
