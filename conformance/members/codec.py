"""Requests and replies by the tables of apis.txt, written and read: a message is a dictionary of its fields."""

from __future__ import annotations

import pathlib
import re
from typing import Any, Dict, List, NamedTuple, Optional, Tuple

from conformance.wire import Reader, Unreadable, array, int16, int32, tags, text

TABLE = pathlib.Path(__file__).with_name("apis.txt")
GREATEST_VERSION = 32_767
HEAD, TAIL = re.compile(r"\s*(\w*):(\w+|[\[{])"), re.compile(r"(\?)?(?:@(\d+)(?:-(\d+))?)?")
Values = Dict[str, Any]


class Field(NamedTuple):
    """A field: its kind is a number of bytes, text, uuid, bytes, or the bracket with which an array or a structure of parts begins."""

    name: str
    kind: str
    parts: Tuple["Field", ...]
    is_nullable: bool
    first: int
    last: int


class Api(NamedTuple):
    key: int
    name: str
    lowest: int
    highest: int
    flexible: int
    request: Tuple[Field, ...]
    reply: Tuple[Field, ...]

    def is_flexible(self, version: int) -> bool:
        return version >= self.flexible


def parse(line: str, at: int = 0) -> Tuple[Tuple[Field, ...], int]:
    """The fields from there on, up to a bracket that closes or the end, and where that is."""
    found: List[Field] = []
    head = HEAD.match(line, at)
    while head:
        parts, at = parse(line, head.end()) if head[2] in "[{" else ((), head.end())
        at += len(parts) > 0
        tail = TAIL.match(line, at)
        assert tail is not None
        found.append(Field(head[1], head[2], parts, bool(tail[1]), int(tail[2] or 0), int(tail[3] or GREATEST_VERSION)))
        at = tail.end()
        head = HEAD.match(line, at)
    return tuple(found), at


def load() -> Dict[int, Api]:
    lines = [line for line in TABLE.read_text(encoding="utf-8").splitlines() if line and not line.startswith("#")]
    apis = {}
    for head, request, reply in zip(*[iter(lines)] * 3):
        key, name, versions, flexible = head.split()
        lowest, highest = map(int, versions.split("-"))
        apis[int(key)] = Api(int(key), name, lowest, highest, int(flexible), parse(request, 1)[0], parse(reply, 1)[0])
    return apis


APIS = load()
KEYS = {api.name: key for key, api in APIS.items()}


class Request(NamedTuple):
    """The header of a request, and its fields; whether there is no shorter encoding of it."""

    api: Api
    version: int
    correlation: int
    client: Optional[str]
    values: Values
    is_shortest: bool


# ---- fields


def read_struct(fields: Tuple[Field, ...], version: int, flexible: bool, reader: Reader) -> Values:
    values = {it.name: read_field(it, version, flexible, reader) for it in fields if it.first <= version <= it.last}
    unknown = reader.tags(flexible)
    return {**values, "tags": unknown} if unknown else values


def read_field(it: Field, version: int, flexible: bool, reader: Reader) -> Any:
    at, value = reader.at, _read(it, version, flexible, reader)
    if value is None and not it.is_nullable:
        raise Unreadable(f"null at byte {at}, where {it.name or 'an element'} can't be null")
    return value


def _read(it: Field, version: int, flexible: bool, reader: Reader) -> Any:
    if it.kind == "[":
        if not it.parts[0].name:
            return reader.array_or_null(flexible, lambda: read_field(it.parts[0], version, flexible, reader))
        return reader.array_or_null(flexible, lambda: read_struct(it.parts, version, flexible, reader))
    if it.kind == "{":
        return read_struct(it.parts, version, flexible, reader) if reader.number(1) == 1 else None
    if it.kind == "text":
        return reader.text_or_null(flexible)
    if it.kind in ("uuid", "bytes"):
        return reader.raw(16 if it.kind == "uuid" else reader.number(4))
    return reader.number(int(it.kind))


def write_struct(fields: Tuple[Field, ...], version: int, flexible: bool, values: Values) -> bytes:
    """Numbers that aren't given are 0, and what else isn't is null."""
    written = [write_field(it, version, flexible, values.get(it.name)) for it in fields if it.first <= version <= it.last]
    return b"".join(written) + tags(flexible, values.get("tags"))


def write_field(it: Field, version: int, flexible: bool, value: Any) -> bytes:
    if it.kind == "[":
        def item(one: Any) -> bytes:
            return write_struct(it.parts, version, flexible, one) if it.parts[0].name else write_field(it.parts[0], version, flexible, one)

        return array(None if value is None else map(item, value), flexible)
    if it.kind == "{":
        return b"\xff" if value is None else b"\1" + write_struct(it.parts, version, flexible, value)
    if it.kind == "text":
        return text(value, flexible)
    if it.kind in ("uuid", "bytes"):
        return value if it.kind == "uuid" else int32(len(value or b"")) + (value or b"")
    return (value or 0).to_bytes(int(it.kind), "big", signed=True)


# ---- messages


def write_request(key: int, version: int, correlation: int, client: Optional[str], values: Values) -> bytes:
    api = APIS[key]
    flexible = api.is_flexible(version)
    head = int16(key) + int16(version) + int32(correlation) + text(client, False) + tags(flexible, values.get("header tags"))
    return head + write_struct(api.request, version, flexible, values)


def read_request(body: bytes) -> Request:
    """Raises Unreadable, also for an API or a version that isn't in the table."""
    reader = Reader(body)
    key, version, correlation, client = reader.number(2), reader.number(2), reader.number(4), reader.text_or_null(False)
    api = APIS.get(key)
    if api is None or key != KEYS["ApiVersions"] and not api.lowest <= version <= api.highest:
        raise Unreadable(f"version {version} of the API {api.name if api else key}, which isn't offered")
    if version > api.highest:
        return Request(api, version, correlation, client, {}, True)
    flexible = api.is_flexible(version)
    head = reader.tags(flexible)
    values = read_struct(api.request, version, flexible, reader)
    reader.end()
    again = write_request(key, version, correlation, client, {**values, "header tags": head})
    return Request(api, version, correlation, client, values, again == body)


def write_reply(api: Api, version: int, correlation: int, values: Values) -> bytes:
    """(The header of a reply to ApiVersions never has tagged fields.)"""
    flexible = api.is_flexible(version)
    has_tags = flexible and api.name != "ApiVersions"
    return int32(correlation) + tags(has_tags) + write_struct(api.reply, version, flexible, values)


def read_reply(api: Api, version: int, body: bytes) -> Tuple[int, Values]:
    reader = Reader(body)
    correlation, flexible = reader.number(4), api.is_flexible(version)
    reader.tags(flexible and api.name != "ApiVersions")
    values = read_struct(api.reply, version, flexible, reader)
    reader.end()
    return correlation, values
