"""Lines of `coord reply` and `coord run` by field, for people."""

from __future__ import annotations

import uuid
from typing import Any, List, Tuple

from .fields import Unreadable
from .messages import COMMIT_REPLY, HEARTBEAT_REPLY, Commit, partitions, read_reply, read_request

# The names of fields, with their values as texts.
Fields = List[Tuple[str, str]]


def text(value: Any) -> str:
    """A value in words: null, partitions, or itself."""
    if isinstance(value, set):
        return " ".join(f"{uuid.UUID(bytes=topic)}/{index}" for topic, index in sorted(value)) or "none"
    return "null" if value is None else str(value)


def request(line: str) -> str:
    """What a line of `coord reply` asks, in words."""
    kind, _, word = line.partition(" ")
    if kind != "req":
        return line
    try:
        it = read_request(bytes.fromhex(word)[4:])
    except (Unreadable, ValueError):
        return "a frame that isn't a request"
    said = [f"{name} {text(getattr(it, name))}" for name in it.fields if getattr(it, name) not in (None, -1)]
    return f"{type(it).__name__.lower()}: {', '.join(said)}"


def reply(line: str, printed: str) -> Fields:
    """A printed line of `coord reply`, which is the answer to an input line."""
    if not line.startswith("req ") or printed == "close":
        return [("line", printed)]
    try:
        frame, is_commit = bytes.fromhex(printed), int(line[12:16], 16) == Commit.key
        correlation, values = read_reply(frame[4:], COMMIT_REPLY if is_commit else HEARTBEAT_REPLY)
    except (Unreadable, ValueError):
        return [("a reply that can't be read", printed)]
    head = [("size", str(int.from_bytes(frame[:4], "big"))), ("correlation id", str(correlation))]
    if is_commit:
        codes = [(f"{name}/{index}", f"code {code}") for name, parts in values.pop("topics") for index, code in parts]
        return [*head, *((name, text(value)) for name, value in values.items()), *codes]
    values["assignment"] = partitions(values["assignment"] and values["assignment"][0])
    return [*head, *((name, text(value)) for name, value in values.items())]


def act(line: str, printed: str) -> Fields:
    """A printed line of `coord run`, which is what comes of an act, or of the report where there is no act."""
    words = printed.split(" ")
    if not line and len(words) == 5:
        return [*zip(("client", "state", "id", "epoch", "owns"), words)]
    return [*zip(words[::2], words[1::2])] if len(words) % 2 == 0 else [("line", printed)]
