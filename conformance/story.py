"""What happened in a case, line by line: each message decoded, with names in place of ids."""

from __future__ import annotations

import time
from typing import Dict, Iterable, List, Sequence, Tuple

from conformance.messages import AWAY, JOIN, LEAVE, Commit, Fetched, Heartbeat, Partitions, Told, Topic, by_topic

CODES = {
    0: "NONE",
    3: "UNKNOWN_TOPIC_OR_PARTITION",
    12: "OFFSET_METADATA_TOO_LARGE",
    14: "COORDINATOR_LOAD_IN_PROGRESS",
    15: "COORDINATOR_NOT_AVAILABLE",
    16: "NOT_COORDINATOR",
    22: "ILLEGAL_GENERATION",
    24: "INVALID_GROUP_ID",
    25: "UNKNOWN_MEMBER_ID",
    35: "UNSUPPORTED_VERSION",
    42: "INVALID_REQUEST",
    69: "GROUP_ID_NOT_FOUND",
    81: "GROUP_MAX_SIZE_REACHED",
    82: "FENCED_INSTANCE_ID",
    110: "FENCED_MEMBER_EPOCH",
    111: "UNRELEASED_INSTANCE_ID",
    112: "UNSUPPORTED_ASSIGNOR",
    113: "STALE_MEMBER_EPOCH",
    128: "INVALID_REGULAR_EXPRESSION",
}
ACTS = {JOIN: "joins", LEAVE: "leaves", AWAY: "leaves for a while"}
MOST_LINES = 4_000
LONGEST_VALUE, MOST_NAMES = 60, 6
# Of so many lines a block may have that is shown once where it comes again at once.
LONGEST_BLOCK = 24


def code_text(code: int) -> str:
    return f"{CODES[code]} ({code})" if code in CODES else f"error code {code}"


def codes_text(codes: Iterable[int]) -> str:
    return " or ".join(code_text(code) for code in sorted(codes))


def short(value: str) -> str:
    """A value from the wire, in one line and not longer than can be read."""
    shown = "".join(each if each.isprintable() else "\ufffd" for each in value[:LONGEST_VALUE])
    return shown + (f".. ({len(value)} characters)" if len(value) > LONGEST_VALUE else "")


class Story:
    def __init__(self, topics: Sequence[Topic]) -> None:
        self.began = time.monotonic()
        self.lines: List[Tuple[float, str]] = []
        # So many are shown at most: the first and the last ones.
        self.most = MOST_LINES
        self._names: Dict[bytes, str] = {topic.id: topic.name for topic in topics}

    def say(self, line: str) -> None:
        if len(self.lines) < MOST_LINES:
            self.lines.append((time.monotonic() - self.began, line))

    def shown(self) -> List[str]:
        """The lines with their seconds. What comes again and again is shown once."""
        out, at = [], 0
        while at < len(self.lines):
            size, times = self._block(at)
            out += [f"{seconds:7.3f} s  {line}" for seconds, line in self.lines[at : at + size]]
            if times > 1:
                until = self.lines[at + size * times - 1][0]
                out.append(f"           (the same{'' if size == 1 else f' {size} lines'} {times - 1} times more, until {until:.3f} s)")
            at += size * times
        left_out, begin = len(out) - self.most + 1, self.most // 2
        return [*out[:begin], f"           ({left_out} lines are left out)", *out[begin + left_out :]] if left_out > 1 else out

    def _block(self, at: int) -> Tuple[int, int]:
        """How many lines from there on come again at once, and how often they stand there; one line, once, where none do."""
        words = [line for _, line in self.lines[at : at + LONGEST_BLOCK * 2]]
        size = next((size for size in range(1, LONGEST_BLOCK + 1) if size * 2 <= len(words) and words[:size] == words[size : size * 2]), 0)
        if size == 0:
            return 1, 1
        times = 2
        while [line for _, line in self.lines[at + size * times : at + size * (times + 1)]] == words[:size]:
            times += 1
        return size, times

    # -- words

    def partitions(self, partitions: Partitions) -> str:
        """Partitions as in `orders[0..2,5] bills[1]`."""
        topics = by_topic(partitions)
        return " ".join(f"{self._names.get(topic, topic.hex())}[{runs(indexes)}]" for topic, indexes in topics.items()) or "nothing"

    @staticmethod
    def names(names: Sequence[str]) -> str:
        shown = " ".join(map(short, names[:MOST_NAMES])) or "nothing"
        return shown + (f" and {len(names) - MOST_NAMES} more" if len(names) > MOST_NAMES else "")

    def asked(self, who: str, request: Heartbeat, lost: bool) -> None:
        act = ACTS.get(request.epoch, f"beats at epoch {request.epoch}")
        words = [act, f"under member id {short(request.member)}" if request.member else "without a member id"]
        words += [f"instance {short(request.instance)}"] if request.instance is not None else []
        words += [f"rebalance timeout {request.timeout} ms"] if request.timeout != -1 else []
        words += [f"subscribes {self.names(request.names)}"] if request.names is not None else []
        words += [f"regular expression {short(request.regex)!r}"] if request.regex is not None else []
        words += [f"assignor {short(request.assignor)}"] if request.assignor is not None else []
        words += [f"owns {self.partitions(request.owned)}"] if request.owned is not None else []
        self.say(f"{who} -> {', '.join(words)}" + (" (it gives up waiting for the reply)" if lost else ""))

    def told(self, who: str, reply: Told, lost: bool) -> None:
        words = [code_text(reply.code)] if reply.code else [f"epoch {reply.epoch}"]
        words += [f"{short(reply.message)!r}"] if reply.message else []
        words += [f"assignment {self.partitions(reply.assignment)}"] if reply.assignment is not None else []
        words += [f"member id {short(reply.member)}"] if reply.member else []
        self.say(f"{who} <- {', '.join(words)}" + (" (lost)" if lost else ""))

    def committed(self, who: str, commit: Commit, version: int) -> None:
        parts = " ".join(f"{short(name)}[{part.index}]={part.offset}" for name, parts in commit.topics.items() for part in parts[:MOST_NAMES])
        self.say(f"{who} -> commits {parts} at epoch {commit.epoch} (version {version})")

    def fetched(self, who: str, found: Fetched) -> None:
        parts = " ".join(f"{short(name)}[{index}]={part.offset}" for (name, index), part in list(found.parts.items())[:MOST_NAMES])
        self.say(f"{who}: OffsetFetch gives {parts or 'nothing'}, {code_text(found.first_code())}")


def runs(indexes: Sequence[int]) -> str:
    """Rising numbers, with runs as `0..3`."""
    out: List[List[int]] = []
    for index in indexes:
        if out and index == out[-1][-1] + 1:
            out[-1][1:] = [index]
        else:
            out.append([index])
    return ",".join(f"{run[0]}..{run[-1]}" if len(run) > 1 else str(run[0]) for run in out)
