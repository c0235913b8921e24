"""What is counted and timed of the parts."""

from __future__ import annotations

from typing import Iterable

from broker.metrics import Counter, Histogram

APPEND_BOUNDS = (0.0005, 0.001, 0.0025, 0.005, 0.01, 0.025, 0.05, 0.1, 0.25, 0.5, 1, 2.5, 5, 10)


class Measures:
    def __init__(self) -> None:
        self._appends = Histogram("broker_append_seconds", "From a batch's being sent to etcd until it is known to be in the log.", APPEND_BOUNDS)
        self._entries = Counter("broker_appended_entries_total", "Entries in the batches that were appended.")
        self._bytes = Counter("broker_appended_bytes_total", "Bytes of the batches that were appended.")
        self._writes = Histogram("broker_snapshot_write_seconds", "How long a part's leader applied nothing, to write a snapshot down.", APPEND_BOUNDS)
        self._snapshots = Histogram("broker_snapshot_seconds", "From the beginning of a snapshot until it is in etcd.", APPEND_BOUNDS)
        self._leaderships = Counter("broker_leaderships_total", "Leaderships that began here, by part.")
        self._changes = Counter("broker_leader_changes_total", "Changes of who leads a part, as far as they were seen here, by part.")

    def began(self, part: int) -> None:
        self._leaderships.add((("part", str(part)),))

    def changed(self, part: int) -> None:
        self._changes.add((("part", str(part)),))

    def appended(self, entries: int, size: int, seconds: float) -> None:
        if entries:
            self._appends.observe(seconds)
            self._entries.add((), entries)
            self._bytes.add((), size)

    def wrote_snapshot(self, seconds: float) -> None:
        self._writes.observe(seconds)

    def put_snapshot(self, seconds: float) -> None:
        self._snapshots.observe(seconds)

    def lines(self) -> Iterable[str]:
        for each in (self._appends, self._entries, self._bytes, self._writes, self._snapshots, self._leaderships, self._changes):
            yield from each.lines()
