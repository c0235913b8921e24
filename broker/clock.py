"""The clock of a leadership."""

from __future__ import annotations

import time

# Between two looks at the clock no more time than this counts.
MOST_STEP_MS = 2_000


class Clock:
    """Milliseconds of a clock that isn't set, and that stands still while this process does, or waits for etcd: nobody could send a heartbeat
    then, so nobody's session is to end by that."""

    def __init__(self) -> None:
        self._seen, self._now = _milliseconds(), 0

    def now(self) -> int:
        seen = _milliseconds()
        self._now += min(seen - self._seen, MOST_STEP_MS)
        self._seen = seen
        return self._now


def _milliseconds() -> int:
    return time.monotonic_ns() // 1_000_000
