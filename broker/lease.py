"""The lease of a broker in etcd. All keys that say that it is there, or leads a part, end with it."""

from __future__ import annotations

import asyncio
import contextlib
import time

from broker.etcd import NOT_FOUND, Etcd, Refused, Unanswered
from broker.trouble import Trouble

# How many times it is prolonged in its time; after which part of its time another node of etcd is asked for that as well; and for which part of its
# time more it is waited for: if etcd elects a leader, which prolongs all leases, nobody hears of that at once.
TIMES, ANSWER_PART, MORE = 6, 0.2, 1 / 3
REVOKE_SECONDS = 1.0


class Lease:
    """It is held until etcd says otherwise, or its time and a part more is over by this machine's clock. (A reply doesn't depend on it: what is
    appended to a log names the leadership's key, and is refused once that is gone.)"""

    def __init__(self, etcd: Etcd, seconds: int) -> None:
        self.etcd, self.seconds = etcd, seconds
        self.id, self._until = 0, 0.0
        self.lost = Trouble("this broker leads nothing, since its lease in etcd is over", "this broker has a lease in etcd again")

    def is_held(self) -> bool:
        return self.id != 0 and time.monotonic() < self._until

    async def grant(self) -> None:
        """Takes a new one. Raises Unanswered and Refused."""
        began = time.monotonic()
        answer = await self.etcd.call("lease/grant", {"TTL": str(self.seconds)})
        self.id, self._until = int(answer["ID"]), began + int(answer["TTL"]) + self.seconds * MORE
        self.lost.is_well()

    async def keep(self) -> None:
        """Prolongs it until it is lost."""
        while self.is_held():
            began = time.monotonic()
            with contextlib.suppress(Unanswered, Refused):
                answer = await self.etcd.call("lease/keepalive", {"ID": str(self.id)}, self.seconds * ANSWER_PART)
                left = int(answer.get("TTL", 0))
                if left <= 0:
                    break
                self._until = began + left + self.seconds * MORE
            await asyncio.sleep(max(0.0, min(began + self.seconds / TIMES, self._until) - time.monotonic()))
        self._until = 0.0
        self.lost.is_there("it couldn't be prolonged in time")

    async def revoke(self) -> None:
        """Gives it back, with all its keys. Raises Unanswered and Refused."""
        if self.id:
            try:
                await self.etcd.call("lease/revoke", {"ID": str(self.id)}, REVOKE_SECONDS)
            except Refused as why:
                if why.code != NOT_FOUND:
                    raise
            self.id = 0
