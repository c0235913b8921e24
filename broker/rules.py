"""The rules of the protocol in Python (conformance/rules), as a coordinator in this process. Nothing proves them."""

from __future__ import annotations

import asyncio
import contextlib
import dataclasses
import importlib
import signal
import time

from broker.frames import SIZE, framed
from broker.link import Coordinator, CoordinatorClosed, Link
from broker.topics import Topics

TICK_SECONDS = 0.05


def now() -> int:
    """Milliseconds of a clock that doesn't go back."""
    return time.monotonic_ns() // 1_000_000


class Rules(Coordinator):
    """The suite plants faults into the rules, which may then raise anything."""

    def __init__(self, topics: Topics, session_seconds: float) -> None:
        group, node = (importlib.import_module(f"conformance.rules.{it}") for it in ("group", "node"))
        session = int(session_seconds * 1000)
        setattr(group, "SESSION", session)
        setattr(group, "INTERVAL", min(group.INTERVAL, session // 9))
        self.topics, self.node, self._opened = topics, node.Node(), 0
        self._take_topics()

    def __str__(self) -> str:
        return "rules in Python"

    def connect(self, since: float) -> Link:
        self._opened += 1
        return RulesLink(self, self._opened)

    async def run(self) -> None:
        """Tells the time for ever. The signal USR1 adds a partition to each topic."""
        asyncio.get_running_loop().add_signal_handler(signal.SIGUSR1, self._grow)
        while True:
            await asyncio.sleep(TICK_SECONDS)
            with contextlib.suppress(Exception):
                self.node.tick(now())

    def _grow(self) -> None:
        for topic in [*self.topics]:
            self.topics.put(dataclasses.replace(topic, count=topic.count + 1))
        self._take_topics()

    def _take_topics(self) -> None:
        self.node.image = {topic.name: (topic.id.bytes, topic.count) for topic in self.topics}


class RulesLink(Link):
    def __init__(self, coordinator: Rules, number: int) -> None:
        super().__init__()
        self._node, self._number, self._frames = coordinator.node, number, 0

    async def ask(self, body: bytes, group: str) -> bytes:
        self._frames += 1
        try:
            reply = self._node.answer(framed(body), (self._number, self._frames), now())
        except Exception as why:  # pylint: disable=broad-except
            raise CoordinatorClosed(f"the coordinator has failed: {why!r}") from None
        if reply is None:
            raise CoordinatorClosed("the coordinator closed the connection instead of an answer")
        body_of_reply: bytes = reply[SIZE:]
        return body_of_reply
