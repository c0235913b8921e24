"""A coordinator in this process, and the connections of clients to it."""

from __future__ import annotations

import asyncio


class CoordinatorClosed(Exception):
    """The coordinator has closed a connection, or says nothing on it any more."""


class Coordinator:
    """It numbers the connections of clients in the order in which they are accepted."""

    is_there = True

    def connect(self, since: float) -> Link:
        """A new connection, of a client whose own wasn't open before this moment."""
        raise NotImplementedError


class Link:
    """One client's connection. `ended` is done once the coordinator has closed it."""

    def __init__(self) -> None:
        self.ended: asyncio.Future[None] = asyncio.get_running_loop().create_future()

    async def ask(self, body: bytes, group: str) -> bytes:
        """The body of the reply to a request of this group. Raises CoordinatorClosed."""
        raise NotImplementedError

    async def confirm(self, group: str) -> None:
        """Returns once it is sure that this coordinator has the group: all that was answered of it is known here. Raises CoordinatorClosed."""

    def end(self) -> None:
        """Closes it from the coordinator's side."""
        if not self.ended.done():
            self.ended.set_result(None)

    def close(self) -> None:
        """The client's connection is closed."""
        self.ended.cancel()
