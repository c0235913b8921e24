"""Long work in pieces, between which everything else goes on.

Whatever takes long (a request of many entries, a reply of many records, the page) is done a few milliseconds at a time. Behind each such
piece there is a pause, in which the event loop does all that is short. So what takes long takes longer, and nothing else waits for it.

Work that has had few pieces goes before work that has had more. What is long is done to its end before the next long work goes on, so that
little of it is half done at a time.
"""

from __future__ import annotations

import asyncio
import heapq
import itertools
from typing import Iterable, List, Tuple, TypeVar

Item = TypeVar("Item")
# How many entries or records a piece has, each of which takes some ten microseconds, and how many work may have before it has to take turns.
# (They are counted, since a clock goes on while the machine does other things.) And how long the pause after a piece is.
PIECE, FREE = 200, 100
PAUSE_SECONDS = 0.001
ITEMS = 16
# So many pieces are few.
FEW = 2
# Whether work is long, and a number in the order of coming: each time, or once if it is long.
Place = Tuple[bool, int]


class Turns:
    """What waits to go on, the least place first."""

    def __init__(self) -> None:
        self._waiting: List[Tuple[Place, asyncio.Future[None]]] = []
        self._is_called = False
        self.numbers = itertools.count()

    async def wait(self, place: Place) -> None:
        loop = asyncio.get_running_loop()
        turn = loop.create_future()
        heapq.heappush(self._waiting, (place, turn))
        if not self._is_called:
            self._is_called = True
            loop.call_soon(self._next)
        await turn

    def _next(self) -> None:
        while self._waiting:
            _, turn = heapq.heappop(self._waiting)
            if not turn.done():
                turn.set_result(None)
                # (What is called after this is called after the piece.)
                loop = asyncio.get_running_loop()
                loop.call_soon(loop.call_later, PAUSE_SECONDS, self._next)
                return
        self._is_called = False


class Pace:
    """How work goes on that may be long, a request's or a page's. It asks again and again whether others have to have a turn."""

    def __init__(self, turns: Turns) -> None:
        self._turns, self._number = turns, next(turns.numbers)
        self._pieces, self._left = 0, FREE

    async def pause(self, entries: int = 1) -> None:
        """Takes a turn, if that is due for so many entries more."""
        self._left -= entries
        if self._left >= 0:
            return
        is_long = self._pieces >= FEW
        await self._turns.wait((is_long, self._number if is_long else next(self._turns.numbers)))
        self._pieces, self._left = self._pieces + 1, PIECE

    async def all(self, items: Iterable[Item]) -> List[Item]:
        """A list of what is made one after the other."""
        made: List[Item] = []
        for item in items:
            made.append(item)
            if len(made) % ITEMS == 0:
                await self.pause(ITEMS)
        return made
