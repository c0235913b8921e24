"""How long programs had to wait for this machine: for a processor, and after the moments of timers."""

import asyncio
import contextlib
import pathlib
from typing import Dict, Iterable

# How often a timer is set, and how late it may be on a machine that has nothing else to do.
STEP_SECONDS, USUAL_SECONDS = 0.05, 0.01


def of_processors(numbers: Iterable[int]) -> Dict[int, float]:
    """For how many seconds each of these processes has waited for a processor: its thread that has most. (If the system doesn't tell: 0.)"""
    found = {}
    for number in numbers:
        found[number] = 0.0
        for thread in pathlib.Path(f"/proc/{number}/task").glob("*/schedstat"):
            with contextlib.suppress(OSError, IndexError):
                found[number] = max(found[number], int(thread.read_text(encoding="ascii").split()[1]) / 1e9)
    return found


def most(some: Dict[int, float], more: Dict[int, float]) -> float:
    """What one of these processes has waited at most between two looks."""
    return max((more[it] - some.get(it, 0.0) for it in more), default=0.0)


class Timer:
    """How late the timers of this program were until now, in seconds, all together."""

    def __init__(self) -> None:
        self.late = 0.0
        self.running = asyncio.ensure_future(self.run())

    async def run(self) -> None:
        loop = asyncio.get_running_loop()
        while True:
            due = loop.time() + STEP_SECONDS
            await asyncio.sleep(STEP_SECONDS)
            self.late += max(0.0, loop.time() - due - USUAL_SECONDS)
