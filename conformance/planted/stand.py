"""A broker in Python, with its rules."""

from __future__ import annotations

import contextlib
import pathlib
import re
import subprocess
import sys
import threading
from typing import Iterator, NamedTuple, NoReturn, Set, Tuple

from conformance.planted.faults import TOP
from conformance.starter import drain

TOPICS = (
    "orders:11111111-1111-1111-1111-111111111111:4",
    "bills:22222222-2222-2222-2222-222222222222:3",
    "carts:33333333-3333-3333-3333-333333333333:4",
)
SESSION_SECONDS = 45.0
END_SECONDS = 10


# What was started and hasn't been ended.
LIVE: Set[subprocess.Popen[bytes]] = set()


class Broken(Exception):
    """A program that didn't begin to listen, and why."""


class Stand(NamedTuple):
    """Where the broker listens, and its process id."""

    address: Tuple[str, int]
    process: int


def stop(*_: object) -> NoReturn:
    """Ends what was started, so that nobody waits for it, and goes on as after an interrupt: as the handler of a signal."""
    for process in list(LIVE):
        process.terminate()
    raise KeyboardInterrupt


def end(process: subprocess.Popen[bytes]) -> None:
    LIVE.discard(process)
    process.terminate()
    try:
        process.wait(END_SECONDS)
    except subprocess.TimeoutExpired:
        process.kill()
        process.wait()


@contextlib.contextmanager
def over_rules(folder: pathlib.Path = TOP, session: float = SESSION_SECONDS) -> Iterator[Stand]:
    """The broker in Python of a folder, with the rules that are there. What it prints further is thrown away."""
    words = [sys.executable, "-B", "-m", "broker", "--start-rules", "--session", str(session), "--port", "0", *TOPICS]
    process = subprocess.Popen(words, cwd=folder, stdout=subprocess.PIPE, stderr=subprocess.DEVNULL)
    LIVE.add(process)
    try:
        assert process.stdout is not None
        found = re.match(rb"listening (\S+):(\d+) ", process.stdout.readline())
        if not found:
            raise Broken(f"{' '.join(words)} didn't begin to listen")
        threading.Thread(target=drain, args=(process.stdout,), daemon=True).start()
        yield Stand((found[1].decode(), int(found[2])), process.pid)
    finally:
        end(process)
