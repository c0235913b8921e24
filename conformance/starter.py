"""Starts a broker by a command, and again where it ended."""

from __future__ import annotations

import contextlib
import os
import re
import select
import shlex
import signal
import subprocess
import threading
import time
from typing import IO, Optional

from conformance.broker import NoBroker, is_there
from conformance.connection import Address

# How long a broker may take to start, and to end.
START_SECONDS, END_SECONDS = 60.0, 1.0
POLL_SECONDS = 0.05
LONGEST_LINE, SHOWN_CHARACTERS = 1 << 16, 300
ADDRESS = re.compile(rb"(\S+?):(\d{1,5})(?!\d)")


class Starter:
    """A broker at an address. Where there is a command, it starts the broker; without an address, its first line has that."""

    def __init__(self, address: Optional[Address], command: Optional[str], seconds: float) -> None:
        self.given, self.command, self.seconds = address, command, seconds
        self.process: Optional[subprocess.Popen[bytes]] = None
        self.found: Optional[Address] = None
        self.last_error = ""
        # (Slow cases are played at once.)
        self.starting = threading.Lock()

    def address(self) -> Address:
        """Where the broker listens. It is started where it isn't there. Raises NoBroker."""
        if self.command is None:
            assert self.given is not None
            return self.given
        with self.starting:
            if self.found is None or self.has_ended():
                self.end()
                self.found = self._start(self.command)
            return self.found

    def has_ended(self) -> bool:
        """Whether the broker isn't there any more. (One that ends may still be there for a moment.)"""
        if self.process is not None and self.process.poll() is not None:
            return True
        address = self.found or self.given
        return address is not None and not is_there(address, self.seconds)

    def why(self) -> str:
        with contextlib.suppress(subprocess.TimeoutExpired):
            if self.process is not None:
                return f"the broker ended with status {self.process.wait(END_SECONDS)}"
        return "the broker isn't there any more"

    def _start(self, command: str) -> Address:
        try:
            # In a session of its own, so that whatever the command starts is ended with it.
            self.process = subprocess.Popen(
                shlex.split(command),
                stdin=subprocess.DEVNULL,
                stdout=subprocess.PIPE,
                stderr=subprocess.PIPE,
                start_new_session=True,
            )
        except (OSError, ValueError) as why:
            raise NoBroker(f"--start: {command}: {why}") from None
        assert self.process.stdout is not None and self.process.stderr is not None
        threading.Thread(target=self._hear, args=(self.process.stderr,), daemon=True).start()
        until = time.monotonic() + START_SECONDS
        address = self.given or self._printed(self.process.stdout, until)
        threading.Thread(target=drain, args=(self.process.stdout,), daemon=True).start()
        while not is_there(address, self.seconds):
            self._go_on(until, f"{address[0]}:{address[1]} can't be reached")
        return address

    def _printed(self, output: IO[bytes], until: float) -> Address:
        """The first HOST:PORT that the command prints."""
        printed = b""
        while True:
            found = ADDRESS.search(printed) if b"\n" in printed else None
            if found:
                return found[1].decode(errors="replace"), int(found[2])
            if select.select([output], [], [], POLL_SECONDS)[0]:
                printed += os.read(output.fileno(), 4096)
            self._go_on(until, "it has printed no HOST:PORT")

    def _hear(self, errors: IO[bytes]) -> None:
        """Keeps the last line of its standard error."""
        with errors:
            for line in iter(lambda: errors.readline(LONGEST_LINE), b""):
                self.last_error = line.decode(errors="replace").strip()[:SHOWN_CHARACTERS] or self.last_error

    def _go_on(self, until: float, why: str) -> None:
        assert self.process is not None
        if self.process.poll() is not None:
            time.sleep(POLL_SECONDS)
            raise NoBroker(f"--start: the command ended with status {self.process.returncode}: {self.last_error or why}")
        if time.monotonic() > until:
            raise NoBroker(f"--start: after {START_SECONDS:g} s {why}")
        time.sleep(POLL_SECONDS)

    def end(self) -> None:
        """Ends what was started, and waits for it."""
        if self.process is None:
            return
        for number in (signal.SIGTERM, signal.SIGKILL):
            with contextlib.suppress(ProcessLookupError):
                os.killpg(self.process.pid, number)
            with contextlib.suppress(subprocess.TimeoutExpired):
                self.process.wait(END_SECONDS)
                break
        self.process = None


def drain(output: IO[bytes]) -> None:
    """Reads on, so that the command never waits for a reader."""
    with output:
        while output.read(4096):
            pass
