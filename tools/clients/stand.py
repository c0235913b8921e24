"""A broker and a relay before it, on ports of their own."""

import contextlib
import dataclasses
import pathlib
import signal
import socket
import subprocess
import sys
import time
from typing import Dict, List, Optional, Sequence

TOP = pathlib.Path(__file__).resolve().parents[2]
RELAY = TOP / "broker/trials/relay.py"
HOST = "127.0.0.1"
START_SECONDS = 180
END_SECONDS = 5


@dataclasses.dataclass(frozen=True)
class Topic:
    name: str
    id: str
    count: int

    def word(self) -> str:
        return f"{self.name}:{self.id}:{self.count}"


class Failed(Exception):
    """Something didn't start, or didn't answer."""


class Ports:
    """Free ports in a row, which nobody gets by chance until this is closed. (Several sockets may be bound to one, and one of them may listen.)"""

    def __init__(self, count: int) -> None:
        self.holders: List[socket.socket] = []
        self.numbers: List[int] = []
        while len(self.holders) < count:
            self.holders.append(socket.socket())
            try:
                self.holders[-1].bind((HOST, self.numbers[-1] + 1 if self.numbers else 0))
                self.numbers.append(self.holders[-1].getsockname()[1])
            except (OSError, OverflowError):
                self.close()
        for it in self.holders:
            it.setsockopt(socket.SOL_SOCKET, socket.SO_REUSEADDR, 1)

    def close(self) -> None:
        for it in self.holders:
            it.close()
        self.holders, self.numbers = [], []

    def __enter__(self) -> List[int]:
        return self.numbers

    def __exit__(self, *_: object) -> None:
        self.close()


def read_frame(connection: socket.socket) -> bytes:
    """A whole frame, or what came before the end."""
    data, missing = b"", 4
    with contextlib.suppress(ConnectionError):
        while missing > 0 and (more := connection.recv(missing)):
            data += more
            missing = (4 if len(data) < 4 else 4 + int.from_bytes(data[:4], "big", signed=True)) - len(data)
    return data


class Programs:
    """Programs that run. The folder gets what each prints."""

    def __init__(self, folder: pathlib.Path) -> None:
        self.folder = folder
        self.running: Dict[str, subprocess.Popen] = {}

    def start(self, name: str, line: str, words: List[str], top: pathlib.Path = TOP) -> None:
        """Starts a program in a repository, and waits until it prints a line that begins so."""
        path = self.folder / f"{name}.txt"
        with open(path, "w", encoding="utf-8") as printed:
            process = subprocess.Popen(words, cwd=top, stdin=subprocess.DEVNULL, stdout=printed, stderr=subprocess.STDOUT)
        self.running[name] = process
        until = time.monotonic() + START_SECONDS
        while not any(it.startswith(line) for it in path.read_text(encoding="utf-8").splitlines(keepends=True)):
            if process.poll() is not None or time.monotonic() > until:
                self.end()
                raise Failed(f"{name} doesn't listen: {path.read_text(encoding='utf-8').strip()}")
            time.sleep(0.02)

    def send_signal(self, name: str, which: signal.Signals) -> None:
        """Sends a signal. A program that this ends isn't one of these any more."""
        self.running[name].send_signal(which)
        if which in (signal.SIGKILL, signal.SIGTERM):
            self.running.pop(name).wait()

    def relay(self, control: int, ways: Sequence[str], *options: str) -> None:
        """Starts a relay that records frames.log in the folder."""
        record = ["--record", str(self.folder / "frames.log"), "--control", str(control)]
        self.start("relay", "listening", [sys.executable, "-B", str(RELAY), *record, *options, *ways])

    def end(self) -> List[str]:
        """Ends all programs. Names those that had ended before."""
        gone = [name for name, process in self.running.items() if process.poll() is not None]
        for process in reversed([*self.running.values()]):
            process.terminate()
        for process in self.running.values():
            try:
                process.wait(END_SECONDS)
            except subprocess.TimeoutExpired:
                process.kill()
                process.wait()
        return gone


class Stand(Programs):
    """A broker, which clients reach at `port`: through a relay with these options, or directly if they are None."""

    def __init__(self, broker: Sequence[str], topics: Sequence[Topic], folder: pathlib.Path, relay: Optional[Sequence[str]] = ()) -> None:
        """The broker is a command that is given its port and the topics."""
        super().__init__(folder)
        self.ports = Ports(3)
        self.own, self.port, self.control = self.ports.numbers
        self.words = [*broker, "--port", str(self.own), *(topic.word() for topic in topics)]
        self.serve()
        if relay is None:
            self.port = self.own
        else:
            self.relay(self.control, [f"{self.port}:{self.own}"], *relay)

    def serve(self) -> None:
        """Starts the broker, for the first time or again."""
        self.start("broker", f"listening {HOST}:{self.own}", self.words)

    def tell_relay(self, line: str) -> None:
        with socket.create_connection((HOST, self.control), END_SECONDS) as connection:
            connection.sendall(f"{line}\n".encode())
            answer = connection.makefile().readline().strip()
        if answer != "done":
            raise Failed(f"the relay answers {answer} to {line}")

    def send(self, frame: bytes) -> bytes:
        """The reply to a frame that comes over a new connection; none if it is closed."""
        with socket.create_connection((HOST, self.port), END_SECONDS) as connection:
            connection.sendall(frame)
            return read_frame(connection)

    def end(self) -> List[str]:
        gone = super().end()
        self.ports.close()
        return gone
