"""Consumers as processes."""

import contextlib
import pathlib
import signal
import subprocess
import threading
import time
from typing import Callable, Sequence

from broker.trials.prints import Print, print_of

CLOSE_SECONDS = 20


class Consumers:
    """A process with a consumer of this name, or with `count` of them, which are called NAME1 and so on."""

    def __init__(self, words: Sequence[str], name: str, count: int, log: pathlib.Path, tell: Callable[[Print], None]) -> None:
        self.name, self.names = name, [f"{name}{at + 1}" for at in range(count)] or [name]
        self.started, self.tell = time.time(), tell
        self.log = open(log, "w", encoding="utf-8")
        pipe = subprocess.PIPE
        self.process = subprocess.Popen(words, stdin=pipe, stdout=pipe, stderr=self.log, text=True, bufsize=1)
        self.reader = threading.Thread(target=self.read, daemon=True)
        self.reader.start()

    def read(self) -> None:
        for line in self.process.stdout or ():
            self.log.write(line)
            self.tell(print_of(line))
        self.log.close()

    def say(self, line: str) -> None:
        """Asks for something, unless the process has ended."""
        with contextlib.suppress(BrokenPipeError, ValueError):
            print(line, file=self.process.stdin, flush=True)

    def signal(self, which: signal.Signals) -> float:
        """Gives the moment before."""
        moment = time.time()
        self.process.send_signal(which)
        return moment

    def quit(self) -> float:
        """Closes all. Gives the moment before."""
        moment = time.time()
        self.say("quit all")
        self.wait()
        return moment

    def wait(self, seconds: float = CLOSE_SECONDS) -> bool:
        """Whether the process ended by itself in this time; else it is killed."""
        try:
            self.process.wait(seconds)
        except subprocess.TimeoutExpired:
            self.process.kill()
            self.process.wait()
            return False
        finally:
            self.reader.join()
        return True

    def is_running(self) -> bool:
        return self.process.poll() is None
