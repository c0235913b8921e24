"""Lines to a file, written by a thread of their own, so that whoever has one to write never waits for its reader."""

from __future__ import annotations

import collections
import os
import select
import threading
from typing import Callable, Deque, List, Tuple

MOST_BYTES = 1 << 20
# How much is written at a time, how long the end waits for a reader, and how long it takes until a file that failed is tried again.
PIECE_BYTES = 1 << 16
END_SECONDS = 2.0
AGAIN_SECONDS = 1.0
# A text, and data that stands after it in hexadecimal.
Line = Tuple[str, bytes]
Write = Callable[[bytes], None]


def to_file(number: int) -> Write:
    """Writes all of some bytes to an open file, by its number, however long that takes."""

    def write(data: bytes) -> None:
        left = memoryview(data)
        while left:
            try:
                left = left[os.write(number, left) :]
            except BlockingIOError:
                select.select([], [number], [])

    return write


class Output:
    """Lines that wait to be written, of at most so many bytes together. What doesn't fit is left out and counted. Once all that waits is
    written, `left_out` makes a line of the count."""

    def __init__(
        self,
        write: Write,
        most_bytes: int = MOST_BYTES,
        left_out: Callable[[int], str] = "{} lines were left out".format,
        failed: Callable[[OSError], None] = lambda _: None,
        encoding: str = "utf-8",
    ) -> None:
        self._write, self._most_bytes, self._in_words, self._failed, self._encoding = write, most_bytes, left_out, failed, encoding
        self._changed = threading.Condition()
        self._lines: Deque[Line] = collections.deque()
        # What waits, also of what is being written; and how many lines were left out since the last one that was taken.
        self._bytes = self._left_out = 0
        self._is_ended = False
        # Whether the file may end in the middle of a line.
        self._is_torn = False
        self._thread = threading.Thread(target=self._run, daemon=True)

    def line(self, text: str, data: bytes = b"") -> None:
        """Takes a line, or leaves it out. Never waits."""
        with self._changed:
            # (What comes after lines that were left out is left out, too, until these are told of.)
            if self._left_out or self._bytes + _size(text, data) > self._most_bytes:
                self._left_out += 1
                return
            self._bytes += _size(text, data)
            self._lines.append((text, data))
            self._changed.notify()
            if self._thread.ident is None:
                self._thread.start()

    def end(self, seconds: float = END_SECONDS) -> None:
        """Waits until all lines are written, at most so long."""
        with self._changed:
            self._is_ended = True
            self._changed.notify()
        if self._thread.ident is not None:
            self._thread.join(seconds)

    def _run(self) -> None:
        while True:
            with self._changed:
                self._changed.wait_for(lambda: self._lines or self._left_out or self._is_ended)
                lines = [self._lines.popleft() for _ in range(len(self._lines))]
                left_out, self._left_out = self._left_out, 0
            if not lines and not left_out:
                return
            lost = sum(not self._is_written(piece) and len(piece) for piece in _pieces(lines))
            if lost or left_out and not self._is_written([(self._in_words(left_out), b"")]):
                if not self._waits_to_try_again(lost + left_out):
                    return
            with self._changed:
                self._bytes -= sum(_size(*line) for line in lines)

    def _is_written(self, lines: List[Line]) -> bool:
        text = "\n" * self._is_torn + "".join(f"{text}{data.hex()}\n" for text, data in lines)
        try:
            self._write(text.encode(self._encoding, "backslashreplace"))
            self._is_torn = False
        except OSError as why:
            self._is_torn = True
            self._failed(why)
        return not self._is_torn

    def _waits_to_try_again(self, lost: int) -> bool:
        """Counts lines that couldn't be written. Whether there is any sense in going on."""
        with self._changed:
            self._left_out += lost
            return not self._changed.wait_for(lambda: self._is_ended, AGAIN_SECONDS)


def _size(text: str, data: bytes) -> int:
    return len(text) + 2 * len(data) + 1


def _pieces(lines: List[Line]) -> List[List[Line]]:
    """The lines in order, so many together as are written at a time."""
    pieces: List[List[Line]] = []
    size = PIECE_BYTES
    for line in lines:
        if size + _size(*line) > PIECE_BYTES:
            pieces.append([])
            size = 0
        pieces[-1].append(line)
        size += _size(*line)
    return pieces


STANDARD_ERROR = Output(to_file(2), left_out="broker: {} lines were left out".format)


def say(line: str) -> None:
    """One line on standard error."""
    STANDARD_ERROR.line(f"broker: {line}")
