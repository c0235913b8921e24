"""Lines whose reader stops, a file that fails, and the record of the frames."""

from __future__ import annotations

import re
import threading
import unittest
from typing import List
from unittest import mock

from broker import output
from broker.output import Output
from broker.record import Record
from broker.tests.support import SECONDS, TOPIC, accept_all, data, front, small_cluster
from broker.tests.test_connection import HEARTBEAT, JOIN_1, VERSIONS
from broker.topics import read


class Reader:
    """Takes what is written: nothing at first, or it fails with some errors."""

    def __init__(self, *errors: OSError) -> None:
        self.errors, self.goes_on, self.is_asked = [*errors], threading.Event(), threading.Event()
        self.text = ""

    def write(self, written: bytes) -> None:
        self.is_asked.set()
        self.goes_on.wait(SECONDS)
        if self.errors:
            raise self.errors.pop(0)
        self.text += written.decode()


class TheOutput(unittest.TestCase):
    def test_what_does_not_fit_is_counted_and_told_in_its_place(self) -> None:
        reader = Reader()
        it = Output(reader.write, most_bytes=40)
        it.line("first")
        reader.is_asked.wait(SECONDS)
        for number in range(10):
            it.line(f"line {number}")
        reader.goes_on.set()
        while "left out" not in reader.text:
            pass
        it.line("later")
        it.end()
        # Each of the ten takes seven bytes, and the first one six.
        self.assertEqual(reader.text.splitlines(), ["first", "line 0", "line 1", "line 2", "line 3", "6 lines were left out", "later"])

    def test_the_last_lines_are_written_at_the_end_and_a_reader_that_stops_does_not_hold_it_up(self) -> None:
        read_on, stopped = Reader(), Reader()
        read_on.goes_on.set()
        for reader in (read_on, stopped):
            it = Output(reader.write)
            for number in range(3):
                it.line("ab"[:number], bytes(range(number)))
            it.end(seconds=SECONDS if reader is read_on else 0.01)
        self.assertEqual((read_on.text, stopped.text), ("\na00\nab0001\n", ""))
        stopped.goes_on.set()

    def test_a_file_that_fails_is_tried_again_and_what_is_lost_is_told(self) -> None:
        failed: List[OSError] = []
        reader = Reader(OSError("full"))
        reader.goes_on.set()
        with mock.patch.object(output, "AGAIN_SECONDS", 0.01):
            it = Output(reader.write, failed=failed.append)
            it.line("first")
            while "left out" not in reader.text:
                pass
            it.line("second")
            it.end()
        # The first may have been written in part.
        self.assertEqual((reader.text, [str(why) for why in failed]), ("\n1 lines were left out\nsecond\n", ["full"]))


class TheRecord(unittest.IsolatedAsyncioTestCase):
    async def test_frames_are_recorded_in_both_directions(self) -> None:
        reader = Reader()
        reader.goes_on.set()
        cluster = small_cluster()
        cluster.record = Record(reader.write, [read(TOPIC)])
        async with front(accept_all, cluster) as it:
            first, second = await it.client(), await it.client()
            replies = [await client.ask(text) for client, text in ((second, JOIN_1), (first, VERSIONS.format(1)), (second, HEARTBEAT.format(2)))]
            second.close()
            await it.wait_for(lambda: "close" in reader.text)
        cluster.record.end()
        hexes = [framed(text) for text in (data(JOIN_1), replies[0], data(VERSIONS.format(1)), replies[1], data(HEARTBEAT.format(2)), replies[2])]
        words = ["2 in {}", "2 out {}", "1 in {}", "1 out {}", "2 in {}", "2 out {}"]
        wanted = [word.format(text) for word, text in zip(words, hexes)]
        opens = [f"{number} open 127.0.0.1:PORT 127.0.0.1:9093" for number in (1, 2)]
        head, *lines = reader.text.splitlines()
        self.assertRegex(head, rf"^record 1 \d+\.\d{{6}} {TOPIC}$")
        shown = [re.sub(r"(?<=open 127.0.0.1:)\d+", "PORT", line.split(" ", 1)[1]) for line in lines]
        self.assertEqual(shown, [*opens, *wanted, "2 close", "1 close"])
        moments = [float(line.split(" ")[0]) for line in lines]
        self.assertEqual(moments, sorted(moments))


def framed(body: object) -> str:
    assert isinstance(body, bytes)
    return f"{len(body):08x}{body.hex()}"
