"""Kills journal.c at random moments while commits stream in, and looks in its file for what it answered.

MIGWELUN_JOURNAL is the program of journal.c, and MIGWELUN_LIBRARY is libmigwelun.so.
"""

import os
import pathlib
import random
import struct
import subprocess
import tempfile
import threading
import unittest
from typing import Iterator, List, Tuple

import migwelun

HEARTBEAT, COMMIT = (68, 0), (8, 9)
GROUP, TOPIC = b"\x02g", b"\x02t"
SALT, SIZE, AT_ONCE = 8, 4, 8
HEAD = SALT + SIZE
KILLS, LONGEST_LIFE = 200, 0.1


def frame(api: Tuple[int, int], correlation: int, fields: bytes) -> bytes:
    """A request without a client id (Kafka protocol guide)."""
    body = struct.pack(">hhih", *api, correlation, -1) + b"\0" + fields + b"\0"
    return struct.pack(">i", len(body)) + body


def heartbeat(member: bytes, epoch: int) -> bytes:
    """A join that subscribes t, or a beat that says nothing new (KIP-848)."""
    news = struct.pack(">i", 60_000) + b"\x02" + TOPIC if epoch == 0 else struct.pack(">i", -1) + b"\0"
    return frame(HEARTBEAT, 0, GROUP + bytes([len(member) + 1]) + member + struct.pack(">i", epoch) + b"\0\0" + news + b"\0\0")


def commit(member: bytes, epoch: int, offset: int) -> bytes:
    partition = struct.pack(">iqi", 0, offset, -1) + b"\0\0"
    fields = GROUP + struct.pack(">i", epoch) + bytes([len(member) + 1]) + member + b"\0\x02" + TOPIC + b"\x02" + partition + b"\0"
    return frame(COMMIT, offset, fields)


class Journal:
    """The file of a journal, what a replica makes of its snapshot and its whole entries, and how often there was another snapshot."""

    def __init__(self, path: pathlib.Path) -> None:
        self.path, self.at, self.snapshot, self.snapshots = path, 0, b"", 0
        self.replica = migwelun.Replica(os.environ["MIGWELUN_LIBRARY"], 0)

    def committed(self) -> int:
        """The offset that was committed last, by the entries that are there."""
        data = self.path.read_bytes()
        snapshot = data[HEAD : HEAD + int.from_bytes(data[SALT:HEAD], "big")]
        if snapshot != self.snapshot:
            self.snapshot, self.at, self.snapshots = snapshot, HEAD + len(snapshot), self.snapshots + 1
            self.replica.restore(snapshot)
        while len(data) - self.at >= SIZE:
            end = self.at + SIZE + int.from_bytes(data[self.at : self.at + SIZE], "big")
            if end > len(data):
                break
            self.replica.apply(self.replica.place().applied + 1, data[self.at + SIZE : end])
            self.at = end
        found = self.replica.committed("g", "t", 0)
        return found.offset if found else -1


class Client:
    """One member, whose commits have the offsets 1, 2, 3 and so on."""

    def __init__(self) -> None:
        self.member, self.epoch, self.sent, self.answered = b"", 0, 0, -1

    def live(self, command: List[str]) -> None:
        """Streams commits to a journal until it is killed."""
        process = subprocess.Popen(command, stdin=subprocess.PIPE, stdout=subprocess.PIPE)
        assert process.stdin is not None and process.stdout is not None
        try:
            process.stdin.write(heartbeat(self.member, self.epoch))
            process.stdin.flush()
            replies = self.replies(process)
            self.beaten(next(replies))
            threading.Timer(random.random() * LONGEST_LIFE, process.kill).start()
            while True:
                process.stdin.write(b"".join(commit(self.member, self.epoch, self.sent + more) for more in range(1, AT_ONCE + 1)))
                process.stdin.flush()
                self.sent += AT_ONCE
                for _ in range(AT_ONCE):
                    reply = next(replies)
                    if reply[-5:-3] != b"\0\0":
                        raise ValueError(f"a commit was answered with {reply.hex()}")
                    self.answered = int.from_bytes(reply[:4], "big")
        except (BrokenPipeError, StopIteration):
            pass
        finally:
            process.kill()
            process.wait()

    @staticmethod
    def replies(process: "subprocess.Popen[bytes]") -> Iterator[bytes]:
        assert process.stdout is not None
        while len(size := process.stdout.read(SIZE)) == SIZE:
            reply = process.stdout.read(int.from_bytes(size, "big"))
            if len(reply) < int.from_bytes(size, "big"):
                return
            yield reply

    def beaten(self, reply: bytes) -> None:
        """Takes the id and the epoch of a heartbeat's reply without an error: they stand after 5 + 4 + 2 + 1 bytes."""
        if reply[9:11] != b"\0\0":
            raise ValueError(f"a heartbeat was answered with {reply.hex()}")
        length = reply[12] - 1
        self.member, self.epoch = reply[13 : 13 + length], int.from_bytes(reply[13 + length : 17 + length], "big")


class Killed(unittest.TestCase):
    def test_nothing_that_was_answered_is_lost(self) -> None:
        """Every tenth kill leaves an entry that was cut."""
        with tempfile.TemporaryDirectory() as folder:
            path = pathlib.Path(folder, "log")
            command, client, journal = [os.environ["MIGWELUN_JOURNAL"], str(path), "t:11111111-1111-1111-1111-111111111111:1"], Client(), Journal(path)
            for kill in range(KILLS):
                client.live(command)
                self.assertGreaterEqual(journal.committed(), client.answered, f"kill {kill}: an offset was answered that isn't in the journal")
                if kill % 10 == 0:
                    with open(path, "r+b") as file:
                        file.seek(journal.at)
                        file.write(struct.pack(">I", 100) + b"cut")
                        file.truncate()
            self.assertGreater(client.answered, KILLS, "commits were answered")
            self.assertGreater(journal.snapshots, 3, "journals were exchanged")
