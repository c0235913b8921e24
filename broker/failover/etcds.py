"""Some etcd on loopback, and calls of their JSON gateway."""

import base64
import contextlib
import http.client
import json
import os
import pathlib
import shutil
import signal
import time
import urllib.request
from typing import Any, Dict, List

from clients.stand import HOST, Failed, Ports, Programs
from gate import commands

INSTALL_SECONDS, READY_SECONDS, ANSWER_SECONDS, WATCHED_SECONDS = 300, 60, 5, 1
# What the data may grow to, and how much is put in at a time to fill that.
ROOM, PIECE = 192 << 20, 1 << 20


class NotHere(Exception):
    """Why there is no etcd on this machine."""


def install() -> None:
    """Installs etcd if it is missing and this is root, and says so before."""
    if shutil.which("etcd") is None and os.geteuid() == 0 and shutil.which("apt-get") is not None:
        words = ["apt-get", "install", "--yes", "--no-install-recommends", "etcd-server", "etcd-client"]
        print(f"etcd isn't here: {' '.join(words)}", flush=True)
        commands.run(["env", "DEBIAN_FRONTEND=noninteractive", *words], limit=INSTALL_SECONDS)
    if shutil.which("etcd") is None:
        raise NotHere("etcd isn't there, and can't be installed")


def text(data: bytes) -> str:
    return base64.b64encode(data).decode()


def opened(port: int, path: str, seconds: float, body: Dict[str, Any]) -> Any:
    """What an etcd answers, as a file. No read of it takes longer than these seconds."""
    asked = urllib.request.Request(f"http://{HOST}:{port}/v3/{path}", json.dumps(body).encode(), {"Content-Type": "application/json"})
    return urllib.request.urlopen(asked, timeout=seconds)


def call(port: int, path: str, seconds: float = ANSWER_SECONDS, **body: Any) -> Dict[str, Any]:
    """What an etcd answers. Raises OSError if it doesn't, or refuses."""
    try:
        with opened(port, path, seconds, body) as answer:
            found: Dict[str, Any] = json.load(answer)
            return found
    except (ValueError, http.client.HTTPException) as why:
        raise OSError(f"etcd at {port}: {why}") from None


class Etcds(Programs):
    def __init__(self, folder: pathlib.Path, count: int) -> None:
        super().__init__(folder)
        self.ports = Ports(2 * count)
        self.clients, self.peers = self.ports.numbers[:count], self.ports.numbers[count:]
        for number in range(count):
            self.start_one(f"etcd{number}")
        self.leader()

    def start_one(self, name: str) -> None:
        """Starts one, for the first time or again."""
        client, peer = (f"http://{HOST}:{ports[int(name[4:])]}" for ports in (self.clients, self.peers))
        cluster = ",".join(f"etcd{at}=http://{HOST}:{port}" for at, port in enumerate(self.peers))
        words = ["etcd", "--name", name, "--data-dir", str(self.folder / f"{name}.data"), "--quota-backend-bytes", str(ROOM)]
        words += ["--listen-client-urls", client, "--advertise-client-urls", client, "--listen-peer-urls", peer]
        words += ["--initial-advertise-peer-urls", peer, "--initial-cluster", cluster, "--initial-cluster-state", "new"]
        self.start(name, "", words)

    def leader(self) -> str:
        """The one that leads, once one does."""
        until = time.monotonic() + READY_SECONDS
        while time.monotonic() < until:
            for number, port in enumerate(self.clients):
                with contextlib.suppress(OSError):
                    found = call(port, "maintenance/status", 1)
                    if found.get("leader", "0") == found["header"]["member_id"]:
                        return f"etcd{number}"
            time.sleep(0.1)
        raise Failed(f"no etcd leads after {READY_SECONDS} s")

    def any(self, path: str, seconds: float = ANSWER_SECONDS, **body: Any) -> Dict[str, Any]:
        """What the first one answers that does."""
        for port in self.clients:
            with contextlib.suppress(OSError):
                return call(port, path, seconds, **body)
        raise OSError(f"no etcd answers {path}")

    def used(self) -> int:
        """How many bytes of data one has, without what is free among them."""
        return int(self.any("maintenance/status")["dbSizeInUse"])

    def count(self, folder: str) -> int:
        """How many keys there are below a folder's name, which ends in `/`."""
        found = self.any("kv/range", key=text(folder.encode()), range_end=text(folder[:-1].encode() + b"0"), count_only=True)
        return int(found.get("count", 0))

    def pairs(self, folder: str) -> Dict[str, bytes]:
        """The keys below a folder's name, which ends in `/`, with their values."""
        found = self.any("kv/range", key=text(folder.encode()), range_end=text(folder[:-1].encode() + b"0"))
        return {base64.b64decode(it["key"]).decode(): base64.b64decode(it["value"]) for it in found.get("kvs", [])}

    def first(self, key: str, end: str) -> str:
        """The first key from one on, and before another one; or nothing."""
        found = self.any("kv/range", key=text(key.encode()), range_end=text(end.encode()), limit=1, keys_only=True).get("kvs", [])
        return base64.b64decode(found[0]["key"]).decode() if found else ""

    def fill(self) -> None:
        """Puts in as much as there is room for."""
        with contextlib.suppress(OSError):
            for number in range(4 * ROOM // PIECE):
                self.any("kv/put", key=text(b"fill/%d" % number), value=text(os.urandom(PIECE)))
        if not self.any("maintenance/alarm").get("alarms"):
            raise Failed("etcd's room has no end")

    def compact(self) -> None:
        """Drops what the keys were before now, once whoever watches them has had time for it."""
        revision = self.any("kv/range", key=text(b"none"))["header"]["revision"]
        time.sleep(WATCHED_SECONDS)
        self.any("kv/compaction", revision=revision, physical=True)

    def empty(self) -> None:
        """Gives the room back, as an operator does it."""
        self.any("kv/deleterange", key=text(b"fill/"), range_end=text(b"fill0"))
        self.compact()
        for port in self.clients:
            call(port, "maintenance/defragment", 60)
        for alarm in self.any("maintenance/alarm").get("alarms", []):
            self.any("maintenance/alarm", action="DEACTIVATE", memberID=alarm["memberID"], alarm=alarm["alarm"])

    def end(self) -> List[str]:
        for name in self.running:
            self.send_signal(name, signal.SIGCONT)
        self.ports.close()
        return super().end()
