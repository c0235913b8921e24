"""How fast a broker over etcd is."""

import pathlib
import sys
import time
from typing import Dict, List

from clients.stand import HOST, TOP, Failed, Ports, Programs
from broker.failover.brokers import PARTS
from broker.failover.etcds import Etcds, text
from broker.failover.run import TOPIC
from gate import commands

CONSUMERS, SECONDS, LEAD_SECONDS, APPENDS = (1, 20, 200), 5, 30, 300
KINDS = {"heartbeats": [], "commits": ["--commits"]}
# A measurement by its name, in words.
Told = Dict[str, str]


def of_load(port: int, consumers: int, words: List[str]) -> str:
    load = [str(TOP / "tools/load"), "--connections", str(consumers), "--depth", "1", "--seconds", str(SECONDS), "--topic", TOPIC.name]
    ran = commands.run([*load, *words, str(port)])
    if ran.status:
        raise Failed("\n".join(ran.lines()))
    rate, half, most = (float(it) for it in ran.lines()[-1].split()[2:5])
    return f"{rate:.0f}, {half / 1000:.1f}, {most / 1000:.1f}"


def of_broker(folder: pathlib.Path, library: str, words: List[str]) -> Told:
    """What a broker answers, once it leads all parts."""
    broker = Programs(folder)
    with Ports(1) as ports:
        words = [*words, "--library", library, "--port", str(ports[0]), TOPIC.word()]
        broker.start("broker", "listening", [sys.executable, "-B", "-m", "broker", *words])
        until = time.monotonic() + LEAD_SECONDS
        while (folder / "broker.txt").read_text(encoding="utf-8").count("is led from here") < PARTS:
            if time.monotonic() > until:
                raise Failed(f"a broker alone doesn't lead all parts after {LEAD_SECONDS} s")
            time.sleep(0.1)
        found = {f"{count} with {kind}": of_load(ports[0], count, more) for count in CONSUMERS for kind, more in KINDS.items()}
        broker.end()
    return found


def over_etcd(folder: pathlib.Path, library: str, count: int) -> Told:
    folder.mkdir()
    etcds, took = Etcds(folder, count), []
    for _ in range(APPENDS):
        took.append(-time.monotonic())
        etcds.any("kv/put", key=text(b"speed"), value=text(bytes(200)))
        took[-1] += time.monotonic()
    where = ",".join(f"{HOST}:{port}" for port in etcds.clients)
    found = {"one append": ", ".join(f"{1000 * sorted(took)[APPENDS * of // 100]:.1f}" for of in (50, 99))}
    found.update(of_broker(folder, library, ["--etcd", where, "--advertise", f"{HOST}:1", "--parts", str(PARTS)]))
    etcds.end()
    return found


def measure(folder: pathlib.Path, library: str) -> int:
    found: Dict[str, Told] = {f"{count} etcd": over_etcd(folder / str(count), library, count) for count in (1, 3)}
    print("Answers a second, and the milliseconds within which 50 and 99 of 100 came")
    for name in ("", *found["1 etcd"]):
        print(f"{name:20}" + "".join(f"{told.get(name, '') if name else head:>22}" for head, told in found.items()))
    return 0
