"""The folders with the clients: a Debian release each, with its own packages. Nothing of the system is changed."""

import dataclasses
import os
import pathlib
import shutil
import subprocess
from typing import Dict, List, Tuple

CONSUMER = pathlib.Path(__file__).with_name("consumer.py")
COMMON = ("librdkafka1", "python3", "kcat")
RELEASES: Dict[str, Tuple[str, ...]] = {"trixie": COMMON, "sid": (*COMMON, "python3-confluent-kafka")}
SHOWN = ("librdkafka1", "python3-confluent-kafka", "kcat")
INSTALL_SECONDS = 1_800


@dataclasses.dataclass(frozen=True)
class Client:
    """The release whose root has it, words for consumer.py, and settings that it is given if a scenario names no assignor."""

    release: str
    words: Tuple[str, ...] = ()
    settings: Tuple[str, ...] = ()


# 2.8.0 calls its application in the classic way if it is told of no assignor.
CLIENTS = {
    "trixie": Client("trixie", (), ("group.remote.assignor=uniform",)),
    "sid": Client("sid"),
    "confluent": Client("sid", ("-p",)),
}


class NotHere(Exception):
    """Why the clients can't be had on this machine."""


def mirror() -> str:
    """The address from which this machine has its own packages."""
    if shutil.which("apt-get") is None:
        raise NotHere("apt-get isn't there")
    words = ["apt-get", "indextargets", "--format", "$(REPO_URI)", "Created-By: Packages", "Label: Debian"]
    found = subprocess.run(words, capture_output=True, text=True, check=False).stdout.split()
    if not found:
        raise NotHere("apt-get knows no Debian repository")
    return found[0]


def make(folder: pathlib.Path) -> None:
    """Makes the roots that aren't there yet, side by side, and builds the consumers in each."""
    if os.geteuid() != 0:
        raise NotHere("only root can use chroot")
    missing = [release for release in RELEASES if not (folder / release / "usr/bin/kcat").exists()]
    if missing and shutil.which("debootstrap") is None:
        raise NotHere("debootstrap isn't there")
    folder.mkdir(parents=True, exist_ok=True)
    running = {release: install(folder, release) for release in missing}
    for release, process in running.items():
        if process.wait(INSTALL_SECONDS):
            raise NotHere(f"debootstrap of {release} ended with {process.returncode}; {folder}/{release}.log says why")
    for release in RELEASES:
        shutil.copy(CONSUMER, folder / release)


def install(folder: pathlib.Path, release: str) -> subprocess.Popen:
    words = ["debootstrap", "--variant=minbase", "--include=" + ",".join(RELEASES[release]), release, str(folder / release), mirror()]
    with open(folder / f"{release}.log", "w", encoding="utf-8") as log:
        return subprocess.Popen(words, stdin=subprocess.DEVNULL, stdout=log, stderr=log)


def versions(folder: pathlib.Path) -> List[str]:
    """Each root's packages with their versions, as a line."""
    lines = []
    for release in RELEASES:
        words = ["chroot", str(folder / release), "dpkg-query", "-W", "-f", "${Package} ${Version}\n", *SHOWN]
        found = subprocess.run(words, capture_output=True, text=True, check=False).stdout.splitlines()
        lines.append(f"{release}: {', '.join(found)}")
    return lines
