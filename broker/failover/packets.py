"""Drops packets on loopback, so that TCP sends them again until they come. That is done in a network of this program's own, which only it and the
programs that it starts have: nothing else on the machine is touched."""

import ctypes
import fcntl
import os
import shutil
import socket
import struct
import subprocess
from typing import List, Sequence

# From <sched.h>, <linux/if.h> and <linux/sockios.h>.
CLONE_NEWNET, IFF_UP, SIOCGIFFLAGS, SIOCSIFFLAGS = 0x40000000, 1, 0x8913, 0x8914
FLAGS = struct.Struct("16sh14x")


class NotHere(Exception):
    """Why packets can't be dropped on this machine."""


def own_network() -> None:
    """Has this program a network of its own from now on, with a loopback alone. Raises NotHere."""
    if os.geteuid() != 0 or shutil.which("iptables") is None:
        raise NotHere("it takes root, and iptables")
    if ctypes.CDLL(None, use_errno=True).unshare(CLONE_NEWNET):
        raise NotHere(f"no network of its own: {os.strerror(ctypes.get_errno())}")
    with socket.socket() as any_socket:
        name, flags = FLAGS.unpack(fcntl.ioctl(any_socket, SIOCGIFFLAGS, FLAGS.pack(b"lo", 0)))
        fcntl.ioctl(any_socket, SIOCSIFFLAGS, FLAGS.pack(name, flags | IFF_UP))
    for packets in (of_client(1), but_the_first(1), with_text([1], "text")):
        why = drop(packets)
        if why:
            raise NotHere(why)
        let_pass(packets)


def drop(packets: Sequence[str]) -> str:
    """Drops these packets of TCP from now on. Why it can't, or nothing."""
    return _iptables("-I", packets)


def let_pass(packets: Sequence[str]) -> None:
    _iptables("-D", packets)


def _iptables(verb: str, packets: Sequence[str]) -> str:
    words: List[str] = ["iptables", "-w", verb, "INPUT", "-i", "lo", "-p", "tcp", *packets, "-j", "DROP"]
    ran = subprocess.run(words, capture_output=True, text=True, check=False)
    return ran.stderr.strip() if ran.returncode else ""


def of_client(port: int) -> List[str]:
    """What comes from a port."""
    return ["--sport", str(port)]


def but_the_first(port: int) -> List[str]:
    """What comes from a port, but for the segment that opens a connection."""
    return ["--sport", str(port), "!", "--syn"]


def with_text(ports: Sequence[int], text: str) -> List[str]:
    """What comes to one of these ports, up to 15, with this text in it."""
    return ["-m", "multiport", "--dports", ",".join(map(str, ports)), "-m", "string", "--algo", "bm", "--string", text]
