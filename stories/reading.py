"""Files, and what the lines of a script print: by a file, a program, or the rules."""

from __future__ import annotations

import re
import subprocess
import sys
from typing import NamedTuple, Optional

from conformance.rules.lines import shown

SECONDS = 600
STATE = "outside|steady|releasing|gone"
ENTRY = "[0-9a-f]{8}(?:-[0-9a-f]{4}){3}-[0-9a-f]{12}/[0-9]{1,10}"
SET = f"null|-|{ENTRY}(?:,{ENTRY})*"
NUMBER = "(-?[0-9]{1,20})"
# What the lines of each kind print where they aren't refused.
PRINTED = {
    "image": "image",
    "clock": "clock",
    "tick": f"removed {NUMBER}",
    **dict.fromkeys(("join", "beat", "quit"), f"sent {NUMBER}"),
    **dict.fromkeys(("lose", "release"), f"({STATE})"),
    "deliver": f"reply {NUMBER} code {NUMBER} epoch {NUMBER} shows ({SET})|closed",
    "take": f"({STATE}|ignored)",
    "commit": f"commit {NUMBER}",
    "bring": f"code {NUMBER}",
    "settle": "settled",
}
REFUSED = f"refused {NUMBER}"
REPORT = f"({STATE}) (\\S+) {NUMBER} ({SET})"


class NoScript(Exception):
    """Why something is no script, or no output of it; and where a story breaks off, what has written it up to there."""

    writer = None


class Reported(NamedTuple):
    """What the last lines of an output say of a client."""

    state: str
    member: str
    epoch: int
    owns: str


def read(path: str) -> bytes:
    """The bytes of a file; `-` is standard input."""
    try:
        if path == "-":
            return sys.stdin.buffer.read()
        with open(path, "rb") as file:
            return file.read()
    except OSError as error:
        raise NoScript(f"{path}: {error.strerror}") from None


def lines_of(path: str) -> list[bytes]:
    lines = read(path).split(b"\n")
    return lines if lines[-1] else lines[:-1]


class Output:
    """The lines of an output, one after the other. Without lines it is what the rules print."""

    def __init__(self, name: str = "", lines: Optional[list[str]] = None):
        self.name, self.lines, self.at = name, lines, 0

    def next(self, pattern: str, wanted: str, ruled: str) -> tuple[re.Match[str], bool]:
        """The next line, which is said to be what WANTED prints, and whether the rules print the same."""
        if self.lines is not None and self.at == len(self.lines):
            raise NoScript(f"{self.name} ends after {self.at} lines, before what {wanted} prints")
        line = ruled if self.lines is None else self.lines[self.at]
        self.at += 1
        found = re.fullmatch(pattern, line, re.ASCII)
        if found is None:
            raise NoScript(f"{self.name}, line {self.at}: {shown(line)} isn't what {wanted} prints")
        return found, line == ruled

    def end(self) -> None:
        if self.lines is not None and self.at < len(self.lines):
            raise NoScript(f"{self.name}, line {self.at + 1}: the script prints nothing more")


def output_in(path: str) -> Output:
    return Output(path, [line.decode(errors="replace") for line in lines_of(path)])


def output_of(program: str, script: list[bytes]) -> Output:
    """What a program prints for a script."""
    given = b"".join(line + b"\n" for line in script)
    try:
        ran = subprocess.run([program, "run"], input=given, capture_output=True, timeout=SECONDS, check=False)
    except (OSError, subprocess.TimeoutExpired) as error:
        raise NoScript(f"{program}: {getattr(error, 'strerror', None) or f'no end after {SECONDS} s'}") from None
    if ran.returncode:
        told = ran.stderr.decode(errors="replace").strip().split("\n")[-1]
        raise NoScript(f"{program} ended with status {ran.returncode}: {told}")
    return Output(f"the output of {program}", ran.stdout.decode(errors="replace").split("\n")[:-1])
