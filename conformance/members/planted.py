"""Wrong consumers, each of which the case that names it has to find, and harmless ones: tools/check-members plays them.

A consumer is the one of consumer.py with an edit of planted.txt or harmless.txt, in a copy of what it is made of.
"""

from __future__ import annotations

import pathlib
import re
import shutil
import sys
import tempfile
from typing import List, Sequence

from conformance.members.case import ALWAYS, MemberCase
from conformance.members.play import Settings
from conformance.members.runner import run
from conformance.planted.faults import TOP, BadFault, Fault
from conformance.runner import Result

PLANTED, HARMLESS = (pathlib.Path(__file__).with_name(name) for name in ("planted.txt", "harmless.txt"))
PARTS = ("__init__.py", "wire.py", "messages.py", "rules", "members")
# In which cases a rule of the checker is looked at.
SHOWS_RULES = ("take-in-turns", "revoke-stops-reading", "commit-epoch", "leave-closes", "unsubscribe-leaves")
PATIENCE = 5.0


def plant(fault: Fault, folder: pathlib.Path) -> None:
    """Makes a copy of the consumer with the fault in a folder. Raises BadFault."""
    for part in PARTS:
        source, copy = TOP / "conformance" / part, folder / "conformance" / part
        if source.is_dir():
            shutil.copytree(source, copy, ignore=shutil.ignore_patterns("__pycache__", "cases*"))
        else:
            copy.parent.mkdir(exist_ok=True)
            shutil.copy(source, copy)
    for edit in fault.edits:
        path = folder / "conformance" / edit.file
        text = path.read_text(encoding="utf-8")
        old, new = ("\n".join(lines) for lines in (edit.old, edit.new))
        if text.count(old) != 1:
            raise BadFault(f"{fault.name}: its old lines stand {text.count(old)} times in {edit.file}")
        path.write_text(text.replace(old, new), encoding="utf-8")


def settings_of(folder: pathlib.Path, patience: float = PATIENCE) -> Settings:
    """How the consumer in a folder is started, and what it prints and reads."""
    command = ["env", "-C", str(folder), sys.executable, "-B", "-m", "conformance.members.consumer"]
    command += ["{bootstrap}", "{group}", "{topic}", "{instance}"]
    return Settings(command, re.compile("^ASSIGNED"), re.compile("^(REVOKED|LOST)"), "subscribe {topic}", "unsubscribe", patience)


def named(fault: Fault, cases: Sequence[MemberCase]) -> List[MemberCase]:
    """The case that has to find a fault; for a rule those in which it is looked at, too."""
    names = {fault.case, *(SHOWS_RULES if fault.case.startswith(ALWAYS) else ())}
    found = [case for case in cases if case.name in names]
    if fault.case not in {case.name for case in found}:
        raise BadFault(f"{fault.name}: there is no case {fault.case}")
    return found


def try_fault(fault: Fault, cases: Sequence[MemberCase], jobs: int) -> List[Result]:
    with tempfile.TemporaryDirectory() as name:
        plant(fault, pathlib.Path(name))
        return run(cases, settings_of(pathlib.Path(name)), jobs, lambda _: None)
