"""The planted faults and the variants, and copies of the rules and of the broker in Python that have one."""

from __future__ import annotations

import dataclasses
import itertools
import json
import pathlib
import shutil
from typing import Dict, List

FILE = pathlib.Path(__file__).resolve().parent / "faults.txt"
VARIANTS, KAFKA = FILE.with_name("variants.txt"), FILE.with_name("kafka.py")
# The model of Kafka is tried with these on and off.
SWITCHES = ("STEP_EPOCH", "AWAY_DROPS_PENDING", "REJOIN_FIXED", "KIP_1251")
FOUND = FILE.with_name("found.json")
TOP = FILE.parents[2]
RULES, BROKER = "conformance/rules", "broker"


@dataclasses.dataclass
class Edit:
    """Lines of a file of conformance/rules, or of broker/, that stand there once, and what stands in their place."""

    file: str
    old: List[str] = dataclasses.field(default_factory=list)
    new: List[str] = dataclasses.field(default_factory=list)

    def made_in(self, text: str, name: str) -> str:
        """A file's text with the edit of a fault of this name. (The last line may be the beginning of one.)"""
        old, new = ("\n".join(lines) for lines in (self.old, self.new))
        if text.count(old) != 1:
            raise BadFault(f"{name}: its old lines stand {text.count(old)} times in {self.file}")
        return text.replace(old, new)


@dataclasses.dataclass
class Fault:
    name: str
    words: Dict[str, str] = dataclasses.field(default_factory=dict)
    edits: List[Edit] = dataclasses.field(default_factory=list)

    @property
    def case(self) -> str:
        """The case that has to find it."""
        return self.words["case"]


class BadFault(Exception):
    """A fault that can't be planted, and why."""


def read(file: pathlib.Path = FILE) -> List[Fault]:
    faults: List[Fault] = []
    for number, line in enumerate(file.read_text(encoding="utf-8").splitlines(), 1):
        if not line or line.startswith("#"):
            continue
        key, colon, value = line.partition(":")
        value = value[1:]
        if key == "name":
            faults.append(Fault(value))
        elif key == "file":
            faults[-1].edits.append(Edit(value))
        elif key in ("old", "new") and faults[-1].edits:
            getattr(faults[-1].edits[-1], key).append(value)
        elif colon and key in ("is", "case", "law", "why", "base", "session", "heartbeat"):
            faults[-1].words[key] = value
        else:
            raise BadFault(f"{file.name}, line {number}: {line}")
    return faults


def variants() -> List[Fault]:
    """Those in the file, and the model of Kafka with its switches in every position."""
    found = read(VARIANTS)
    for positions in itertools.product(("True", "False"), repeat=len(SWITCHES)):
        others = {"True": "False", "False": "True"}
        kept = "-".join(f"{name.lower()}" for name, value in zip(SWITCHES, positions) if value == "True") or "none"
        edits = [Edit("group.py", [f"{name} = {others[value]}"], [f"{name} = {value}"]) for name, value in zip(SWITCHES, positions)]
        kafka = KAFKA.read_text(encoding="utf-8")
        edits = [edit for edit in edits if edit.old[0] + "\n" in kafka]
        found.append(Fault(f"kafka:{kept}", {"is": f"the model of Kafka with {kept}", "base": "kafka"}, edits))
    return found


def found_before() -> Dict[str, List[str]]:
    """By which cases each fault was found when `--write` was said."""
    return dict(json.loads(FOUND.read_text(encoding="utf-8"))) if FOUND.is_file() else {}


def write_found(found: Dict[str, List[str]]) -> None:
    rows = ",\n".join(f" {json.dumps(fault.name)}: {json.dumps(found[fault.name])}" for fault in read() if fault.name in found)
    FOUND.write_text(f"{{\n{rows}\n}}\n", encoding="utf-8")


def plant(fault: Fault, folder: pathlib.Path) -> None:
    """Makes copies of the rules and of the broker with the fault in a folder, as they lie in the repository."""
    for source in (RULES, BROKER):
        shutil.copytree(TOP / source, folder / source, ignore=shutil.ignore_patterns("__pycache__", "tests"))
    shutil.copy(TOP / "conformance/__init__.py", folder / "conformance")
    if fault.words.get("base") == "kafka":
        shutil.copy(KAFKA, folder / RULES / "group.py")
    for edit in fault.edits:
        path = folder / (edit.file if edit.file.startswith(f"{BROKER}/") else f"{RULES}/{edit.file}")
        path.write_text(edit.made_in(path.read_text(encoding="utf-8"), fault.name), encoding="utf-8")
