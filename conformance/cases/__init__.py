"""The cases, by topic: `cases.txt` says what each is about, and the module of its topic has a function of its name.

A module that makes several alike has them in BODIES.
"""

from __future__ import annotations

import importlib
import pathlib
from typing import List

from conformance.case import Case

TABLE = pathlib.Path(__file__).with_name("cases.txt")


def load() -> List[Case]:
    """All cases, in the order of the table: first those on which others stand."""
    cases: List[Case] = []
    topic = ""
    for line in TABLE.read_text(encoding="utf-8").splitlines():
        if line.startswith("["):
            topic = line[1:-1]
        elif line and not line.startswith("#"):
            name, level, section, sends, holds = line.split(" | ")
            module = importlib.import_module(f"conformance.cases.{topic.replace(' ', '_')}")
            body = getattr(module, "BODIES", {}).get(name) or getattr(module, name.replace("-", "_"))
            cases.append(Case(name, section, level.split()[0], sends, holds, body, level.endswith("slow")))
    return cases
