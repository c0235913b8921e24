"""The rules of the protocol in Python with one of them turned into a wrong one."""

from __future__ import annotations

import functools
import pathlib
import sys
import types
from typing import Dict, List

from conformance.planted.faults import RULES, TOP, Fault, read

FILE = pathlib.Path(__file__).with_name("turned.txt")
# The modules of the rules that a coordinator is made of, each after those that it stands on.
MODULES = "limits codes fields messages assignors group node client world lines ending decode compare reply_lines".split()


def turned_rules() -> List[Fault]:
    return read(FILE)


@functools.lru_cache(maxsize=None)
def code_of(path: pathlib.Path, text: str) -> types.CodeType:
    return compile(text, str(path), "exec")


@functools.lru_cache(maxsize=None)
def text_of(name: str) -> str:
    return (TOP / RULES / f"{name}.py").read_text(encoding="utf-8")


def rules_with(fault: Fault) -> types.ModuleType:
    """A package of the rules in which this one is wrong."""
    texts: Dict[str, str] = {name: text_of(name) for name in MODULES}
    for edit in fault.edits:
        name = edit.file.removesuffix(".py")
        texts[name] = edit.made_in(texts[name], fault.name)
    package = types.ModuleType("turned_rules")
    package.__path__ = []
    for name in [it for it in sys.modules if it.startswith("turned_rules.")]:
        del sys.modules[name]
    sys.modules["turned_rules"] = package
    for name, text in texts.items():
        module = types.ModuleType(f"turned_rules.{name}")
        module.__package__ = "turned_rules"
        sys.modules[module.__name__] = module
        setattr(package, name, module)
        exec(code_of(TOP / RULES / f"{name}.py", text), module.__dict__)  # pylint: disable=exec-used
    return package


def is_refused_by(rules: types.ModuleType, case: str) -> bool:
    """Whether the rules answer something else than a stored case expects."""
    path = TOP / case
    player = (rules.lines if path.parent.name == "run" else rules.reply_lines).Lines()
    lines = path.with_name(f"{path.name}.in").read_bytes().removesuffix(b"\n").split(b"\n")
    printed = [it for it in [player.line(line) for line in lines] if it is not None] + player.report()
    return "".join(f"{line}\n" for line in printed) != path.with_name(f"{path.name}.out").read_text(encoding="utf-8")
