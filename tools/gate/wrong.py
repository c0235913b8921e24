"""Wrong code that must be refused: reading it, and applying it to the texts of a crate.

    crates/NAME/must-fail/*.edit   the few wrong bodies that `rt ci` tries, each in a check of its own
    crates/NAME/wrong.txt          all others of the crate, which `tools/edits` tries, many in a check

A file of must-fail has a line `file: src/x.rt` and then pairs of lines `old: TEXT` and `new: TEXT`. Each TEXT is a part of one line and stands
once in that file; a later pair applies to what the earlier ones made. So no line moves. In wrong.txt an empty line stands before each, and then

    name: NAME
    by: prover | test CRATE::path::of_test | case cases/SUBCOMMAND/NAME | law path::of_law

and the same lines. A test or a case must fail with a body that the prover accepts. A law's proof must fail with a definition of specs/ that is
turned: a `\\n` in its texts ends a line.
"""

import dataclasses
import pathlib
import re
from typing import Callable, Dict, Iterable, List, Optional, Set, Tuple

EDITED_PARTS = ("src/", "specs/", "proofs/")
# The head of a function.
HEAD = re.compile(r'( *)(?:pub(?:\([^)]*\))? )?(?:const )?(?:unsafe )?(?:extern "C" )?fn (\w+)')
ENTRY = re.compile(r"name: ([\w.-]+)\nby: (prover|(?:test|case|law) \S+)\n((?:(?:file|old|new):.*\n)+)")


class BadEdit(Exception):
    """Why wrong code cannot be tried."""


@dataclasses.dataclass(frozen=True)
class Wrong:
    """Wrong code as it is written, and who refuses it: the prover, or a test, a case or a law with its name."""

    crate: str
    name: str
    by: str
    text: str

    @property
    def label(self) -> str:
        return f"{self.crate}/{self.name}"

    @property
    def kind(self) -> str:
        return self.by.partition(" ")[0]

    @property
    def whom(self) -> str:
        return self.by.partition(" ")[2]


@dataclasses.dataclass
class Change:
    """What wrong code does to a crate: the texts that it leaves, by path, and the lines that it turns, from 0. (One that is turned back is none.)"""

    texts: Dict[str, str]
    lines: Set[Tuple[str, int]]


def of_crate(folder: str, crate: str) -> List[Wrong]:
    """All wrong code of a crate. A part of wrong.txt that is none, and a name that stands twice, is a BadEdit."""
    found = [Wrong(crate, it.stem, "prover", it.read_text(encoding="utf-8")) for it in sorted(pathlib.Path(folder, "must-fail").glob("*.edit"))]
    path = pathlib.Path(folder, "wrong.txt")
    text = path.read_text(encoding="utf-8") if path.is_file() else ""
    for part in re.split(r"\n\n+", text.strip("\n")):
        entry = ENTRY.fullmatch(f"{part}\n")
        if entry:
            found.append(Wrong(crate, *entry.groups()))
        elif not all(it.startswith("#") for it in part.split("\n") if it):
            raise BadEdit(f"crates/{crate}/wrong.txt: this is no wrong body: {part[:80]!r}")
    names = [it.name for it in found]
    twice = sorted({it for it in names if names.count(it) > 1})
    if twice:
        raise BadEdit(f"crates/{crate}: two wrong bodies have the name {twice[0]}")
    return found


def pairs_of(it: Wrong) -> Iterable[Tuple[str, str, str]]:
    """The pairs of wrong code: path, old text, new text."""
    path = old = ""
    for line in it.text.split("\n"):
        key, _, text = line.partition(":")
        text = text.removeprefix(" ").replace("\\n", "\n") if it.kind == "law" else text.removeprefix(" ")
        if key == "file":
            path, old = text.strip(), ""
            if not path.startswith(EDITED_PARTS) or ".." in path:
                raise BadEdit("a 'file:' line names no file below src/, specs/ or proofs/")
        elif key == "old":
            old = text
        elif key == "new":
            if not path or not old:
                raise BadEdit("a 'new:' line stands before any 'file:' or 'old:' line")
            yield path, old, text
            old = ""


def change_of(it: Wrong, read: Callable[[str], str]) -> Change:
    """Applies wrong code to texts, which `read` gives by path."""
    texts: Dict[str, str] = {}
    for path, old, new in pairs_of(it):
        try:
            text = texts[path] if path in texts else read(path)
        except (OSError, UnicodeDecodeError):
            raise BadEdit(f"there is no file {path}") from None
        if text.count(old) != 1:
            raise BadEdit(f"an 'old:' text is in {path} {text.count(old)} times, and not once")
        texts[path] = text.replace(old, new)
    if not texts:
        raise BadEdit("it has no 'old:' and 'new:' pair")
    pairs = {path: zip(read(path).split("\n"), text.split("\n")) for path, text in texts.items()}
    return Change(texts, {(path, at) for path, lines in pairs.items() for at, (old, new) in enumerate(lines) if old != new})


def merged(changes: Iterable[Change], read: Callable[[str], str]) -> Dict[str, str]:
    """The texts that several changes leave together. No two of them turn one line."""
    texts: Dict[str, List[str]] = {}
    for change in changes:
        for path, at in change.lines:
            texts.setdefault(path, read(path).split("\n"))[at] = change.texts[path].split("\n")[at]
    return {path: "\n".join(lines) for path, lines in texts.items()}


def functions_in(text: str) -> List[Tuple[str, int, int]]:
    """The functions of a file that stand in no other one: name, first line and last line, from 0.

    The source is in `rt fmt`'s layout: a function's last line is the first one behind its head that begins with a brace at the head's
    indentation.
    """
    lines, found = text.split("\n"), []
    for at, line in enumerate(lines):
        head = HEAD.match(line)
        if head and (not found or at > found[-1][2]):
            last = last_line(lines, at, head[1])
            found += [(head[2], at, last)] if last is not None else []
    return found


def last_line(lines: List[str], first: int, indent: str) -> Optional[int]:
    """The last line of the function whose head begins at `first`, or None where it has no body."""
    is_open = False
    for at in range(first, len(lines)):
        line, is_head = lines[at], at == first or lines[at].startswith(f"{indent})")
        if is_open and line.startswith(f"{indent}}}") or is_head and line.endswith("}"):
            return at
        if not is_open and line.endswith(";"):
            return None
        is_open = is_open or line == f"{indent}{{" or is_head and line.endswith("{")
    return None


def functions_of(change: Change, read: Callable[[str], str]) -> Set[str]:
    """The names of the functions whose bodies, or own proof files, a change turns."""
    found = {path.split("/")[-2].lstrip("+") for path in change.texts if path.startswith("proofs/") and path.count("/") > 1}
    for path in (it for it in change.texts if it.startswith("src/")):
        found |= {name for name, first, last in functions_in(read(path)) if any((path, at) in change.lines for at in range(first, last + 1))}
    return found


def is_in_functions(change: Change, read: Callable[[str], str]) -> bool:
    """Whether a change turns nothing but lines of functions and of their own proof files."""
    spans = {path: functions_in(read(path)) for path in change.texts if path.startswith("src/")}
    return all(
        any(first <= at <= last for _, first, last in spans[path]) if path in spans else path.startswith("proofs/") and path.count("/") > 1
        for path, at in change.lines
    )
