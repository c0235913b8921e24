"""Cases: what the program is given, and what it must answer.

    cases/SUBCOMMAND/NAME.in       standard input
    cases/SUBCOMMAND/NAME.out      the standard output that is expected
    cases/SUBCOMMAND/NAME.err      the standard error that is expected; without it, nothing
    cases/SUBCOMMAND/NAME.status   the exit status that is expected; without it, 0
    cases/SUBCOMMAND/NAME.args     words behind the subcommand, one a line

In place of .in and .out a case that is too long to be stored has

    cases/SUBCOMMAND/NAME.made     the name by which cases/made.py writes both

Small runs stand together in one text, each as a row (tools/gate/rows.py has the format):

    cases/FOLDER/NAME.rows         each row is a case of its own
"""

import concurrent.futures
import dataclasses
import difflib
import os
import pathlib
import sys
import tempfile
from typing import Callable, Iterator, List, Optional, Sequence, Tuple, Union

from gate import commands, rows

# The crate whose program the cases are for.
PROGRAM_CRATE = "scenario_cli"
# How long a case may take, in seconds, and how much of a difference is shown, in lines.
LIMIT, SHOWN = 300, 40
ENDINGS = (".in", ".out", ".err", ".status", ".args", ".made")
# A folder in cases/ that isn't a subcommand's: tools/check-coord-broker plays what is in it.
CONVERSATIONS = "conversations"
# The words by which the program is started for a case with these words; none where the case isn't for it.
Program = Callable[[Sequence[str]], Sequence[str]]


class BadCase(Exception):
    """Why a case cannot be run."""


@dataclasses.dataclass(frozen=True)
class Case:
    """The words for the program, what it is given and what it must answer."""

    label: str
    words: Tuple[str, ...]
    given: bytes
    output: bytes
    errors: bytes
    status: int


def cases_of(root: str, with_made: bool = True) -> Iterator[Tuple[str, Union[Case, str]]]:
    """The cases of a tree, or those that are stored, each with its label: a case, or why it can't be run."""
    files = [it for it in sorted(pathlib.Path(root, "cases").rglob("*.*")) if CONVERSATIONS not in it.parts and it.suffix not in (".md", ".py")]
    for path in dict.fromkeys(it.with_suffix("") for it in files):
        if not with_made and path.with_suffix(".made").is_file():
            continue
        label, text = str(path.relative_to(root)), content_of(path.with_suffix(".rows"))
        try:
            for it in rows.named_rows(text, (path.parent.name,)) if text is not None else ():
                yield f"{label}, {it.name}", Case(f"{label}, {it.name}", it.words, it.given, it.output, it.errors, it.status)
            if text is None:
                yield label, read_case(root, label)
        except (BadCase, rows.BadRow, OSError, ValueError) as why:
            yield label, f"BAD CASE: {why}"


def read_case(root: str, label: str) -> Case:
    """Reads the files of one case. Where it has a file .made, cases/made.py writes the input and the output."""
    path = pathlib.Path(root, label)
    if label.count("/") != 2:
        raise BadCase("a case stands in cases/SUBCOMMAND/")
    files = {it: content_of(path.with_name(path.name + it)) for it in ENDINGS}
    if files[".made"] is not None:
        with tempfile.TemporaryDirectory(prefix="case-") as folder:
            words = [sys.executable, "-B", os.path.abspath(f"{root}/cases/made.py"), files[".made"].decode().strip(), f"{folder}/case"]
            ran = commands.run(words, folder, b"", LIMIT, merged=False)
            if ran.status:
                raise BadCase(f"cases/made.py ended with status {ran.status}")
            files.update({it: content_of(pathlib.Path(folder, f"case{it}")) for it in (".in", ".out")})
    if files[".in"] is None or files[".out"] is None:
        raise BadCase(f"it has no file {path.name}{'.in' if files['.in'] is None else '.out'}")
    words = (path.parent.name, *(files[".args"] or b"").decode().splitlines())
    return Case(label, words, files[".in"], files[".out"], files[".err"] or b"", int(files[".status"] or b"0"))


def content_of(path: pathlib.Path) -> Optional[bytes]:
    return path.read_bytes() if path.is_file() else None


def run_all(root: str, program: Program, say: Callable[[str], None], with_made: bool = True) -> Tuple[int, int]:
    """Runs the cases of a tree that are for the program; says each that fails. Returns how many passed and failed."""
    chosen = [(label, it) for label, it in cases_of(root, with_made) if isinstance(it, str) or program(it.words)]
    with concurrent.futures.ThreadPoolExecutor(os.cpu_count()) as pool:
        faults = [*pool.map(lambda it: fault_of(it[1], program), chosen)]
    for (label, _), fault in zip(chosen, faults):
        if fault is not None:
            say(f"{label}: {fault}")
    failed = sum(it is not None for it in faults)
    return len(chosen) - failed, failed


def fault_of(case: Union[Case, str], program: Program) -> Optional[str]:
    """How the program's answer differs from what a case expects, or why it can't be run, or None."""
    if isinstance(case, str):
        return case
    with tempfile.TemporaryDirectory(prefix="case-") as folder:
        ran = commands.run(program(case.words), folder, case.given, LIMIT, merged=False)
    if ran.was_cut:
        return f"FAILED: it had not ended after {LIMIT} seconds"
    differences = [f"the status is {ran.status}, and {case.status} is expected"] * (ran.status != case.status)
    for what, expected, found in (("standard output", case.output, ran.output), ("standard error", case.errors, ran.errors)):
        differences += difference(what, expected, found)
    return "\n    ".join(["FAILED:", *differences]) if differences else None


def difference(what: str, expected: bytes, found: bytes) -> List[str]:
    """The lines that tell how two texts differ; none where they are the same."""
    texts = [it.decode(errors="backslashreplace").split("\n") for it in (expected, found)]
    lines = [*difflib.unified_diff(*texts, f"{what}, expected", what, n=1, lineterm="")] if expected != found else []
    return [*(it[:400] for it in lines[:SHOWN]), *[f".. and {len(lines) - SHOWN} lines more"][: len(lines) > SHOWN]]
