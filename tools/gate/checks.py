"""What the check scripts share: their command line, and checks as methods of a class."""

import os
import pathlib
import subprocess
import sys
import unittest
from typing import Callable, Iterable, Iterator, List, Optional, Tuple, Type

from gate import commands

TOP = pathlib.Path(__file__).resolve().parents[2]
# The name of a check, and why it fails: nothing, or None, where it passes.
Check = Tuple[str, Optional[str]]
# Whether a check's command line has a program.
NONE, OPTIONAL, WANTED = range(3)
CLIENT_SECONDS = 60


class Failed(Exception):
    """A check failed, for the reason that it says."""


def want(holds: object, why: object) -> None:
    if not holds:
        raise Failed(why)


def each(cases: object, faults: Tuple[Type[Exception], ...] = (), words: Iterable[str] = ()) -> Iterator[Check]:
    """The methods of an object, in their order, by their names; with words, those alone whose names have one of them. What they raise of these
    faults is why they fail."""
    for name, method in vars(type(cases)).items():
        title = name.replace("_", " ")
        if not name.startswith("_") and (not words or any(it in title for it in words)):
            yield title, why_fails(lambda method=method: method(cases), faults)


def why_fails(call: Callable[[], object], faults: Tuple[Type[Exception], ...] = ()) -> Optional[str]:
    try:
        call()
    except (Failed, OSError, subprocess.SubprocessError, *faults) as why:
        return str(why) or repr(why)
    return None


def rebalances(port: object) -> List[str]:
    """The lines of examples/client.py, whose two members go through a rebalance at this port."""
    ran = commands.run([sys.executable, "-B", str(TOP / "examples/client.py"), f"127.0.0.1:{port}"], limit=CLIENT_SECONDS)
    want(ran.status == 0 and ran.lines()[-1].startswith("first leaves"), "\n".join([*ran.lines(), f"the client ends with {ran.status}"]))
    return ran.lines()


def of_tests(tests: unittest.TestSuite) -> Iterator[Check]:
    """The tests of a suite, each by its name."""
    for it in tests:
        if isinstance(it, unittest.TestSuite):
            yield from of_tests(it)
            continue
        result = unittest.TestResult()
        it.run(result)
        why = [commands.NOT_RUN + why for _, why in result.skipped] + [why for _, why in (*result.failures, *result.errors)]
        yield it.id(), "\n".join(why)


def main(doc: Optional[str], checks: Callable[..., Iterable[Check]], program: int = WANTED, more: bool = False, with_all: bool = False) -> int:
    """Does what the command line asks for: calls `checks` with a folder of its own and with the program, which is None where none is given, or
    not at all where none can be; and where `more` words may stand behind it, with those. Says what fails, and gives the status."""
    words = sys.argv[1:]
    is_right = (program == WANTED) <= len(words) and (more or len(words) <= (program != NONE))
    commands.usage(doc or "", words if is_right else [*words, "-"])
    given = [commands.file_of(words[0]) if words else None] if program != NONE else []
    with commands.room(os.path.basename(sys.argv[0])) as folder:
        return commands.tell(checks(pathlib.Path(folder), *given, *([words[1:]] if more else [])), with_all)
