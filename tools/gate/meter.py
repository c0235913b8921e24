"""How much processor time `rt ci` takes for each crate, found by a look at its processes each second."""

import collections
import contextlib
import os
import pathlib
import subprocess
import threading
from typing import Dict, List, Tuple

from gate import commands

SECONDS = 1.0
PROOFS, TESTS, WRONG, OTHER = KINDS = ("proofs", "tests", "wrong bodies", "other")
# The folder that `rt ci` copies a crate to in order to try a wrong body.
EDITED = "/rt-edit-"


class Meter(threading.Thread):
    """Looks at a program and all that it starts, until it has ended."""

    def __init__(self, child: subprocess.Popen) -> None:
        super().__init__(daemon=True)
        self.child, self.spent = child, {}
        self.is_over = threading.Event()

    def run(self) -> None:
        while not self.is_over.wait(SECONDS):
            for number in commands.below(self.child.pid):
                with contextlib.suppress(OSError):
                    self.spent[number, whose(number)] = commands.processor_seconds(number)

    def table(self) -> List[str]:
        """A line for each crate, the dearest first; what isn't of one crate is in the last."""
        found: Dict[str, Dict[str, float]] = collections.defaultdict(lambda: dict.fromkeys(KINDS, 0.0))
        for (_, (crate, kind)), seconds in self.spent.items():
            found[crate][kind] += seconds
        order = sorted(found, key=lambda it: (bool(it), sum(found[it].values())), reverse=True)
        width = max(map(len, [*found, "processor seconds"]))
        rows = [f"{it:{width}}" + "".join(f"{found[it][kind]:14.0f}" for kind in KINDS) for it in order]
        return [f"{'processor seconds':{width}}" + "".join(f"{kind:>14}" for kind in KINDS), *rows]


def whose(number: int) -> Tuple[str, str]:
    """The crate that a process works for, and at what; no crate where its words name none."""
    words = pathlib.Path(f"/proc/{number}/cmdline").read_bytes().decode(errors="replace").split("\0")
    if "--crate-name" not in words:
        return "", OTHER
    kind = TESTS if "--test" in words else WRONG if EDITED in os.readlink(f"/proc/{number}/cwd") else PROOFS
    return words[words.index("--crate-name") + 1], kind
