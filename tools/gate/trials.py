"""Wrong bodies that the prover accepts and that only a test, or a case, refuses.

The test is built and run by `rt try`, from the sources of the whole tree and with no proof. Of the test's crate all other tests are left
out, which makes the build shorter. It must pass without the wrong body, built in the same way.
"""

import collections
import os
import pathlib
import re
import shutil
import tempfile
import threading
from typing import Dict, List, Optional, Set

from gate import cases, commands, crates, wrong

# How long a build with its run may take, and the run alone, in seconds: besides `rt ci` they have what proofs leave of the processors.
LIMIT, RUN_LIMIT = 5_400, "300"


class NotRun(Exception):
    """Why a test or a case was not run."""


class Trials:
    """Runs single tests and cases over a tree with changed texts."""

    def __init__(self, tree: crates.Tree, room: str, tried: List[wrong.Wrong]) -> None:
        self.tree, self.room, self.lock, self.without = tree, room, threading.Lock(), {}
        self.tests = collections.defaultdict(set)
        for crate, _, test in (it.whom.partition("::") for it in tried):
            self.tests[crate].add(test)
        self.rt = f"{kit_without_hints(tree.kit, tempfile.mkdtemp(prefix='kit-', dir=room))}/bin/rt"

    def passes(self, it: wrong.Wrong, texts: Dict[str, str]) -> bool:
        """Whether the test or case of a wrong body passes with these texts in its crate. Without them it has to."""
        crate, _, test = it.whom.partition("::")
        with self.lock:
            if crate not in self.without:
                self.without[crate] = self.outcomes(it, None, {})
        if not self.without[crate].get(test):
            raise NotRun("its test or case does not pass without it")
        passes = self.outcomes(it, it.crate, texts).get(test)
        if passes is None:
            raise NotRun("its test did not run")
        return passes

    def outcomes(self, it: wrong.Wrong, crate: Optional[str], texts: Dict[str, str]) -> Dict[str, bool]:
        """Whether the tests of a crate, or the case, pass."""
        with tempfile.TemporaryDirectory(prefix="try-", dir=self.room) as folder:
            self.lay(folder, crate, texts)
            if it.kind == "case":
                return {"": self.case_passes(it.whom, f"{folder}/crates/{cases.PROGRAM_CRATE}")}
            test_crate, _, test = it.whom.partition("::")
            kept = {test} if crate else self.tests[test_crate]
            leave_out_tests(f"{folder}/crates/{test_crate}/src", {name.rpartition("::")[2] for name in kept})
            ran = commands.run([self.rt, "try", "--test", "--seconds", RUN_LIMIT], f"{folder}/crates/{test_crate}", limit=LIMIT)
            found = [re.match(r"test (\S+) \.\.\. (\w+)", line) for line in ran.lines()]
            if not any(found):
                raise NotRun(f"the tests of {test_crate} did not run: {told(ran.lines())}")
            return {line[1]: line[2] == "ok" for line in found if line}

    def lay(self, folder: str, crate: Optional[str], texts: Dict[str, str]) -> None:
        """A copy of the tree's sources, with these texts in the crate."""
        for name in ("crates.txt", "HANDLES"):
            shutil.copyfile(f"{self.tree.root}/{name}", f"{folder}/{name}")
        for name in self.tree.uses:
            self.tree.lay(name, f"{folder}/crates/{name}", texts if name == crate else {})

    def case_passes(self, label: str, folder: str) -> bool:
        """By its standard output and its status; rt writes lines of its own to standard error."""
        case = cases.read_case(self.tree.root, label)
        ran = commands.run([self.rt, "try", "--seconds", RUN_LIMIT, "--", *case.words], folder, case.given, LIMIT, merged=False)
        ended = re.search(rb"^run=ended status=(\d+) .*proved=no\n\Z", ran.errors, re.M)
        if not ended:
            raise NotRun(f"{label} was not run: {told(ran.errors.decode(errors='replace').split(chr(10)))}")
        return ran.output == case.output and int(ended[1]) == case.status


def kit_without_hints(kit: str, folder: str, scripts: Optional[Dict[str, str]] = None) -> str:
    """Fills a folder with links to the parts of the toolchain, and with scripts in place of those that are named. Returns the folder.

    The checker is an empty script: all that it does in a try is to look for hints, for about as long as the build takes.
    """
    scripts = {"bin/rattle": "#!/bin/sh\n", **(scripts or {})}
    for part in ("", "bin/", "toolchain/", "toolchain/bin/"):
        os.makedirs(f"{folder}/{part}", exist_ok=True)
        for name in (it for it in os.listdir(f"{kit}/{part}") if f"{part}{it}" not in ("bin", "toolchain", "toolchain/bin")):
            source, target = f"{kit}/{part}{name}", f"{folder}/{part}{name}"
            if f"{part}{name}" in scripts:
                pathlib.Path(target).write_text(scripts[f"{part}{name}"], encoding="utf-8")
                os.chmod(target, 0o755)
            elif name in ("rt", "rtlib.py"):
                # (these find the toolchain by where they lie)
                shutil.copy(source, target)
            else:
                os.symlink(source, target)
    return folder


def told(lines: List[str]) -> str:
    """The line that says best why nothing was run."""
    errors = [it for it in lines if re.search(r"error[\[:]", it)]
    return (errors or [it for it in lines if it.strip()] or ["nothing was said"])[0][:200]


def leave_out_tests(folder: str, kept: Set[str]) -> None:
    """Empties the lines of every test below the folder that has none of these names."""
    for path in pathlib.Path(folder).glob("**/*.rt"):
        path.write_text(without_tests(path.read_text(encoding="utf-8"), kept), encoding="utf-8")


def without_tests(text: str, kept: Set[str]) -> str:
    """The text with empty lines in place of the tests that have none of these names."""
    lines = text.split("\n")
    for name, first, last in wrong.functions_in(text):
        above = first
        while above and lines[above - 1].lstrip().startswith(("///", "#[")):
            above -= 1
        if name not in kept and any(line.strip() == "#[test]" for line in lines[above:first]):
            lines[above : last + 1] = [""] * (last + 1 - above)
    return "\n".join(lines)
