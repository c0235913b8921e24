"""Proves the crates that the program, or the library, is made of, side by side, and builds it.

A crate is checked over the statements of the libraries below it, as `rt ci` does, and not over their proofs: that is faster the more stands
below it. What is proved of a library is kept in its folder out/proved, with a checksum of all that it was made of.
"""

import concurrent.futures
import contextlib
import fcntl
import os
import pathlib
import shutil
import signal
import sys
import threading
import time
from typing import Dict, Iterator, List, Tuple

from gate import commands, crates, schedule, whole
from launch import progress, sources

# More crates than this are never ready at one time.
MOST_LANES = 6
# What the program is linked for.
TARGET = "x86_64-unknown-linux-gnu"
# How many lines are shown of what is said of a crate that isn't proved.
SHOWN = 20
# A chain of at least this part of the longest is taken for as long, and the `nice` of a crate of a shorter one.
NEAR, BESIDE = 0.9, 10


def say(text: str) -> None:
    print(f"coord: {text}", file=sys.stderr, flush=True)


@contextlib.contextmanager
def turn(tree: crates.Tree) -> Iterator[None]:
    """Waits until no other launcher builds in this tree."""
    lock = os.open(f"{tree.root}/tools/launch", os.O_RDONLY)
    try:
        try:
            fcntl.flock(lock, fcntl.LOCK_EX | fcntl.LOCK_NB)
        except BlockingIOError:
            say("another build is under way in this folder: waiting for it")
            fcntl.flock(lock, fcntl.LOCK_EX)
        yield
    finally:
        os.close(lock)


@contextlib.contextmanager
def room(tree: crates.Tree) -> Iterator[str]:
    """A folder for the copies, on the disk of the tree where that has a folder of git's. What a killed build left is removed."""
    git = f"{tree.root}/.git"
    for left in pathlib.Path(git).glob("coord-*"):
        shutil.rmtree(left, ignore_errors=True)
    with commands.room("coord", git if os.path.isdir(git) else None) as folder:
        yield folder


class Over(crates.Tree):
    """A copy of the sources of one crate and those below, which later edits don't reach, over the libraries that are kept in the tree itself."""

    def __init__(self, home: crates.Tree, copied: crates.Tree, kit: str, goal: str) -> None:
        super().__init__(copied.root, kit)
        self.home, self.goal = home, goal
        # Those that `rt ci` has just built serve where it has built all.
        self.is_by_ci = all(map(home.is_made, home.below(goal)))

    def library(self, crate: str) -> str:
        return self.home.library(crate) if self.is_by_ci else f"{self.home.folder(crate)}/out/proved/{crate}.rlib"

    def is_kept(self, crate: str) -> bool:
        """Whether there is a library of the crate's sources and of those below it as they are in the copy."""
        library, note = self.library(crate), pathlib.Path(f"{self.library(crate)}.sum")
        return self.is_by_ci or os.path.isdir(library) and note.is_file() and note.read_text() == sources.sum_of(self, crate, self.kit)

    def build_words(self, crate: str, made: str) -> List[str]:
        """The words that prove a crate and build it: a library for the crates above, or what is linked into the program, or the C library."""
        if crate != self.goal:
            return [*self.check_words(crate, verb="build"), "--statements", "-o", self.library(crate)]
        is_program = self.root_file(crate).endswith("main.rt")
        made_as = ["-o", f"{made}.o"] if is_program else ["--crate-type", "staticlib", "--backend", "llvm", "-o", f"{made}.a"]
        return [*self.check_words(crate, verb="build"), "--toolchain", f"{self.kit}/toolchain", *made_as]


class Build:
    """One build: what is left to do, and what runs."""

    def __init__(self, tree: crates.Tree, folder: str, goal: str, made: str) -> None:
        copied = sources.copy(tree, f"{folder}/sources", goal)
        self.over, self.goal, self.made = Over(tree, copied, crates.kit_folder(), goal), goal, made
        self.made_of = sources.sum_of(copied, goal)
        self.processors, self.memory = schedule.processors(), schedule.USED_MEMORY * schedule.free_memory()
        # Statements fit the very libraries that they were made over.
        self.names = self.over.above([it for it in copied.uses if it == goal or not self.over.is_kept(it)])
        self.lanes = min(self.processors, MOST_LANES, len(self.names))
        self.progress = progress.Progress(copied, self.names, self.lanes)
        self.chains = self.progress.chains()
        # What runs: its crate, and the memory that is set aside for it.
        self.running: Dict["concurrent.futures.Future[commands.Ran]", Tuple[str, float]] = {}
        self.finished: List[str] = []
        self.is_over = threading.Event()

    def run(self, what: str) -> bool:
        """Proves crate after crate, up to the first that isn't proved, and builds what is wanted of them. Whether that was built."""
        began, left, count = time.monotonic(), len(self.names), len(self.over.uses)
        which = f"its {count} crates are" if left == count else f"{left} of its {count} crates {'is' if left == 1 else 'are'}"
        say(f"building the {what}: {which} proved first, side by side; {self.progress.time_left()} on this machine")
        with concurrent.futures.ThreadPoolExecutor(self.lanes) as pool:
            try:
                while len(self.finished) < len(self.names):
                    self.begin(pool)
                    # A signal that comes right before a wait is seen at its end, so that this has one.
                    for it in concurrent.futures.wait(self.running, 1, concurrent.futures.FIRST_COMPLETED).done:
                        if not self.end(self.running.pop(it)[0], it.result()):
                            return False
            finally:
                self.is_over.set()
                commands.end_all()
        say(f"built in {time.monotonic() - began:.0f} s")
        return True

    def begin(self, pool: concurrent.futures.Executor) -> None:
        """Begins those crates that are ready, the longest chains first, as many as there is memory for.

        The longest chains share the processors, and the others have what they leave: where one comes to its last functions, say.
        """
        running = [crate for crate, _ in self.running.values()]
        waits = {*self.names} - {*self.finished}
        ready = [it for it in self.names if it in waits and it not in running and not waits & {*self.over.below(it)}]
        longest = max((self.chains[it] for it in (*running, *ready)), default=0)
        foremost = [it for it in (*running, *ready) if self.chains[it] >= NEAR * longest]
        for crate in sorted(ready, key=lambda it: self.chains[it], reverse=True):
            is_foremost = crate in foremost
            jobs, memory = self.fitting(crate, self.processors // (min(len(foremost), 2) if is_foremost else 2))
            if jobs and len(self.running) < self.lanes:
                self.running[pool.submit(self.prove, crate, jobs, 0 if is_foremost else BESIDE)] = crate, memory

    def fitting(self, crate: str, most: int) -> Tuple[int, float]:
        """With how many jobs there is memory for the crate now, and how much that is. Alone it always gets one."""
        room = self.memory - sum(memory for _, memory in self.running.values())
        need = schedule.need_of(self.over, crate)
        for jobs in range(min(most, schedule.MOST_JOBS), 1, -1):
            if need * (1 + schedule.JOB_MEMORY * (jobs - 1)) <= room:
                return jobs, need * (1 + schedule.JOB_MEMORY * (jobs - 1))
        return int(need <= room or not self.running), need

    def prove(self, crate: str, jobs: int, nice: int) -> commands.Ran:
        """Proves and builds a crate. Where its jobs are too much for the memory, one has to do."""
        os.makedirs(os.path.dirname(self.over.library(crate)), exist_ok=True)
        for some in dict.fromkeys((jobs, 1)):
            ran = commands.run([*self.over.build_words(crate, self.made), "--jobs", str(some)], self.over.folder(crate), nice=nice)
            if ran.status != -signal.SIGKILL or self.is_over.is_set():
                break
        if ran.status == 0 and crate != self.goal:
            pathlib.Path(f"{self.over.library(crate)}.sum").write_text(sources.sum_of(self.over, crate, self.over.kit))
        return ran

    def end(self, crate: str, ran: commands.Ran) -> bool:
        """Says how a crate came out, and whether it is proved."""
        self.finished.append(crate)
        self.progress.done(crate, ran.processor)
        left = f"; {self.progress.time_left()} left" if self.progress.left else ""
        say(f"{len(self.finished)} of {len(self.names)}, {crate}: " + ("failed" if ran.status else f"{ran.wall:.0f} s{left}"))
        return succeeds(ran)


def succeeds(ran: commands.Ran) -> bool:
    """Whether a program had the status 0. Else the last lines of what it said are shown, without those of what is proved."""
    if ran.status:
        said = [it for it in ran.lines() if not whole.NOISE.match(it)][-SHOWN:] or ran.lines()[-SHOWN:]
        print(*said, *[f"the toolchain was ended by signal {-ran.status}"] * (ran.status < 0), sep="\n", file=sys.stderr)
    return ran.status == 0


def link(kit: str, folder: str, module: str, program: str) -> bool:
    """Links a compiled module into a program. Whether that succeeds."""
    words = [f"{kit}/bin/rattle-link", "--target", TARGET, "--toolchain", f"{kit}/toolchain", "-o", program, module]
    return succeeds(commands.run([*words, f"{kit}/c/libos_c.a", f"{kit}/c/liblibc_c.a"], folder))


def build(tree: crates.Tree, kept: sources.Kept) -> bool:
    """Proves and builds what is to be kept, unless another launcher has just done it. Whether it is there."""
    what, stem = "library" if kept.crate == sources.LIBRARY else "program", kept.file.stem
    with turn(tree):
        if kept.is_current():
            return True
        try:
            with room(tree) as folder:
                build_of = Build(tree, folder, kept.crate, f"{folder}/{stem}")
                is_linked = build_of.run(what) and (what == "library" or link(build_of.over.kit, folder, f"{stem}.o", stem))
                if not is_linked:
                    say(f"the {what} was not built")
                    return False
                kept.keep(folder, build_of.made_of)
        except SystemExit:
            say(f"interrupted, and the {what} was not built")
            raise
    return True
