"""Compiles the program without proofs, once for as long as its sources stay the same.

`rt try` translates the program before it runs it. Here it is called through a folder of links to the toolchain in which a script stands in
for the compiler: it keeps what it is to compile. The real compiler then makes a fast program of that, and the real linker links it.
"""

import contextlib
import os
import pathlib
import shlex
import threading
import time
from typing import Iterator

from gate import commands, crates, trials
from launch import build, progress, sources

STATE = "compiled, not proved"
# How a try compiles the program, and how it is compiled here: for speed, and without the checks that a try is for.
TRIED, CHECKED, FAST = "-O0", "-fsanitize=address", "-O2"
# The seconds that the two steps took on one machine, and after how many one hears of a step that goes on.
TRANSLATING, COMPILING, BETWEEN = 50, 70, 20

STAND_IN = """#!/bin/sh
case " $* " in *" {checked} "*)
    cp module.bc {folder}/module.bc && printf '%s\\n' "$@" >{folder}/words
    exit 1
esac
exec {compiler} "$@"
"""


def compile_program(tree: crates.Tree, kept: sources.Kept) -> bool:
    """Makes the program and keeps it. Whether it is there."""
    with build.turn(tree):
        if kept.is_current():
            return True
        began = time.monotonic()
        build.say(f"compiling the program without proofs, once: {progress.about(TRANSLATING + COMPILING)} on this machine")
        with build.room(tree) as folder:
            copied = sources.copy(tree, f"{folder}/0", kept.crate)
            if not translate(copied, folder, kept.crate) or not compile_module(copied, kept, folder, time.monotonic() - began):
                build.say("the program was not compiled")
                return False
            kept.keep(folder, sources.sum_of(copied, kept.crate))
        build.say(f"compiled in {time.monotonic() - began:.0f} s")
    return True


def translate(copied: crates.Tree, folder: str, crate: str = sources.PROGRAM, *words: str) -> bool:
    """Has `rt try` with these words translate a crate into module.bc. Where it doesn't, the sources are no program, and it says why."""
    copied.kit = crates.kit_folder()
    compiler = STAND_IN.format(checked=CHECKED, folder=shlex.quote(folder), compiler=shlex.quote(f"{copied.kit}/toolchain/bin/clang"))
    own = trials.kit_without_hints(copied.kit, f"{folder}/kit", {"toolchain/bin/clang": compiler})
    with progress_of("translating", TRANSLATING, COMPILING):
        ran = commands.run([f"{own}/bin/rt", "try", *(words or ("--", "reply"))], copied.folder(crate))
    # (the compiler's stand-in ends with status 1, so a try that comes to it has a status)
    return os.path.isfile(f"{folder}/words") or build.succeeds(ran)


def compile_module(copied: crates.Tree, kept: sources.Kept, folder: str, translated: float) -> bool:
    """Compiles module.bc and links the program. Over no lines, `coord reply` prints nothing."""
    words = [FAST if it == TRIED else it for it in pathlib.Path(folder, "words").read_text().splitlines() if it != CHECKED]
    with progress_of("compiling", COMPILING * translated / TRANSLATING):
        ran = commands.run([f"{copied.kit}/toolchain/bin/clang", *words], folder)
    is_linked = build.succeeds(ran) and build.link(copied.kit, folder, "module.o", kept.file.name)
    return is_linked and (kept.crate != sources.PROGRAM or build.succeeds(commands.run([f"./{kept.file.name}", "reply"], folder)))


@contextlib.contextmanager
def progress_of(step: str, seconds: float, behind: float = 0) -> Iterator[None]:
    """Says how long a step takes on, and those after it, which take longer if this one does."""
    ended, began = threading.Event(), time.monotonic()

    def tell() -> None:
        while not ended.wait(BETWEEN):
            took = time.monotonic() - began
            left = max(seconds - took, 0) + behind * max(took / seconds, 1)
            build.say(f"{step} for {took:.0f} s" + f"; {progress.about(left)} left" * (left > 0))

    threading.Thread(target=tell, daemon=True).start()
    try:
        yield
    finally:
        ended.set()
