"""What is checked of the C library. A check gives its name, and why it fails: nothing where it passes."""

import concurrent.futures
import os
import pathlib
import shutil
import subprocess
import sys
from typing import Iterator, List, NamedTuple, Optional, Sequence

from gate import commands
from gate.checks import TOP, Check, Failed, rebalances, why_fails

sys.path.insert(0, str(TOP))

# pylint: disable=wrong-import-position
from broker.trials import conversation, replay

AT_ONCE = 4
SECONDS, BUILD_SECONDS = 300, 1_500
SCRIPTS, REFUSED_SCRIPTS, WATCHED_SCRIPTS = 2_000, 100, 4
WATCH = ("valgrind", "-q", "--error-exitcode=99", "--leak-check=full", "--errors-for-leak-kinds=all")
TOPIC = "t:11111111-1111-1111-1111-111111111111:2"
REBALANCE = TOP / "examples/reply/rebalance"
REFUSING = ("-shared", "-fPIC", "-Wl,-u,migwelun_make", "-Wl,--wrap=malloc,--wrap=realloc,--wrap=free")
COMPILE = ("cc", "-std=c11", "-O2", "-Wall", "-Wextra", "-Werror")


class Library(NamedTuple):
    """The library, and the folder for programs over it."""

    folder: pathlib.Path
    archive: pathlib.Path

    def compiled(self, source: str, *words: str) -> pathlib.Path:
        """The program of a source."""
        made = self.folder / pathlib.Path(source).stem
        ran = run([*COMPILE, "-I", str(TOP / "include"), "-o", str(made), str(TOP / source), str(self.archive), *words])
        if ran:
            raise Failed(ran)
        return made

    def script(self, name: str, command: str) -> str:
        made = self.folder / name
        made.write_text(f"#!/bin/sh\nexec {command}\n")
        made.chmod(0o755)
        return str(made)


def run(words: Sequence[str], folder: Optional[pathlib.Path] = None, given: bytes = b"", limit: float = SECONDS) -> str:
    """Runs a program, and says what it said where its status isn't 0."""
    ran = commands.run([*words], folder and str(folder), given, limit)
    return "\n".join([*ran.lines()[-20:], f"{words[0]} ended with status {ran.status}"]) if ran.status else ""


def all_checks(folder: pathlib.Path, given: Optional[str]) -> Iterator[Check]:
    if shutil.which("cc") is None:
        yield "the C library", f"{commands.NOT_RUN}there is no cc"
        return
    if given is None:
        why = run([str(TOP / "tools/build-library"), str(folder)], limit=BUILD_SECONDS)
        yield "tools/build-library", why
        if why:
            return
    library = Library(folder, pathlib.Path(given or folder / "libmigwelun.a"))
    for some in (of_c, of_examples):
        try:
            yield from some(library)
        except Failed as why:
            yield some.__name__, str(why)


# ---- programs in C


def of_c(library: Library) -> Iterator[Check]:
    edges = library.compiled("tools/library/edges.c")
    reply = library.compiled("tools/library/reply.c", "-Wl,--wrap=malloc,--wrap=realloc")
    yield "edges", run([str(edges)])
    yield from conversations([str(reply)])
    yield from cases(reply)
    yield from random_scripts([str(reply)], SCRIPTS)
    refusing = library.script("refusing", f'"{reply}" --refuse 2>/dev/null')
    ran = commands.run([str(reply), "--refuse"], given=REBALANCE.with_suffix(".txt").read_bytes(), merged=False)
    is_right = ran.status == 0 and ran.output == REBALANCE.with_suffix(".out").read_bytes() and int(ran.errors.split()[0]) > 0
    yield "allocations are refused", "" if is_right else f"status {ran.status}, {ran.errors.decode()}, or the output differs"
    yield from random_scripts([refusing], REFUSED_SCRIPTS)
    yield from watched(library, edges, reply)


def conversations(command: List[str]) -> Iterator[Check]:
    for path in sorted((TOP / "cases/conversations").glob("*.txt")):
        try:
            replay.play_coordinator(conversation.read(path), command)
            yield path.stem, ""
        except (replay.Differs, OSError, ValueError) as why:
            yield path.stem, str(why)


def cases(reply: pathlib.Path) -> Iterator[Check]:
    """The cases of `coord reply` whose lines can all be read."""
    for path in sorted((TOP / "cases/reply").glob("*.in")):
        if not path.with_suffix(".err").is_file():
            ran = commands.run([str(reply)], given=path.read_bytes(), limit=SECONDS)
            is_same = ran.status == 0 and ran.output == path.with_suffix(".out").read_bytes()
            yield f"cases/reply/{path.name}", "" if is_same else f"status {ran.status}, and the output differs"


def random_scripts(command: List[str], count: int) -> Iterator[Check]:
    """Random scripts, in as many parts as there are processors for, each from a seed of its own."""
    part = [str(TOP / "tools/reply-lines"), "check", "--scripts", str(count // AT_ONCE), "--seed"]
    with concurrent.futures.ThreadPoolExecutor(AT_ONCE) as pool:
        tried = pool.map(lambda seed: run([*part, str(seed), *command]), range(1, AT_ONCE + 1))
    for number, why in enumerate(tried, 1):
        yield f"{count // AT_ONCE} scripts of seed {number} through {os.path.basename(command[0])}", why


def watched(library: Library, edges: pathlib.Path, reply: pathlib.Path) -> Iterator[Check]:
    """The same under valgrind: no bad access, and all memory is freed."""
    if shutil.which(WATCH[0]) is None:
        yield "no leak and no bad access", f"{commands.NOT_RUN}there is no valgrind"
        return
    yield "edges under valgrind", run([*WATCH, str(edges)])
    yield from random_scripts([library.script("watched", f'{" ".join(WATCH)} "{reply}"')], WATCHED_SCRIPTS)
    yield "refusals under valgrind", run([*WATCH, str(reply), "--refuse"], given=REBALANCE.with_suffix(".txt").read_bytes())


# ---- the examples


def of_examples(library: Library) -> Iterator[Check]:
    embed = TOP / "examples/embed"
    yield "examples/embed/broker.c", serves(library.compiled("examples/embed/broker.c", "-D_GNU_SOURCE"))
    python = [sys.executable, "-B", "-m", "unittest"]
    os.environ["MIGWELUN_LIBRARY"] = str(library.archive.with_suffix(".so"))
    os.environ["MIGWELUN_JOURNAL"] = str(library.compiled("examples/embed/journal.c", "-D_GNU_SOURCE", "-DMOST_LOG=2000"))
    os.environ["MIGWELUN_REFUSING"] = str(library.compiled("examples/embed/refusals.c", *REFUSING))
    yield "replicas that are restored", run(["env", f"PYTHONPATH={TOP / 'conformance'}", *python, "test_snapshots"], embed / "python")
    yield "examples/embed/snapshots.c", run([str(library.compiled("examples/embed/snapshots.c", "-D_GNU_SOURCE")), "10", "10", "20"])
    yield "examples/embed/journal.c, killed", run([*python, "test_journal"], embed / "python")
    yield "examples/embed/python", run([*python, "test_migwelun"], embed / "python")
    if shutil.which("cargo") is None:
        yield "examples/embed/rust", f"{commands.NOT_RUN}there is no cargo"
        return
    os.environ["MIGWELUN_LIBRARY"], os.environ["CARGO_TARGET_DIR"] = str(library.archive.parent), str(library.folder / "target")
    shutil.copytree(embed / "rust", library.folder / "rust", ignore=shutil.ignore_patterns("target"))
    yield "examples/embed/rust", run(["cargo", "test", "--offline"], library.folder / "rust")


def serves(program: pathlib.Path) -> Optional[str]:
    """The server takes the two members of examples/client.py through a rebalance."""
    process = subprocess.Popen([program, "0", TOPIC], stdout=subprocess.PIPE, text=True)
    try:
        return why_fails(lambda: rebalances(process.stdout.readline().split()[1]))
    finally:
        process.kill()
        process.communicate()
