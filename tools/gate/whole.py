"""The gate: everything that must hold before a change is taken, or that part of it which needs no proof. docs/GATE.md says it for a reader."""

import concurrent.futures
import os
import re
import subprocess
import time
from typing import Iterable, List, NamedTuple, Optional, Tuple

from gate import cases, commands, crates, meter, schedule

ROOT = crates.repository()
BUILT, BROKER = f"{ROOT}/crates/{cases.PROGRAM_CRATE}/out/{cases.PROGRAM_CRATE}", f"{ROOT}/crates/broker_cli/out/broker_cli"
# The program as the two compilers have built it, and a fresh seed, in the words of a check.
SEED = str(int.from_bytes(os.urandom(4), "big"))
MEANINGS = {"PROGRAM": BUILT, "BROKER": BROKER, "BY_RATTLE": f"{BUILT}.by-rattle", "SEED": SEED}
# Each check is a script of tools/ with its words, and when it runs: ahead, beside `rt ci`; in turn behind it, those that serve or take times; beside
# these all others, of which those marked `proved` build over the proved libraries. What runs beside others leaves the processors to them.
# Those marked `*` need no proof: over a program that isn't proved all of them run side by side, and those before its build which it isn't wanted for.
AHEAD, IN_TURN, BESIDE, PROVED = "ahead", "in turn", "beside", "proved"
LIST = """
ahead: edits --tests
in turn: check-launcher *
in turn: check-server PROGRAM *
in turn: check-broker *
in turn: check-coord-broker BROKER *
in turn: check-members *
in turn: check-failover --short
beside: cases PROGRAM *
beside: cases BY_RATTLE
beside: check-readme PROGRAM *
beside: refuse-growths --short
beside: check-library
beside: check-package PROGRAM BROKER
beside: check-model *
beside: check-laws *
beside: check-pictures PROGRAM *
beside: reply-lines check PROGRAM reply *
beside: reply-lines check --seed SEED PROGRAM reply *
beside: run-lines check PROGRAM run *
beside: run-lines check --seed SEED PROGRAM run *
proved: must-not-compile
proved: edits --accepted
"""
CHECKS = [tuple(line.removesuffix(" *").split(": ")) for line in LIST.strip().splitlines()]
WITHOUT_PROOFS = [it for it, line in zip(CHECKS, LIST.strip().splitlines()) if line.endswith(" *")]
# How the programs are built without proofs.
UNPROVED = {"PROGRAM": ["./coord", "--unproved", "reply"], "BROKER": ["./coord", "--unproved", "broker", "--version"]}
# How many run at once after `rt ci`, what leaves the processors to others, and how long a check may take, in seconds.
AT_ONCE, NICE, LIMIT = 4, 10, 7_200
# What `rt ci` says where all is well; everything else that it writes is shown as it comes.
NOISE = re.compile(
    r"checked \S+, \d|so far: |statements |crate \S+: modules|logic |logic=proved |by-macro: |empty contracts: 0 "
    r"|(fn|enum|struct|union|impl|trait|type|const|static) \S+: (proved|assumed)|axioms |linked |tests?: \d"
    r"|test \S+ \.\.\. ok|running \d|== |rt: chose |$"
)
LAST_LINE = re.compile(r"(\d+) (passed|scripts), (\d+) (?:failed|differ)")
BEGAN = time.monotonic()


class Outcome(NamedTuple):
    """What came of a check: also its times in seconds, and what it says that it didn't look at."""

    name: str
    passed: int = 0
    failed: int = 1
    seconds: float = 0
    processor: float = 0
    note: str = "FAILED"
    left: Tuple[str, ...] = ()


def say(line: str) -> None:
    seconds = int(time.monotonic() - BEGAN)
    print(f"[{seconds // 60:3}:{seconds % 60:02}] {line}", flush=True)


def outcome(name: str, lines: List[str], status: int, began: float, processor: float, more: str = "") -> Outcome:
    """By the last line of a check, and its status; a failure if the line says neither how many passed nor how many failed."""
    found = LAST_LINE.fullmatch(lines[-1])
    passed, failed = (int(found[1]) - int(found[3]) * (found[2] == "scripts"), int(found[3])) if found else (0, 1)
    failed = max(failed, int(status != 0))
    say(f"{name}{more}: {passed} passed, {failed} failed")
    left = [f"{name}: {it[len(commands.NOT_RUN):]}" for it in lines if it.startswith(commands.NOT_RUN)]
    return Outcome(name, passed, failed, time.monotonic() - began, processor, "FAILED" * bool(failed), (*left,))


def prove(words: List[str]) -> Tuple[Outcome, List[str]]:
    """Runs `rt ci` over the tree, and shows what isn't noise. What came of it, and a table of its processor time."""
    began, last = time.monotonic(), ""
    jobs = [f"{name}={value}" for name, value in schedule.proof_jobs().items()]
    say(" ".join([*jobs, *words]))
    child = commands.start(["env", *jobs, *words], ROOT, subprocess.DEVNULL, subprocess.PIPE, subprocess.STDOUT)
    spent = meter.Meter(child)
    spent.start()
    for last in (it.decode(errors="replace").rstrip("\n") for it in child.stdout):
        if not NOISE.match(last) and not LAST_LINE.fullmatch(last):
            say(last)
    status, processor = commands.wait_for(child)
    spent.is_over.set()
    return outcome(" ".join(words), [last], status, began, processor), spent.table()


def run(when: str, text: str, nice: Optional[int] = None) -> Outcome:
    """Runs a check: its lines are shown if it fails, else its last one."""
    began, name = time.monotonic(), re.sub("(PROGRAM|BROKER) ?", "", text).strip()
    words = [MEANINGS.get(word, word) for word in text.split()]
    if any(word.startswith((BUILT, BROKER)) and not os.path.isfile(word) for word in words):
        return Outcome(name, note="not run: no program")
    ran = commands.run([f"{ROOT}/tools/{words[0]}", *words[1:]], ROOT, limit=LIMIT, nice=(0 if when == IN_TURN else NICE) if nice is None else nice)
    it = outcome(name, ran.lines(), ran.status, began, ran.processor, f" {SEED}" * ("SEED" in text))
    for line in ran.lines() if it.failed else ():
        say(f"{name}: {line}")
    return it


def run_in(pool: concurrent.futures.Executor, whens: Tuple[str, ...]) -> List["concurrent.futures.Future[List[Outcome]]"]:
    """Begins the checks of these times: those that run in turn as one."""
    chosen = [it for it in CHECKS if it[0] in whens]
    parts = [[it for it in chosen if it[0] == IN_TURN], *([it] for it in chosen if it[0] != IN_TURN)]
    return [pool.submit(lambda part=part: [run(*it) for it in part]) for part in parts if part]


def with_proofs(command: List[str]) -> int:
    """Runs `rt ci` and every check. The status is 0 only if nothing failed."""
    with concurrent.futures.ThreadPoolExecutor(AT_ONCE) as pool:
        begun = run_in(pool, (AHEAD,))
        first, spent = prove(command)
        if not first.failed:
            os.environ["GATE_PROVED"] = "1"
        begun += run_in(pool, (IN_TURN, BESIDE) if first.failed else (IN_TURN, BESIDE, PROVED))
        done = [first, *(it for part in begun for it in part.result())]
    done += [Outcome(text, note="not run") for when, text in CHECKS if first.failed and when == PROVED]
    print("", *spent, sep="\n")
    return told(done)


def without_proofs() -> int:
    """Builds the programs without proofs, and runs every check that needs none. The status is 0 only if nothing failed."""
    MEANINGS.update({"PROGRAM": f"{ROOT}/out/coord-unproved", "BROKER": f"{ROOT}/out/coord-broker-unproved"})
    done = []
    with concurrent.futures.ThreadPoolExecutor(AT_ONCE) as pool:
        begun = [pool.submit(run, *it, 0) for it in WITHOUT_PROOFS if not {*UNPROVED} & {*it[1].split()}]
        for word, build in UNPROVED.items():
            say(" ".join(build))
            ran = commands.run(build, ROOT, limit=LIMIT)
            name, failed = " ".join(build), int(ran.status != 0)
            say(f"{name}: {ran.lines()[-1]}")
            done.append(Outcome(name, 1 - failed, failed, ran.wall, ran.processor, "FAILED" * failed))
            begun += [pool.submit(run, *it, 0) for it in WITHOUT_PROOFS if word in it[1].split() and not failed]
        done += [it.result() for it in begun]
    others = ", ".join(re.sub(" ?(PROGRAM|BROKER)", "", text) for when, text in CHECKS if (when, text) not in WITHOUT_PROOFS)
    return told(done, [f"what proofs show, for which `bash .ci/run` is: rt ci, {others}"])


def told(done: List[Outcome], left: Iterable[str] = ()) -> int:
    """Says what came of each check, and what none looked at. Gives the status."""
    width = max(len(it.name) for it in done)
    print(f"\n{'':{width}}   passed  failed  minutes  processor seconds")
    for it in done:
        print(f"{it.name:{width}}  {it.passed:7} {it.failed:7} {it.seconds / 60:8.1f}  {it.processor:17.0f}  {it.note}".rstrip())
    for text in (*(why for it in done for why in it.left), *left):
        print(f"not looked at: {text}")
    passed, failed = sum(it.passed for it in done), sum(it.failed for it in done)
    print(f"{passed} passed, {failed} failed", flush=True)
    return 1 if failed or not passed else 0
