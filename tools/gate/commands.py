"""Starts programs, measures them, and ends them all when this process is told to stop.

Every program runs in a session of its own. This process adopts what its programs leave behind, so that whatever they have started can be
found below it, in whatever session, and be ended.
"""

import contextlib
import ctypes
import dataclasses
import os
import pathlib
import resource
import shutil
import signal
import subprocess
import sys
import tempfile
import threading
import time
from typing import IO, Iterable, Iterator, List, NoReturn, Optional, Sequence, Set, Tuple, Union

# From <sys/prctl.h>: orphans below this process become its children.
PR_SET_CHILD_SUBREAPER = 36
# What a signal that stops the tools adds to its number to make the exit status, as shells do.
STOPPED_STATUS = 128
# What the reason of a check that can't be run here begins with.
NOT_RUN = "not run: "

stopping = threading.Event()


class Stopped(Exception):
    """This process was told to stop, so no program is started any more."""


@dataclasses.dataclass(frozen=True)
class Ran:
    """A program that has ended: its status (negative: the signal), what it wrote, and its time in seconds."""

    status: int
    output: bytes
    errors: bytes
    wall: float
    processor: float
    was_cut: bool

    def lines(self) -> List[str]:
        return self.output.decode(errors="replace").rstrip("\n").split("\n")


def run(words: Sequence[str], folder: Optional[str] = None, given: bytes = b"", limit: Optional[float] = None, merged: bool = True, nice: int = 0) -> Ran:
    """Runs a program to its end, or for at most `limit` seconds. Where `merged`, its errors go into `output`. `nice`: see `start`."""
    with contextlib.ExitStack() as files:
        given_file, output, errors = (files.enter_context(tempfile.TemporaryFile()) for _ in range(3))
        given_file.write(given)
        given_file.seek(0)
        began, was_cut = time.monotonic(), threading.Event()
        child = start(words, folder, given_file, output, subprocess.STDOUT if merged else errors, nice)
        timer = threading.Timer(limit or threading.TIMEOUT_MAX, lambda: (was_cut.set(), end(child)))
        timer.daemon = True
        timer.start()
        status, processor = wait_for(child)
        timer.cancel()
        kill(members_of(child.pid))
        if stopping.is_set():
            raise Stopped
        texts = [it.read() for it in (output, errors) if it.seek(0) == 0]
        return Ran(status, *texts, time.monotonic() - began, processor, was_cut.is_set())


def start(words: Sequence[str], folder: Optional[str], given: Union[int, IO[bytes]], output: Union[int, IO[bytes]], errors: Union[int, IO[bytes]], nice: int = 0) -> subprocess.Popen:
    """Starts a program in a session of its own. The higher `nice` is, up to 19, the more it leaves the processors to others."""
    if stopping.is_set():
        raise Stopped
    words = ["nice", "-n", str(nice), *words] if nice else words
    child = subprocess.Popen(words, cwd=folder, stdin=given, stdout=output, stderr=errors, start_new_session=True)
    if nice:
        set_nice_of_session(child.pid, nice)
    if stopping.is_set():
        end(child)
    return child


def set_nice_of_session(leader: int, nice: int) -> None:
    """Linux shares the processors out to sessions first, by a value of theirs (sched(7), "The autogroup feature")."""
    for _ in range(10):
        try:
            pathlib.Path(f"/proc/{leader}/autogroup").write_text(str(nice), encoding="ascii")
        except BlockingIOError:
            # Who isn't root may set one such value in a tenth of a second.
            time.sleep(0.1)
        except OSError:
            break
        else:
            break


def wait_for(child: subprocess.Popen) -> Tuple[int, float]:
    """The exit status and the processor time of a program and of all that it waited for."""
    _, status, used = os.wait4(child.pid, 0)
    child.returncode = os.waitstatus_to_exitcode(status)
    return child.returncode, used.ru_utime + used.ru_stime


def processes() -> Iterator[Tuple[int, int, int]]:
    """The processes of the machine that have not ended: number, parent and session."""
    for name in filter(str.isdigit, os.listdir("/proc")):
        with contextlib.suppress(OSError):
            # The program's name stands in brackets, and can have spaces and brackets itself.
            stat = pathlib.Path(f"/proc/{name}/stat").read_text(encoding="utf-8", errors="replace")
            state, parent, _, session = stat.rpartition(")")[2].split()[:4]
            if state != "Z":
                yield int(name), int(parent), int(session)


def processor_seconds(number: int) -> float:
    """The processor time that a process has taken; 0 of none."""
    if not number:
        return 0.0
    fields = pathlib.Path(f"/proc/{number}/stat").read_text(encoding="utf-8").rpartition(")")[2].split()
    return (int(fields[11]) + int(fields[12])) / os.sysconf("SC_CLK_TCK")


def memory_of(number: int) -> int:
    """The bytes that a process has in memory."""
    return int(pathlib.Path(f"/proc/{number}/statm").read_text(encoding="ascii").split()[1]) * resource.getpagesize()


def below(number: int) -> Set[int]:
    """The processes that descend from this one."""
    parents = {child: parent for child, parent, _ in processes()}
    found = {number}
    while more := {child for child, parent in parents.items() if parent in found and child not in found}:
        found |= more
    return found - {number}


def kill(numbers: Iterable[int]) -> None:
    for number in numbers:
        with contextlib.suppress(ProcessLookupError):
            os.kill(number, signal.SIGKILL)


def members_of(session: int) -> List[int]:
    return [child for child, _, its_session in processes() if its_session == session]


def end(child: subprocess.Popen) -> None:
    """Ends a program that is running, and all that it has started."""
    kill({*members_of(child.pid), *below(child.pid)})


def end_all() -> None:
    """Ends every process below this one, also those that begin meanwhile."""
    while found := below(os.getpid()):
        kill(found)
        time.sleep(0.01)


def stop(number: int, _frame: object) -> None:
    """Ends what was started; what waits for it then ends too, and removes its files."""
    for it in (signal.SIGINT, signal.SIGTERM, signal.SIGHUP):
        signal.signal(it, signal.SIG_IGN)
    stopping.set()
    end_all()
    sys.exit(STOPPED_STATUS + number)


def take_signals() -> None:
    """From here on a signal to stop ends all that was started.

    A shell without jobs starts what stands before `&` with SIGINT ignored, and nohup with SIGHUP: they stay so here. But a program that is
    started from here on gets SIGINT as everywhere else: a signal that a handler takes is its default in a child, and one that is ignored
    is ignored there, too.
    """
    for it in (signal.SIGINT, signal.SIGTERM, signal.SIGHUP):
        if signal.getsignal(it) != signal.SIG_IGN:
            signal.signal(it, stop)
        elif it == signal.SIGINT:
            signal.signal(it, lambda *_: None)


@contextlib.contextmanager
def room(name: str, parent: Optional[str] = None) -> Iterator[str]:
    """A folder that others can read and that is removed at the end, whatever ends it but SIGKILL.

    What is written meanwhile to the folder for temporary files, also by the programs, lies in it. Signals: see `take_signals`.
    """
    ctypes.CDLL(None, use_errno=True).prctl(PR_SET_CHILD_SUBREAPER, 1, 0, 0, 0)
    take_signals()
    folder = os.path.realpath(tempfile.mkdtemp(prefix=f"{name}-", dir=parent))
    before = tempfile.gettempdir()
    tempfile.tempdir = os.environ["TMPDIR"] = f"{folder}/tmp"
    os.mkdir(tempfile.tempdir)
    for it in (folder, tempfile.tempdir):
        os.chmod(it, 0o755)
    try:
        yield folder
    finally:
        end_all()
        tempfile.tempdir = os.environ["TMPDIR"] = before
        shutil.rmtree(folder, ignore_errors=True)


def tell(checks: Iterable[Tuple[str, Optional[str]]], with_all: bool = False) -> int:
    """Says each check that fails, by its name and why, and in the last line how many passed and failed. Gives the status."""
    passed = failed = 0
    for name, why in checks:
        if why and why.startswith(NOT_RUN):
            print(f"{NOT_RUN}{name}: {why[len(NOT_RUN):]}", flush=True)
            continue
        passed, failed = passed + (not why), failed + bool(why)
        if why or with_all:
            print(f"FAILED {name}: {why}" if why else f"ok     {name}", flush=True)
    print(f"{passed} passed, {failed} failed")
    return int(failed > 0 or not passed)


def usage(doc: str, words: Sequence[str], known: Sequence[str] = ()) -> None:
    """Prints the help and ends where it is asked for; ends with the usage where a word is an option that isn't known."""
    if {"--help", "-h"} & {*words}:
        signal.signal(signal.SIGPIPE, signal.SIG_DFL)
        print(doc.strip())
        sys.exit(0)
    if any(it.startswith("-") for it in words if it not in known):
        lines = doc.strip().split("\n\n")[1]
        print(lines, file=sys.stderr)
        sys.exit(2)


def file_of(word: str) -> str:
    """The whole path of a file that a command line names. Ends this process where there is none."""
    if not os.path.isfile(word):
        print(f"{os.path.basename(sys.argv[0])}: there is no file {word}", file=sys.stderr)
        sys.exit(2)
    return os.path.realpath(word)


def need(program: str) -> None:
    """Ends this process where a program is not on PATH."""
    if shutil.which(program) is None:
        fail(f"{program}, the Rattle toolchain's command, is not on PATH")


def fail(why: str) -> NoReturn:
    """Ends this process with one line that says why."""
    sys.exit(f"{os.path.basename(sys.argv[0])}: {why}")
