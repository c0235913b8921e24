"""How a tool ends that reads and prints lines: with a line on standard error if something fails, and never with a traceback."""

import errno
import os
import signal
import sys
from types import TracebackType
from typing import Callable, Optional, Type

STDOUT = 1


def without_traceback(name: str = "") -> None:
    """From here on an interrupt, a full disk and a reader that is gone end this program with a line at most. `name` is the program's."""

    def hook(kind: Type[BaseException], why: BaseException, trace: Optional[TracebackType]) -> None:
        if isinstance(why, OSError) and why.errno == errno.ENOSPC:
            print(f"{name or os.path.basename(sys.argv[0])}: {why.filename or 'standard output'}: {why.strerror}", file=sys.stderr)
        elif not isinstance(why, (KeyboardInterrupt, BrokenPipeError)):
            sys.__excepthook__(kind, why, trace)
            return
        forget_output()

    sys.excepthook = hook


def forget_output() -> None:
    """What is left to be written would fail again when the process ends."""
    os.dup2(os.open(os.devnull, os.O_WRONLY), STDOUT)


def guarded(name: str, call: Callable[[], int]) -> int:
    """The status that `call` gives; that of an interrupt, or 1 if something can't be read or written. `name` is the tool's."""
    try:
        status = call()
        sys.stdout.flush()
        return status
    except KeyboardInterrupt:
        status = 128 + signal.SIGINT
    except BrokenPipeError:
        # Whoever read the lines has ended.
        status = 1
    except OSError as why:
        print(f"{name}: {why.filename or 'standard output'}: {why.strerror or why}", file=sys.stderr)
        status = 1
    forget_output()
    return status
