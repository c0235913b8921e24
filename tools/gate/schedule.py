"""How much runs side by side: what a check takes of memory, and what there is."""

import os
import re
from typing import Dict, Optional

# What a check takes of memory in bytes: in any crate, and for each line of the crate's source. Measured on crates
# of 360 to 4,000 lines; the most that one took was 4 GB.
CHECK_MEMORY, LINE_MEMORY = 2_500_000_000, 500_000
# How much of the free memory is used, and what part of what its first job takes a further job of a check adds: 1.3 GB beside 3 to 4.
USED_MEMORY, JOB_MEMORY = 0.85, 0.3
# More jobs than this seldom make a check faster.
MOST_JOBS = 4
# How many proofs `rt ci` runs at once, whatever it would plan; and what one of these takes of memory, by one job.
JOBS_NAME, PROOF_MEMORY = "RT_JOBS", 3_500_000_000


def proof_jobs() -> Dict[str, str]:
    """What `rt ci` is told by its environment: to prove one crate more at once than there are processors, by one job each.

    By itself it plans with one and a half to three times the memory that our crates take, which leaves processors idle. It is left to that
    where it was told otherwise, or where there is less memory than so many of them take. The one more keeps all processors
    busy when the last of the long checks begin.
    """
    proofs = processors() + 1
    is_enough = proofs * PROOF_MEMORY <= USED_MEMORY * free_memory()
    return {JOBS_NAME: str(proofs)} if is_enough and JOBS_NAME not in os.environ else {}


def checks_at_once() -> int:
    """How many checks have room beside one another."""
    return max(1, min(processors(), int(USED_MEMORY * free_memory() / (CHECK_MEMORY + 4000 * LINE_MEMORY))))


def need_of(tree: object, crate: str) -> float:
    """The memory that a check of the crate is planned with."""
    texts = (tree.read(crate, it) for it in tree.sources(crate) if it.endswith(".rt"))
    return CHECK_MEMORY + LINE_MEMORY * sum(it.count("\n") for it in texts)


def number_in(file: str, pattern: str = r"(\d+)") -> Optional[int]:
    try:
        with open(file, encoding="utf-8") as text:
            found = re.search(pattern, text.read())
    except OSError:
        return None
    return int(found[1]) if found else None


def processors() -> int:
    """How many processors this process may use, also by its control group's quota of processor time."""
    found, quota, period = len(os.sched_getaffinity(0)), *(number_in("/sys/fs/cgroup/cpu.max", it) for it in (r"^(\d+)", r" (\d+)"))
    return min(found, max(quota // period, 1)) if quota and period else found


def free_memory() -> int:
    """How many bytes of memory are free for this process, also by its control group's limit."""
    free = 1024 * number_in("/proc/meminfo", r"MemAvailable:\s+(\d+)")
    limit, used = (number_in(f"/sys/fs/cgroup/memory.{it}") for it in ("max", "current"))
    return free if limit is None or used is None else min(free, limit - used)
