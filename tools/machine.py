"""What may be used of this machine: its processors, and the memory that is free.

usage: python3 tools/machine.py BYTES    prints how many runs that take so many bytes each may go on at once
"""
from __future__ import annotations

import os
import re
import sys

# The limits of a control group, in its two versions: of memory, with what is held of it, and of processors.
MEMORY_LIMITS = [
    ("/sys/fs/cgroup/memory.max", "/sys/fs/cgroup/memory.stat", r"^anon (\d+)"),
    ("/sys/fs/cgroup/memory/memory.limit_in_bytes", "/sys/fs/cgroup/memory/memory.stat", r"^total_rss (\d+)"),
]
PROCESSOR_LIMITS = [
    ("/sys/fs/cgroup/cpu.max", "/sys/fs/cgroup/cpu.max", r" (\d+)"),
    ("/sys/fs/cgroup/cpu/cpu.cfs_quota_us", "/sys/fs/cgroup/cpu/cpu.cfs_period_us", r"(\d+)"),
]
# What is taken to be free where the system does not say.
UNKNOWN = 4_000_000_000


def number_in(path: str, pattern: str) -> int | None:
    """The first number in a file that the pattern finds, or None."""
    try:
        with open(path, encoding="utf-8") as file:
            found = re.search(pattern, file.read(), re.M)
    except OSError:
        return None
    return int(found[1]) if found else None


def free_memory() -> int:
    """The memory in bytes that is free, also within the limit of a control group."""
    kilobytes = number_in("/proc/meminfo", r"^MemAvailable:\s+(\d+)")
    free = [UNKNOWN if kilobytes is None else 1024 * kilobytes]
    for limit, held, pattern in MEMORY_LIMITS:
        most, taken = number_in(limit, r"^(\d+)"), number_in(held, pattern)
        if most and taken is not None:
            free.append(most - taken)
    return min(free)


def processors() -> int:
    """How many processors there are to use."""
    found = len(os.sched_getaffinity(0))
    for quota, period, pattern in PROCESSOR_LIMITS:
        most, each = number_in(quota, r"^(\d+)"), number_in(period, pattern)
        if most and each:
            found = min(found, max(1, most // each))
    return found


def runs_at_once(size: int) -> int:
    """How many runs that take so many bytes each may go on at once."""
    return max(1, min(processors(), free_memory() // size))


if __name__ == "__main__":
    print(runs_at_once(int(sys.argv[1])))
