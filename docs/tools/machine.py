"""How many processors and how much memory there is to build with."""

import os
import re


def numbers_in(file, pattern):
    """The numbers that a file of the system has there, or none."""
    try:
        with open(file, encoding="utf-8") as text:
            found = re.search(pattern, text.read(), re.M)
    except OSError:
        return None
    return [int(number) for number in found.groups()] if found else None


def processors():
    """As many as this process may run on, by the quota of its group too."""
    most, quota = len(os.sched_getaffinity(0)), numbers_in("/sys/fs/cgroup/cpu.max", r"^(\d+) (\d+)")
    return max(1, min(most, quota[0] // quota[1])) if quota else most


def free_memory():
    """The GB that a build may take: most of what the machine has free, and of what its group may still take."""
    free = [1024 * number for number in numbers_in("/proc/meminfo", r"^MemAvailable: +(\d+)") or [4 * 1024 ** 2]]
    limit, held = numbers_in("/sys/fs/cgroup/memory.max", r"^(\d+)"), numbers_in("/sys/fs/cgroup/memory.stat", r"^anon (\d+)")
    if limit and held:
        free.append(max(0, limit[0] - held[0]))
    return 0.85 * min(free) / 1e9
