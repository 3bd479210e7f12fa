"""What there is to work with: processors and memory, under the limits of this process's control group too."""

import os
from pathlib import Path

# A check takes one to four gigabytes.
NEEDED = 3_500_000_000
GROUP = Path("/sys/fs/cgroup")


def words_of(file: str | Path) -> list[str]:
    try:
        return Path(file).read_text(encoding="utf-8").split()
    except OSError:
        return []


def processors() -> int:
    found = len(os.sched_getaffinity(0))
    quota = words_of(GROUP / "cpu.max")
    if len(quota) == 2 and quota[0].isdigit():
        found = min(found, max(int(quota[0]) // int(quota[1]), 1))
    return found


def free_memory() -> int:
    words = words_of("/proc/meminfo")
    found = [1024 * int(words[words.index("MemAvailable:") + 1])] if "MemAvailable:" in words else []
    limit, held = words_of(GROUP / "memory.max"), words_of(GROUP / "memory.current")
    if limit and limit[0].isdigit() and held:
        found.append(int(limit[0]) - int(held[0]))
    return min(found, default=NEEDED)


def places() -> int:
    """How many checks may run side by side: one a processor, where memory is free for each, and always one."""
    return max(1, min(processors(), free_memory() // NEEDED))
