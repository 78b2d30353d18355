"""Measures the memory of a program and its child processes."""

import pathlib
import statistics
import time

PAGE_SIZE = 4096
SECONDS_BETWEEN_SAMPLES = 2


def process_tree(root):
    """Returns the ids of a process and all its descendants."""
    parents = {}
    for stat in pathlib.Path("/proc").glob("[0-9]*/stat"):
        try:
            fields = stat.read_text().rsplit(")", 1)[1].split()
        except (OSError, IndexError):
            continue
        parents[int(stat.parent.name)] = int(fields[1])
    members = {root}
    while True:
        children = {process for process, parent in parents.items() if parent in members} - members
        if not children:
            return members
        members |= children


def resident_bytes(root):
    """Returns the total resident bytes of a process and all its descendants. Shared bytes count once for each process."""
    total = 0
    for process in process_tree(root):
        try:
            total += int(pathlib.Path(f"/proc/{process}/statm").read_text().split()[1]) * PAGE_SIZE
        except (OSError, IndexError):
            continue
    return total


def memory_growth(root, seconds):
    """Samples the memory of a process tree for a number of seconds. Returns the median of the last third of the samples, divided by that of the first
    third."""
    sizes = []
    deadline = time.monotonic() + seconds
    while time.monotonic() < deadline:
        sizes.append(resident_bytes(root))
        time.sleep(SECONDS_BETWEEN_SAMPLES)
    samples_per_third = max(1, len(sizes) // 3)
    return statistics.median(sizes[-samples_per_third:]) / statistics.median(sizes[:samples_per_third])
