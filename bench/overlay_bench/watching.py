"""A run of another program, watched: seconds on the clock and of processors, and how many threads were at work, its children's among them."""
from __future__ import annotations

import glob
import subprocess
import threading
import time
from collections.abc import Mapping
from dataclasses import dataclass

from .programs import waited

# So many looks a second.
LOOKS = 100

# Bytes: what Linux counts memory in, and what it is told in.
KIB, MB = 1024, 1_000_000


def tree(process: int) -> list[int]:
    """A process and all below it that are there."""
    found = [process]
    for parent in found:
        for path in glob.glob("/proc/%d/task/*/children" % parent):
            try:
                with open(path, encoding="ascii") as file:
                    found += map(int, file.read().split())
            except OSError:
                continue
    return found


def at_work(process: int) -> int:
    """How many threads of a process, and of those below it, run or wait for nothing but a processor."""
    count = 0
    for member in tree(process):
        for path in glob.glob("/proc/%d/task/*/stat" % member):
            try:
                with open(path, encoding="utf-8", errors="replace") as file:
                    count += file.read().rpartition(")")[2].split()[0] == "R"
            except (OSError, IndexError):
                continue
    return count


class Threads:
    """Looks at the threads below a process until it is told to stop."""

    def __init__(self, process: int):
        self.process, self.counts, self.over = process, list[int](), threading.Event()
        self.thread = threading.Thread(target=self.look, daemon=True)
        self.thread.start()

    def look(self) -> None:
        while not self.over.wait(1 / LOOKS):
            count = at_work(self.process)
            self.counts += [count] if count else []

    def stop(self) -> int:
        """How many were at work at once at a tenth of the looks."""
        self.over.set()
        self.thread.join()
        counts = sorted(self.counts, reverse=True)
        return counts[len(counts) // 10] if counts else 1


@dataclass(frozen=True)
class Watched:
    """How a run ended (None where it took too long), seconds on the clock and of processors, threads at work, the most that one process
    held (MB), and what it said."""

    status: int | None
    clock: float
    processor: float
    threads: int
    memory: float
    said: str


def watched(words: list[str], output: str, seconds: float, env: Mapping[str, str] | None = None) -> Watched:
    """Runs a command line, with standard output into a file."""
    with open(output, "wb") as out, open(output + ".said", "wb") as said:
        start = time.monotonic()
        process = subprocess.Popen(words, stdin=subprocess.DEVNULL, stdout=out, stderr=said, env=env)
        threads = Threads(process.pid)
        is_over, used = waited(process, seconds)
        clock = time.monotonic() - start
        count = threads.stop()
    with open(output + ".said", encoding="utf-8", errors="replace") as told:
        return Watched(None if is_over else process.returncode, clock, used.ru_utime + used.ru_stime, count, used.ru_maxrss * KIB / MB, told.read())
