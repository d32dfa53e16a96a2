"""Numbered work, done by processes side by side. Where one of them ends in the middle, that is told, and another goes on."""
from __future__ import annotations

import argparse
import multiprocessing
import signal
import sys
import time
from collections.abc import Callable, Iterator, Sequence
from dataclasses import dataclass
from multiprocessing.connection import Connection, wait
from typing import Generic, TypeVar

Thing = TypeVar("Thing")
Result = TypeVar("Result")
FORK = multiprocessing.get_context("fork")
# What a process is given to end its programs and to take its folders away.
SECONDS = 10.0


def add_arguments(parser: argparse.ArgumentParser, things: str, count: int) -> None:
    """The arguments of a run over numbered things, which are made from their number and the seed."""
    thing = things[:-1]
    parser.add_argument("--" + things, type=int, default=count)
    parser.add_argument("--first", type=int, default=0, help="the number of the first %s, to run one again" % thing)
    parser.add_argument("--seed", type=int, default=1)
    parser.add_argument("--minutes", type=float, default=0, help="ends after so many minutes, however many %s are left" % things)
    parser.add_argument("--jobs", type=int, default=1, help="processes side by side")


@dataclass(frozen=True)
class Ended:
    """The process that was at a number ended, with a status, or by a signal (below 0)."""

    status: int

    def is_over(self) -> bool:
        """Whether a call took too long."""
        return self.status == -signal.SIGALRM


class Hand(Generic[Thing, Result]):
    """A process that does some of the numbers, in order."""

    def __init__(self, work: Callable[[Thing], Result], numbers: Sequence[Thing]) -> None:
        self.work, self.numbers, self.done = work, numbers, 0
        self.start()

    def start(self) -> None:
        self.told, telling = FORK.Pipe(duplex=False)
        self.process = FORK.Process(target=self.run, args=(self.numbers[self.done:], telling), daemon=True)
        self.process.start()
        telling.close()

    def run(self, numbers: Sequence[Thing], telling: Connection) -> None:
        signal.signal(signal.SIGINT, signal.SIG_IGN)
        signal.signal(signal.SIGTERM, lambda number, frame: sys.exit(1))
        for number in numbers:
            telling.send(self.work(number))

    def next(self) -> tuple[Thing, Result | Ended]:
        """The next number and what it gave."""
        number = self.numbers[self.done]
        try:
            result = self.told.recv()
        except EOFError:
            self.process.join()
            result = Ended(self.process.exitcode or 0)
        self.done += 1
        if isinstance(result, Ended) and self.done < len(self.numbers):
            self.start()
        return number, result

    def end(self) -> None:
        """Waits for the process, which was told to end; a call into a library doesn't hear it."""
        self.process.join(SECONDS)
        self.process.kill()
        self.process.join()

    def is_done(self) -> bool:
        return self.done == len(self.numbers)


def results(work: Callable[[Thing], Result], numbers: Sequence[Thing], jobs: int, minutes: float = 0) -> Iterator[tuple[Thing, Result | Ended]]:
    """Each number with what `work` gives of it, or with how its process ended; after so many minutes no more. Tells each minute how far it is."""
    start, shown, count = time.monotonic(), 60, 0
    hands = [Hand(work, part) for part in (numbers[k::jobs] for k in range(jobs)) if part]
    try:
        while busy := [hand for hand in hands if not hand.is_done()]:
            heard = wait([hand.told for hand in busy])
            for hand in busy:
                if hand.told in heard:
                    yield hand.next()
                    count += 1
            passed = time.monotonic() - start
            if passed >= shown:
                print("%d of %d after %.0f s" % (count, len(numbers), passed), file=sys.stderr, flush=True)
                shown += 60
            if minutes and passed > 60 * minutes:
                return
    finally:
        for hand in hands:
            hand.process.terminate()
        for hand in hands:
            hand.end()
