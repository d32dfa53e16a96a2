"""measures the program against the plain program on generated maps of every kind

For each kind, size and command: processor seconds by one worker, seconds on the clock by four, and the greatest memory, of
both programs in turn, by the default plan, from files and to a file; medians of several rounds, and the ratios. (Below some 20
MB the memory is that of this program, from which they are started.) Machines and their other work change; ratios of one run
can be compared. A run that takes too long is shown as "over", and its kind and
command are not tried at greater sizes. Where the bytes of both programs differ the row says so, and the exit status is 1.
The last lines have the growth from each size to the next one: the power of the number of segments.
"""
from __future__ import annotations

import argparse
import filecmp
import math
import os
import statistics
import tempfile
from collections.abc import Iterator, Sequence

from . import maps, programs
from .programs import COMMANDS, Taken

SIZES = (10_000, 100_000, 1_000_000)


def add_arguments(parser: argparse.ArgumentParser) -> None:
    parser.add_argument("--kinds", nargs="+", default=list(maps.KINDS), choices=maps.KINDS, metavar="KIND", help="of: " + ", ".join(maps.KINDS))
    parser.add_argument("--sizes", nargs="+", type=int, default=SIZES, metavar="SEGMENTS")
    parser.add_argument("--commands", nargs="+", default=COMMANDS, choices=COMMANDS, metavar="COMMAND")
    parser.add_argument("--rounds", type=int, default=5)
    parser.add_argument("--seconds", type=float, default=120, help="after which a run is over")
    parser.add_argument("--words", default="", help="more words for the program, such as --tile=N")


class Series:
    """The runs of one program by one number of workers."""

    def __init__(self, words: Sequence[str], output: str) -> None:
        self.words, self.output = words, output
        self.runs: list[Taken] = []

    def run(self, seconds: float) -> None:
        if not self.is_over():
            self.runs.append(programs.taken(self.words, self.output, seconds))

    def is_over(self) -> bool:
        return any(run.status is None for run in self.runs)

    def failed(self) -> bool:
        return any(run.status for run in self.runs)

    def median(self, what: str) -> float | None:
        found: list[float] = [getattr(run, what) for run in self.runs]
        return None if self.is_over() else statistics.median(found)


def greatest(values: Sequence[float | None]) -> float | None:
    """The greatest value; None where one isn't there."""
    known = [value for value in values if value is not None]
    return max(known) if len(known) == len(values) else None


def shown(value: float | None, digits: int) -> str:
    return "over" if value is None else "%.*f" % (digits, value)


def ratio(ours: float | None, theirs: float | None) -> str:
    return "" if ours is None or not theirs else "%.1f" % (ours / theirs)


def compared(ours: float | None, theirs: float | None, digits: int) -> tuple[str, str, str]:
    """Both values, and their ratio."""
    return shown(ours, digits), shown(theirs, digits), ratio(ours, theirs)


class Row:
    """Both programs on one pair of layers by one command."""

    def __init__(self, arguments: argparse.Namespace, folder: str, files: Sequence[str], command: str) -> None:
        ours, theirs = [os.path.join(folder, name) for name in ("ours", "theirs")]

        def call(program: str, workers: int) -> list[str]:
            return [program, command, *files, "--workers=%d" % workers]

        self.ours = [Series(call(arguments.program, workers) + arguments.words.split(), ours) for workers in (1, 4)]
        self.theirs = [Series(call(programs.plain(), workers), theirs) for workers in (1, 4)]
        for number in range(arguments.rounds):
            for series in self.theirs + self.ours:
                series.run(arguments.seconds)
            if number == 0:
                self.differs = not any(series.is_over() for series in self.ours + self.theirs) and not filecmp.cmp(ours, theirs, shallow=False)

    def numbers(self) -> Iterator[str]:
        """Processor seconds by one, the clock by four, the greatest memory: ours, the plain program's."""
        ours, theirs = self.ours, self.theirs
        yield from compared(ours[0].median("processor"), theirs[0].median("processor"), 2)
        yield from compared(ours[1].median("clock"), theirs[1].median("clock"), 2)
        yield from compared(self.memory(ours), self.memory(theirs), 0)

    def memory(self, both: Sequence[Series]) -> float | None:
        return greatest([series.median("memory") for series in both])

    def note(self) -> str:
        failed = [series for series in self.ours + self.theirs if series.failed()]
        return " status %s" % failed[0].runs[-1].status if failed else " bytes differ" if self.differs else ""


def growth(times: Sequence[tuple[int, float | None]]) -> str:
    """The powers from each size to the next one."""
    found = []
    for (small, before), (large, after) in zip(times, times[1:]):
        found.append("%.2f" % (math.log(after / before) / math.log(large / small)) if before and after else "over")
    return " ".join(found)


def main(arguments: argparse.Namespace) -> int:
    programs.plain()
    wrong = False
    grown: dict[tuple[str, str], list[tuple[int, float | None]]] = {}
    print("| kind | segments | command | 1 worker: processor s | plain | ratio | 4 workers: clock s | plain | ratio | MB | plain | ratio |")
    print("|---" * 12 + "|")
    with tempfile.TemporaryDirectory() as folder:
        files = [os.path.join(folder, name) for name in ("a.wkt", "b.wkt")]
        for kind in arguments.kinds:
            over: set[str] = set()
            for size in sorted(arguments.sizes):
                if over >= set(arguments.commands):
                    break
                programs.apart(lambda: maps.write(kind, size, files))
                for command in arguments.commands:
                    if command in over:
                        continue
                    row = Row(arguments, folder, files, command)
                    print("| %s | %s | %s | %s |%s" % (kind, "{:,}".format(size), command, " | ".join(row.numbers()), row.note()), flush=True)
                    wrong |= bool(row.note())
                    if any(series.is_over() for series in row.ours):
                        over.add(command)
                    grown.setdefault((kind, command), []).append((size, row.ours[0].median("processor")))
    for (kind, command), times in grown.items():
        if len(times) > 1:
            print("growth of %s, %s: %s" % (kind, command, growth(times)))
    return int(wrong)
