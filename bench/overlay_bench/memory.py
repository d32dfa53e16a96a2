"""refuses each request for memory in turn, and each thread

The program runs behind a library that refuses its N-th request for memory, for N from 1 to as many as it has. Each run has
to give the right answer, or nothing with `overlay: 10 out of memory` and status 1; with a report also the whole answer with
that line, since the report is made when the answer is written. Then each thread that it starts is refused in turn, which may
change nothing. With more than one worker the requests come in any order, and each number refuses some of them. The exit status
is 1 where a run gives anything else.

With `--rows` four small pairs alone, whose answers stand below, by one and by two workers; each run that answers that memory is
out is followed by the same one with ample memory, which has to give the answer. With `--layers` the faces of so many layers
alone, rough rings through one another, by four workers. With `--alone` layers of ten kinds, each by itself: its union with a square, by
four workers. Of either --requests are refused, evenly spread, where each is too many. With --parts they are refused in copies of one
run, made where the request comes, which takes a tenth of the time: the workers are then turns of one thread (bench/shims/turns.c). A
part K has each request whose number leaves K by --parts.
"""
from __future__ import annotations

import argparse
import errno
import math
import os
import random
import tempfile
import time
from collections.abc import Iterable, Iterator, Mapping, Sequence
from dataclasses import dataclass

from . import endurance, hostile_kinds, layers, programs, turns
from .programs import COMMANDS, Answer

RECORDED = "endurance"
OUT_OF_MEMORY = endurance.OUT_OF_MEMORY
SQUARE = "POLYGON ((0 0, 4 0, 4 4, 0 4, 0 0))"
LARGE_SQUARE = "POLYGON ((0 0, 9 0, 9 9, 0 9, 0 0))"
# What is worth an own way through the program: two layers for each.
PAIRS = {
    "corner": (SQUARE, "POLYGON ((2 2, 6 2, 6 6, 2 6, 2 2))"),
    "hole": (LARGE_SQUARE, "POLYGON ((3 3, 6 3, 6 6, 3 6, 3 3))"),
    "crossing": ("POLYGON ((0 0, 1 1, 0 1, 1 0, 0 0))", ""),
    "past a corner": ("POLYGON ((0 0, 10 1, 0 8, 0 0))", "POLYGON ((5 0, 5 -4, 9 -4, 5 0))"),
    "onto a side": ("POLYGON ((0 0, 10 1, 10 0, 0 0))", "POLYGON ((5 0, 5 -4, 9 -4, 5 0))"),
    "rounded": ("POLYGON ((0 0, 6 0, 0 5, 0 0))", "POLYGON ((1 1, 7 1, 7 7, 1 7, 1 1))"),
    "nothing": ("", "polygon empty"),
    "the same": (SQUARE, SQUARE),
    "twice": (SQUARE + "\n" + SQUARE, ""),
    "a corner shared": (SQUARE, "POLYGON ((0 0, 3 1, 1 3, 0 0))"),
    "nested": ("POLYGON ((0 0, 9 0, 9 9, 0 9, 0 0), (1 1, 8 1, 8 8, 1 8, 1 1), (2 2, 7 2, 7 7, 2 7, 2 2), (3 3, 6 3, 6 6, 3 6, 3 3))", ""),
    "two holes": ("POLYGON ((0 0, 9 0, 9 9, 0 9, 0 0), (1 1, 4 1, 4 3, 1 3, 1 1), (3 5, 7 5, 7 7, 3 7, 3 5))", ""),
    "holes that touch": ("POLYGON ((0 0, 9 0, 9 9, 0 9, 0 0), (2 2, 4 2, 4 4, 2 4, 2 2), (4 4, 6 4, 6 6, 4 6, 4 4))", ""),
    "four tiles": ("POLYGON ((0 0, 1 0, 0 1, 0 0)) POLYGON ((15 15, 16 16, 15 16, 16 15, 15 15))", ""),
    "ties": ("POLYGON ((0 0, 10 3, 1 9, 9 8, 0 0), (2 1, 5 2, 3 4, 2 1))", "POLYGON ((0 0, 7 2, 14 1, 3 5, 0 0))"),
}
# A command, two layers by their names above, and the answer, worked out by hand.
ROWS = (
    ("intersection", "corner", "MULTIPOLYGON (((2 2, 4 2, 4 4, 2 4, 2 2)))\n"),
    ("edges", "crossing", "0 0 1 0 1 0\n0 0 1 1 1 0\n0 1 1 1 2 0\n1 0 1 1 1 0\n"),
    ("intersection", "rounded", "MULTIPOLYGON (((1 1, 5 1, 1 4, 1 1)))\n"),
    ("union", "rounded", "MULTIPOLYGON (((0 0, 6 0, 5 1, 7 1, 7 7, 1 7, 1 4, 0 5, 0 0)))\n"),
    ("union", "four tiles", "MULTIPOLYGON (((0 0, 1 0, 0 1, 0 0)), ((15 15, 16 15, 16 16, 15 15)))\n"),
)
# Kinds of layers (`hostile_kinds`) whose requests are refused by themselves, of maps and of what is made to hurt; they reach to 2^20.
ALONE = ("parcels", "coast", "blobs", "slivers", "cluster", "steep_pencil", "square_spiral", "bricks", "stairs", "dense_chords")
# Those that a short run takes.
FEW = ("corner", "nothing", "holes that touch", "ties")


def add_arguments(parser: argparse.ArgumentParser) -> None:
    parser.add_argument("--rows", action="store_true", help="four pairs with known answers alone, 1 and 2 workers, and each refused run again")
    parser.add_argument("--short", action="store_true", help="fewer layers, 1 and 4 workers")
    parser.add_argument("--segments", type=int, help="the size of the last pair of layers, which a short run leaves out (200), or of each of --layers or of --alone (5000)")
    parser.add_argument("--layers", type=int, help="the faces of so many layers alone, by four workers")
    parser.add_argument("--alone", action="store_true", help="the unions of layers of ten kinds with a square alone, by four workers")
    parser.add_argument("--requests", type=int, help="how many requests of these are refused, evenly spread (default: each)")
    parser.add_argument("--parts", type=int, help="refuses requests of these in copies of a run, one of so many parts a run")
    parser.add_argument("--first", type=int, default=0, help="the first part")
    parser.add_argument("--minutes", type=float, default=0, help="no part is begun after so many minutes")


def many_segments(count: int) -> tuple[str, str]:
    """Two layers of so many segments together, with holes and crossings."""
    rng = random.Random(22)
    first, second = (layers.text_of(layers.parcels(rng, count // 4) + layers.holes(rng, count // 4)) for _ in "ab")
    return first, second


def rings(count: int, segments: int) -> list[str]:
    """So many layers of one rough ring each, the middle of each beside that of the one before: all cross all others."""
    rng, turned = random.Random(22), [2 * math.pi * k / segments for k in range(segments)]

    def around(k: int) -> layers.Ring:
        return [(round(300 * k + rng.randint(199_900, 200_100) * math.cos(a)), round(rng.randint(199_900, 200_100) * math.sin(a))) for a in turned]

    return [layers.text_of([[around(k)]]) for k in range(count)]


class Refusing:
    """The program behind the library, and what it found."""

    def __init__(self, program: str) -> None:
        self.program, self.library, self.runs = program, programs.shim(), 0
        # A command line, what was refused, and what it gave.
        self.wrong: list[tuple[Sequence[str], str, object]] = []

    def answer(self, words: Sequence[str], **rules: str) -> Answer:
        self.runs += 1
        return programs.answer([self.program, *words], env=dict(os.environ, LD_PRELOAD=self.library, **rules))

    def counted(self, words: Sequence[str]) -> tuple[Answer, int]:
        """The right answer, and how many requests the run had."""
        with tempfile.NamedTemporaryFile("r") as file:
            return self.answer(words, COUNT_MALLOC=file.name), int(file.read() or 0)

    def without(self, words: Sequence[str], number: int) -> Answer:
        """The answer where this request is refused."""
        return self.answer(words, REFUSE_MALLOC="%d %d" % (number, errno.ENOMEM))

    def refuse_each(self, words: Sequence[str], status: int = 0, again: bool = False) -> int:
        """Refuses each request, and tells how many; with `again` each refused run is followed by one with memory."""
        right, requests = self.counted(words)
        if right.status != status or not requests:
            self.wrong.append((words, "nothing", "%d requests, %s" % (requests, right)))
        allowed = [right, OUT_OF_MEMORY] + [Answer(1, right.out, OUT_OF_MEMORY.err)] * ("--report" in words)
        for number in range(1, requests + 1):
            got = self.without(words, number)
            if got not in allowed:
                self.wrong.append((words, "request %d" % number, got))
            if again and got != right and self.answer(words) != right:
                self.wrong.append((words, "request %d" % number, "something else with memory again"))
        return requests

    def refuse_row(self, words: Sequence[str], workers: int, text: str) -> int:
        """Each thread and each request of a command line whose answer is known."""
        got = self.answer(words)
        if got != Answer(0, text.encode(), b""):
            self.wrong.append((words, "nothing", got))
        self.refuse_threads(words, workers)
        return self.refuse_each(words, again=True)

    def refuse_threads(self, words: Sequence[str], workers: int) -> None:
        right = self.answer(words)
        for number in range(0, workers + 4):
            got = self.answer(words, REFUSE_THREAD="%d %d" % (number, errno.EAGAIN))
            if got != right:
                self.wrong.append((words, "thread %d" % number if number else "each thread", got))


def written(folder: str, name: str, texts: Iterable[str]) -> list[str]:
    """The files of two layers."""
    files = [os.path.join(folder, "%s %s.wkt" % (name, layer)) for layer in "ab"]
    for file, text in zip(files, texts):
        with open(file, "w") as layer:
            layer.write(text)
    return files


def runs(folder: str, pairs: Mapping[str, tuple[str, str]], workers: Sequence[int]) -> Iterator[tuple[int, int, list[str]]]:
    """The command lines, by so many workers and with a status: every pair by all commands, and some that fail before a run."""
    for name, texts in pairs.items():
        # The last pair reaches so far that it would have too many tiles of 16.
        files, tile = written(folder, name, texts), "--tile=%d" % (1024 if name == "many" else 16)
        for command in COMMANDS:
            for number in workers:
                yield number, 0, [command, *files, tile, "--workers=%d" % number]
        yield workers[-1], 0, ["union", *files, tile, "--workers=%d" % workers[-1], "--report"]
        yield workers[-1], 0, ["difference", *files]
    missing = os.path.join(folder, "none")
    yield from ((1, *line) for line in (
        (0, ["--help"]), (3, ["edges", programs.__file__, files[0]]), (2, ["xor", *files]), (1, ["edges", missing, missing]), (2, ["edges"])))


def refuse_rows(refusing: Refusing, folder: str) -> tuple[int, int]:
    """The rows by one and by two workers: how many command lines, and how many requests."""
    lines, requests = 0, 0
    for command, name, text in ROWS:
        files = written(folder, name, PAIRS[name])
        for workers in (1, 2):
            lines += 1
            requests += refusing.refuse_row([command, *files, "--tile=16", "--workers=%d" % workers], workers, text)
    return lines, requests


def refuse_runs(refusing: Refusing, folder: str, arguments: argparse.Namespace) -> tuple[int, int]:
    """All command lines: how many, and how many requests."""
    pairs = {name: PAIRS[name] for name in FEW} if arguments.short else dict(PAIRS, many=many_segments(arguments.segments or 200))
    lines, requests = 0, 0
    for workers, status, words in runs(folder, pairs, (1, 4) if arguments.short else (1, 2, 4)):
        lines += 1
        if words[0] in COMMANDS and not os.path.basename(words[-1]).startswith("none"):
            refusing.refuse_threads(words, workers)
        requests += refusing.refuse_each(words, status)
    return lines, requests


@dataclass(frozen=True)
class Line:
    """A command line by four workers, and what its layers are."""

    what: str
    words: list[str]
    files: list[str]


def made_line(folder: str, what: str, command: str, texts: Sequence[str]) -> Line:
    """The line of these texts, which it writes."""
    files = [os.path.join(folder, "%d.wkt" % k) for k in range(len(texts))]
    for path, text in zip(files, texts):
        with open(path, "w") as layer:
            layer.write(text)
    return Line(what, [command, *files, "--workers=4"], files)


def made_lines(folder: str, arguments: argparse.Namespace) -> Iterator[Line]:
    """The faces of many layers, or the unions of layers each by itself; each line is over before the next one is written."""
    segments = arguments.segments or 5_000
    if arguments.layers:
        yield made_line(folder, "%d layers of %d segments" % (arguments.layers, segments), "faces", rings(arguments.layers, segments))
    for kind in ALONE if arguments.alone else ():
        first, second = hostile_kinds.made(kind, segments, 1 << 20)
        yield made_line(folder, "%s, %d segments" % (kind, segments), "union", [layers.text_of([*first, *second]), SQUARE])


def judge_counted(counts: endurance.Counts, wanted: Line, right: Answer, requests: int) -> None:
    """Counts a fault where the line itself fails, or has no request that could be refused."""
    if right.status != 0 or not requests:
        counts.judge(right, False, False, "no request of %s" % " ".join(wanted.words), wanted.files)


def refuse_parts(refusing: Refusing, wanted: Line, arguments: argparse.Namespace) -> int:
    """The same requests in copies of a run, part by part; 1 where one went wrong."""
    right, start, done = refusing.answer(wanted.words), time.monotonic(), arguments.first
    counts, requests = endurance.Counts("memory", ""), 0
    while done < arguments.parts and not (arguments.minutes and time.monotonic() - start > 60 * arguments.minutes):
        requests = turns.refuse([refusing.program, *wanted.words], right, wanted.files, done, arguments.parts, counts)
        done += 1
    judge_counted(counts, wanted, right, requests)
    counts.about = "parts %d to %d of %d of %d requests of %s, workers by turns" % (arguments.first, done - 1, arguments.parts, requests, wanted.what)
    return counts.end()


def refuse_line(refusing: Refusing, wanted: Line, arguments: argparse.Namespace) -> int:
    """Requests of a line; 1 where a run went wrong."""
    right, requests = refusing.counted(wanted.words)
    most = min(arguments.requests or requests, requests)
    counts = endurance.Counts("memory", "%d requests of %s" % (requests, wanted.what))
    judge_counted(counts, wanted, right, requests)
    for number in (1 + k * requests // most for k in range(most)):
        got = refusing.without(wanted.words, number)
        counts.judge(got, got == right, got == OUT_OF_MEMORY, "request %d of %s" % (number, " ".join(wanted.words)), wanted.files)
    return counts.end()


def main(arguments: argparse.Namespace) -> int:
    refusing, start = Refusing(arguments.program), time.monotonic()
    with tempfile.TemporaryDirectory() as folder:
        if arguments.layers or arguments.alone:
            refuse = refuse_parts if arguments.parts else refuse_line
            return max([refuse(refusing, wanted, arguments) for wanted in made_lines(folder, arguments)])
        lines, requests = refuse_rows(refusing, folder) if arguments.rows else refuse_runs(refusing, folder, arguments)
    for words, what, got in refusing.wrong:
        print("%s, %s refused: %s" % (" ".join(words), what, got))
    print("%d command lines, %d requests for memory refused, %d runs in %.0f s: %d gave something else" % (
        lines, requests, refusing.runs, time.monotonic() - start, len(refusing.wrong)))
    return 1 if refusing.wrong else 0
