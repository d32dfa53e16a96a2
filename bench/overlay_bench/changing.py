"""changes a file while it is read: made shorter or longer, written anew, exchanged, removed, or a pipe that ends early

A layer has triangles, each on a line of 64 bytes in which one digit says whether it is the old or the new one, so that `edges` tells
which lines were read. A library before the C library's makes reads short and slow, and the change begins after a random time. Each run
has to tell lines of states that were there, or to refuse what was left of a line by name, or a file that is gone. What went wrong is
kept in `bench/out/changing`; the exit status is then 1.
"""
from __future__ import annotations

import argparse
import os
import random
import re
import tempfile
import threading
import time
from collections.abc import Callable
from dataclasses import dataclass

from . import endurance, programs
from .programs import Answer

RECORDED = "endurance"
LINES, WIDTH, OLD, NEW = 3_000, 64, 5, 6
# Bytes of a read, microseconds before it, and about how many seconds the reading of a layer takes so.
PIECE, PAUSE, READING = 512, 200, 0.15
REFUSED = re.compile(rb"overlay: A: 1 syntax at \d+\n")
GONE = b"overlay: A: cannot read\n"


def add_arguments(parser: argparse.ArgumentParser) -> None:
    parser.add_argument("--rounds", type=int, default=100, help="of each change")
    parser.add_argument("--seed", type=int, default=1)
    parser.add_argument("--seconds", type=float, default=120, help="after which a run hangs")


def line(number: int, height: int) -> bytes:
    text = "POLYGON ((%d 0, %d 0, %d %d, %d 0))" % (10 * number, 10 * number + 9, 10 * number, height, 10 * number)
    return text.ljust(WIDTH - 1).encode() + b"\n"


def layer(height: int) -> bytes:
    return b"".join(line(number, height) for number in range(LINES))


def edges(heights: list[int]) -> bytes:
    """What `edges` tells of these triangles."""
    text = "%d 0 %d %d 1 0\n%d 0 %d 0 1 0\n%d %d %d 0 1 0\n"
    placed = zip(range(0, 10 * LINES, 10), heights)
    return "".join(text % (x, x, height, x, x + 9, x, height, x + 9) for x, height in placed).encode()


def heights_of(text: bytes) -> list[int] | None:
    """Which triangles were read; None where that isn't what was told."""
    try:
        found = [int(row.split()[3]) for row in text.splitlines()[::3]]
    except (IndexError, ValueError):
        return None
    return found if edges(found) == text else None


@dataclass(frozen=True)
class Change:
    """A change of a file while it is read: which heights may be read, how many lines at least, and whether a refusal is due."""

    change: Callable[[random.Random, str], None]
    heights: tuple[int, ...]
    least: int
    may_be_refused: bool

    def is_right(self, got: Answer) -> bool:
        found = heights_of(got.out)
        if got.status or got.err or found is None or not self.least <= len(found) <= LINES:
            return False
        # What is exchanged as a whole is read as one of both, a line written over another may be read as either.
        return set(found) <= set(self.heights) and (self.change is not exchanged or len(set(found)) <= 1)

    def is_refused(self, got: Answer) -> bool:
        if got.out:
            return False
        if self.change is removed:
            return (got.status, got.err) == (1, GONE)
        return self.may_be_refused and got.status == 3 and bool(REFUSED.fullmatch(got.err))


def shortened(rng: random.Random, path: str) -> None:
    os.truncate(path, rng.randrange(LINES * WIDTH))


def shortened_by_steps(rng: random.Random, path: str) -> None:
    for end in range(LINES * WIDTH, 0, -rng.randint(1_000, 20_000)):
        os.truncate(path, end)
        time.sleep(rng.random() / 1_000)


def prolonged(rng: random.Random, path: str) -> None:
    """The second half comes in pieces that aren't whole lines."""
    text = layer(OLD)
    with open(path, "ab", buffering=0) as file:
        at = LINES // 2 * WIDTH
        while at < len(text):
            size = rng.randint(1, 3_000)
            file.write(text[at:at + size])
            at += size
            time.sleep(rng.random() / 1_000)


def written_over(rng: random.Random, path: str) -> None:
    with open(path, "r+b", buffering=0) as file:
        for number in range(LINES):
            file.write(line(number, NEW))


def written_anew(rng: random.Random, path: str) -> None:
    """As most programs write a file: it is empty first."""
    with open(path, "wb", buffering=0) as file:
        for number in range(LINES):
            file.write(line(number, NEW))


def exchanged(rng: random.Random, path: str) -> None:
    with open(path + ".new", "wb") as file:
        file.write(layer(NEW))
    os.replace(path + ".new", path)


def removed(rng: random.Random, path: str) -> None:
    os.remove(path)


def fed(rng: random.Random, path: str) -> None:
    """A pipe that gives a layer in pieces, and ends anywhere."""
    text, at = layer(OLD)[:rng.choice([LINES * WIDTH, rng.randrange(LINES * WIDTH)])], 0
    try:
        with open(path, "wb", buffering=0) as pipe:
            while at < len(text):
                size = rng.randint(1, 9_000)
                pipe.write(text[at:at + size])
                at += size
                time.sleep(rng.random() / 1_000)
    except BrokenPipeError:
        pass  # the reader has refused what came


CHANGES = (
    Change(shortened, (OLD,), 0, True), Change(shortened_by_steps, (OLD,), 0, True), Change(prolonged, (OLD,), LINES // 2, True),
    Change(written_over, (OLD, NEW), LINES, False), Change(written_anew, (OLD, NEW), 0, True), Change(exchanged, (OLD, NEW), LINES, False),
    Change(removed, (OLD,), LINES, False), Change(fed, (OLD,), 0, True),
)


def prepare(change: Change, path: str) -> None:
    """The file as it is before the change."""
    if os.path.lexists(path):
        os.remove(path)
    if change.change is fed:
        os.mkfifo(path)
        return
    text = layer(OLD)
    with open(path, "wb") as file:
        file.write(text[:len(text) // 2] if change.change is prolonged else text)


def run(arguments: argparse.Namespace, rng: random.Random, change: Change, folder: str, workers: int) -> Answer:
    """A run, and the change after a random time."""
    path, nothing = (os.path.join(folder, name) for name in ("changing.wkt", "nothing.wkt"))
    prepare(change, path)
    wait = 0.0 if change.change is fed else rng.uniform(0, READING)

    def alter() -> None:
        time.sleep(wait)
        change.change(rng, path)

    other = threading.Thread(target=alter, daemon=True)
    other.start()
    calls = dict(os.environ, LD_PRELOAD=programs.shim(), SHORT_READ=str(PIECE), PAUSE_READ=str(PAUSE))
    got: Answer = programs.answer([arguments.program, "edges", path, nothing, "--workers=%d" % workers], arguments.seconds, env=calls)
    other.join(arguments.seconds)
    return got


def main(arguments: argparse.Namespace) -> int:
    wrong, rng = 0, random.Random(arguments.seed)
    with tempfile.TemporaryDirectory() as folder:
        nothing = os.path.join(folder, "nothing.wkt")
        open(nothing, "wb").close()
        for change in CHANGES:
            counts = endurance.Counts("changing", change.change.__name__.replace("_", " "))
            for number in range(arguments.rounds):
                workers = rng.choice((1, 4, 64))
                got = run(arguments, rng, change, folder, workers)
                what = "seed %d, round %d, %d workers, %s" % (arguments.seed, number, workers, counts.about)
                counts.judge(got, change.is_right(got), change.is_refused(got), what)
            wrong |= counts.end()
    return wrong
