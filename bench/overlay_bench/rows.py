"""compares what the program writes of faces with the rows by definition, and with its own edges, on random layers of features

Each case is one to three layers, or two of the kinds that hurt, run by a plan drawn at random, with and without a report; a few are
spoiled, so that they are refused. Where a case is small, statuses and bytes have to be those of the exact reference
(bench/reference_faces.py), of which the laws of areas and of points are asserted; where it is large (--large is the share, which needs
rustc), those of the plain program (bench/plain). In each the features are parted at random in two layers, again and again: `edges` has to
tell of an edge an odd count in the first one just where the rows on both sides differ in the parity of how many of their features
are in it. A case that differs is kept in bench/out, cut down to fewer features; the run ends after 20 of them, and the exit status is 1.
"""
from __future__ import annotations

import argparse
import os
import random
import re
import shutil
import tempfile
import time
from collections.abc import Iterable, Iterator, Sequence
from dataclasses import dataclass

import reference
import reference_faces
from reference import Edge, Ring

from . import feature_layers, programs, side_by_side
from .cutting import cut
from .feature_layers import Features
from .programs import Answer

MOST = 20
RING = re.compile(rb"\(([^()]+)\)")
SIDES = (None, None, 16, 17, 64, 1000, 262_144, 1 << 22)  # small ones give a few layers more tiles than there may be


def add_arguments(parser: argparse.ArgumentParser) -> None:
    side_by_side.add_arguments(parser, "pairs", 1000)
    parser.add_argument("--large", type=float, default=0.1, help="the share of large pairs; 0 needs no rustc")
    parser.add_argument("--points", type=int, default=10, help="random points of each small pair")
    parser.add_argument("--parts", type=int, default=3, help="how often the features are parted in two layers")
    parser.add_argument("--seconds", type=float, default=60, help="after which a call is over, which of a small pair is a difference")


@dataclass(frozen=True)
class Plan:
    """What a case is run by."""

    side: int | None
    workers: int
    segments: int | None
    report: bool

    def words(self) -> list[str]:
        words = [] if self.side is None else ["--tile=%d" % self.side]
        words += [] if self.segments is None else ["--segments=%d" % self.segments]
        return [*words, "--workers=%d" % self.workers, *["--report"] * self.report]


@dataclass
class Case:
    """Layers of features and their plan, made from their number and the arguments alone."""

    number: int
    large: bool
    layers: list[Features]
    plan: Plan
    spelling: int

    def texts(self, layers: list[Features] | None = None) -> list[bytes]:
        """The texts of the layers, or of others in their place; some are spelled otherwise, and a few of these aren't layers then."""
        rng, texts = random.Random(self.spelling), []
        for layer in self.layers if layers is None else layers:
            text = feature_layers.text_of(layer)
            if self.spelling % 5 == 0:
                text = feature_layers.respelled(rng, text)
            if self.spelling % 40 == 0:
                at = rng.randrange(len(text) + 1)
                text = text[:at] + rng.choice(["(", ",", "7", " ", "x", "-", "POLYGON"]) + text[at:]
            texts.append(text.encode())
        return texts


def case(number: int, arguments: argparse.Namespace) -> Case:
    rng = random.Random(arguments.seed * 1_000_003 + number)
    large = rng.random() < arguments.large
    found = feature_layers.drawn(rng, not large)
    segments = sum(len(ring) for layer in found for feature in layer for rings in feature for ring in rings)
    if large:
        plan = Plan(None, rng.choice([1, 2, 4, 7]), None, False)
    else:
        side = rng.choice(SIDES) if rng.random() < 0.97 else rng.choice([15, 33_554_433])
        workers = rng.choice([1, 1, 2, 3, 4, 16, 64]) if rng.random() < 0.97 else rng.choice([0, 65])
        limit = max(1, segments + rng.choice([0, 0, 0, -1])) if rng.random() < 0.2 else None
        plan = Plan(side, workers, limit, rng.random() < 0.4)
    return Case(number, large, found, plan, rng.randrange(1 << 30))


def edges_of(shape: bytes) -> Iterator[Edge]:
    for ring in RING.findall(shape):
        points = [(int(x), int(y)) for x, y in (point.split() for point in ring.split(b","))]
        yield from zip(points, points[1:])


def rows_of(text: bytes, sizes: Sequence[int]) -> Iterator[tuple[list[int], list[Edge]]]:
    """Of each row its features, numbered from 0 through all layers, and its directed edges."""
    for line in text.splitlines():
        _, *ids, shape = line.split(b"\t")
        first = 0
        covered: list[int] = []
        for numbers, size in zip(ids, sizes):
            covered += [first + int(number) - 1 for number in numbers.split(b",") if number]
            first += size
        yield covered, list(edges_of(shape))


class Bench:
    """What is tested, and what judges it."""

    def __init__(self, arguments: argparse.Namespace, folder: str) -> None:
        self.arguments, self.folder = arguments, folder

    def ask(self, program: str, words: Sequence[str], texts: Sequence[bytes]) -> Answer:
        names = [os.path.join(self.folder, "%d-%d.wkt" % (os.getpid(), number)) for number in range(len(texts))]
        for name, text in zip(names, texts):
            with open(name, "wb") as file:
                file.write(text)
        return programs.answer([program, words[0], *names, *words[1:]], self.arguments.seconds)

    def judged(self, made: Case, texts: Sequence[bytes]) -> Answer:
        """What the reference answers to a small case; its laws are asserted."""
        plan = made.plan
        try:
            faces = reference_faces.Faces(texts, plan.side, plan.workers, plan.segments or reference.SEGMENT_LIMIT)
        except reference.Fault as fault:
            return Answer(3, b"", fault.line().encode())
        faces.assert_areas()
        faces.try_points(self.arguments.points, random.Random(made.spelling))
        return Answer(0, faces.text().encode(), faces.report(plan.side).encode() if plan.report else b"")

    def by_plain(self, made: Case, texts: Sequence[bytes]) -> Answer | None:
        """What the plain program answers to a large one, in time."""
        if made.spelling % 40 == 0:
            return None
        told = self.ask(programs.plain(), ["faces"], texts)
        return None if told.status is None else told

    def parted(self, made: Case, texts: Sequence[bytes], text: bytes) -> bool:
        """Whether `edges` of the features in two random layers agree with the rows."""
        rng, features = random.Random(made.spelling), [rings for part in texts for rings in reference_faces.features_of(part)]
        sizes = [len(reference_faces.features_of(part)) for part in texts]
        found = list(rows_of(text, sizes))
        for _ in range(self.arguments.parts):
            chosen = {number for number in range(len(features)) if rng.random() < 0.5}
            halves = [[rings for number, rings in enumerate(features) if (number in chosen) == first] for first in (True, False)]
            told = self.ask(self.arguments.program, ["edges", "--segments=4000000"], [written(half) for half in halves])
            if told.status is None and made.large:
                continue
            odd: set[Edge] = set()
            changing: set[Edge] = set()
            for line in told.out.splitlines():
                *ends, count, _ = map(int, line.split())
                if count % 2:
                    odd.add(((ends[0], ends[1]), (ends[2], ends[3])))
            for covered, directed in found:
                if sum(feature in chosen for feature in covered) % 2:
                    changing ^= set((min(e), max(e)) for e in directed)
            if told.status != 0 or odd != changing:
                return False
        return True

    def wrong(self, made: Case, layers: list[Features] | None = None) -> str | None:
        """Why a case differs; nothing where it doesn't, or where a large one took too long."""
        texts = made.texts(layers)
        got = self.ask(self.arguments.program, ["faces", *made.plan.words()], texts)
        if got.status is None:
            return None if made.large else "took more than %g s" % self.arguments.seconds
        wanted = self.by_plain(made, texts) if made.large else self.judged(made, texts)
        if wanted is not None and got != wanted:
            return "is %s, and not %s" % (got, wanted)
        if got.status == 0 and not self.parted(made, texts, got.out):
            return "has other edges than `edges`"
        return None

    def one(self, number: int) -> tuple[bool, str | None]:
        """Runs one case: whether it is large, and what there is to tell."""
        made = case(number, self.arguments)
        found = self.wrong(made)
        return made.large, found and "pair %d %s: %s" % (number, found, os.path.relpath(self.keep(made)))

    def keep(self, made: Case) -> str:
        """A folder of bench/out with a case, as it was and cut down, and how to run it again."""
        folder = os.path.join(programs.OUT, "rows-%d-%d" % (self.arguments.seed, made.number))
        for before, found in (("", made.layers), ("small-", self.cut_down(made))):
            programs.keep(folder, before, made.texts(found), "abc")
        with open(os.path.join(folder, "how"), "w") as file:
            file.write("faces %s\n" % " ".join(made.plan.words()))
            file.write("bench/run rows --seed %d --first %d --pairs 1 --large %s\n" % (self.arguments.seed, made.number, self.arguments.large))
        return folder

    def cut_down(self, made: Case, seconds: float = 120) -> list[Features]:
        """Fewer features with which the case still differs."""
        best, until = list(made.layers), time.monotonic() + seconds
        for place in range(len(best)):
            def differs(layer: Features) -> bool:
                return time.monotonic() < until and self.wrong(made, [*best[:place], layer, *best[place + 1:]]) is not None

            best[place] = cut(best[place], differs)
        return best


def written(features: Iterable[Iterable[Ring]]) -> bytes:
    """The rings of some features as one layer."""
    rings = ["(" + ", ".join("%d %d" % p for p in ring) + ")" for rings in features for ring in rings]
    return ("POLYGON (" + ", ".join(rings) + ")\n" if rings else "").encode()


def main(arguments: argparse.Namespace) -> int:
    if arguments.large:
        programs.plain()
    start, cases, large, wrong = time.monotonic(), 0, 0, 0
    folder = tempfile.mkdtemp()
    bench, numbers = Bench(arguments, folder), range(arguments.first, arguments.first + arguments.pairs)
    try:
        for number, result in side_by_side.results(bench.one, numbers, arguments.jobs, arguments.minutes):
            is_large, told = (False, "pair %d ended its process: %s" % (number, result)) if isinstance(result, side_by_side.Ended) else result
            cases, large, wrong = cases + 1, large + is_large, wrong + bool(told)
            if told:
                print(told, flush=True)
            if wrong == MOST:
                break
    finally:
        shutil.rmtree(folder, ignore_errors=True)
    print("%d pairs compared from number %d, seed %d, %d of them large, in %.0f s; %d pairs differ" % (
        cases, arguments.first, arguments.seed, large, time.monotonic() - start, wrong))
    return 1 if wrong else 0
