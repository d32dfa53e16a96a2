"""compares the program and the library with references, byte for byte, on generated layers of every kind that hurts

Each pair of layers is run by all five commands, each by a plan of its own drawn at random: a side from 16 to the whole, 1 to 64
workers, or the default plan, with and without a report and areas. A share of the pairs (--programs) is run by the program, a process for each
command; the others by the library for Python, without processes (and so without workers, reports and areas). Where a pair is small,
statuses and bytes have to be those of the exact reference (bench/reference.py); where it is large, those of the plain program
(bench/plain). A call that takes too long is told as "over", and is a difference where the pair is small. A pair that differs is kept in
bench/out with its number, its seed and its commands, cut down to a small one that still differs; the run ends after 20 of them, and the
exit status is 1.

With --maps the pairs are maps of so many segments a layer, by 1 to 8 workers, and the plain program alone judges them. With --in-turn
each pair is run by one command, in turn, in place of all five.
"""
from __future__ import annotations

import argparse
import os
import random
import shutil
import tempfile
import time
from collections import Counter
from collections.abc import Callable, Sequence
from dataclasses import dataclass
from typing import NamedTuple, TypeVar

import reference

from . import answering, layers, maps, programs, side_by_side
from .answering import Asked, Plan, Texts
from .cutting import cut
from .judges import Exact, Judge, Plain
from .layers import Pair, Polygon, Polygons
from .programs import COMMANDS

SMALL, LARGE = (3, 30), (30, 3000)
MOST = 20
MOST_FOR_MAPS = 8

Thing = TypeVar("Thing")


def add_arguments(parser: argparse.ArgumentParser) -> None:
    side_by_side.add_arguments(parser, "pairs", 1000)
    parser.add_argument("--large", type=float, default=0.1, help="the share of large pairs; 0 needs no rustc")
    answering.add_share(parser)
    parser.add_argument("--judge", choices=("both", "plain"), default="both", help="plain: small pairs too are compared with the plain program")
    parser.add_argument("--maps", nargs=2, type=int, metavar=("LEAST", "MOST"), help="maps of so many segments a layer, in place of small and large pairs")
    parser.add_argument("--in-turn", action="store_true", help="each pair by one command, in turn")
    parser.add_argument("--kind", choices=[kind.__name__ for kind in layers.KINDS], help="pairs of this kind alone")
    parser.add_argument("--seconds", type=float, default=60, help="after which a call is over")


def plan(rng: random.Random, command: str, bounds: reference.Bounds) -> Plan:
    """A plan: where there are too many tiles (seldom) it is refused."""
    areas = command != "edges" and rng.random() < 0.3
    if rng.random() < 0.1:
        return Plan(command, None, 4, rng.random() < 0.4, areas)
    (left, bottom), (right, top) = bounds or ((0, 0), (16, 16))
    most = 30_000 if rng.random() < 0.1 else 2_000
    least = max(16, int(((right - left) * (top - bottom) / most) ** 0.5) + 1)
    while (right - left) // least * ((top - bottom) // least) > most or ((right - left) + (top - bottom)) // least > most:
        least *= 2
    whole = max(right - left, top - bottom, 16)
    side = least if rng.random() < 0.2 else round(least * (max(whole, least) / least) ** rng.random()) + rng.choice([0, 1])
    if rng.random() < 0.02:
        side = rng.choice([0, 15, 16, 33_554_432, 33_554_433])
    workers = rng.choice([1, 1, 2, 2, 3, 4, 4, 7, 16, rng.randint(1, 64)]) if rng.random() < 0.99 else rng.choice([0, 65])
    return Plan(command, side, workers, rng.random() < 0.4, areas)


def plan_of_map(rng: random.Random, command: str, bounds: reference.Bounds) -> Plan:
    """A plan of 1 to 8 workers; few have a report, which is slow to judge."""
    drawn = plan(rng, command, bounds)
    return Plan(command, drawn.side, rng.randint(1, MOST_FOR_MAPS), rng.random() < 0.02, drawn.areas)


@dataclass
class Case:
    """A pair of layers with its plans, and what runs it, made from its number, the seed and the shares alone."""

    number: int
    kind: str
    large: bool
    polygons: Pair
    together: bool
    plans: list[Plan]
    asked: Asked

    def texts(self, polygons: Pair | None = None) -> Texts:
        first, second = polygons or self.polygons
        return layers.text_of(first, self.together).encode(), layers.text_of(second, self.together).encode()


class Outcome(NamedTuple):
    """Who was asked about a pair, by which judge, how many runs it were, differed and were over; and what there is to tell."""

    asked: str
    judge: str
    runs: int
    wrong: int
    over: int
    told: list[str]


def case(number: int, arguments: argparse.Namespace, tested: answering.Tested) -> Case:
    rng = random.Random(arguments.seed * 1_000_003 + number)
    commands = COMMANDS[number % len(COMMANDS):][:1] if arguments.in_turn else COMMANDS
    if arguments.maps:
        return case_of_maps(number, rng, arguments.maps, commands, tested.drawn(rng, arguments.programs))
    kind = layers.KINDS[number % len(layers.KINDS)]
    if arguments.kind:
        kind = getattr(layers, arguments.kind)
    large = rng.random() < arguments.large
    asked = tested.drawn(rng, arguments.programs)
    low, high = LARGE if large else SMALL
    count = round(low * (high / low) ** rng.random())
    polygons = layers.pair(rng, kind, count)
    together, plans = rng.random() < 0.3, [plan(rng, command, bounds_of(polygons)) for command in commands]
    return Case(number, kind.__name__, large, polygons, together, [asked_of(asked, wanted) for wanted in plans], asked)


def case_of_maps(number: int, rng: random.Random, segments: Sequence[int], commands: Sequence[str], asked: Asked) -> Case:
    """A pair of maps: twice as many segments are a fourth as likely, so that half of the layers have less than twice the least."""
    least, most = segments
    kind, polygons = maps.drawn(rng, number, round(least / (1 - rng.random() * (1 - least / most))))
    together, plans = rng.random() < 0.3, [plan_of_map(rng, command, bounds_of(polygons)) for command in commands]
    return Case(number, kind, True, polygons, together, [asked_of(asked, wanted) for wanted in plans], asked)


def bounds_of(polygons: Pair) -> reference.Bounds:
    return reference.bounds_of(p for layer in polygons for rings in layer for ring in rings for p in ring)


def asked_of(asked: Asked, wanted: Plan) -> Plan:
    """The plan as it is asked for: the library has no workers, no report and no areas."""
    return wanted if isinstance(asked, answering.Program) else Plan(wanted.command, wanted.side, 4, False)


class Bench:
    """What is tested, and what judges it."""

    def __init__(self, arguments: argparse.Namespace, folder: str) -> None:
        self.arguments, self.tested = arguments, answering.Tested(arguments, folder, arguments.seconds)

    def judge(self, large: bool) -> type[Exact] | type[Plain]:
        return Plain if large or self.arguments.judge == "plain" else Exact

    def wrong(self, texts: Texts, plans: Sequence[Plan], found: Case) -> tuple[list[Plan], list[Plan]]:
        """The plans whose answers are not the judge's, and those for which one of both took too long; a program that does on a small pair hangs."""
        judge: Judge = self.judge(found.large)(texts)
        wrong: list[Plan] = []
        over: list[Plan] = []
        for wanted in plans:
            got = found.asked.answer(texts, wanted)
            if got.status is None:
                over.append(wanted)
                wrong += [] if found.large else [wanted]
            elif not judge.agrees(wanted, got):
                (over if judge.is_silent() else wrong).append(wanted)
        return wrong, over

    def one(self, number: int) -> Outcome:
        """Runs one pair."""
        made = case(number, self.arguments, self.tested)
        wrong, over = self.wrong(made.texts(), made.plans, made)
        told = ["%s is over by %s %s" % (named(made), wanted.command, " ".join(wanted.words())) for wanted in over]
        if wrong:
            told.append("%s differs: %s" % (named(made), os.path.relpath(self.keep(made, wrong))))
        return Outcome(made.asked.name, self.judge(made.large).name, len(made.plans), len(wrong), len(over), told)

    def ended(self, number: int, how: side_by_side.Ended) -> Outcome:
        """A pair whose process ended in the middle."""
        made = case(number, self.arguments, self.tested)
        folder = self.write(made, made.plans)
        told = ["%s ended its process: %s, %s" % (named(made), "over" if how.is_over() else how, os.path.relpath(folder))]
        is_wrong = not (how.is_over() and made.large)
        return Outcome(made.asked.name, self.judge(made.large).name, len(made.plans), int(is_wrong), int(how.is_over()), told)

    def write(self, made: Case, wanted: Sequence[Plan]) -> str:
        """A folder of bench/out with a pair, and how to run it again."""
        folder = os.path.join(programs.OUT, "difference-%d-%d" % (self.arguments.seed, made.number))
        programs.keep(folder, "", made.texts())
        with open(os.path.join(folder, "how"), "w") as file:
            for plan_ in wanted:
                file.write("%s: %s a.wkt b.wkt %s\n" % (made.asked.name, plan_.command, " ".join(plan_.words())))
            same = "".join(" --%s %s" % (name, getattr(self.arguments, name)) for name in ("large", "programs", "judge", "kind") if getattr(self.arguments, name) is not None)
            same += " --maps %d %d" % tuple(self.arguments.maps) if self.arguments.maps else ""
            same += " --in-turn" * self.arguments.in_turn
            file.write("bench/run compare --seed %d --first %d --pairs 1%s\n" % (self.arguments.seed, made.number, same))
        return folder

    def keep(self, made: Case, wanted: Sequence[Plan]) -> str:
        """Writes a difference to bench/out, as it was and cut down."""
        folder = self.write(made, wanted)
        programs.keep(folder, "small-", made.texts(cut_down(self, made, wanted[0])))
        return folder


def named(made: Case) -> str:
    segments = sum(len(ring) for layer in made.polygons for rings in layer for ring in rings)
    return "pair %d (%s, %d segments, by %s)" % (made.number, made.kind, segments, made.asked.name)


def replaced(items: list[Thing], place: int, item: Thing) -> list[Thing]:
    return [*items[:place], item, *items[place + 1:]]


def cut_down(bench: Bench, found: Case, wanted: Plan, seconds: float = 120) -> Pair:
    """A smaller pair on which one plan still differs: polygons, then rings, then points are left out as long as it does."""
    until = time.monotonic() + seconds

    def differs(polygons: Pair) -> bool:
        return time.monotonic() < until and bool(bench.wrong(found.texts(polygons), [wanted], found)[0])

    first, second = found.polygons
    first = cut_layer(first, lambda changed: differs((changed, second)))
    return first, cut_layer(second, lambda changed: differs((first, changed)))


def cut_layer(layer: Polygons, differs: Callable[[Polygons], bool]) -> Polygons:
    """Fewer polygons, rings and points of a layer with which it still differs."""
    layer = cut(layer, differs)
    for i in range(len(layer)):
        def is_with(polygon: Polygon) -> bool:
            return len(polygon) > 0 and differs(replaced(layer, i, polygon))

        polygon = cut(layer[i], is_with)
        for j in range(len(polygon)):
            polygon = replaced(polygon, j, cut(polygon[j], lambda ring: len(ring) > 2 and is_with(replaced(polygon, j, ring))))
        layer = replaced(layer, i, polygon)
    return layer


class Counts:
    """What was compared how, and what came of it."""

    def __init__(self) -> None:
        self.pairs: Counter[tuple[str, str]] = Counter()
        self.runs = self.wrong = self.over = 0

    def add(self, done: Outcome) -> None:
        self.pairs[done.asked, done.judge] += 1
        self.runs += done.runs
        self.wrong += bool(done.wrong)
        self.over += done.over

    def by(self, asked: str) -> str:
        return ", ".join("%d pairs against %s" % (count, judge) for (who, judge), count in sorted(self.pairs.items()) if who == asked) or "no pair"


def main(arguments: argparse.Namespace) -> int:
    if arguments.large or arguments.maps or arguments.judge == "plain":
        programs.plain()
    start, counts = time.monotonic(), Counts()
    folder = tempfile.mkdtemp()
    bench, numbers = Bench(arguments, folder), range(arguments.first, arguments.first + arguments.pairs)
    try:
        for number, result in side_by_side.results(bench.one, numbers, arguments.jobs, arguments.minutes):
            done = bench.ended(number, result) if isinstance(result, side_by_side.Ended) else result
            counts.add(done)
            for line in done.told:
                print(line, flush=True)
            if counts.wrong == MOST:
                break
    finally:
        shutil.rmtree(folder, ignore_errors=True)
    for line in bench.tested.lines(counts.by):
        print(line)
    print("%d pairs compared from number %d, seed %d; %d runs in %.0f s; %d pairs differ, %d runs are over" % (
        sum(counts.pairs.values()), arguments.first, arguments.seed, counts.runs, time.monotonic() - start, counts.wrong, counts.over))
    return 1 if counts.wrong else 0
