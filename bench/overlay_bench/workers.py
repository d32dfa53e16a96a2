"""compares several workers with one, and one with the plain program, on large maps: bytes, statuses and reports

Kinds of maps take turns. A map has a drawn number of segments, and its first plan the default side, further ones drawn sides; each is
run by one worker, whose bytes have to be the plain program's, and by two drawn numbers of workers, which have to answer as one does.
What went wrong is kept in `bench/out/workers`; the exit status is then 1.
"""
from __future__ import annotations

import argparse
import itertools
import os
import random
import tempfile
from collections.abc import Iterator

from . import endurance, maps, programs
from .programs import COMMANDS, answer

RECORDED = "endurance"
CREWS = (2, 3, 4, 7, 8, 64)
SIDES = (17, 1000, 4096, 30_000, 65_537, 262_144, 1 << 22)
REFUSED = 3


def add_arguments(parser: argparse.ArgumentParser) -> None:
    parser.add_argument("--kinds", nargs="+", default=list(maps.KINDS), choices=maps.KINDS, metavar="KIND")
    parser.add_argument("--maps", type=int, default=30, help="of all kinds together")
    parser.add_argument("--plans", type=int, default=4, help="of each map")
    parser.add_argument("--segments", nargs=2, type=int, default=(5_000, 20_000), metavar=("LEAST", "MOST"), help="of a layer")
    parser.add_argument("--seed", type=int, default=1)
    parser.add_argument("--seconds", type=float, default=60, help="after which a run is over")


def lines(rng: random.Random, plans: int, files: list[str]) -> Iterator[list[str]]:
    """Command lines by drawn commands and sides, the default side first."""
    for side in [None, *rng.sample(SIDES, plans - 1)]:
        yield [rng.choice(COMMANDS), *files, "--report", *(["--tile=%d" % side] if side else [])]


def compare(arguments: argparse.Namespace, counts: endurance.Counts, rng: random.Random, words: list[str]) -> None:
    """One worker beside the plain program, and several beside one."""
    command, *files = words[:3]
    one = answer([arguments.program, *words, "--workers=1"], arguments.seconds)
    plain = answer([programs.plain(), command, *files], arguments.seconds)
    counts.judge(one, one.status == 0 and one.out == plain.out, one.status == REFUSED, " ".join(words), files)
    for crew in rng.sample(CREWS, 2):
        several = answer([arguments.program, *words, "--workers=%d" % crew], arguments.seconds)
        is_same = several == one
        counts.judge(several, is_same and one.status == 0, is_same and one.status == REFUSED, " ".join([*words, "--workers=%d" % crew]), files)


def main(arguments: argparse.Namespace) -> int:
    rng = random.Random(arguments.seed)
    about = "seed %d: %d maps of %d to %d segments a layer" % (arguments.seed, arguments.maps, *arguments.segments)
    counts = endurance.Counts("workers", about)
    with tempfile.TemporaryDirectory() as folder:
        files = [os.path.join(folder, layer) for layer in "ab"]
        for kind in itertools.islice(itertools.cycle(arguments.kinds), arguments.maps):
            segments = rng.randint(*arguments.segments)
            programs.apart(lambda: maps.write(kind, segments, files))
            for words in lines(rng, arguments.plans, files):
                compare(arguments, counts, rng, words)
    return counts.end()
