"""runs the program on maps of millions of segments, and measures time and memory

A map is a square of blocks with the same layers, each moved: parcels against zones, 100,000 segments together. Its union is that
of a block by the plain program, moved likewise: as many polygons, each once, in their order. The exit status is 1 where it is
another one.
"""
from __future__ import annotations

import argparse
import math
import os
import random
import tempfile
from collections.abc import Iterator, Sequence

from . import maps, programs
from .layers import Pair, Polygons, Ring
from .programs import answer, taken

BLOCK, STEP = 100_000, 120_000
HEAD = ("segments", "MB of text", "1 worker: processor s", "MB", "bytes a segment", "4 workers: clock s", "MB")


def add_arguments(parser: argparse.ArgumentParser) -> None:
    parser.add_argument("--blocks", type=int, nargs="+", default=(10, 100), help="how many blocks a map has")
    parser.add_argument("--seconds", type=float, default=1200, help="after which a run is over")


def places(blocks: int) -> Iterator[tuple[int, int]]:
    """How far each block is moved."""
    rows = math.isqrt(blocks - 1) + 1
    return ((STEP * (k // rows), STEP * (k % rows)) for k in range(blocks))


def ring_text(ring: Ring, dx: int, dy: int) -> str:
    return "(" + ", ".join([f"{x + dx} {y + dy}" for x, y in ring]) + ")"


def polygon_text(rings: Sequence[Ring], dx: int, dy: int) -> str:
    return "(" + ", ".join([ring_text(ring, dx, dy) for ring in rings]) + ")"


def write(block: Polygons, blocks: int, file: str) -> None:
    closed = [[[*ring, ring[0]] for ring in rings] for rings in block]
    with open(file, "w", encoding="ascii") as text:
        for dx, dy in places(blocks):
            text.writelines([f"POLYGON {polygon_text(rings, dx, dy)}\n" for rings in closed])


def polygons_of(text: bytes) -> Polygons:
    """Those of a canonical line, each ring with its first point at both ends."""
    inner = text.decode("ascii").removeprefix("MULTIPOLYGON (((").removesuffix(")))\n")
    return [
        [[(int(x), int(y)) for x, y in (point.split() for point in ring.split(", "))] for ring in polygon.split("), (")]
        for polygon in inner.split(")), ((")
    ]


def told(file: str) -> Iterator[str]:
    """The polygons of a canonical line, each as `polygon_text` writes it."""
    with open(file, encoding="ascii") as line:
        rest = line.read(1 << 24).removeprefix("MULTIPOLYGON (((")
        while more := line.read(1 << 24):
            *whole, rest = (rest + more).split(")), ((")
            yield from (f"(({polygon}))" for polygon in whole)
        yield from (f"(({polygon}))" for polygon in rest.removesuffix(")))\n").split(")), (("))


def start(polygon: str) -> tuple[int, int]:
    x, y = polygon[2 : polygon.index(",")].split()
    return int(x), int(y)


def is_union(file: str, block: Polygons, blocks: int) -> bool:
    """Whether the line has the block's polygons, moved to each place, each once, by their first points."""
    wanted, count = 0, 0
    for dx, dy in places(blocks):
        for rings in block:
            wanted, count = wanted + hash(polygon_text(rings, dx, dy)), count + 1
    last = (-(2**31), 0)
    for polygon in told(file):
        first = start(polygon)
        if first < last:
            return False
        wanted, count, last = wanted - hash(polygon), count - 1, first
    return wanted == 0 and count == 0


def union_of(pair: Pair, folder: str) -> Polygons:
    """The union of one block, by the plain program."""
    files = [os.path.join(folder, name) for name in ("one.a", "one.b")]
    for layer, file in zip(pair, files):
        write(layer, 1, file)
    return polygons_of(answer([programs.plain(), "union", *files]).out)


def row(arguments: argparse.Namespace, folder: str, pair: Pair, union: Polygons, blocks: int) -> bool:
    """Prints the row of a map; whether its union is another one than it should be."""
    files, output = [os.path.join(folder, name) for name in ("a", "b")], os.path.join(folder, "out")
    for layer, file in zip(pair, files):
        write(layer, blocks, file)
    segments = blocks * sum(len(ring) for layer in pair for rings in layer for ring in rings)
    words = [arguments.program, "union", *files, f"--segments={segments}"]
    runs, right = [], True
    for workers in (1, 4):
        runs.append(taken([*words, f"--workers={workers}"], output, arguments.seconds))
        right = right and runs[-1].status == 0 and is_union(output, union, blocks)
    one, four = runs
    size = sum(map(os.path.getsize, files)) / 1e6
    print("| %s | %.0f | %.2f | %.0f | %.0f | %.2f | %.0f |" % (f"{segments:,}", size, one.processor, one.memory, one.memory * 1024**2 / segments, four.clock, four.memory), flush=True)
    if not right:
        print("%d blocks: another union" % blocks, flush=True)
    return not right


def main(arguments: argparse.Namespace) -> int:
    print("| %s |\n%s|" % (" | ".join(HEAD), "|---" * len(HEAD)), flush=True)
    pair = maps.parcels(random.Random(1), BLOCK)
    with tempfile.TemporaryDirectory() as folder:
        union = union_of(pair, folder)
        return int(any([row(arguments, folder, pair, union, blocks) for blocks in arguments.blocks]))
