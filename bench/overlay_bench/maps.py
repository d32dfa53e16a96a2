"""Two layers of so many segments together, of the kinds that speed is measured on; always the same ones for a kind and a size."""
from __future__ import annotations

import math
import random
from collections.abc import Callable, Iterable

from . import layers
from .layers import Pair, Point, Polygon, Polygons, Ring, rectangle

Kind = Callable[[random.Random, int], Pair]
# A column and a row.
Place = tuple[int, int]


def both(make: Callable[[], Polygons]) -> Pair:
    """Two layers, made one after the other."""
    return make(), make()


def jittered(rng: random.Random, x: int, y: int, by: int) -> Point:
    return x + rng.randint(-by, by), y + rng.randint(-by, by)


def cells(rng: random.Random, columns: int, side: int, steps: int, left: int, bottom: int) -> Polygons:
    """Polygons that share their borders: columns by columns cells, each border in that many steps."""
    corner = {(i, j): jittered(rng, left + i * side, bottom + j * side, side // 5) for i in range(columns + 1) for j in range(columns + 1)}
    borders: dict[tuple[Place, Place], Ring] = {}

    def border(start: Place, end: Place) -> Ring:
        low, high = min(start, end), max(start, end)
        if (low, high) not in borders:
            (px, py), (qx, qy) = corner[low], corner[high]
            borders[low, high] = [jittered(rng, px + (qx - px) * k // steps, py + (qy - py) * k // steps, side // 20) for k in range(1, steps)]
        inner = borders[low, high]
        return [corner[start]] + (inner if start == low else inner[::-1])

    def cell(i: int, j: int) -> Polygon:
        turns = [(i, j), (i + 1, j), (i + 1, j + 1), (i, j + 1)]
        return [[p for start, end in zip(turns, turns[1:] + turns[:1]) for p in border(start, end)]]

    return [cell(i, j) for i in range(columns) for j in range(columns)]


def parcels(rng: random.Random, segments: int) -> Pair:
    """Parcels against zones, each layer with about half of the segments."""
    columns, zones = int((segments / 8) ** 0.5), max(1, int((segments / 64) ** 0.5))
    return cells(rng, columns, 1000, 1, 0, 0), cells(rng, zones, columns * 1000 // zones, 8, 300, 200)


def coast(rng: random.Random, segments: int) -> Pair:
    """Islands whose shores are fractal lines, some 2,000 segments each."""

    def shore(p: Point, q: Point, depth: int) -> Ring:
        if depth == 0:
            return [p]
        reach = max(1, int(math.dist(p, q) / 4))
        middle = jittered(rng, (p[0] + q[0]) // 2, (p[1] + q[1]) // 2, reach)
        return shore(p, middle, depth - 1) + shore(middle, q, depth - 1)

    def island(size: int) -> Polygon:
        x, y = rng.randint(0, size), rng.randint(0, size)
        corners = rectangle(x, y, 400_000, 400_000)
        return [[p for start, end in zip(corners, corners[1:] + corners[:1]) for p in shore(start, end, 9)]]

    count = max(1, segments // 4096)
    size = int(300_000 * count ** 0.5)
    return both(lambda: [island(size) for _ in range(count)])


def blobs(rng: random.Random, segments: int) -> Pair:
    """Round shapes of 40 points that overlap."""

    def blob(size: int) -> Polygon:
        x, y, radius = rng.randint(0, size), rng.randint(0, size), rng.randint(500, 2000)
        turned = [2 * math.pi * k / 40 for k in range(40)]
        radii = [radius * rng.uniform(0.7, 1.3) for _ in turned]
        return [[(x + round(r * math.cos(a)), y + round(r * math.sin(a))) for r, a in zip(radii, turned)]]

    count = max(1, segments // 80)
    size = int(2500 * count ** 0.5)
    return both(lambda: [blob(size) for _ in range(count)])


def tight(rng: random.Random, segments: int) -> Pair:
    """Quadrangles over one another inside 262,144 units, whatever their number."""
    size, reach = 262_143, max(9, int(262_143 * (2.3 / segments) ** 0.5))

    def quadrangle() -> Polygon:
        x, y = rng.randint(0, size - reach), rng.randint(0, size - reach)
        return [[(x + rng.randint(0, reach), y + rng.randint(0, reach)) for _ in range(4)]]

    return both(lambda: [quadrangle() for _ in range(segments // 8)])


def long_lines(rng: random.Random, segments: int) -> Pair:
    """Thin triangles whose long sides cross some ten others, whatever their number."""
    size = 60_000_000
    reach = int(size * (8 * math.pi / 2 / segments) ** 0.5)

    def triangle() -> Polygon:
        x, y, turned = rng.randint(reach, size - reach), rng.randint(reach, size - reach), rng.uniform(0, math.pi)
        dx, dy = int(reach / 2 * math.cos(turned)), int(reach / 2 * math.sin(turned))
        return [[(x - dx, y - dy), (x + dx, y + dy), (x + dx + rng.randint(-9, 9), y + dy + rng.randint(1, 9))]]

    return both(lambda: [triangle() for _ in range(segments // 6)])


def slivers(rng: random.Random, segments: int) -> Pair:
    """Thin triangles over one another across the whole width; the second layer's cross a few of the first one's."""
    width, count = 50_000_000, segments // 6
    first = [[[(0, 12 * k), (width, 12 * k + 1), (width, 12 * k + 3)]] for k in range(count)]
    tilts = [rng.randint(-24, 24) for _ in range(count)]
    return first, [[[(0, 12 * k + 5), (width, 12 * k + 5 + tilt), (width, 12 * k + 7 + tilt)]] for k, tilt in enumerate(tilts)]


def stars(rng: random.Random, segments: int) -> Pair:
    """Stars of 1,000 thin quadrangles through nearly one point, half of them in either layer."""
    radius = 1_000_000
    found: Pair = ([], [])
    for k in range(segments // 4):
        x, y = 2_500_000 * (k // 1000 % 20), 2_500_000 * (k // 20_000)
        turned = rng.uniform(0, math.pi)
        dx, dy = round(radius * math.cos(turned)), round(radius * math.sin(turned))
        found[k % 2].append([[(x + dx, y + dy), (x - dx, y - dy), (x - dx + 1, y - dy + 2), (x + dx + 2, y + dy + 1)]])
    return found


def combs(rng: random.Random, segments: int) -> Pair:
    """Two combs whose long teeth lie over one another, and between one another."""
    width, teeth = 100_000, segments // 8
    first: Ring = []
    second: Ring = []
    for k in range(teeth):
        first += [(0, 4 * k), (width, 4 * k), (width, 4 * k + 2), (0, 4 * k + 2)]
        second += [(width + 9, 4 * k + 1), (9, 4 * k + 1), (9, 4 * k + 3), (width + 9, 4 * k + 3)]
    first += [(-9, 4 * teeth - 2), (-9, 0)]
    second += [(width + 19, 4 * teeth - 1), (width + 19, 1)]
    return [[first]], [[second]]


def diagonals(rng: random.Random, segments: int) -> Pair:
    """Thin quadrangles side by side that never cross, though all boxes overlap."""
    count = segments // 8
    length = 6 * count

    def layer(left: int) -> Polygons:
        return [[[(6 * k + left, 0), (6 * k + left + 1, 0), (6 * k + left + 1 + length, length), (6 * k + left + length, length)]] for k in range(count)]

    return layer(0), layer(3)


def nested(rng: random.Random, segments: int) -> Pair:
    """Squares in squares, those of the two layers in turn."""
    count = segments // 8

    def layer(at: int) -> Polygons:
        return [[rectangle(-4 * k - at, -4 * k - at, 8 * k + 2 * at, 8 * k + 2 * at)] for k in range(1, count + 1)]

    return layer(0), layer(2)


def hole_column(rng: random.Random, segments: int) -> Pair:
    """Square holes over one another in one narrow column of a wide shell."""
    count = segments // 8

    def layer(x: int, y: int) -> Polygons:
        return [[rectangle(-500_000 + x, -9 + y, 1_000_000, 6 * count + 20)] + [rectangle(x, 6 * k + y, 3, 3) for k in range(count)]]

    return layer(0, 0), layer(1, 1)


def cluster(rng: random.Random, segments: int) -> Pair:
    """A dense cluster, and two outliers far away."""
    size = max(100, int(8 * segments ** 0.5))
    reach = max(4, int(2 * size * (3 / segments) ** 0.5))

    def triangle() -> Polygon:
        x, y = rng.randint(-size, size), rng.randint(-size, size)
        return [[(x, y), jittered(rng, x, y, reach), jittered(rng, x, y, reach)]]

    outliers = [[rectangle(30_000_000, 29_999_000, 7, 7)], [rectangle(-30_000_000, -30_000_000, 9, 5)]]
    return both(lambda: [triangle() for _ in range(segments // 6)] + outliers)


def one_border(rng: random.Random, segments: int) -> Pair:
    """Square holes in rows under one border."""
    columns = int((segments / 8) ** 0.5)

    def layer(at: int) -> Polygons:
        squares = [rectangle(60 * i + at, 60 * j + at, 40, 40) for i in range(columns) for j in range(columns)]
        return [[rectangle(-100 + at, -100 + at, 60 * columns + 200, 60 * columns + 200)] + squares]

    return layer(0), layer(13)


def one_ring(rng: random.Random, segments: int) -> Pair:
    """One long shore in either layer, round the same lake."""
    count, radius = segments // 2, 30_000_000

    def shore() -> Polygons:
        noise = max(1, int(3 * radius / count))
        radii = [radius + rng.randint(-noise, noise) for _ in range(count)]
        return [[[(round(r * math.cos(2 * math.pi * k / count)), round(r * math.sin(2 * math.pi * k / count))) for k, r in enumerate(radii)]]]

    return shore(), shore()


def copies(rng: random.Random, segments: int) -> Pair:
    """One square again and again, and nothing in the second layer."""
    return [[rectangle(0, 0, 4, 4)]] * (segments // 4), []


FRIENDLY: dict[str, Kind] = {
    "parcels": parcels, "coast": coast, "blobs": blobs, "tight": tight, "one border": one_border, "one ring": one_ring, "copies": copies,
}
HARD: dict[str, Kind] = {
    "long": long_lines, "slivers": slivers, "stars": stars, "combs": combs, "diagonals": diagonals, "nested": nested,
    "hole column": hole_column, "cluster": cluster,
}
KINDS = {**FRIENDLY, **HARD}


# Runs of hard kinds take several times as long as friendly ones, and `stars` a hundred times.
DRAWN = (*FRIENDLY, *FRIENDLY, *FRIENDLY, *(kind for kind in HARD if kind != "stars"))


def drawn(rng: random.Random, number: int, segments: int) -> tuple[str, Pair]:
    """A pair by chance with about so many segments a layer, and what it is: kinds take turns, and a friendly one may have another one of them as its second layer."""
    kind = DRAWN[number % len(DRAWN)]
    first, second = KINDS[kind](rng, 2 * segments)
    if kind in HARD or rng.random() >= 0.3:
        return kind, (first, second)
    other = rng.choice(list(FRIENDLY))
    return "%s with %s" % (kind, other), (first, FRIENDLY[other](rng, 2 * segments)[1])


def count(polygons: Polygons) -> int:
    return sum(len(ring) for rings in polygons for ring in rings)


def write(kind: str, segments: int, files: Iterable[str]) -> None:
    """Writes both layers; answers nothing, since it runs in a process of its own."""
    rng = random.Random("%s %d" % (kind, segments))
    for name, polygons in zip(files, KINDS[kind](rng, segments)):
        with open(name, "w") as file:
            file.write(layers.text_of(polygons))
