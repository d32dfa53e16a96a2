"""Layers that hurt: a generator for each kind of trouble, for a few segments or for thousands.

A generator gets a source of chance and about how many segments are wanted, and gives polygons: lists of rings, each a list of
points without the first one again.
"""
from __future__ import annotations

import math
import random
from collections.abc import Callable

Point = tuple[int, int]
Ring = list[Point]
Polygon = list[Ring]
Polygons = list[Polygon]
Pair = tuple[Polygons, Polygons]
Kind = Callable[[random.Random, int], Polygons]

LIMIT = 1 << 28


def point(rng: random.Random, size: int) -> Point:
    return rng.randint(-size, size), rng.randint(-size, size)


def rectangle(x: int, y: int, width: int, height: int) -> Ring:
    return [(x, y), (x + width, y), (x + width, y + height), (x, y + height)]


def random_rectangle(rng: random.Random, size: int) -> Ring:
    return rectangle(*point(rng, size), rng.randint(1, size), rng.randint(1, size))


def inside(p: Point) -> Point:
    x, y = (max(-LIMIT, min(LIMIT, c)) for c in p)
    return x, y


def self_crossing(rng: random.Random, count: int) -> Polygons:
    """Rings through random points of a small square: many crossings in one pixel."""
    size = rng.choice([2, 4, 9, 30]) * (1 + count // 100)
    return [[[point(rng, size) for _ in range(rng.randint(3, 12))]] for _ in range(1 + count // 12)]


def rectangles(rng: random.Random, count: int) -> Polygons:
    """Rectangles on a small grid: coincident and touching borders."""
    size = 5 + int(math.sqrt(count))
    return [[random_rectangle(rng, size)] for _ in range(1 + count // 6)]


def parcels(rng: random.Random, count: int) -> Polygons:
    """Cells that share their borders."""
    columns, side = 1 + int(math.sqrt(count / 5)), rng.choice([5, 20, 1000])
    jitter = max(1, side // 5)
    corner = [[(i * side + rng.randint(-jitter, jitter), j * side + rng.randint(-jitter, jitter)) for j in range(columns + 1)] for i in range(columns + 1)]
    return [[[corner[i][j], corner[i + 1][j], corner[i + 1][j + 1], corner[i][j + 1]]] for i in range(columns) for j in range(columns)]


def coincident(rng: random.Random, count: int) -> Polygons:
    """Rings that run along the same lines, some of them twice or backwards."""
    reach = 4 + count // 20
    line = [(3 * k, 2 * k) for k in range(-reach, reach + 1)]
    polygons = []
    for _ in range(1 + count // 5):
        ring = [*rng.sample(line, 2), point(rng, 9)]
        polygons.append([ring if rng.random() < 0.5 else ring[::-1]])
    return polygons + polygons[:rng.randint(0, 2)]


def near_a_line(rng: random.Random, count: int) -> Polygons:
    """Triangles whose corners lie on, or within a pixel of, one long edge."""
    dx, dy = rng.randint(8, 40) * (1 + count // 30), rng.randint(-20, 20)
    polygons = [[[(0, 0), (dx, dy), (rng.randint(0, dx), dy + 25)]]]
    for _ in range(1 + count // 4):
        x = rng.randint(0, dx)
        y = dy * x // dx + rng.randint(-1, 1)
        polygons.append([[(x, y), (x + rng.randint(-6, 6), y - rng.randint(1, 9)), (x + rng.randint(1, 6), y - 3)]])
    return polygons


def near_many_pixels(rng: random.Random, count: int) -> Polygons:
    """Long thin rings past a row of small ones: each long edge passes within half a pixel of many hot pixels."""
    rise, run = rng.randint(1, 7), rng.randint(8, 30)
    steps = 2 + count // 8
    polygons = []
    for k in range(steps):
        x, y = k * run, k * rise + rng.randint(-1, 1)
        polygons.append([[(x, y), (x + 1, y), (x, y + rng.choice([-1, 1]))]])
    for _ in range(1 + count // 16):
        low, high = rng.randint(-2, 2), rng.randint(-2, 2)
        polygons.append([[(0, low), (steps * run, steps * rise + high), (steps * run + 1, steps * rise + low)]])
    return polygons


def on_halves(rng: random.Random, count: int) -> Polygons:
    """Diagonals of odd squares, whose crossings lie on halves, and steep and flat edges beside them."""
    size = 6 + int(math.sqrt(count))
    polygons = []
    for _ in range(1 + count // 4):
        (x, y), n = point(rng, size), rng.choice([1, 3, 5, 7])
        polygons.append([rng.choice([[(x, y), (x + n, y + n), (x + n, y)], [(x, y), (x + n, y - n), (x, y - n)], [(x, y), (x, y + n), (x + 2, y)]])])
    return polygons


def spikes(rng: random.Random, count: int) -> Polygons:
    """Rings with spikes, out and back along the same segment, and slivers."""
    polygons = []
    for _ in range(1 + count // 10):
        ring = [point(rng, 12 + count // 10) for _ in range(rng.randint(3, 6))]
        k = rng.randrange(len(ring))
        polygons.append([ring[:k + 1] + [point(rng, 30)] + ring[k:]])
        polygons.append([[(0, 0), (rng.randint(20, 60), 1), (rng.randint(20, 60), rng.randint(0, 2))]])
    return polygons


def flat(rng: random.Random, count: int) -> Polygons:
    """Rings without an area: along a path and back, or on one line."""
    polygons = []
    for _ in range(1 + count // 8):
        path = [point(rng, 10 + count // 20) for _ in range(rng.randint(2, 4))]
        polygons.append([rng.choice([path + path[-2::-1], [(3 * k, k) for k in rng.sample(range(-9, 10), 4)]])])
    return polygons


def repeated_points(rng: random.Random, count: int) -> Polygons:
    """Rings with repeated neighbours, and rings of one point."""
    ring = []
    for _ in range(rng.randint(3, 6)):
        ring += [point(rng, 8)] * rng.randint(1, 1 + (5 * count if count > 300 else count // 3))
    return [[ring], [[point(rng, 8)] * (3 + count // 10)]]


def petals(rng: random.Random, count: int) -> Polygons:
    """One ring that comes back to one vertex again and again."""
    size = 20 + 3 * count
    center = point(rng, 5)
    ring = []
    for _ in range(1 + count // 3):
        p = point(rng, size)
        ring += [center, p, (p[0] + rng.randint(-3, 3), p[1] + rng.randint(-3, 3))]
    return [[ring]]


def cactus(rng: random.Random, count: int) -> Polygons:
    """A ring whose vertices carry rings, whose vertices carry rings."""

    def loop(at: Point, size: int, depth: int) -> Ring:
        ring = [at]
        for dx, dy in ((size, rng.randint(0, size)), (rng.randint(0, size), size)):
            p = (at[0] + dx, at[1] + dy)
            ring += loop(p, max(1, size // 3), depth - 1) + [p] if depth and rng.random() < 0.8 else [p]
        return ring

    depth = max(1, int(math.log2(1 + count / 3)) - 1)
    return [[loop(point(rng, 9), 3 ** min(depth + 1, 12), depth)]]


def nested(rng: random.Random, count: int) -> Polygons:
    """Squares in squares, each the hole of the one round it; some touch it at their least vertex."""
    depth, polygons = 1 + count // 4, []
    low, high = -2 * depth, 2 * depth
    for _ in range(depth):
        polygons.append([rectangle(low, low, high - low, high - low)])
        low, high = low + rng.choice([0, 1, 2]), high - rng.randint(1, 2)
        if low >= high:
            break
    return polygons if rng.random() < 0.5 else [[ring for rings in polygons for ring in rings]]


def holes_at_corners(rng: random.Random, count: int) -> Polygons:
    """Holes that touch their shell, and one another, at their least vertices."""
    polygons = []
    for k in range(1 + count // 16):
        x = 30 * k
        shell = [(x, 0), (x + 20, -9), (x + 20, 9)]
        polygons.append([shell] + [[(x, 0), (x + rng.randint(4, 15), y), (x + rng.randint(4, 15), y + 1)] for y in rng.sample(range(-3, 3), rng.randint(1, 4))])
    return polygons


def holes(rng: random.Random, count: int) -> Polygons:
    """Shells with holes, some of them across the shell's border."""
    size = 20 + count // 4
    return [[random_rectangle(rng, size)] + [random_rectangle(rng, size // 2) for _ in range(rng.randint(1, 3))] for _ in range(1 + count // 12)]


def shells_at_one_vertex(rng: random.Random, count: int) -> Polygons:
    """Triangles that all have one vertex."""
    size = 9 + 2 * count
    ends = [point(rng, size) for _ in range(1 + count // 3)]
    return [[[(0, 0), p, (p[0] + rng.randint(-4, 4), p[1] + rng.randint(1, 4))]] for p in ends]


def fan(rng: random.Random, count: int) -> Polygons:
    """Triangles of which neighbours share a side, round one vertex."""
    size = 30 + 2 * count
    rim = sorted({point(rng, size) for _ in range(2 + count // 3)} - {(0, 0)}, key=lambda p: math.atan2(p[1], p[0]))
    return [[[(0, 0), p, q]] for p, q in zip(rim, rim[1:] + rim[:1])]


def wheel(rng: random.Random, count: int) -> Polygons:
    """A rim and spokes, each a thin triangle from the hub."""
    size, spokes = 50 + 3 * count, 3 + count // 4
    turned = [2 * math.pi * (k + rng.random() / 2) / spokes for k in range(spokes)]
    rim = [(round(size * math.cos(a)), round(size * math.sin(a))) for a in turned]
    return [[rim]] + [[[(0, 0), p, (p[0] + 1, p[1] + 1)]] for p in rim]


def through_one_point(rng: random.Random, count: int) -> Polygons:
    """Thin quadrangles through nearly one point."""
    size, polygons = 40 + 5 * count, []
    for _ in range(1 + count // 4):
        x, y = point(rng, size)
        polygons.append([[(x, y), (-x + rng.randint(-1, 1), -y + rng.randint(-1, 1)), (1 - x, -y), (x + 1, y + rng.randint(-2, 2))]])
    return polygons


def star(rng: random.Random, count: int) -> Polygons:
    """One ring of chords: every edge crosses nearly every other one."""
    points, size = 2 * (1 + count // 3) + 1, 20 + 5 * count
    skip = points // 2
    turned = [2 * math.pi * (k * skip % points) / points for k in range(points)]
    return [[[(round(size * math.cos(a)), round(size * math.sin(a)) + rng.randint(-1, 1)) for a in turned]]]


def comb(rng: random.Random, count: int) -> Polygons:
    """Long teeth over one another, lying or standing."""
    length, ring = rng.choice([9, 50, 400]), []
    for k in range(1 + count // 4):
        ring += [(rng.randint(0, 1), 4 * k), (length + rng.randint(-3, 3), 4 * k + rng.randint(0, 1)), (length, 4 * k + 2), (2, 4 * k + 2)]
    ring += [(-3, ring[-1][1]), (-3, 0)]
    return [[ring if rng.random() < 0.5 else [(y, x) for x, y in ring]]]


def diagonals(rng: random.Random, count: int) -> Polygons:
    """Thin parallel quadrangles, close together."""
    length = rng.choice([20, 100, 1000])
    return [[[(3 * k, 0), (3 * k + 1, 0), (3 * k + length + rng.randint(0, 1), length), (3 * k + length, length)]] for k in range(1 + count // 4)]


def long_triangles(rng: random.Random, count: int) -> Polygons:
    """Long thin triangles across one another, some lying, some standing."""
    size, polygons = 50 + 10 * count, []
    for _ in range(1 + count // 3):
        y, z = rng.randint(0, size), rng.randint(0, size)
        ring = [(0, y), (size, z), (size, z + rng.randint(0, 2))]
        polygons.append([ring if rng.random() < 0.5 else [(y, x) for x, y in ring]])
    return polygons


def upright(rng: random.Random, count: int) -> Polygons:
    """Only vertical and horizontal edges; some rings lie on one line."""
    size, polygons = 4 + int(math.sqrt(count)), []
    for _ in range(1 + count // 8):
        columns, rows = [rng.randint(-size, size) for _ in range(4)], [rng.randint(-size, size) for _ in range(4)]
        if rng.random() < 0.1:
            rows = rows[:1] * 4
        polygons.append([[p for x, y, z in zip(columns, rows, rows[1:] + rows[:1]) for p in ((x, y), (x, z))]])
    return polygons


def on_tile_borders(rng: random.Random, count: int) -> Polygons:
    """Corners on, and beside, multiples of 16."""
    reach = 3 + int(math.sqrt(count))

    def near() -> int:
        return 16 * rng.randint(0, reach) + rng.choice([-1, 0, 0, 0, 1])

    polygons = [[[(near(), near()) for _ in range(rng.randint(3, 5))]] for _ in range(1 + count // 5)]
    return polygons + [[rectangle(0, 0, 16, 16)], [rectangle(16, 16, 15, 17)]]


def at_the_limit(rng: random.Random, count: int) -> Polygons:
    """Segments as long as coordinates allow."""

    def at() -> int:
        return rng.choice([-LIMIT, LIMIT, 1 - LIMIT, LIMIT - 1, rng.randint(-LIMIT, LIMIT)])

    return [[[(at(), at()) for _ in range(rng.randint(3, 7))]] for _ in range(1 + min(count, 300) // 12)]


def in_a_corner(rng: random.Random, count: int) -> Polygons:
    """Another kind, moved to a corner of the range."""
    polygons, (x, y) = rng.choice([self_crossing, on_halves, rectangles, nested, fan])(rng, count), rng.choice([(LIMIT, LIMIT), (-LIMIT, LIMIT), (-LIMIT, -LIMIT)])
    reach = max(max(abs(c) for c in p) for rings in polygons for ring in rings for p in ring)
    dx, dy = round(x - math.copysign(reach, x)), round(y - math.copysign(reach, y))
    return [[[inside((p[0] + dx, p[1] + dy)) for p in ring] for ring in rings] for rings in polygons]


def far_apart(rng: random.Random, count: int) -> Polygons:
    """A dense cluster and two small far outliers."""
    far = rng.choice([1000, 100_000, LIMIT - 100])
    return self_crossing(rng, count) + [[rectangle(far, far, 2, 3)], [rectangle(-far, rng.randint(-9, 9), 5, 1)]]


def copies(rng: random.Random, count: int) -> Polygons:
    """One ring, again and again; sometimes once the other way round."""
    ring = [point(rng, 9) for _ in range(rng.randint(3, 5))]
    return [[ring]] * (1 + count // len(ring)) + [[ring[::-1]]] * rng.randint(0, 1)


KINDS: tuple[Kind, ...] = (
    self_crossing, rectangles, parcels, coincident, near_a_line, near_many_pixels, on_halves, spikes, flat, repeated_points, petals, cactus, nested,
    holes_at_corners, holes, shells_at_one_vertex, fan, wheel, through_one_point, star, comb, diagonals, long_triangles, upright, on_tile_borders,
    at_the_limit, in_a_corner, far_apart, copies,
)
# The number of crossings of these grows as the square of the number of segments.
CROWDED = (star, through_one_point, long_triangles, self_crossing, wheel, petals, at_the_limit, on_tile_borders, far_apart, holes, in_a_corner)


def moved(polygons: Polygons, dx: int, dy: int) -> Polygons:
    return [[[inside((x + dx, y + dy)) for x, y in ring] for ring in rings] for rings in polygons]


def reversed_rings(polygons: Polygons) -> Polygons:
    return [[ring[::-1] for ring in rings] for rings in polygons]


def second_layer(rng: random.Random, kind: Kind, first: Polygons, count: int) -> Polygons:
    """The layer beside a first one: mostly of its kind or of another, sometimes the same again in some way, or nothing."""
    chance = rng.random()
    if chance < 0.45:
        return kind(rng, count)
    if chance < 0.75:
        other = rng.choice(KINDS)
        return other(rng, min(count, 200) if other in CROWDED else count)
    if chance < 0.80:
        return []
    if chance < 0.85:
        return first
    if chance < 0.90:
        return reversed_rings(first)
    return moved(first, rng.randint(-2, 2), rng.randint(-2, 2))


def pair(rng: random.Random, kind: Kind, count: int) -> Pair:
    """Two layers of about so many segments each, fewer where nearly all of them cross."""
    count = min(count // 2 + 2, 200) if kind in CROWDED else count
    layers = (first := kind(rng, count)), second_layer(rng, kind, first, count)
    return layers if rng.random() < 0.5 else layers[::-1]


def ring_text(ring: Ring) -> str:
    return "(" + ", ".join("%d %d" % p for p in [*ring, ring[0]]) + ")"


def polygon_text(rings: Polygon) -> str:
    return "(" + ", ".join(map(ring_text, rings)) + ")"


def text_of(polygons: Polygons, together: bool = False) -> str:
    """A layer text: one POLYGON for each polygon, or one MULTIPOLYGON of them all."""
    if together and polygons:
        return "MULTIPOLYGON (" + ", ".join(map(polygon_text, polygons)) + ")\n"
    return "".join("POLYGON %s\n" % polygon_text(rings) for rings in polygons)
