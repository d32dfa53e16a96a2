"""A town's parcels and zones in whole millimetres: clean, or with the dirt that such layers have."""
from __future__ import annotations

import math
import random
from collections.abc import Iterator

Point = tuple[int, int]
Feature = list[list[Point]]

WIDE, DEEP, STREET, ACROSS, ALONG, INNER = 18_000, 25_000, 9_000, 6, 4, 3
# Of so many parcels one has a corner that was measured again, one two points in the wrong order, one a courtyard.
CORNER_AGAIN, EXCHANGED, COURTYARD = 100, 300, 500


def between(rng: random.Random, start: Point, end: Point, at: float, aside: int) -> Point:
    """A point of a border: so far along it, and at most so far beside it."""
    (px, py), (qx, qy) = start, end
    length, beside = math.dist(start, end), rng.uniform(-aside, aside)
    return round(px + (qx - px) * at - (qy - py) * beside / length), round(py + (qy - py) * at + (qx - px) * beside / length)


class Block:
    """Parcels in rows between streets: neighbours share each border point for point, and none crosses itself."""

    def __init__(self, rng: random.Random, left: int, bottom: int):
        def jitter(at: int) -> int:
            return at + rng.randint(-1500, 1500)

        self.rng = rng
        self.borders: dict[tuple[Point, Point], list[Point]] = {}
        self.corners = {(i, j): (jitter(left + i * WIDE), jitter(bottom + j * DEEP)) for i in range(ACROSS + 1) for j in range(ALONG + 1)}

    def border(self, start: Point, end: Point) -> list[Point]:
        """The points from a corner up to the next one, which is left out."""
        low, high = min(start, end), max(start, end)
        if (low, high) not in self.borders:
            places = [(k + self.rng.uniform(0.2, 0.8)) / (INNER + 1) for k in range(1, INNER + 1)]
            self.borders[low, high] = [between(self.rng, self.corners[low], self.corners[high], at, 250) for at in places]
        inner = self.borders[low, high]
        return [self.corners[start]] + (inner if start == low else inner[::-1])

    def parcels(self) -> Iterator[list[Point]]:
        for i in range(ACROSS):
            for j in range(ALONG):
                turns = [(i, j), (i + 1, j), (i + 1, j + 1), (i, j + 1)]
                yield [point for start, end in zip(turns, turns[1:] + turns[:1]) for point in self.border(start, end)]


def spoiled(rng: random.Random, ring: list[Point]) -> list[Point]:
    """The ring with the usual dirt: now and then an overlap and a sliver, or a crossing of its own."""
    ring = list(ring)
    if rng.randrange(CORNER_AGAIN) == 0:
        k, by = (INNER + 1) * rng.randrange(4), rng.choice((20, 50, 300))
        ring[k] = (ring[k][0] + rng.randint(-by, by), ring[k][1] + rng.randint(-by, by))
    if rng.randrange(EXCHANGED) == 0:
        k = 1 + (INNER + 1) * rng.randrange(4)
        ring[k], ring[k + 1] = ring[k + 1], ring[k]
    return ring


def parcels(rng: random.Random, segments: int, dirty: bool) -> list[Feature]:
    blocks = max(1, round(segments / (ACROSS * ALONG * 4 * (INNER + 1))))
    columns = max(1, round(math.sqrt(blocks)))
    found = []
    for k in range(blocks):
        block = Block(rng, k % columns * (ACROSS * WIDE + STREET), k // columns * (ALONG * DEEP + STREET))
        for ring in block.parcels():
            feature = [spoiled(rng, ring) if dirty else ring]
            if rng.randrange(COURTYARD) == 0:
                x, y = (sum(point[axis] for point in ring) // len(ring) for axis in (0, 1))
                feature.append([(x - 2000, y - 3000), (x - 2000, y + 3000), (x + 2000, y + 3000), (x + 2000, y - 3000)])
            found.append(feature)
    return found


def zones(rng: random.Random, segments: int, wide: int, high: int) -> list[Feature]:
    """A coverage of zones whose borders are long curves, shared point for point."""
    columns = max(2, round(math.sqrt(wide * high) / 260_000))
    steps = max(4, round(segments / (columns * columns * 4)))
    waves = [(rng.uniform(0.5, 1.5), rng.uniform(0, 6.28), rng.uniform(0, 6.28)) for _ in range(3)]

    def at(u: float, v: float) -> Point:
        """A place of the lattice, bent by waves that are never so steep that two borders cross."""
        bent = [sum(0.04 * math.sin(rate * t + phase[side]) for rate, *phase in waves) for side, t in enumerate((v, u))]
        fine = (0.02 * math.sin(9 * v + u), 0.02 * math.sin(9 * u + v))
        return round((u + bent[0] + fine[0]) * wide / columns), round((v + bent[1] + fine[1]) * high / columns)

    def side(start: Point, end: Point) -> list[Point]:
        (a, b), (c, d) = min(start, end), max(start, end)
        points = [at(a + (c - a) * k / steps, b + (d - b) * k / steps) for k in range(steps + 1)]
        return (points if start < end else points[::-1])[:-1]

    found = []
    for i in range(columns):
        for j in range(columns):
            turns = [(i, j), (i + 1, j), (i + 1, j + 1), (i, j + 1)]
            found.append([[point for start, end in zip(turns, turns[1:] + turns[:1]) for point in side(start, end)]])
    return found


def town(segments: int, dirty: bool, seed: int = 1) -> tuple[list[Feature], list[Feature]]:
    """Parcels and zones over them, about so many segments in either layer; the same ones for the same words."""
    rng = random.Random("town %d %d %d" % (segments, dirty, seed))
    first = parcels(rng, segments, dirty)
    points = [point for rings in first for point in rings[0]]
    return first, zones(rng, segments, max(x for x, _ in points), max(y for _, y in points))
