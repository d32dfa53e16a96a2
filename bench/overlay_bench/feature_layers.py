"""Layers of features that lie on one another: small ones by chance, and large ones on which rows are many or have many features.

A layer is a list of features, a feature a list of polygons, and a polygon a list of rings without their first points again.
"""
from __future__ import annotations

import random
import re
from collections.abc import Callable, Iterable

from . import layers
from .layers import LIMIT, Point, Polygon, Polygons, polygon_text, rectangle

Feature = list[Polygon]
Features = list[Feature]

# ---- Small layers, by chance


def on_a_coarse_grid(rng: random.Random, size: int, old: Features) -> Feature:
    x, y = rng.randint(0, size), rng.randint(0, size)
    return [[rectangle(x // 3 * 3, y // 3 * 3, 3, 3)]]


def nested(rng: random.Random, size: int, old: Features) -> Feature:
    k = rng.randint(0, size // 2)
    side = max(1, size - 2 * k)
    ring = rectangle(k, k, side, side)
    return [[ring if rng.random() < 0.5 else ring[::-1]]]


def of_random_points(rng: random.Random, size: int, old: Features) -> Feature:
    return [[[(rng.randint(0, size), rng.randint(0, size)) for _ in range(rng.choice([3, 3, 4, 5, 6]))]]]


def thin(rng: random.Random, size: int, old: Features) -> Feature:
    """A quadrangle that rounding closes, here and there."""
    (a, b), (c, d) = [(rng.randint(0, size), rng.randint(0, size)) for _ in "ab"]
    return [[[(a, b), (c, d), (c + 1, d), (a, b + 1)]]]


def with_a_hole(rng: random.Random, size: int, old: Features) -> Feature:
    x, y, side = rng.randint(0, size), rng.randint(0, size), rng.randint(3, 6)
    return [[rectangle(x, y, side, side), rectangle(x + 1, y + 1, side - 2, side - 2)[::-1]]]


def of_two_polygons(rng: random.Random, size: int, old: Features) -> Feature:
    x, y = rng.randint(0, size), rng.randint(0, size)
    return [[rectangle(x, y, rng.randint(1, 4), rng.randint(1, 4))], *of_random_points(rng, size, old)]


def empty(rng: random.Random, size: int, old: Features) -> Feature:
    return []


def seen_before(rng: random.Random, size: int, old: Features) -> Feature:
    return rng.choice(old) if old else []


FEATURES: tuple[Callable[[random.Random, int, Features], Feature], ...] = (on_a_coarse_grid, nested, of_random_points, of_random_points, thin, with_a_hole, of_two_polygons, empty, seen_before)


def heaps(rng: random.Random) -> list[Features]:
    """One to three layers of a few features each, all in one place."""
    old: Features = []
    size, count = rng.choice([4, 6, 9, 14, 30]), rng.choice([1, 2, 2, 2, 3])
    found: list[Features] = []
    for _ in range(count):
        found.append([])
        for _ in range(rng.randint(0, 7 if count < 3 else 4)):
            old.append(rng.choice(FEATURES)(rng, size, old))
            found[-1].append(old[-1])
    return found


def grouped(rng: random.Random, polygons: Polygons) -> Features:
    """Polygons as features, of one mostly."""
    features: Features = []
    for polygon in polygons:
        if features and rng.random() < 0.2:
            features[-1] = [*features[-1], polygon]
        else:
            features.append([polygon])
    return features


def that_hurt(rng: random.Random, count: int) -> list[Features]:
    """Two layers of one of the kinds that hurt, or both as one."""
    first, second = layers.pair(rng, rng.choice(layers.KINDS), count)
    return [grouped(rng, first + second)] if rng.random() < 0.2 else [grouped(rng, first), grouped(rng, second)]


def spread(rng: random.Random, found: list[Features]) -> list[Features]:
    """The same over the whole grid; points that were one stay one."""
    moved: dict[Point, Point] = {}

    def place(p: Point) -> Point:
        if p not in moved:
            x, y = (max(-LIMIT, min(LIMIT, (c - 7) * (LIMIT // 8) + rng.randint(-3, 3))) for c in p)
            moved[p] = x, y
        return moved[p]

    return [[[[[place(p) for p in ring] for ring in rings] for rings in feature] for feature in layer] for layer in found]


def drawn(rng: random.Random, small: bool) -> list[Features]:
    """Layers of a random kind, small ones or greater ones."""
    if not small:
        return that_hurt(rng, rng.randint(40, 3000))
    chance = rng.random()
    if chance < 0.4:
        return that_hurt(rng, rng.randint(3, 30))
    return spread(rng, heaps(rng)) if chance < 0.5 else heaps(rng)


# ---- Texts


def line_of(feature: Feature) -> str:
    bodies = [polygon_text(rings) for rings in feature]
    if len(bodies) == 1:
        return "POLYGON %s\n" % bodies[0]
    return "MULTIPOLYGON (%s)\n" % ", ".join(bodies) if bodies else "POLYGON EMPTY\n"


def text_of(features: Iterable[Feature]) -> str:
    """A layer text with a feature a line."""
    return "".join(map(line_of, features))


# A text as it may be written too.
SPELLINGS = ((re.compile("POLYGON EMPTY"), "MULTIPOLYGON EMPTY"), (re.compile("POLYGON"), "Polygon"), (re.compile("\n"), " \r\n\t"), (re.compile("^"), "\n "))


def respelled(rng: random.Random, text: str) -> str:
    found, words = rng.choice(SPELLINGS)
    return found.sub(words, text)


# ---- Large layers, two of about so many segments together

MIDDLE = 1 << 24


def square(x: int, y: int, width: int, height: int) -> Feature:
    return [[rectangle(x, y, width, height)]]


def nested_squares(segments: int) -> tuple[Features, Features]:
    """Squares inside one another: all rows have about n^2 / 32 features, so above 92,000 segments they are refused."""
    return [square(64 * k - MIDDLE, 64 * k - MIDDLE, 2 * (MIDDLE - 64 * k), 2 * (MIDDLE - 64 * k)) for k in range(segments // 4)], []


def copied(segments: int) -> tuple[Features, Features]:
    """One square as every feature: one row."""
    return [square(0, 0, 4, 4)] * (segments // 4), []


def stacked(segments: int) -> tuple[Features, Features]:
    """Copies of one square, and as many small squares beside one another inside."""
    count = segments // 8
    small = [square(10 + 8 * (k % 1000) - MIDDLE, 10 + 8 * (k // 1000) - MIDDLE, 8, 8) for k in range(count)]
    return [square(-MIDDLE, -MIDDLE, 2 * MIDDLE, 2 * MIDDLE)] * count, small


def all_neighbours(segments: int) -> tuple[Features, Features]:
    """Copies of one square, and inside features each of which has a common border with every other one."""
    many = int((segments // 8) ** 0.5)
    features: Features = [[] for _ in range(many)]
    for number, (i, j) in enumerate((i, j) for i in range(many) for j in range(i)):
        x, y = 10 + 20 * (number % 1000) - MIDDLE, 10 + 20 * (number // 1000) - MIDDLE
        features[i] += square(x, y, 8, 8)
        features[j] += square(x + 8, y, 8, 8)
    return [square(-MIDDLE, -MIDDLE, 2 * MIDDLE, 2 * MIDDLE)] * (segments // 8), features


def crossed_bars(segments: int) -> tuple[Features, Features]:
    """Level bars across upright ones: a row for each bar and each crossing."""
    count = segments // 8
    long = 20 * count + 1000
    return [square(-1000, 10 * k, long, 5) for k in range(count)], [square(10 * k, -1000, 5, long) for k in range(count)]


HOSTILE: dict[str, tuple[Callable[[int], tuple[Features, Features]], int]] = {
    "nested squares": (nested_squares, 40_000), "copied": (copied, 1_000_000), "stacked": (stacked, 40_000),
    "all neighbours": (all_neighbours, 400_000), "crossed bars": (crossed_bars, 4_000),
}


def write(kind: str, segments: int, files: Iterable[str]) -> None:
    """Writes both layers of a hostile kind; answers nothing, since it runs in a process of its own."""
    for name, features in zip(files, HOSTILE[kind][0](segments)):
        with open(name, "w") as file:
            file.write(text_of(features))
