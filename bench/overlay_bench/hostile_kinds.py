"""Kinds of layers that are made to hurt, at any reach of the coordinates.

A kind gets a source of chance, about how many segments are wanted and how far coordinates reach, and gives two layers, each a list of
rings. Where the number of crossings or of hot pixels grows as the square of the segments they are few, and far triangles make up the
rest, so that what goes in and comes out stays within some million. Kinds of other measurements stand here too, stretched to the reach.
"""
from __future__ import annotations

import math
import random
from collections.abc import Callable, Iterable, Iterator

from . import layers, limits, maps
from .layers import Pair, Point, Polygons, Ring, rectangle

Rings = list[Ring]
Both = tuple[Rings, Rings]
Kind = Callable[[random.Random, int, int], Both]


def turned_over(ring: Ring) -> Ring:
    return [(y, x) for x, y in ring]


def turn_over(both: Both) -> Both:
    """Layers with x and y exchanged."""
    first, second = both
    return [turned_over(ring) for ring in first], [turned_over(ring) for ring in second]


def in_turn(rings: Rings) -> Both:
    """Every other ring in either layer."""
    return rings[::2], rings[1::2]


def around(radius: float, angle: float) -> Point:
    return round(radius * math.cos(angle)), round(radius * math.sin(angle))


def spot(rng: random.Random, reach: int, room: int = 0) -> int:
    """A coordinate from which there is so much room on, if there is so much at all."""
    return rng.randint(-reach, max(-reach, reach - room))


def triangle(x: int, y: int, side: int) -> Ring:
    return [(x, y), (x + side, y), (x, y + side)]


def far_triangles(rng: random.Random, count: int, reach: int) -> Rings:
    """So many segments of small triangles, far from one another."""
    columns = max(1, math.isqrt(max(1, count // 3)))
    step = max(8, 2 * reach // (columns + 1))
    places = ((-reach + k % columns * step + rng.randrange(3), -reach + k // columns * step + rng.randrange(3)) for k in range(count // 3))
    return [triangle(x, y, rng.randrange(2, 6)) for x, y in places]


def with_triangles(rng: random.Random, rings: Rings, count: int, reach: int) -> Both:
    """Rings in turn, and as many far triangles as are wanted for the rest."""
    first, second = in_turn(rings)
    return first + far_triangles(rng, count - sum(map(len, rings)), reach), second


# Many edges at one vertex, or nearly.

def star_tips(rng: random.Random, count: int, reach: int) -> Both:
    """Thin triangles from the middle in all directions."""
    tips = count // 3
    return in_turn([[(0, 0), around(0.99 * reach, 2 * math.pi * k / tips), around(0.99 * reach, 2 * math.pi * (k + 0.4) / tips)] for k in range(tips)])


def farey_fan(rng: random.Random, count: int, reach: int) -> Both:
    """Triangles from a corner in directions that follow each other as Farey's fractions do, as far as coordinates reach."""
    tips = count // 3
    order = max(2, math.isqrt(7 * tips + 1))
    a, b, c, d = 0, 1, 1, order
    directions: list[Point] = []
    while c <= order and len(directions) < 2 * tips:
        directions.append((b, a))
        skip = (order + b) // d
        a, b, c, d = c, d, skip * c - a, skip * d - b
    ends = [(-reach + x * max(1, 2 * reach // x), -reach + y * max(1, 2 * reach // x)) for x, y in directions]
    return in_turn([[(-reach, -reach), p, q] for p, q in zip(ends[::2], ends[1::2])])


def farey_triangles(rng: random.Random, count: int, reach: int) -> Both:
    """Triangles from a corner whose long sides differ by the least angle there is: a determinant of 1."""
    tips = min(count // 3, 600, reach)
    return with_triangles(rng, [[(-reach, -reach), (reach - k, reach - k - 1), (reach - k - 1, reach - k - 2)] for k in range(tips)], count, reach)


def slivers_at_one_tip(rng: random.Random, count: int, reach: int) -> Both:
    """Slivers from one tip across the whole width, all of them between two rows at the end."""
    return [[(-reach, 0), (reach - 2 * k, 1), (reach - 2 * k - 1, 1)] for k in range(min(count // 3, 1000, reach - 1))], []


def steep_pencil(rng: random.Random, count: int, reach: int) -> Both:
    """Slivers from one tip, each in a row of its own at the end."""
    return in_turn([[(-reach, 0), (reach - 2 * k, 1 + k), (reach - 2 * k - 1, 1 + k)] for k in range(min(count // 3, reach - 1))])


def shells_at_one_tip(rng: random.Random, count: int, reach: int) -> Both:
    """Triangles that share their least vertex, with holes there."""
    shells = max(1, count // 6)
    step = max(1, 2 * reach // (3 * shells + 1))
    rows = [-reach + 3 * k * step for k in range(shells)]
    return [[(-reach, 0), (reach, y), (reach, y + 2 * step)] for y in rows], [[(-reach, 0), (reach // 2, y + step // 2), (reach // 2, y + step)] for y in rows]


def diamonds_at_one_tip(rng: random.Random, count: int, reach: int) -> Both:
    """Diamonds in one another that all have one tip and two carriers: many lines of one carrier with ends everywhere."""
    diamonds = min(count // 4, 1000)
    step = max(1, reach // (diamonds + 1))
    return with_triangles(rng, [[(-reach, 0), (-reach + s, -s), (-reach + 2 * s, 0), (-reach + s, s)] for s in range(reach, step, -step)][:diamonds], count, reach)


def hourglass(rng: random.Random, count: int, reach: int) -> Both:
    """Long quadrangles that are turned over in the middle: all lines cross in one point."""
    lines = min(count // 4, reach)
    return in_turn([[(-reach, 2 * k - lines), (reach, lines - 2 * k), (reach, lines - 2 * k - 1), (-reach, 2 * k + 1 - lines)] for k in range(lines)])


def many_pencils(rng: random.Random, count: int, reach: int) -> Both:
    """Lines through some thirty points."""
    rings = []
    for _ in range(min(count // 3, 400)):
        x, y = (rng.randrange(-3, 4) * (reach // 8) for _ in "xy")
        dx, dy = around(0.4 * reach, rng.random() * math.pi)
        rings.append([(x + dx, y + dy), (x - dx, y - dy), (x - dx + 1, y - dy)])
    return with_triangles(rng, rings, count, reach)


def one_pixel_corners(rng: random.Random, count: int, reach: int) -> Both:
    """Two bundles that cut a corner of the middle pixel, all lines of each through one point: no two of them cross in that pixel."""
    rings, lines = [], min(count // 3, 200)
    for number in range(lines):
        by, (over_x, over_y), slope = ((5, (2, 3), rng.uniform(1.02, 1.05)), (7, (4, 2), rng.uniform(0.90, 0.97)))[number % 2]
        x = -rng.randint(reach // 16, max(1, reach // 8))
        y = round(-x * slope)
        end = over_x - (by - 1) * x, over_y - (by - 1) * y
        rings.append([(x, y), end, (end[0] + 1, end[1]) if rng.random() < 0.5 else (x - 1, y)])
    return with_triangles(rng, rings, count, reach)


# Long and many.

def tight_stack(rng: random.Random, count: int, reach: int) -> Both:
    """Rectangles across the whole width, one unit high and one unit apart."""
    rows = min(count // 4, reach)
    return [rectangle(-reach + rng.randrange(9), -rows + 2 * k, 2 * reach - 20, 1) for k in range(rows)], [rectangle(-reach // 2, -rows, reach, rows)]


def tight_diagonals(rng: random.Random, count: int, reach: int) -> Both:
    """Quadrangles along the diagonal, one unit apart."""
    lines = min(count // 4, reach // 4)
    ends = [(-reach + lines, -reach + 2 * k, reach - 3 * lines, reach - 4 * lines + 2 * k) for k in range(lines)]
    return [[(x, y), (v, w), (v, w + 1), (x, y + 1)] for x, y, v, w in ends], [rectangle(-reach, -reach, min(1000, reach), min(1000, reach))]


def tall_saw(rng: random.Random, count: int, reach: int) -> Both:
    """A saw of teeth as high as the plane and one unit wide."""
    teeth = min(count // 2, reach)
    saw = [(k - teeth, -reach + 10 if k % 2 else reach) for k in range(2 * teeth)]
    return [saw + [(teeth, -reach), (-teeth, -reach)]], [rectangle(-teeth, -3, 2 * teeth, 5)]


def two_saws(rng: random.Random, count: int, reach: int) -> Both:
    """Two saws that cross at every tooth."""
    teeth, high = max(2, count // 4), min(1000, reach)
    step = max(4, 2 * reach // (teeth + 2))
    upper = [(-reach + k * step, high if k % 2 else -high) for k in range(teeth)]
    lower = [(-reach + k * step + step // 3, -high * 9 // 10 if k % 2 else high * 9 // 10) for k in range(teeth)]
    return [upper + [(upper[-1][0], reach), (-reach, reach)]], [lower + [(lower[-1][0], -reach), (-reach, -reach)]]


def flat_zigzag(rng: random.Random, count: int, reach: int) -> Both:
    """Across the whole width and one up, again and again."""
    turns = max(2, min(count, 2 * reach))
    return [[(-reach + rng.randrange(5) if k % 2 else reach - rng.randrange(5), k - turns // 2) for k in range(turns)]], [rectangle(-5, -turns, 10, 2 * turns)]


def zigzag_in_a_row(rng: random.Random, count: int, reach: int) -> Both:
    """The same within 40 rows, so that it comes back onto itself."""
    turns, reach_of_it = max(2, min(count, 600)), min(reach, 1 << 12)
    ring = [(-reach_of_it + rng.randrange(50) if k % 2 else reach_of_it - rng.randrange(50), 7 * k % 40) for k in range(turns)]
    return with_triangles(rng, [ring, rectangle(-5, -turns, 10, 2 * turns)], count, reach)


def tight_needles(rng: random.Random, count: int, reach: int) -> Both:
    """Lying and standing needles of the whole width that all cross within some thousand units."""
    needles = min(count // 6, 300)
    lying = [[(-reach, 5 * k), (reach, 5 * k + rng.randrange(3)), (reach, 5 * k + 4)] for k in range(needles)]
    return lying + far_triangles(rng, count - 6 * needles, reach), [turned_over(ring) for ring in lying]


def tangents(rng: random.Random, count: int, reach: int) -> Both:
    """Tangents of a parabola: every pair crosses."""
    lines, rings = max(1, min(count // 3, 350)), []
    for k in range(lines):
        slope = (2 * k - lines) / lines
        low, high = (round(slope * x - reach * slope * slope / 2) for x in (-reach // 2, reach // 2))
        rings.append([(-reach // 2, low), (reach // 2, high), (reach // 2, high + 1)])
    return with_triangles(rng, rings, count, reach)


def wide_bundle(rng: random.Random, count: int, reach: int) -> Both:
    """Lines across the whole width with ends anywhere in a few rows: they cross anywhere, at slopes near 0."""
    lines = max(1, min(count // 3, 500))
    return with_triangles(rng, [[(-reach, rng.randrange(lines)), (reach, rng.randrange(lines)), (reach, rng.randrange(lines))] for _ in range(lines)], count, reach)


def walls(rng: random.Random, count: int, reach: int) -> Both:
    """Standing needles side by side, and a small ring on top between any two: what lies below it is a whole column."""
    columns = max(1, count // 8)
    step = max(8, 2 * reach // (columns + 1))
    return [rectangle(-reach + k * step, -reach, 2, 2 * reach) for k in range(columns)], [rectangle(-reach + k * step + 3, reach - 9, 3, 3) for k in range(columns)]


def large_and_small(rng: random.Random, count: int, reach: int) -> Both:
    """A few rectangles across the whole width, and small squares between them."""
    rows = max(1, min(math.isqrt(count), 300))
    step = max(8, 2 * reach // (rows + 1))
    squares = [rectangle(spot(rng, reach, 9), -reach + rng.randrange(rows) * step + 5, 5, 5) for _ in range(count // 4 - rows)]
    return [rectangle(-reach, -reach + k * step, 2 * reach, 2) for k in range(rows)] + squares, [rectangle(-reach, -reach, reach, reach)]


def confetti(rng: random.Random, count: int, reach: int, left: int = -1, right: int = 1) -> Rings:
    """Small triangles anywhere in some part of the width."""
    return [triangle(rng.randint(left * reach, max(left * reach, right * reach - 10)), spot(rng, reach, 10), 3) for _ in range(count // 3)]


def confetti_on_diagonals(rng: random.Random, count: int, reach: int) -> Both:
    """Long diagonals side by side, and small triangles between them: no cut by an axis parts the diagonals."""
    lines = max(1, count // 8)
    step = max(4, reach // lines)
    rows = [-reach + k * step for k in range(min(lines, reach // step + 1))]
    return [[(-reach, y), (0, y + reach), (0, y + reach + 1), (-reach, y + 1)] for y in rows], confetti(rng, count // 2, reach, right=0)


def confetti_on_slopes(rng: random.Random, count: int, reach: int) -> Both:
    """The same with lines that rise by a third."""
    lines = max(1, count // 8)
    step = max(4, reach // lines)
    rows = [-reach + k * step for k in range(min(lines, reach // step + 1))]
    return [[(-reach, y), (reach, y + 2 * reach // 3), (reach, y + 2 * reach // 3 + 1), (-reach, y + 1)] for y in rows], confetti(rng, count // 2, reach)


def confetti_on_rows(rng: random.Random, count: int, reach: int) -> Both:
    """The same with lying lines."""
    lines = max(1, count // 8)
    step = max(4, 2 * reach // (lines + 1))
    return [rectangle(-reach, -reach + k * step, 2 * reach, 1) for k in range(lines)], confetti(rng, count // 2, reach)


def confetti_at_a_pencil(rng: random.Random, count: int, reach: int) -> Both:
    """Slanted slivers from one tip, which for long fit into one pixel, and small triangles beside them there."""
    lines = max(1, min(count // 6, reach // 4))
    along = max(1, 2 * reach // (2 * lines + 2))
    slivers = [[(-reach, -reach // 3), (reach, reach // 3 + 1 + 2 * k), (reach, reach // 3 + 2 + 2 * k)] for k in range(lines)]
    steps = [rng.randrange(along) for _ in range(count // 6)]
    return slivers, [triangle(-reach + step, -reach // 3 + step // 3 + rng.choice((-5, -4, 4, 5)), 2) for step in steps]


# On one carrier, and nearly.

def to_and_fro(rng: random.Random, count: int, reach: int) -> Both:
    """One ring of at most 1,000 points that goes to and fro on one line, each time a little less far."""
    points = max(3, min(count, 1000, reach))
    ring = [(reach - k // 2, 0) if k % 2 else (k // 2, 0) for k in range(points)]
    return [ring] + far_triangles(rng, count - points, reach), []


def rectangles_on_one_base(rng: random.Random, count: int, reach: int) -> Both:
    """Rectangles of different widths and heights on one base."""
    rectangles = max(1, min(count // 4, 400, reach - 1))
    return with_triangles(rng, [rectangle(-reach + k, 0, 2 * (reach - k), k + 1) for k in range(rectangles)], count, reach)


def flat_rings_on_a_diagonal(rng: random.Random, count: int, reach: int) -> Both:
    """Rings without area on the diagonal, each in the middle of the one before it."""
    rings = max(1, min(count // 2, 400, reach - 1))
    return with_triangles(rng, [[(-k, -k), (k, k), (k, k)] for k in range(reach, reach - rings, -1)], count, reach)


def deep_row(rng: random.Random, count: int, reach: int) -> Both:
    """Rings without area anywhere on one row, over one another."""
    return with_triangles(rng, [[(spot(rng, reach), 0) for _ in range(3)] for _ in range(max(1, min(count // 3, 1000)))], count, reach)


def deep_column(rng: random.Random, count: int, reach: int) -> Both:
    """The same on one column."""
    return turn_over(deep_row(rng, count, reach))


def deep_slope(rng: random.Random, count: int, reach: int) -> Both:
    """The same on forty lines that rise by a third, one unit apart."""
    rings = []
    for number in range(max(1, min(count // 3, 2000))):
        rings.append([(3 * at, at + number % 40) for at in (spot(rng, reach // 3) for _ in range(3))])
    return with_triangles(rng, rings, count, reach)


def short_row(rng: random.Random, count: int, reach: int) -> Both:
    """Short rings without area on one row."""
    return in_turn([[(x, 0), (x + rng.randrange(1, 99), 0), (x + rng.randrange(1, 99), 0)] for x in (spot(rng, reach, 100) for _ in range(max(1, count // 3)))])


def piled_row(rng: random.Random, count: int, reach: int) -> Both:
    """Rings without area on one row, each ten times as long as their distance."""
    rings = max(1, min(count // 3, 20_000))
    step = max(2, 2 * reach // (rings + 12))
    return in_turn([[(-reach + k * step, 0), (-reach + (k + 10) * step, 0), (-reach + (k + 5) * step, 0)] for k in range(rings)])


def clustered_row(rng: random.Random, count: int, reach: int) -> Both:
    """Short collinear segments, end to end in one small place, and two outliers: one stretch has them all."""
    step = max(1, min(9, reach // max(1, count)))
    rings = [[(3 * k * step, k * step), (3 * (k + 1) * step, (k + 1) * step), (3 * k * step, k * step + 1)] for k in range(max(1, count // 3))]
    return rings + [triangle(-reach, -reach, 2)], [triangle(reach - 2, reach - 2, 2)]


def two_columns(rng: random.Random, count: int, reach: int) -> Both:
    """All vertices on two far columns."""
    rings = [[(-reach, spot(rng, reach)), (reach, spot(rng, reach))] * 2 for _ in range(max(1, min(count // 4, 100)))]
    return with_triangles(rng, [[(x, spot(rng, reach)) for x, _ in ring] for ring in rings], count, reach)


def two_near_columns(rng: random.Random, count: int, reach: int) -> Both:
    """All vertices on two columns beside each other."""
    step = max(2, 2 * reach // (count // 4 + 1))
    return [[(0, y), (1, y + 1), (1, y + step // 2), (0, y + step // 3)] for y in range(-reach, reach - step, step)], [rectangle(0, -reach, 1, 2 * reach)]


def one_narrow_column(rng: random.Random, count: int, reach: int) -> Both:
    """Small rectangles over one another in a column of three units."""
    rows = max(1, count // 4)
    step = max(4, 2 * reach // (rows + 2))
    return [rectangle(rng.randrange(3), -reach + k * step, 2, step // 2) for k in range(rows)], [rectangle(1, -reach, 1, 2 * reach)]


def brush(rng: random.Random, count: int, reach: int) -> Both:
    """Twenty slivers in one row, and small triangles that touch it."""
    along = min(reach, max(1000, count))
    hairs = max(1, count // 3 - 20)
    step = max(4, 2 * along // hairs)
    return [[(-along + k, 0), (along - k, 1), (along - k, 0)] for k in range(20)], [triangle(-along + k * step, rng.randrange(-1, 2), 2) for k in range(hairs)]


def shifted_triangles(rng: random.Random, count: int, reach: int) -> Both:
    """One triangle, shifted by a unit each time: long common parts of sides."""
    triangles, side = max(1, min(count // 3, 700)), min(3000, reach)
    return with_triangles(rng, [triangle(k, 2 * k, side) for k in range(triangles)], count, reach)


# Hot pixels one after another.

def hot_chain(rng: random.Random, count: int, reach: int) -> Both:
    """A long flat line, and small triangles on it, and just beside it."""
    triangles = max(1, count // 3)
    along = min(reach, 4 * triangles)

    def near(x: int, y: int, by: int) -> Point:
        return x + rng.randrange(by), y + rng.randrange(-1, 2)

    rings = [[near(x, (x + along) // 7, 1), near(x + 1, (x + along) // 7, 3), near(x + 1, (x + along) // 7, 3)] for x in range(-along, along, 8)]
    return rings, [[(-along, y), (along, y + 2 * along // 7), (along, y + 2 * along // 7 + 1 + y)] for y in (0, 1)]


def cascade(rng: random.Random, count: int, reach: int) -> Both:
    """Bundles of slivers, a thousand units long, that rounding merges."""
    rings: Rings = []
    while 3 * len(rings) < count:
        x, y, rise = spot(rng, reach, 1100), spot(rng, reach, 500), rng.choice((0, 1, 333, 17))
        starts = [(x, y), (x + 1000, y + rise), (x + 1000, y + rise)]
        rings += [[(u + rng.randrange(4), v + rng.randrange(4)) for u, v in starts] for _ in range(8)]
    return in_turn(rings)


def stairs(rng: random.Random, count: int, reach: int) -> Both:
    """Two long stairs of unit steps, beside each other."""
    steps = max(1, min(count // 4, reach // 2))
    lower = [p for k in range(steps) for p in ((k, k), (k + 1, k))] + [(steps, steps), (steps, 2 * steps), (-9, 2 * steps), (-9, 0)]
    upper = [p for k in range(steps) for p in ((k, k + 1), (k, k + 2))] + [(steps, steps + 1), (2 * steps, steps + 1), (2 * steps, -9), (0, -9)]
    return [lower], [upper]


def dense_chords(rng: random.Random, count: int, reach: int) -> Both:
    """Triangles in a square so small that all pixels are hot."""
    triangles = max(1, min(count // 3, 2000))
    size = max(6, math.isqrt(triangles // 2))
    return with_triangles(rng, [[(rng.randrange(size), rng.randrange(size)) for _ in range(3)] for _ in range(triangles)], count, reach)


def dense_and_short(rng: random.Random, count: int, reach: int) -> Both:
    """Short triangles in a square where all pixels are hot."""
    size = max(6, math.isqrt(count // 3))
    places = [(rng.randrange(size), rng.randrange(size)) for _ in range(max(1, count // 3))]
    return in_turn([[(x + rng.randrange(-3, 4), y + rng.randrange(-3, 4)) for _ in range(3)] for x, y in places])


# Rings.

def square_spiral(rng: random.Random, count: int, reach: int) -> Both:
    """A ring that is wound up."""
    turns = max(1, count // 8)
    step = max(2, reach // (turns + 2) // 2)
    sides = [reach - 2 * k * step for k in range(turns) if reach - 2 * k * step > 4 * step]

    def wind(by: int) -> Ring:
        return [p for d in (side - by for side in sides) for p in ((-d, -d), (d, -d), (d, d), (-d + 2 * step, d))]

    return [wind(0) + wind(step)[::-1]], [rectangle(-reach // 2, -reach // 2, reach, reach)]


def round_spiral(rng: random.Random, count: int, reach: int) -> Both:
    """The same, round."""
    points = max(3, count // 2)
    turns = max(2, math.isqrt(points) // 3)

    def at(k: int, inner: int) -> Point:
        return around(0.98 * reach * (k + 5) / (points + 5) * (1 - 0.5 * inner / turns), 2 * math.pi * turns * k / points)

    return [[at(k, 0) for k in range(points)] + [at(k, 1) for k in reversed(range(points))]], [rectangle(-reach // 2, -reach // 2, reach, reach)]


def windmills(rng: random.Random, count: int, reach: int) -> Both:
    """Squares in one another, each turned a little."""
    radius = max(1, min(4000, reach // 2))
    squares = min(count // 4, 250 * (reach // radius) ** 2)
    rings: Rings = []
    while len(rings) < squares:
        x, y = (rng.randint(radius - reach, reach - radius) for _ in "xy")
        for turn in range(25):
            corners = [around(radius * 0.87 ** turn, 0.3 * turn + corner * math.pi / 2) for corner in range(4)]
            rings.append([(x + dx, y + dy) for dx, dy in corners])
    return rings + far_triangles(rng, count - 4 * len(rings), reach), rings[::7]


def holes_of_holes(rng: random.Random, count: int, reach: int) -> Both:
    """A grid of squares five deep."""
    columns = max(1, math.isqrt(count // 20))
    step = 2 * reach // (columns + 1)
    deep = [rectangle(deep * step // 11, deep * step // 11, step * (10 - 2 * deep) // 11, step * (10 - 2 * deep) // 11) for deep in range(5)]
    places = [(-reach + i * step, -reach + j * step) for i in range(columns) for j in range(columns)]
    return [[(x + dx, y + dy) for dx, dy in ring] for x, y in places for ring in deep], [rectangle(-reach, -reach, reach, 2 * reach)]


def holes_in_a_chain(rng: random.Random, count: int, reach: int) -> Both:
    """Diamonds tip to tip across a shell."""
    diamonds = max(1, count // 4)
    size = max(1, reach // (diamonds + 1))
    starts = range(-reach, reach - 2 * size, 2 * size)
    chain = [[(x, 0), (x + size, -size), (x + 2 * size, 0), (x + size, size)] for x in starts]
    return [rectangle(-reach, -reach, 2 * reach, 2 * reach)] + chain, [rectangle(-reach // 2, -reach // 2, reach, reach)]


def holes_over_a_stack(rng: random.Random, count: int, reach: int) -> Both:
    """Flat rings over one another, and small holes of a shell far above them all."""
    rows = max(1, count // 8)
    step, apart = max(4, reach // (rows + 2)), 2 * reach // (rows + 2)
    flat = [rectangle(-reach + k % 7, -reach + k * step, 2 * reach - 20, step // 2) for k in range(rows)]
    return flat + [rectangle(-reach, 2, 2 * reach, reach - 9)] + [rectangle(-reach + (k + 1) * apart, 10, max(2, apart // 2), 50) for k in range(rows)], []


def chess(rng: random.Random, count: int, reach: int) -> Both:
    """Squares that touch at their corners."""
    columns = max(2, math.isqrt(count // 2))
    side = max(1, 2 * reach // (columns + 2))
    squares = [rectangle(-reach + i * side, -reach + j * side, side, side) for i in range(columns) for j in range(columns) if (i + j) % 2 == 0]
    return squares, [rectangle(-reach + side // 2, -reach + side // 2, reach, reach)]


def bricks(rng: random.Random, count: int, reach: int) -> Both:
    """Bricks whose long sides share parts."""
    columns = max(2, math.isqrt(count // 4))
    wall = [rectangle(20 * i + 7 * (j % 3), 10 * j, 20, 10) for i in range(columns) for j in range(columns)]
    return wall, [rectangle(33 * i + 3, 5 * (i % 40), 31, 400) for i in range(columns)]


def some_copies(rng: random.Random, count: int, reach: int) -> Both:
    """A few large rings again and again, some of which cancel, and small ones that cancel in part."""
    large = [rectangle(-reach // 2, -reach // 3, reach, reach), triangle(0, 0, reach // 2), [(0, 0), (reach, 3), (reach // 2, reach)]]
    small = [rectangle(k % 50 * 7, k // 50 * 7, 14, 7) for k in range(min(count // 8, 6000))]
    return [rng.choice(large) for _ in range(max(1, count // 8))] + small, small[::3]


def unit_walk(rng: random.Random, count: int, reach: int) -> Both:
    """A closed walk of unit steps."""
    x, y, ring = 0, 0, []
    for _ in range(max(3, count)):
        ring.append((x, y))
        dx, dy = rng.choice(((1, 0), (0, 1), (-1, 0), (0, -1), (1, 1), (-1, -1)))
        x, y = x + dx, y + dy
    return [ring], [rectangle(-20, -20, 40, 40)]


def long_walk(rng: random.Random, count: int, reach: int) -> Both:
    """Two closed walks of steps of some hundred units."""

    def walk(x: int = 0, y: int = 0) -> Iterator[Point]:
        for _ in range(max(3, count // 2)):
            yield x, y
            x, y = x + rng.randint(-100, 100), y + rng.randint(-100, 100)

    return [list(walk())], [list(walk())]


def rings_on_the_limit(rng: random.Random, count: int, reach: int) -> Both:
    """Long triangles with corners on the border of what coordinates reach, and small ones there."""

    def corner() -> Point:
        border = rng.choice((-reach, reach))
        return (border, spot(rng, reach)) if rng.random() < 0.5 else (spot(rng, reach), border)

    rings = [[corner(), corner(), corner()] for _ in range(max(1, min(count // 3, 150)))]
    at = [spot(rng, reach, 10) for _ in range(count // 3 - len(rings))]
    return in_turn(rings + [[(x, reach), (x + rng.randrange(1, 9), reach), (x, reach - rng.randrange(1, 9))] for x in at])


def lines_through_a_cluster(rng: random.Random, count: int, reach: int) -> Both:
    """Small quadrangles in a dense place, long lines through it, and two outliers."""
    columns, lines = max(1, math.isqrt(count // 8)), min(count // 100, 60)

    def near(x: int, y: int) -> Point:
        return x + rng.randint(0, 6), y + rng.randint(0, 6)

    def layer(by: int) -> Rings:
        places = [(x, y) for x in range(by, by + 16 * columns, 16) for y in range(by, by + 16 * columns, 16)]
        return [[near(x, y), near(x + 9, y), near(x + 9, y + 9), near(x, y + 9)] for x, y in places]

    tips = [around(0.9 * reach, math.pi * (k + 0.01) / lines) for k in range(lines)]
    return layer(0) + [triangle(-reach, -reach, 9)], layer(7) + [[(x, y), (-x, -y), (1 - x, -y)] for x, y in tips]


def snowflake(rng: random.Random, count: int, reach: int) -> Both:
    """Koch's curve."""
    points = [(-0.8 * reach, -0.4 * reach), (0, 0.9 * reach), (0.8 * reach, -0.4 * reach)]
    while 4 * len(points) <= count:
        finer = []
        for (px, py), (qx, qy) in zip(points, points[1:] + points[:1]):
            dx, dy = (qx - px) / 3, (qy - py) / 3
            finer += [(px, py), (px + dx, py + dy), (px + 1.5 * dx - 0.866 * dy, py + 1.5 * dy + 0.866 * dx), (px + 2 * dx, py + 2 * dy)]
        points = finer
    return [[(round(x), round(y)) for x, y in points]], [rectangle(-reach // 2, -reach // 2, reach, reach)]


def of_map(make: maps.Kind, most: int = limits.MOST_SEGMENTS) -> Kind:
    """A kind of another measurement, stretched to the reach, with at most so many segments."""

    def kind(rng: random.Random, count: int, reach: int) -> Both:
        first, second = ([ring for rings in polygons for ring in rings] for polygons in make(rng, max(64, min(count, most))))
        farthest = max((abs(c) for ring in first + second for p in ring for c in p), default=1) or 1

        def stretched(rings: Rings) -> Rings:
            return [[(x * reach // farthest, y * reach // farthest) for x, y in ring] for ring in rings]

        return stretched(first), stretched(second)

    kind.__doc__ = make.__doc__
    return kind


def of_layer(make: layers.Kind, most: int) -> Kind:
    """A kind of one layer twice, stretched to the reach, with at most so many segments."""
    both = of_map(lambda rng, count: (make(rng, count // 2 + 2), make(rng, count // 2 + 2)), most)
    both.__doc__ = make.__doc__
    return both


def of_count(make: Callable[[int], Polygons], of: Callable[[int], int]) -> Kind:
    """A kind of one layer of so many things, stretched to the reach."""
    kind = of_map(lambda rng, count: (make(of(count)), []))
    kind.__doc__ = make.__doc__
    return kind


OWN: tuple[Kind, ...] = (
    star_tips, farey_fan, farey_triangles, slivers_at_one_tip, steep_pencil, shells_at_one_tip, diamonds_at_one_tip, hourglass, many_pencils, one_pixel_corners,
    tight_stack, tight_diagonals, tall_saw, two_saws, flat_zigzag, zigzag_in_a_row, tight_needles, tangents, wide_bundle, walls, large_and_small,
    confetti_on_diagonals, confetti_on_slopes, confetti_on_rows, confetti_at_a_pencil,
    to_and_fro, rectangles_on_one_base, flat_rings_on_a_diagonal, deep_row, deep_column, deep_slope, short_row, piled_row, clustered_row,
    two_columns, two_near_columns, one_narrow_column, brush, shifted_triangles,
    hot_chain, cascade, stairs, dense_chords, dense_and_short,
    square_spiral, round_spiral, windmills, holes_of_holes, holes_in_a_chain, holes_over_a_stack, chess, bricks, some_copies, unit_walk, long_walk,
    rings_on_the_limit, lines_through_a_cluster, snowflake,
)
# Those with their greatest number of segments: lines that are nearly one have a record for each pixel that is hot anywhere on them.
OF_MAPS = {"stars": 30_000}
OF_LAYERS = (
    (layers.coincident, 600), (layers.near_a_line, 6_000), (layers.near_many_pixels, 6_000), (layers.on_halves, 20_000), (layers.spikes, 1_000),
    (layers.flat, 600), (layers.cactus, 20_000), (layers.upright, 2_000),
)
OF_LIMITS = {
    "fan": (limits.fan, lambda count: max(3, count // 3)), "flower": (limits.flower, lambda count: max(2, count // 3)),
    "wheel": (limits.wheel, lambda count: max(3, min(count, 20_000) // 4)), "star": (limits.star, lambda count: max(5, min(count, 500) | 1)),
    "grid_of_triangles": (limits.grid_of_triangles, lambda count: max(2, min(count // 3, 400))),
    "nested_on_a_line": (limits.nested_on_a_line, lambda count: max(1, min(count // 4, 500))),
}
KINDS: dict[str, Kind] = {
    **{kind.__name__: kind for kind in OWN},
    **{name.replace(" ", "_"): of_map(make, OF_MAPS.get(name, limits.MOST_SEGMENTS)) for name, make in maps.KINDS.items()},
    **{make.__name__: of_layer(make, most) for make, most in OF_LAYERS},
    **{name: of_count(make, of) for name, (make, of) in OF_LIMITS.items()},
}


def within(ring: Ring, reach: int) -> Ring:
    return [(max(-reach, min(reach, x)), max(-reach, min(reach, y))) for x, y in ring]


def made(kind: str, count: int, reach: int) -> Pair:
    """Two layers of polygons, always the same ones."""
    rng = random.Random("%s %d %d" % (kind, count, reach))
    first, second = ([[within(ring, reach)] for ring in rings if len(ring) >= 3] for rings in KINDS[kind](rng, count, reach))
    return first, second


def segments(polygons: Polygons) -> int:
    """The number of segments of a layer."""
    return sum(p != q for rings in polygons for ring in rings for p, q in zip(ring, ring[1:] + ring[:1]))


def write(kind: str, count: int, reach: int, files: Iterable[str]) -> None:
    """Writes both layers; answers nothing, since it runs in a process of its own."""
    for name, polygons in zip(files, made(kind, count, reach)):
        with open(name, "w") as file:
            file.write(layers.text_of(polygons))
