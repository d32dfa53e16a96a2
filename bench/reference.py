#!/usr/bin/env python3
"""The exact reference of `overlay`: every rule of docs/RULES.md as it is defined, in whole numbers and fractions.

    reference.py COMMAND A B [--tile N] [--workers N] [--report] [--areas] [--points N]

The command line, the texts, the faults and the report are the program's; the standard library is enough. Nothing here is fast, and
nothing is the product's algorithm: all pairs are crossed, every hot pixel is tried on every segment, every edge is asked at
every side point. What the theorems say is asserted on every run: edges are noded, degrees are even, rings close. With --points
the parity of that many random rational points is compared too, over the edges of the result and over the rings of its text.
"""
from __future__ import annotations

import random
import re
import sys
from collections import Counter
from collections.abc import Callable, Iterable, Sequence
from dataclasses import dataclass
from fractions import Fraction
from functools import cmp_to_key

# A rational point is (X, Y, N), a segment has the number of its layer, an edge goes from p to q, with p before q where it has no direction.
Point = tuple[int, int]
Rational = tuple[int, int, int]
Ring = list[Point]
Polygon = list[Ring]
Segment = tuple[Point, Point, int]
Edge = tuple[Point, Point]
Bounds = tuple[Point, Point] | None
# How often an edge occurs in either layer; the parities in both layers at its left and at its right side point.
Counts = dict[Edge, list[int]]
Parities = dict[Edge, tuple[tuple[bool, bool], tuple[bool, bool]]]
Operation = Callable[[bool, bool], bool]

COORDINATE_LIMIT = 1 << 28
TEXT_LIMIT = 268_435_456
SEGMENT_LIMIT = 1_048_576
LEAST_SIDE, GREATEST_SIDE, LEAST_FITTING_SIDE = 16, 33_554_432, 262_144
TILE_LIMIT = 65_536
WORKER_LIMIT = 64
SIDE_POINT_SCALE = 1 << 64

OPERATIONS: dict[str, Operation] = {
    "union": lambda a, b: a or b,
    "intersection": lambda a, b: a and b,
    "difference": lambda a, b: a and not b,
    "symdifference": lambda a, b: a != b,
}
COMMANDS = ("edges", *OPERATIONS)
WORDS = {
    0: "layer too long",
    1: "syntax at %d",
    2: "number out of range at %d",
    3: "short ring at %d",
    4: "open ring at %d",
    5: "too many segments: %d",
    6: "bad tile side",
    7: "bad number of workers",
    8: "too many tiles: %d",
    12: "too many ids: %d",
}


class Fault(Exception):
    """A refusal: its number, the offset or the count that it tells, and the layer that is at fault (None for the run)."""

    def __init__(self, number: int, *told: int, layer: str | None = None) -> None:
        super().__init__(number, told)
        self.number, self.told, self.layer = number, told, layer

    def line(self) -> str:
        where = "%s: " % self.layer if self.layer else ""
        return "overlay: %s%d %s\n" % (where, self.number, WORDS[self.number] % self.told)


# ---- Layer texts: the grammar as an expression over bytes, turned into an automaton (Thompson 1968). Every state of it can
# ---- reach the end, so a front begins some layer exactly where some state is left after it.


@dataclass(frozen=True)
class OneOf:
    characters: frozenset[int]


@dataclass(frozen=True)
class InTurn:
    parts: tuple[Expression, ...]


@dataclass(frozen=True)
class Either:
    parts: tuple[Expression, ...]


@dataclass(frozen=True)
class Many:
    part: Expression


Expression = OneOf | InTurn | Either | Many


def sequence(*parts: Expression) -> Expression:
    return InTurn(parts)


def either(*parts: Expression) -> Expression:
    return Either(parts)


def many(part: Expression) -> Expression:
    return Many(part)


def one_of(characters: Iterable[int]) -> Expression:
    return OneOf(frozenset(characters))


def word(letters: str) -> Expression:
    return sequence(*[one_of({ord(c), ord(c.lower())}) for c in letters])


def listed(part: Expression) -> Expression:
    return sequence(one_of(b"("), SPACE, part, many(sequence(SPACE, one_of(b","), SPACE, part)), SPACE, one_of(b")"))


def geometry(name: str, body: Expression) -> Expression:
    return either(sequence(word(name), SPACE, body), sequence(word(name), GAP, word("EMPTY")))


BLANK, DIGIT = one_of(b" \t\r\n"), one_of(b"0123456789")
SPACE = many(BLANK)
GAP = sequence(BLANK, SPACE)
NUMBER = sequence(either(sequence(), one_of(b"-")), DIGIT, many(DIGIT))
BODY = listed(listed(sequence(NUMBER, GAP, NUMBER)))
GEOMETRY = either(geometry("POLYGON", BODY), geometry("MULTIPOLYGON", listed(BODY)))
LAYER = either(SPACE, sequence(SPACE, GEOMETRY, many(sequence(GAP, GEOMETRY)), SPACE))


class Automaton:
    """Sets of states are named as they are met; bytes that lead from a set to itself are passed in one go."""

    def __init__(self, expression: Expression) -> None:
        self.silent: list[list[int]] = []
        self.steps: list[list[tuple[frozenset[int], int]]] = []
        self.start, self.end = self.state(), self.state()
        self.build(expression, self.start, self.end)
        self.sets: list[frozenset[int]] = []
        self.names: dict[frozenset[int], int] = {}
        self.next: list[dict[int, int]] = []
        self.loops: list[re.Pattern[bytes] | None] = []
        self.first = self.name(self.closure({self.start}))

    def state(self) -> int:
        self.silent.append([])
        self.steps.append([])
        return len(self.silent) - 1

    def build(self, expression: Expression, start: int, end: int) -> None:
        if isinstance(expression, OneOf):
            self.steps[start].append((expression.characters, end))
        elif isinstance(expression, InTurn):
            for part in expression.parts:
                middle = self.state()
                self.build(part, start, middle)
                start = middle
            self.silent[start].append(end)
        elif isinstance(expression, Either):
            for part in expression.parts:
                self.build(part, start, end)
        else:
            middle = self.state()
            self.silent[start].append(middle)
            self.build(expression.part, middle, middle)
            self.silent[middle].append(end)

    def closure(self, states: set[int]) -> frozenset[int]:
        todo, seen = list(states), set(states)
        while todo:
            for state in self.silent[todo.pop()]:
                if state not in seen:
                    seen.add(state)
                    todo.append(state)
        return frozenset(seen)

    def name(self, states: frozenset[int]) -> int:
        if states not in self.names:
            self.names[states] = len(self.sets)
            self.sets.append(states)
            self.next.append({})
            self.loops.append(None)
        return self.names[states]

    def move(self, at: int, byte: int) -> int:
        row = self.next[at]
        if byte not in row:
            after = {end for state in self.sets[at] for accepted, end in self.steps[state] if byte in accepted}
            row[byte] = self.name(self.closure(after)) if after else -1
        return row[byte]

    def loop(self, at: int) -> re.Pattern[bytes]:
        """The expression of the bytes that lead back to this set."""
        known = self.loops[at]
        if known is None:
            same = bytes(byte for byte in range(256) if self.move(at, byte) == at)
            known = self.loops[at] = re.compile(b"[" + re.escape(same) + b"]*" if same else b"")
        return known

    def longest_front(self, text: bytes) -> int | None:
        """The length of the longest front that some accepted text begins with; None where the text is accepted."""
        at, place = self.first, 0
        while True:
            passed = self.loop(at).match(text, place)
            assert passed is not None, "no byte too is passed"
            place = passed.end()
            if place == len(text):
                return None if self.end in self.sets[at] else place
            after = self.move(at, text[place])
            if after < 0:
                return place
            at, place = after, place + 1


GRAMMAR = Automaton(LAYER)
TOKEN = re.compile(rb"-?[0-9]+|[(),]")


def number_value(token: bytes) -> int | None:
    """The value of a token of any length, or None outside the limit."""
    digits = token.lstrip(b"-").lstrip(b"0")
    if len(digits) > 12 or int(digits or b"0") > COORDINATE_LIMIT:
        return None
    return -int(digits or b"0") if token[:1] == b"-" else int(digits or b"0")


def read_tokens(text: bytes) -> tuple[list[tuple[int, Ring]], int | None]:
    """The rings of an accepted text, each with the offset of its parenthesis, and the offset of the first number out of range."""
    rings: list[tuple[int, list[int]]] = []
    opened = 0
    ring: list[int] | None = None
    out_of_range: int | None = None
    for token in TOKEN.finditer(text):
        if token.group() == b"(":
            opened, ring = token.start(), None
        elif token.group() not in (b")", b","):
            if ring is None:
                ring = []
                rings.append((opened, ring))
            value = number_value(token.group())
            if value is None and out_of_range is None:
                out_of_range = token.start()
            ring.append(value or 0)  # a text with a number out of range is refused, and its rings aren't looked at
    return [(at, list(zip(ring[::2], ring[1::2]))) for at, ring in rings], out_of_range


def read_layer(text: bytes) -> list[Ring]:
    """The rings, as lists of points as they are written."""
    if len(text) > TEXT_LIMIT:
        raise Fault(0)
    place = GRAMMAR.longest_front(text)
    if place is not None:
        raise Fault(1, place)
    rings, out_of_range = read_tokens(text)
    if out_of_range is not None:
        raise Fault(2, out_of_range)
    for at, ring in rings:
        if len(ring) < 4:
            raise Fault(3, at)
        if ring[0] != ring[-1]:
            raise Fault(4, at)
    return [ring for _, ring in rings]


def segments_of(rings: Iterable[Ring], layer: int) -> list[Segment]:
    return [(a, b, layer) for ring in rings for a, b in zip(ring, ring[1:]) if a != b]


# ---- Points, pixels, routes. A segment is (a, b, layer), an edge (p, q) with p before q, a rational point (X, Y, N).


def determinant(u: Point, v: Point) -> int:
    return u[0] * v[1] - u[1] * v[0]


def minus(p: Point, q: Point) -> Point:
    return (p[0] - q[0], p[1] - q[1])


def pixel(z: Rational) -> Point:
    x, y, n = z
    return ((2 * x + n) // (2 * n), (2 * y + n) // (2 * n))


def common_point(s: Segment | Edge, t: Segment | Edge) -> Rational | None:
    """The common point of two segments that aren't parallel."""
    d, e = minus(s[1], s[0]), minus(t[1], t[0])
    n = determinant(d, e)
    if n == 0:
        return None
    w = minus(t[0], s[0])
    m, k = determinant(w, e), determinant(w, d)
    if n < 0:
        n, m, k = -n, -m, -k
    if not (0 <= m <= n and 0 <= k <= n):
        return None
    z = (s[0][0] * n + m * d[0], s[0][1] * n + m * d[1])
    assert z == (t[0][0] * n + k * e[0], t[0][1] * n + k * e[1])
    return (*z, n)


def hot_pixels(segments: Sequence[Segment]) -> set[Point]:
    """The ends, and the pixel of the common point of every two segments that aren't parallel."""
    hot = {p for s in segments for p in s[:2]}
    for i, s in enumerate(segments):
        for t in segments[:i]:
            z = common_point(s, t)
            if z is not None:
                hot.add(pixel(z))
    return hot


def parameters(s: Segment, c: Point) -> tuple[int, int] | None:
    """The parameters of the points of s with pixel c, from and to, as numerators over one denominator; None where there are none.

    On either axis they are those from where s enters the pixel's closed side to where it leaves by the open one, or the
    other way round. Over |dx dy| doubled all four are whole.
    """
    d = minus(s[1], s[0])
    whole = 2 * (abs(d[0]) or 1) * (abs(d[1]) or 1)
    low, low_belongs, high, high_belongs = 0, True, whole, True
    for axis in (0, 1):
        offset = c[axis] - s[0][axis]
        if d[axis] == 0:
            if offset != 0:
                return None
            continue
        scale = whole // (2 * d[axis])
        near, near_belongs, far, far_belongs = (2 * offset - 1) * scale, True, (2 * offset + 1) * scale, False
        if d[axis] < 0:
            near, near_belongs, far, far_belongs = far, far_belongs, near, near_belongs
        if near > low or (near == low and not near_belongs):
            low, low_belongs = near, near_belongs
        if far < high or (far == high and not far_belongs):
            high, high_belongs = far, far_belongs
    return (low, high) if low < high or (low == high and low_belongs and high_belongs) else None


def route(s: Segment, hot: Iterable[Point]) -> list[Point]:
    """The hot pixels that s meets, along it; also asserts that their columns and rows are in order."""
    a, b, _ = s
    (left, right), (bottom, top) = sorted((a[0], b[0])), sorted((a[1], b[1]))
    met = []
    for c in hot:
        if left - 1 <= c[0] <= right + 1 and bottom - 1 <= c[1] <= top + 1:
            found = parameters(s, c)
            if found is not None:
                assert left <= c[0] <= right and bottom <= c[1] <= top
                met.append((found, c))
    met.sort()
    assert all(i[1] <= j[0] for (i, _), (j, _) in zip(met, met[1:])), "parameters overlap"
    pixels = [c for _, c in met]
    assert pixels[0] == a and pixels[-1] == b, "a route from end to end"
    backward = b < a
    rises = (a[1] >= b[1]) if backward else (b[1] >= a[1])
    by_column = sorted(pixels, key=lambda c: (c[0], c[1] if rises else -c[1]))
    assert pixels == (by_column[::-1] if backward else by_column), "the order of columns and rows"
    return pixels


def rounded_edges(segments: Sequence[Segment], routes: Iterable[list[Point]]) -> Counts:
    """How often each rounded edge occurs in either layer."""
    counts: Counts = {}
    for s, pixels in zip(segments, routes):
        for c, d in zip(pixels, pixels[1:]):
            counts.setdefault((c, d) if c < d else (d, c), [0, 0])[s[2]] += 1
    return counts


def share_more_than_an_end(e: Edge, f: Edge) -> bool:
    ends = set(e) & set(f)
    if determinant(minus(e[1], e[0]), minus(f[1], f[0])) != 0:
        z = common_point(e, f)
        return z is not None and not (z[0] % z[2] == 0 and z[1] % z[2] == 0 and (z[0] // z[2], z[1] // z[2]) in ends)
    if determinant(minus(e[1], e[0]), minus(f[0], e[0])) != 0:
        return False
    low, high = max(e[0], f[0]), min(e[1], f[1])
    return low < high or (low == high and low not in ends)


def are_noded(edges: Iterable[Edge]) -> bool:
    boxed = [(e, min(e[0][1], e[1][1]), max(e[0][1], e[1][1])) for e in sorted(edges)]
    for i, (e, bottom, top) in enumerate(boxed):
        for f, low, high in boxed[i + 1:]:
            if f[0][0] > e[1][0]:
                break
            if low <= top and high >= bottom and share_more_than_an_end(e, f):
                return False
    return True


# ---- Parity, and the edges of a result


def parity(edges: Iterable[Edge], z: Rational) -> bool:
    """Whether the number of edges that cover the point's place on the x axis and run above it is odd."""
    x, y, n = z
    column = x // n  # c n <= x exactly where c <= column
    covering = [e for e in edges if e[0][0] <= column < e[1][0]]
    return sum((qx - px) * (y - py * n) < (qy - py) * (x - px * n) for (px, py), (qx, qy) in covering) % 2 == 1


def side_points(u: Point, v: Point) -> tuple[Rational, Rational]:
    """The points just left and just right of the middle, over a denominator of 2^64."""
    dx, dy = minus(v, u)
    mx, my = (u[0] + v[0]) * (SIDE_POINT_SCALE // 2), (u[1] + v[1]) * (SIDE_POINT_SCALE // 2)
    return (mx - dy, my + dx, SIDE_POINT_SCALE), (mx + dy, my - dx, SIDE_POINT_SCALE)


def odd_edges(counts: Counts) -> list[list[Edge]]:
    return [[e for e in counts if counts[e][layer] % 2] for layer in (0, 1)]


def side_parities(counts: Counts) -> Parities:
    """For each edge the parities in both layers at its left and at its right side point."""
    first, second = odd_edges(counts)

    def at(z: Rational) -> tuple[bool, bool]:
        return parity(first, z), parity(second, z)

    sides = {e: side_points(*e) for e in counts}
    return {e: (at(left), at(right)) for e, (left, right) in sides.items()}


def result_edges(parities: Parities, operation: Operation) -> list[Edge]:
    """The directed edges that have the result on their left and not on their right, ascending."""
    directed = []
    for (p, q), (left, right) in parities.items():
        is_left, is_right = operation(*left), operation(*right)
        if is_left != is_right:
            directed.append((p, q) if is_left else (q, p))
    return sorted(directed)


def twice_area(directed: Iterable[Edge]) -> int:
    """Twice the area that directed edges bound on their left."""
    return sum(px * qy - py * qx for (px, py), (qx, qy) in directed)


# ---- Rings, holes, polygons


def first_clockwise(u: Point, v: Point, near: Iterable[Point]) -> Point:
    """The first of `near` that is met when turning clockwise round v from u; u itself comes last, after a whole turn."""
    back = minus(u, v)

    def quarter(w: Point) -> int:
        d = minus(w, v)
        turn, along = determinant(back, d), back[0] * d[0] + back[1] * d[1]
        if turn:
            return 0 if turn < 0 else 2
        return 1 if along < 0 else 3

    def compare(w: Point, x: Point) -> int:
        return quarter(w) - quarter(x) or determinant(minus(w, v), minus(x, v))

    return min(near, key=cmp_to_key(compare))


def cycles(directed: Iterable[Edge]) -> list[Ring]:
    """The rings that the next edges make, as lists of points, from their least edges."""
    edges = set(directed)
    near: dict[Point, set[Point]] = {}
    for u, v in edges:
        assert (v, u) not in edges, "an edge in both directions"
        near.setdefault(u, set()).add(v)
        near.setdefault(v, set()).add(u)
    following = {(u, v): (v, first_clockwise(u, v, near[v])) for u, v in edges}
    assert set(following.values()) == edges, "the next edges are the edges"
    found: list[Ring] = []
    seen: set[Edge] = set()
    for e in sorted(edges):
        ring: Ring = []
        while e not in seen:
            seen.add(e)
            ring.append(e[0])
            e = following[e]
        if ring:
            assert len(ring) >= 3
            found.append(ring)
    return found


def least_rotation(ring: Ring) -> Ring:
    return min(ring[i:] + ring[:i] for i in range(len(ring)))


def ring_edges(ring: Ring) -> list[Edge]:
    return list(zip(ring, ring[1:] + ring[:1]))


def is_hole(ring: Ring) -> bool:
    """Whether it turns left at a corner of its least vertex."""
    v = min(ring)
    corners = zip(ring[-1:] + ring[:-1], ring, ring[1:] + ring[:1])
    return any(w == v and determinant(minus(u, v), minus(x, v)) > 0 for u, w, x in corners)


def nearest_below(edges: Iterable[tuple[Point, Point, int]], z: Rational) -> int:
    """The number of the ring of the nearest edge that covers z's place and runs below it; asserts an even cover."""
    x, y, n = z
    best: tuple[Fraction, int] | None = None
    cover = 0
    for p, q, ring in edges:
        if p[0] * n <= x < q[0] * n:
            cover += 1
            height = p[1] + Fraction((q[1] - p[1]) * (x - p[0] * n), (q[0] - p[0]) * n)
            assert height != Fraction(y, n), "an edge through the point beside a hole's least vertex"
            if height < Fraction(y, n) and (best is None or height > best[0]):
                best = (height, ring)
    assert best is not None and cover % 2 == 0, "a hole without an edge below"
    return best[1]


def owners(rings: list[Ring]) -> tuple[list[bool], list[int]]:
    """Which rings are holes, and for each ring the number of the shell that owns it."""
    hole = [is_hole(ring) for ring in rings]
    edges = [(min(u, v), max(u, v), i) for i, ring in enumerate(rings) for u, v in ring_edges(ring)]
    below: dict[int, int] = {}
    for i, ring in enumerate(rings):
        if hole[i]:
            v = min(ring)
            z = (v[0] * SIDE_POINT_SCALE - 1, v[1] * SIDE_POINT_SCALE, SIDE_POINT_SCALE)
            assert parity([e[:2] for e in edges], z), "the result lies left of a hole"
            below[i] = nearest_below(edges, z)
            assert min(rings[below[i]]) < v, "the ring below begins before"

    def owner(i: int) -> int:
        while hole[i]:
            i = below[i]
        return i

    return hole, [owner(i) for i in range(len(rings))]


def pieces(cycle: Ring) -> list[Ring]:
    """The pieces of a cycle read from its least rotation: the first place whose point stood before ends a piece, which is taken out."""
    left = least_rotation(cycle)
    found: list[Ring] = []
    while len(set(left)) < len(left):
        end = next(j for j, p in enumerate(left) if p in left[:j])
        start = left.index(left[end])
        found.append(left[start:end])
        left = left[:start] + left[end:]
    found.append(left)
    assert all(len(piece) >= 3 for piece in found)
    return found


def first_piece(cycle: Ring, found: list[Ring]) -> int:
    """The piece with the edge that arrives at the least vertex by the greatest angle."""
    v = min(cycle)
    arrivals = [u for u, w in ring_edges(cycle) if w == v]
    best = arrivals[0]
    for u in arrivals[1:]:
        if determinant(minus(best, v), minus(u, v)) > 0:
            best = u
    (number,) = [i for i, piece in enumerate(found) if (best, v) in ring_edges(piece)]
    return number


def polygons(directed: Iterable[Edge]) -> list[Polygon]:
    """The polygons in their order, each a list of rings, the shell first."""
    rings = cycles(directed)
    hole, owner = owners(rings)
    found: dict[int, tuple[list[Ring], list[Ring]]] = {}
    for i, ring in enumerate(rings):
        cut = pieces(ring)
        first = None if hole[i] else first_piece(ring, cut)
        shell, holes = found.setdefault(owner[i], ([], []))
        for j, piece in enumerate(cut):
            (shell if j == first else holes).append(least_rotation(piece))
    assert all(len(shell) == 1 for shell, _ in found.values())
    return sorted([shell[0], *sorted(holes)] for shell, holes in found.values())


# ---- Tiles, texts, runs


class Grid:
    """The tiles over the bounds, and refusal 8."""

    def __init__(self, bounds: Bounds, side: int) -> None:
        self.bounds, self.side, self.columns, self.rows = bounds, side, 0, 0
        if bounds:
            (left, bottom), (right, top) = bounds
            self.columns, self.rows = (right - left) // side + 1, (top - bottom) // side + 1
        self.tiles = self.columns * self.rows

    def tile_of(self, p: Point) -> int:
        assert self.bounds is not None, "no layer has a point"
        (left, bottom), _ = self.bounds
        return (p[1] - bottom) // self.side * self.columns + (p[0] - left) // self.side


def fitting_side(bounds: Bounds) -> int:
    """The side where none is given: the least power of two, from 262,144 on, that doesn't give too many tiles."""
    side = LEAST_FITTING_SIDE
    while Grid(bounds, side).tiles > TILE_LIMIT:
        side *= 2
    return side


def bounds_of(points: Iterable[Point]) -> Bounds:
    points = list(points)
    if not points:
        return None
    columns, rows = [p[0] for p in points], [p[1] for p in points]
    return (min(columns), min(rows)), (max(columns), max(rows))


def ring_text(ring: Ring) -> str:
    return "(" + ", ".join("%d %d" % p for p in ring + ring[:1]) + ")"


def result_text(found: list[Polygon]) -> str:
    if not found:
        return "MULTIPOLYGON EMPTY\n"
    return "MULTIPOLYGON (" + ", ".join("(" + ", ".join(map(ring_text, polygon)) + ")" for polygon in found) + ")\n"


def edges_text(counts: Counts) -> str:
    return "".join("%d %d %d %d %d %d\n" % (*p, *q, *counts[p, q]) for p, q in sorted(counts))


class Arranged:
    """The two layers up to their rounded edges; the fault where they are refused."""

    def __init__(self, a: bytes, b: bytes, side: int | None = None, workers: int = 4) -> None:
        if side is not None and not LEAST_SIDE <= side <= GREATEST_SIDE:
            raise Fault(6)
        if not 1 <= workers <= WORKER_LIMIT:
            raise Fault(7)
        layers: list[list[Segment]] = []
        for number, text in enumerate((a, b)):
            try:
                layers.append(segments_of(read_layer(text), number))
            except Fault as fault:
                fault.layer = "AB"[number]
                raise
        self.sizes = [len(layer) for layer in layers]
        self.segments = layers[0] + layers[1]
        if len(self.segments) > SEGMENT_LIMIT:
            raise Fault(5, len(self.segments))
        self.bounds = bounds_of(p for s in self.segments for p in s[:2])
        self.refuse_tiles(side)
        self.round()

    def refuse_tiles(self, side: int | None) -> None:
        if side is not None and Grid(self.bounds, side).tiles > TILE_LIMIT:
            raise Fault(8, Grid(self.bounds, side).tiles)

    def round(self) -> None:
        self.hot = hot_pixels(self.segments)
        self.routes = [route(s, self.hot) for s in self.segments]
        self.counts = rounded_edges(self.segments, self.routes)
        self.parities: Parities | None = None
        assert are_noded(self.counts), "rounded edges share more than ends"
        for edges in odd_edges(self.counts):
            degrees = Counter(p for e in edges for p in e)
            assert all(degree % 2 == 0 for degree in degrees.values()), "an odd degree"

    def bounding(self, operation: Operation) -> list[Edge]:
        if self.parities is None:
            self.parities = side_parities(self.counts)
        return result_edges(self.parities, operation)

    def directed(self, command: str) -> list[Edge]:
        return self.bounding(OPERATIONS[command])

    def areas(self, command: str) -> str:
        """Twice the areas of both layers, by parity, and of the result; and how many steps the routes of either layer have."""
        operations: list[Operation] = [lambda a, b: a, lambda a, b: b, OPERATIONS[command]]
        areas = [twice_area(self.bounding(operation)) for operation in operations]
        steps = [sum(len(pixels) - 1 for s, pixels in zip(self.segments, self.routes) if s[2] == layer) for layer in (0, 1)]
        return "area2 %d %d %d\nsteps %d %d\n" % (*areas, *steps)

    def text(self, command: str) -> str:
        if command == "edges":
            return edges_text(self.counts)
        return result_text(polygons(self.directed(command)))

    def report(self, side: int | None = None) -> str:
        grid = Grid(self.bounds, side or fitting_side(self.bounds))
        hot, records = [0] * grid.tiles, [0] * grid.tiles
        for c in self.hot:
            hot[grid.tile_of(c)] += 1
        for pixels in self.routes:
            for c in pixels:
                records[grid.tile_of(c)] += 1
        lines = ["segments %d %d" % tuple(self.sizes), "hot %d" % len(self.hot), "records %d" % sum(records), "edges %d" % len(self.counts),
                 "tiles %d" % grid.tiles, "remade 0"]
        lines += ["tile %d %d %d" % numbers for numbers in zip(range(grid.tiles), hot, records)]
        return "".join(line + "\n" for line in lines)

    def try_points(self, command: str, count: int, rng: random.Random) -> None:
        """Parities at random rational points off the edges: of the layers, of the edges of the result, of the rings of its text."""
        (first, second), result = odd_edges(self.counts), [(min(e), max(e)) for e in self.directed(command)]
        written = [(min(e), max(e)) for ring in read_layer(self.text(command).encode()) for e in zip(ring, ring[1:])]
        spots = sorted(self.hot) or [(0, 0)]
        for _ in range(count):
            n = rng.choice([1, 2, 3, 4, 7, 16, 97, 1000])
            c = rng.choice(spots)
            z = (c[0] * n + rng.randint(-2 * n, 2 * n), c[1] * n + rng.randint(-2 * n, 2 * n), n)
            expected = OPERATIONS[command](parity(first, z), parity(second, z))
            if not any(is_on(e, z) for e in self.counts):
                assert parity(result, z) == parity(written, z) == expected, z


def is_on(e: Edge, z: Rational) -> bool:
    (px, py), (qx, qy) = e
    x, y, n = z
    if (qx - px) * (y - py * n) != (qy - py) * (x - px * n):
        return False
    return px * n <= x <= qx * n and min(py, qy) * n <= y <= max(py, qy) * n


# ---- The program

USAGE = "usage: reference.py <union|intersection|difference|symdifference|edges> A B [--tile N] [--workers N] [--report] [--areas] [--points N]\n"


class Refused(Exception):
    """A command line that isn't accepted."""


def request(words: Iterable[str]) -> tuple[list[str], dict[str, int], set[str]]:
    numbers: dict[str, int] = {}
    free: list[str] = []
    flags: set[str] = set()
    left, plain = list(words), False
    while left:
        name = left.pop(0)
        if plain or not name.startswith("-") or name == "-":
            free.append(name)
        elif name == "--":
            plain = True
        elif name in ("--report", "--areas") and name not in flags:
            flags.add(name)
        else:
            name, equals, value = name.partition("=")
            if name not in ("--tile", "--workers", "--points") or name in numbers or not (equals or left):
                raise Refused("unexpected " + name)
            value = value if equals else left.pop(0)
            if not re.fullmatch(r"\+?[0-9]{1,4000}", value) or int(value) > 4294967295:
                raise Refused("not a number from 0 to 4294967295: " + value)
            numbers[name] = int(value)
    if len(free) != 3:
        raise Refused("a command and two files are wanted")
    if "--areas" in flags and free[0] == "edges":
        raise Refused("edges have no areas")
    return free, numbers, flags


def load(name: str, layer: str) -> bytes:
    try:
        with open(name, "rb") as file:
            return file.read(TEXT_LIMIT + 1)
    except OSError:
        sys.exit("overlay: %s: cannot read" % layer)


def main(words: list[str]) -> int:
    try:
        (command, *files), numbers, flags = request(words)
    except Refused as refused:
        sys.stderr.write("%s\n%s" % (refused, USAGE))
        return 2
    if command not in COMMANDS:
        sys.stderr.write("overlay: unknown command\n")
        return 2
    side = numbers.get("--tile")
    try:
        a, b = (load(name, layer) for name, layer in zip(files, "AB"))
        arranged = Arranged(a, b, side, numbers.get("--workers", 4))
    except Fault as fault:
        sys.stderr.write(fault.line())
        return 3
    if command != "edges":
        arranged.try_points(command, numbers.get("--points", 0), random.Random(1))
    sys.stdout.write(arranged.text(command))
    sys.stdout.flush()
    if "--report" in flags:
        sys.stderr.write(arranged.report(side))
    if "--areas" in flags:
        sys.stderr.write(arranged.areas(command))
    return 0


if __name__ == "__main__":
    sys.exit(main(sys.argv[1:]))
