"""tries the laws of noding_law and points_law, as they are written, on small random cases

The definitions are those of crates/geom/specs, in exact arithmetic and without any short cut. Every law is tried on random
cases, and then with a premise dropped on a case where its conclusion fails. The rounded edges and the result edges are also
compared with those of the exact reference. Exit status 0: all laws held, and every dropped premise made its law fail.
"""
from __future__ import annotations

import argparse
import random
from collections.abc import Callable, Iterable, Iterator, Sequence
from fractions import Fraction
from math import ceil, floor

import reference
from reference import Counts, Edge, Operation, Point, Ring, Segment

Number = int | Fraction
# A rational point, or one with whole coordinates.
Spot = tuple[Number, Number]
Rounding = Callable[[Spot], Point]
# A parameter, and whether the range that it ends is open there.
Bound = tuple[Fraction, bool]
# The edges with an odd count in either layer.
Odd = tuple[list[Edge], list[Edge]]
# What contradicts a law; None where nothing does.
Broken = str | None

HALF = Fraction(1, 2)
K = 2**64
OPS: dict[str, Operation] = {
    "union": lambda a, b: a or b,
    "intersection": lambda a, b: a and b,
    "difference": lambda a, b: a and not b,
    "symdifference": lambda a, b: a != b,
}


# ---- points, pixels, segments. A segment is (a, b, layer), an edge (p, q) with p before q.


def determinant(dx: Number, dy: Number, ex: Number, ey: Number) -> Number:
    return dx * ey - dy * ex


def turn(a: Spot, b: Spot, c: Spot, d: Spot) -> Number:
    return determinant(b[0] - a[0], b[1] - a[1], d[0] - c[0], d[1] - c[1])


def side(c: Spot, e: Spot, h: Spot) -> Number:
    return turn(c, e, c, h)


def pixel(z: Spot) -> Point:
    return floor(z[0] + HALF), floor(z[1] + HALF)


def point_at(a: Spot, b: Spot, t: Fraction) -> Spot:
    return a[0] + t * (b[0] - a[0]), a[1] + t * (b[1] - a[1])


def common_points(a: Point, b: Point, c: Point, d: Point) -> tuple[Fraction, Fraction] | None:
    """The parameters on a, b from which and to which it shares points with c, d; None where it shares none."""
    k = turn(a, b, c, d)
    if k != 0:
        t = Fraction(turn(a, c, c, d), k)
        u = Fraction(turn(a, c, a, b), k)
        return (t, t) if 0 <= t <= 1 and 0 <= u <= 1 else None
    if side(a, b, c) != 0:
        return None
    axis = 0 if a[0] != b[0] else 1
    ends = sorted(Fraction(p[axis] - a[axis], b[axis] - a[axis]) for p in (c, d))
    low, high = max(ends[0], Fraction(0)), min(ends[1], Fraction(1))
    return (low, high) if low <= high else None


def hot_pixels(segments: Sequence[Segment], rounded: Rounding = pixel) -> set[Point]:
    hot = {s[0] for s in segments} | {s[1] for s in segments}
    for s in segments:
        for t in segments:
            if turn(s[0], s[1], t[0], t[1]) != 0:
                shared = common_points(s[0], s[1], t[0], t[1])
                if shared:
                    hot.add(rounded(point_at(s[0], s[1], shared[0])))
    return hot


def parameters(s: Segment, c: Point) -> tuple[Bound, Bound] | None:
    """The parameters of the points of s with pixel c, as ((low, open), (high, open)); None where there is none."""
    low, high = (Fraction(0), False), (Fraction(1), False)
    for axis in (0, 1):
        a, d = s[0][axis], s[1][axis] - s[0][axis]
        near, far = c[axis] - HALF, c[axis] + HALF
        if d == 0:
            if not near <= a < far:
                return None
        elif d > 0:
            low = max(low, ((near - a) / d, False))
            high = min(high, ((far - a) / d, True), key=lambda b: (b[0], not b[1]))
        else:
            low = max(low, ((far - a) / d, True))
            high = min(high, ((near - a) / d, False), key=lambda b: (b[0], not b[1]))
    if low[0] > high[0] or (low[0] == high[0] and (low[1] or high[1])):
        return None
    return low, high


def route(s: Segment, hot: Iterable[Point]) -> list[Point]:
    met = [(found, c) for c in hot if (found := parameters(s, c))]
    met.sort(key=lambda m: (m[0][0], m[0][1][0]))
    for (first, _), (second, _) in zip(met, met[1:]):
        assert first[1][0] < second[0][0] or (first[1][0] == second[0][0] and (first[1][1] or second[0][1]))
    return [c for _, c in met]


def edge_of(c: Point, e: Point) -> Edge:
    return (c, e) if c < e else (e, c)


def rounded_edges(segments: Sequence[Segment], rounded: Rounding = pixel) -> Counts:
    """Each rounded edge with its counts in the two layers."""
    hot = hot_pixels(segments, rounded)
    counted: Counts = {}
    for s in segments:
        r = route(s, hot)
        for c, e in zip(r, r[1:]):
            counted.setdefault(edge_of(c, e), [0, 0])[s[2]] += 1
    return counted


def odd_edges(layer: int, counted: Counts) -> list[Edge]:
    return [e for e in sorted(counted) if counted[e][layer] % 2 == 1]


def degree(edges: Iterable[Edge], v: Point) -> int:
    return sum(v in e for e in edges)


def has_even_degrees(edges: Sequence[Edge] | set[Edge]) -> bool:
    return all(degree(edges, v) % 2 == 0 for e in edges for v in e)


def is_noded(edges: Iterable[Edge]) -> bool:
    edges = sorted(edges)
    for i, e in enumerate(edges):
        for f in edges[i + 1 :]:
            shared = common_points(e[0], e[1], f[0], f[1])
            if shared and (shared[0] != shared[1] or not is_common_end(e, f, point_at(e[0], e[1], shared[0]))):
                return False
    return True


def is_common_end(e: Edge, f: Edge, z: Spot) -> bool:
    return z in e and z in f


def are_closed(layer: int, segments: Sequence[Segment]) -> bool:
    points = {p for s in segments for p in s[:2]}
    return all(sum(s[2] == layer and s[0] == v for s in segments) == sum(s[2] == layer and s[1] == v for s in segments) for v in points)


# ---- parity and the result


def covers(e: Edge, z: Spot) -> bool:
    return e[0][0] <= z[0] < e[1][0]


def height(e: Edge, z: Spot) -> Number:
    return side(e[0], e[1], z)


def parity(edges: Iterable[Edge], z: Spot) -> bool:
    return sum(covers(e, z) and height(e, z) < 0 for e in edges) % 2 == 1


def left_side(u: Point, v: Point) -> Spot:
    return Fraction(u[0] + v[0], 2) - Fraction(v[1] - u[1], K), Fraction(u[1] + v[1], 2) + Fraction(v[0] - u[0], K)


def right_side(u: Point, v: Point) -> Spot:
    return left_side(v, u)


def holds_at(op: Operation, odd: Odd, z: Spot) -> bool:
    return op(parity(odd[0], z), parity(odd[1], z))


def odd_in_both(counted: Counts) -> Odd:
    return odd_edges(0, counted), odd_edges(1, counted)


def is_result_edge(op: Operation, odd: Odd, u: Point, v: Point) -> bool:
    return holds_at(op, odd, left_side(u, v)) and not holds_at(op, odd, right_side(u, v))


def directed_edges(op: Operation, counted: Counts) -> list[Edge]:
    odd = odd_in_both(counted)
    both = [d for e in counted for d in (e, (e[1], e[0]))]
    return sorted(d for d in both if is_result_edge(op, odd, *d))


def without_direction(directed: Iterable[Edge]) -> set[Edge]:
    return {edge_of(*d) for d in directed}


# ---- round a vertex


def is_sooner(v: Point, a: Point, b: Point) -> bool:
    if v < a and b < v:
        return True
    return ((v < a and v < b) or (a < v and b < v)) and side(v, a, b) < 0


def is_met_before(v: Point, u: Point, a: Point, b: Point) -> bool:
    ua, ab, bu = is_sooner(v, u, a), is_sooner(v, a, b), is_sooner(v, b, u)
    return (ua and ab) or (ab and bu) or (bu and ua)


def neighbours(directed: Sequence[Edge], v: Point) -> set[Point]:
    return {d[1] for d in directed if d[0] == v} | {d[0] for d in directed if d[1] == v}


def next_points(directed: Sequence[Edge], u: Point, v: Point) -> list[Point]:
    near = neighbours(directed, v)
    return [w for w in near if w != u and all(is_met_before(v, u, w, a) for a in near if a not in (u, w))]


def left_of(v: Point) -> Spot:
    return v[0] - Fraction(1, K), Fraction(v[1])


def nearest_below(directed: Sequence[Edge], z: Spot) -> Edge | None:
    below = [edge_of(*d) for d in directed if covers(edge_of(*d), z) and height(edge_of(*d), z) > 0]
    gap = lambda e: Fraction(height(e, z)) / (e[1][0] - e[0][0])
    return min(below, key=gap) if below else None


def rings_of(directed: Sequence[Edge]) -> list[Ring]:
    """The cycles of the rule; only called where it closes."""
    rings, left = [], set(directed)
    while left:
        u, v = min(left)
        ring = []
        while (u, v) in left:
            left.remove((u, v))
            ring.append(u)
            u, v = v, next_points(directed, u, v)[0]
        rings.append(ring)
    return rings


def cut(ring: Ring) -> list[Ring]:
    """The pieces of a ring: the first place whose point stood earlier ends a piece, which begins there and is taken out."""
    pieces = []
    while len(set(ring)) < len(ring):
        end = next(i for i, v in enumerate(ring) if v in ring[:i])
        start = ring.index(ring[end])
        pieces.append(ring[start:end])
        ring = ring[:start] + ring[end:]
    return pieces + [ring]


def ring_edges(ring: Ring) -> list[Edge]:
    return list(zip(ring, ring[1:] + ring[:1]))


def spans(u: Point, v: Point, z: Spot) -> bool:
    return u[0] <= z[0] < v[0]


def runs_above(u: Point, v: Point, z: Spot) -> bool:
    return side(u, v, z) < 0


def side_above(u: Point, v: Point, z: Spot) -> bool:
    return (spans(u, v, z) and runs_above(u, v, z)) or (spans(v, u, z) and runs_above(v, u, z))


def ring_parity(rings: Sequence[Ring], z: Spot) -> bool:
    return sum(side_above(u, v, z) for ring in rings for u, v in ring_edges(ring)) % 2 == 1


# ---- the laws: each answers what contradicts it, or None


def rounded_edges_are_noded(segments: Sequence[Segment], rounded: Rounding = pixel) -> Broken:
    return None if is_noded(rounded_edges(segments, rounded)) else "two rounded edges share a point that is not a common end"


def rounded_has_even_degrees(segments: Sequence[Segment]) -> Broken:
    counted = rounded_edges(segments)
    for layer in (0, 1):
        if are_closed(layer, segments) and not has_even_degrees(odd_edges(layer, counted)):
            return f"an odd degree in layer {layer}"
    return None


def result_has_parity(op: Operation, counted: Counts, directed: Sequence[Edge], points: Iterable[Spot]) -> Broken:
    result, odd = without_direction(directed), odd_in_both(counted)
    for z in points:
        if parity(result, z) != holds_at(op, odd, z):
            return f"the parity at {z[0]}, {z[1]} differs"
    return None


def text_has_parity(op: Operation, counted: Counts, rings: Sequence[Ring], points: Iterable[Spot]) -> Broken:
    odd = odd_in_both(counted)
    for z in points:
        if ring_parity(rings, z) != holds_at(op, odd, z):
            return f"the parity over the rings at {z[0]}, {z[1]} differs"
    return None


def result_has_even_degrees(directed: Sequence[Edge]) -> Broken:
    return None if has_even_degrees(without_direction(directed)) else "an odd degree in the result"


def result_edges_close(directed: Sequence[Edge]) -> Broken:
    for u, v in directed:
        if (v, u) in directed:
            return f"an edge in both directions at {u}"
        near = neighbours(directed, v)
        if any(a != b and not is_sooner(v, a, b) and not is_sooner(v, b, a) for a in near for b in near):
            return f"two neighbours of {v} in one direction"
        if not any((v, w) in directed for w in next_points(directed, u, v)):
            return f"no edge goes on from {u} to {v}"
    return None


def next_edge_is_one_to_one(directed: Sequence[Edge]) -> Broken:
    for t, v in directed:
        for u, x in directed:
            if x == v and t != u and set(next_points(directed, t, v)) & set(next_points(directed, u, v)):
                return f"two edges to {v} have one next edge"
    return None


def holes_of(directed: Sequence[Edge]) -> Iterator[Ring]:
    for ring in rings_of(directed):
        v = min(ring)
        corners = [(ring[i - 1], ring[i], ring[(i + 1) % len(ring)]) for i in range(len(ring))]
        if any(c[1] == v and side(v, c[0], c[2]) > 0 for c in corners):
            yield ring


def holes_are_grounded(op: Operation, counted: Counts, directed: Sequence[Edge]) -> Broken:
    """Also that the result lies left of the least vertex of each hole."""
    odd = odd_in_both(counted)
    for ring in holes_of(directed):
        v = min(ring)
        if not holds_at(op, odd, left_of(v)):
            return f"the operation fails left of {v}"
        below = nearest_below(directed, left_of(v))
        if below is None or not below[0] < v:
            return f"no edge that begins further left lies below {v}"
    return None


# ---- random cases


def random_rings(rng: random.Random, size: int) -> list[list[Ring]]:
    """One or two rings a layer; every third time the first layer has a frame round them all, so that there are holes."""

    def ring() -> Ring:
        return [(rng.randint(0, size), rng.randint(0, size)) for _ in range(rng.randint(3, 6))]

    layers = [[ring() for _ in range(rng.randint(1, 2))] for _ in (0, 1)]
    if rng.randint(0, 2) == 0:
        low, high = -1, size + 1
        layers[0].append([(low, low), (high, low), (high, high), (low, high)])
    return layers


def segments_of(layers: list[list[Ring]]) -> list[Segment]:
    return [(a, b, layer) for layer in (0, 1) for ring in layers[layer] for a, b in zip(ring, ring[1:] + ring[:1]) if a != b]


def random_segments(rng: random.Random, size: int) -> list[Segment]:

    def point() -> Point:
        return rng.randint(0, size), rng.randint(0, size)

    return [(a, b, rng.randint(0, 1)) for a, b in ((point(), point()) for _ in range(rng.randint(2, 7))) if a != b]


def points_to_try(rng: random.Random, counted: Counts, size: int) -> list[Spot]:
    points: list[Spot] = [(Fraction(rng.randint(-7, 7 * size + 7), 7), Fraction(rng.randint(-5, 5 * size + 5), 5)) for _ in range(6)]
    for e in list(counted)[:4]:
        points += [e[0], left_of(e[1]), left_side(*e), right_side(*e), point_at(e[0], e[1], HALF)]
    return points


def try_case(rng: random.Random, size: int) -> tuple[str, Sequence[Segment]] | None:
    """The first law that a random case contradicts, with the case."""
    free = random_segments(rng, size)
    broken = rounded_edges_are_noded(free) or rounded_has_even_degrees(free)
    if broken:
        return broken, free
    segments = segments_of(random_rings(rng, size))
    counted = rounded_edges(segments)
    points = points_to_try(rng, counted, size)
    if not (are_closed(0, segments) and are_closed(1, segments)):
        return "the segments of rings don't close", segments
    broken = rounded_edges_are_noded(segments) or rounded_has_even_degrees(segments)
    for name in OPS:
        op = OPS[name]
        directed = directed_edges(op, counted)
        broken = broken or result_has_parity(op, counted, directed, points) or result_has_even_degrees(directed)
        broken = broken or result_edges_close(directed) or next_edge_is_one_to_one(directed) or holes_are_grounded(op, counted, directed)
        broken = broken or try_text(op, counted, directed, points)
        broken = broken or compare(segments, counted, name, directed)
    return (broken, segments) if broken else None


def try_text(op: Operation, counted: Counts, directed: Sequence[Edge], points: Iterable[Spot]) -> Broken:
    """The rings of the result, whole and cut, as those of a text."""
    rings = rings_of(directed)
    pieces = [piece for ring in rings for piece in cut(ring)]
    return text_has_parity(op, counted, rings, points) or text_has_parity(op, counted, pieces, points)


def compare(segments: Sequence[Segment], counted: Counts, name: str, directed: Sequence[Edge]) -> Broken:
    hot = reference.hot_pixels(segments)
    theirs = reference.rounded_edges(segments, [reference.route(s, hot) for s in segments])
    if {e: tuple(c) for e, c in theirs.items()} != {e: tuple(c) for e, c in counted.items()}:
        return "the reference has other rounded edges"
    if reference.result_edges(reference.side_parities(theirs), reference.OPERATIONS[name]) != directed:
        return f"the reference has another {name}"
    return None


# ---- with a premise dropped


def unrounded(segments: Iterable[Segment]) -> Counts:
    """The segments themselves as edges with counts."""
    counted: Counts = {}
    for a, b, layer in segments:
        counted.setdefault(edge_of(a, b), [0, 0])[layer] += 1
    return counted


def closed_on_the_right(z: Spot) -> Point:
    """The pixel of z where pixels are closed on the right and bottom sides."""
    return ceil(z[0] - HALF), floor(z[1] + HALF)


def ring(layer: int, *points: Point) -> list[Segment]:
    return [(a, b, layer) for a, b in zip(points, points[1:] + points[:1])]


TWO_SQUARES = ring(0, (0, 0), (2, 0), (2, 2), (0, 2)) + ring(1, (1, 1), (3, 1), (3, 3), (1, 3))
TWO_SEGMENTS = [((2, 3), (1, 4), 0), ((3, 4), (0, 3), 0)]
OPEN_CORNER = [((3, 0), (1, 2), 0), ((2, 3), (1, 2), 1)]
FAR = 2**40
THIN_TRIANGLE = ring(0, (0, 0), (FAR, 1), (FAR - 1, 1))
UNION = OPS["union"]


def near_middle(counted: Counts) -> list[Spot]:
    """Points at and beside the middle of each edge."""
    middles = [point_at(e[0], e[1], HALF) for e in counted]
    beside = [side_of(*e) for e in counted for side_of in (left_side, right_side)]
    between = [point_at(y, z, HALF) for y in middles for z in middles]
    return middles + beside + between + [(Fraction(-1), Fraction(-1))]


def dropped_premises() -> Iterator[tuple[str, Broken]]:
    """Each premise that a law needs, with what its conclusion says of a case that doesn't meet it."""
    squares, corner, thin = unrounded(TWO_SQUARES), unrounded(OPEN_CORNER), unrounded(THIN_TRIANGLE)

    def outside(a: bool, b: bool) -> bool:
        return not a

    def parity_law(op: Operation, counted: Counts) -> Broken:
        return result_has_parity(op, counted, directed_edges(op, counted), near_middle(counted))

    yield "a crossing's pixel closed on the right", rounded_edges_are_noded(TWO_SEGMENTS, closed_on_the_right)
    yield "edges not noded, parity", parity_law(UNION, squares)
    yield "edges not noded, even degrees", result_has_even_degrees(directed_edges(UNION, squares))
    yield "edges not noded, round a vertex", result_edges_close(directed_edges(UNION, squares))
    yield "odd degrees, parity", parity_law(UNION, corner)
    yield "odd degrees, even degrees", result_has_even_degrees(directed_edges(UNION, corner))
    yield "odd degrees, round a vertex", result_edges_close(directed_edges(UNION, corner))
    yield "coordinates far beyond the limit, parity", parity_law(UNION, thin)
    yield "an operation that is true outside both layers, parity", parity_law(outside, thin)
    rounded, either = rounded_edges(TWO_SQUARES), OPS["symdifference"]
    some = rings_of(directed_edges(either, rounded))[1:]
    yield "a ring left out, parity over the rings", text_has_parity(either, rounded, some, near_middle(rounded))
    yield "segments that don't close, even degrees", None if has_even_degrees(odd_edges(0, rounded_edges(TWO_SEGMENTS))) else "an odd degree"


def add_arguments(parser: argparse.ArgumentParser) -> None:
    parser.add_argument("--cases", type=int, default=2000)
    parser.add_argument("--seed", type=int, default=1)


def main(arguments: argparse.Namespace) -> int:
    rng = random.Random(arguments.seed)
    for case in range(arguments.cases):
        contradicted = try_case(rng, rng.randint(2, 7))
        if contradicted:
            print(f"case {case}: {contradicted[0]}: {contradicted[1]}")
            return 1
    print(f"{arguments.cases} cases, seed {arguments.seed}: every law held")
    kept = [premise for premise, broken in dropped_premises() if not broken]
    for premise, broken in dropped_premises():
        print(f"without the premise ({premise}): {broken or 'NOTHING FAILED'}")
    return 1 if kept else 0
