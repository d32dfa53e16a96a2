"""Whether an answer's polygons lie on the grid, and their edges share ends alone: exactly, by looking at all edges that stand in one cell."""
from __future__ import annotations

from collections.abc import Iterator

from .shapes import Polygon

Point = tuple[int, int]
Edge = tuple[Point, Point]
DECIMALS, NODED = "decimals", "noded"


def edges_of(polygons: list[Polygon]) -> list[Edge]:
    """The different edges of polygons on the grid, each with its lesser end first."""
    rings = [[(int(x), int(y)) for x, y in ring] for rings in polygons for ring in rings]
    pairs = {(min(pair), max(pair)) for ring in rings for pair in zip(ring, ring[1:] + ring[:1])}
    return sorted(pair for pair in pairs if pair[0] != pair[1])


def side(p: Point, q: Point, r: Point) -> int:
    """Above 0 where r lies to the left of the line from p to q, below where to the right."""
    return (q[0] - p[0]) * (r[1] - p[1]) - (q[1] - p[1]) * (r[0] - p[0])


def are_apart(e: Edge, f: Edge) -> bool:
    """Whether the boxes of two edges have no common point."""
    lows, highs = sorted((e[0][1], e[1][1])), sorted((f[0][1], f[1][1]))
    return e[1][0] < f[0][0] or f[1][0] < e[0][0] or lows[1] < highs[0] or highs[1] < lows[0]


def cross(e: Edge, f: Edge) -> bool:
    """Whether two different edges share a point that isn't an end of both."""
    (p, q), (r, s) = e, f
    of_r, of_s, of_p, of_q = side(p, q, r), side(p, q, s), side(r, s, p), side(r, s, q)
    if of_r * of_s < 0 and of_p * of_q < 0:
        return True
    on_first = any(not at and p < end < q for at, end in ((of_r, r), (of_s, s)))
    return on_first or any(not at and r < end < s for at, end in ((of_p, p), (of_q, q)))


def cells(edge: Edge, width: int) -> Iterator[Point]:
    """The cells of this width that the box of an edge has points of."""
    columns, rows = (sorted(end[axis] // width for end in edge) for axis in (0, 1))
    return ((x, y) for x in range(columns[0], columns[1] + 1) for y in range(rows[0], rows[1] + 1))


def crossings(edges: list[Edge]) -> int:
    """How many pairs of different edges cross."""
    extents = [max(abs(p[axis] - q[axis]) for axis in (0, 1)) for p, q in edges]
    width, kept, found = 1 + 2 * sum(extents) // max(1, len(edges)), dict[Point, list[int]](), set[tuple[int, int]]()
    for number, edge in enumerate(edges):
        for cell in cells(edge, width):
            beside = kept.setdefault(cell, [])
            found |= {(other, number) for other in beside if not are_apart(edges[other], edge) and cross(edges[other], edge)}
            beside.append(number)
    return len(found)


def told(polygons: list[Polygon]) -> str:
    """`decimals` where a coordinate isn't whole, else `noded`, or how many pairs of edges cross."""
    if any(not number.is_integer() for rings in polygons for ring in rings for point in ring for number in map(float, point)):
        return DECIMALS
    count = crossings(edges_of(polygons))
    return "crossings: %d" % count if count else NODED
