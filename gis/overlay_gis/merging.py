"""Rows of faces united without a second rounding: the borders between them are left out, and
nothing moves.

Rows don't overlap, and what lies between two of them is an edge of both, once in each direction.

1. An edge that a group of rows has in both directions is no border of the group, and the polygons
   on its two sides become one.
2. After the edge from u to v comes the first one met when turning clockwise round v from u, so that
   what the group covers lies to the left. The cycles of this rule are cut where they come to a
   vertex again, into rings.
3. The rings of one polygon are a shell, which runs counter-clockwise, and its holes.

Rings and polygons stand in the order of the program's results.
"""

from __future__ import annotations

from bisect import bisect_left
from dataclasses import dataclass
from itertools import chain
from typing import Iterable, Iterator, Sequence

import numpy as np

from .columns import Columns, Mask, Numbers, offsets
from .faults import Fault
from .program import DOUBT, PROGRAM

# Coordinates of the grid are from -LEAST to LEAST, and a number of so many bits when LEAST is
# added.
LEAST, BITS = 1 << 28, 30

# Whether a way goes to the left or straight down, whether it is upright, and its slope.
Way = tuple[bool, bool, int]


@dataclass(frozen=True)
class Groups:
    """Row rows[k] belongs to group groups[k]; a row may belong to several groups, of which there
    are `count`."""

    rows: Numbers
    groups: Numbers
    count: int

    def sums(self, numbers: Numbers) -> Numbers:
        """The sum of the numbers of each group's rows."""
        made = np.zeros(self.count, np.int64)
        np.add.at(made, self.groups, numbers[self.rows])
        return made


@dataclass(frozen=True)
class Edges:
    """Directed edges: the numbers of their ends in the order of points; the group, and the polygon
    of a row, on their left."""

    first: Numbers
    second: Numbers
    group: Numbers
    polygon: Numbers

    def chosen(self, which: Numbers | Mask) -> Edges:
        return Edges(self.first[which], self.second[which], self.group[which], self.polygon[which])


def merged(shapes: Columns[Numbers], groups: Groups) -> Columns[Numbers]:
    """What the rows of each group cover together, a feature for each group; `shapes` are the
    polygons of all rows."""
    points, ends = np.unique(((shapes.x + LEAST) << BITS) + shapes.y + LEAST, return_inverse=True)
    x, y = (points >> BITS) - LEAST, (points & ((1 << BITS) - 1)) - LEAST
    edges = edges_of(shapes, ends, groups)
    kept, owners = bordering(edges)
    following = followers(kept, x, y)
    firsts = kept.first.tolist()
    rings = list(chain.from_iterable(pieces(cycle, firsts) for cycle in cycles(following.tolist())))
    return assembled(rings, kept, owners, x, y, groups.count)


def edges_of(shapes: Columns[Numbers], ends: Numbers, groups: Groups) -> Edges:
    """The edges of all rows of all groups, those of a row as often as it has groups."""
    begins = np.ones(len(ends), bool)
    begins[shapes.rings[1:] - 1] = False  # each ring's first point is there again
    places = np.flatnonzero(begins)
    held = shapes.rings[shapes.polygons] - shapes.polygons  # where the edges of each polygon begin
    of_row, first = held[shapes.features], shapes.features[:-1][groups.rows]
    counts = np.diff(of_row)[groups.rows]
    chosen = np.arange(counts.sum()) + np.repeat(of_row[:-1][groups.rows] - offsets(counts)[:-1], counts)
    polygon = np.repeat(np.arange(len(shapes.polygons) - 1), np.diff(held))[chosen]
    # a row's polygons in another group are others
    copies = offsets(np.diff(shapes.features)[groups.rows])[:-1] - first
    return Edges(
        ends[places[chosen]],
        ends[places[chosen] + 1],
        np.repeat(groups.groups, counts),
        polygon + np.repeat(copies, counts),
    )


def bordering(edges: Edges) -> tuple[Edges, Numbers]:
    """The edges that a group has in one direction alone, ordered by group and ends; and for each
    polygon the least one that it becomes one with."""
    low, high = np.minimum(edges.first, edges.second), np.maximum(edges.first, edges.second)
    order = np.lexsort((high, low, edges.group))
    twins = np.ones(max(len(order) - 1, 0), bool)
    for ends in (edges.group, low, high):
        twins &= ends[order[:-1]] == ends[order[1:]]
    one, other = order[:-1][twins], order[1:][twins]
    kept = np.ones(len(order), bool)
    kept[one] = kept[other] = False
    pairs = np.unique(np.stack((edges.polygon[one], edges.polygon[other]), axis=1), axis=0)
    rest = edges.chosen(kept)
    owners = united(int(edges.polygon.max(initial=-1)) + 1, pairs.tolist())
    return rest.chosen(np.lexsort((rest.second, rest.first, rest.group))), owners


def united(count: int, pairs: Iterable[Sequence[int]]) -> Numbers:
    """For each of so many things the least one that some pairs join it to."""
    owner = list(range(count))

    def found(k: int) -> int:
        while owner[k] != k:
            owner[k] = owner[owner[k]]
            k = owner[k]
        return k

    for pair in pairs:
        low, high = sorted(map(found, pair))
        owner[high] = low
    return np.array(list(map(found, range(count))), np.int64)


def followers(edges: Edges, x: Numbers, y: Numbers) -> Numbers:
    """The edge that comes after each one."""
    keys = edges.group * len(x) + edges.first
    wanted = edges.group * len(x) + edges.second
    found, ends = np.searchsorted(keys, wanted), np.searchsorted(keys, wanted, "right")
    if (found == ends).any():
        raise Fault(PROGRAM, f"its rows have a border that ends nowhere: {DOUBT}")
    # for the first edge of several that leave a vertex, all of them, by their ways
    turning: dict[int, list[tuple[Way, int]]] = {}
    for k in np.flatnonzero(ends - found > 1).tolist():
        at, first = int(edges.second[k]), int(found[k])
        if first not in turning:
            choices = range(first, int(ends[k]))
            turning[first] = sorted((way(x, y, at, int(edges.second[choice])), choice) for choice in choices)
        ways = turning[first]
        found[k] = ways[bisect_left(ways, (way(x, y, at, int(edges.first[k])), -1)) - 1][1]
    return found


def way(x: Numbers, y: Numbers, at: int, to: int) -> Way:
    """The way from a point to another one; ways ascend as they turn counter-clockwise from straight
    down, which comes last."""
    across, up = int(x[to] - x[at]), int(y[to] - y[at])
    # slopes of two ways differ by more than 1 of these parts
    return (across, up) < (0, 0), across == 0, (up << 2 * BITS) // across if across else 0


def cycles(following: Sequence[int]) -> Iterator[list[int]]:
    """The cycles of edges, each from its first edge on."""
    seen = bytearray(len(following))
    for start in range(len(following)):
        cycle, at = [], start
        while not seen[at]:
            seen[at] = 1
            cycle.append(at)
            at = following[at]
        if cycle:
            yield cycle


def pieces(cycle: list[int], firsts: Sequence[int]) -> Iterator[list[int]]:
    """A cycle cut into rings that visit no vertex twice, each from its least vertex on."""
    if len({firsts[edge] for edge in cycle}) == len(cycle):
        yield cycle
        return
    held: list[int] = []
    places: dict[int, int] = {}
    for edge in cycle:
        at = places.get(firsts[edge], len(held))
        if at < len(held):
            yield from_least(held[at:], firsts)
            for cut in held[at:]:
                del places[firsts[cut]]
            del held[at:]
        places[firsts[edge]] = at
        held.append(edge)
    yield from_least(held, firsts)


def from_least(ring: list[int], firsts: Sequence[int]) -> list[int]:
    """The same ring from its least vertex on."""
    at = min(range(len(ring)), key=lambda k: firsts[ring[k]])
    return ring[at:] + ring[:at]


def assembled(
    rings: Sequence[Sequence[int]], edges: Edges, owners: Numbers, x: Numbers, y: Numbers, count: int
) -> Columns[Numbers]:
    """The polygons of so many groups, which the rings of these edges make."""
    starts = offsets(np.array(list(map(len, rings)), np.int64))
    path = np.fromiter(chain.from_iterable(rings), np.int64, int(starts[-1]))
    ahead = edges.chosen(path[starts[:-1]])  # the first edge of each ring
    vertices, ends = edges.first[path], edges.second[path]
    products = x[vertices] * y[ends] - x[ends] * y[vertices]
    # a ring's sum fits, whatever its parts do
    holes = (np.add.reduceat(products, starts[:-1]) if len(rings) else starts[1:]) < 0
    rank, shells = ranked(ahead, holes, owners)
    placed = np.lexsort((ahead.second, ahead.first, holes, rank))
    points = vertices[closed(starts, placed)]
    return Columns(
        x[points],
        y[points],
        offsets(np.diff(starts)[placed] + 1),
        offsets(np.bincount(rank, minlength=len(shells))),
        offsets(np.bincount(ahead.group[shells], minlength=count)),
        np.arange(count),
    )


def ranked(ahead: Edges, holes: Mask, owners: Numbers) -> tuple[Numbers, Numbers]:
    """For each ring, of which the first edge is given, the place of its polygon among all; and the
    shells in that order."""
    owner = owners[ahead.polygon]
    order = np.lexsort((ahead.second, ahead.first, ahead.group))
    shells = order[~holes[order]]
    places = np.full(len(owners), -1)
    places[owner[shells]] = np.arange(len(shells))
    rank = places[owner]
    if len(np.unique(owner)) != len(shells) or (rank < 0).any():
        raise Fault(PROGRAM, f"its rows don't fit together: {DOUBT}")
    return rank, shells


def closed(starts: Numbers, placed: Numbers) -> Numbers:
    """The places of the points of some rings, in that order, each ring's first one again at its
    end."""
    lengths = np.diff(starts)[placed]
    more = lengths + 1
    inside = (np.arange(more.sum()) - np.repeat(offsets(more)[:-1], more)) % np.repeat(lengths, more)
    places: Numbers = np.repeat(starts[:-1][placed], more) + inside
    return places
