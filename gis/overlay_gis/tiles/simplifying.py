"""Borders with fewer points, the same ones for both sides.

A chain is a border from a point where other than two edges meet to the next such point. A ring
without one begins at its leftmost point, and is fixed at the point farthest from there, too. Of a
chain, Douglas and Peucker's rule keeps points until none is farther than the tolerance from the
straight line between the kept ones round it. All is reckoned in whole numbers, or in floating-point
numbers that don't depend on the way a chain is followed, and of points equally far the leftmost is
taken. So both sides of a chain keep the same points.
"""

from __future__ import annotations

from dataclasses import dataclass

import numpy as np

from ..columns import Columns, Mask, Numbers, gathered, offsets
from .edges import BITS, edges_of, numbered, parts_of
from .engine import rows_for
from .shaping import counting, spread

# How often chains get points back before all do.
TRIES = 12

Points = tuple[Numbers, Numbers, Numbers]  # their coordinates, and their numbers


@dataclass(frozen=True)
class Rings:
    """Rings, each from a joint on, if it has one: the places of their points, where each ring begins
    among them, and which points are joints, or the first or the last of a ring."""

    at: Numbers
    starts: Numbers
    fixed: Mask


def simplified(name: str, shapes: Columns[Numbers], tolerance: float) -> Columns[Numbers]:
    """The same shapes with simpler borders, as far as the program finds nothing wrong with them: chains
    at a fault get all their points back, and all chains do where shapes still overlap then. `name` is
    what is told of where the program refuses."""
    numbers = numbered(shapes.x, shapes.y)
    rings = rings_of(shapes, numbers)
    whole = np.zeros(len(shapes.x), bool)  # the points of chains that get their points back
    for _ in range(TRIES):
        made, places = left_out(shapes, rings, numbers, tolerance, whole)
        faults = faults_of(name, made)
        marked = np.isin(numbers, numbers[places[faults.near(made)]])
        if not (marked & ~whole).any():
            break
        whole |= marked
    return shapes if faults.overlap else made


def rings_of(shapes: Columns[Numbers], numbers: Numbers) -> Rings:
    """The rings of shapes, of whose points these are the numbers."""
    edges, lengths = edges_of(shapes, numbers), shapes.lengths
    pairs = np.unique(edges.pairs)
    meeting = np.bincount(np.concatenate((pairs >> BITS, pairs & (1 << BITS) - 1)), minlength=1)
    joint = meeting[numbers] != 2
    ring = parts_of(shapes.rings)[edges.places]
    order = np.lexsort((numbers[edges.places], ~joint[edges.places], ring))
    first = edges.places[order[offsets(lengths - 1)[:-1]]] - shapes.firsts
    turned = (np.repeat(first, lengths) + counting(lengths)) % np.repeat(lengths - 1, lengths)
    at = np.repeat(shapes.firsts, lengths) + turned
    fixed = joint[at]
    fixed[shapes.firsts] = fixed[shapes.rings[1:] - 1] = True
    alone = np.flatnonzero(gathered(fixed, shapes.rings) == 2)  # which are one point
    fixed[farthest_from_first(shapes, numbers, at, alone)] = True
    return Rings(at, shapes.rings, fixed)


def farthest_from_first(shapes: Columns[Numbers], numbers: Numbers, at: Numbers, rings: Numbers) -> Numbers:
    """For each of some rings the place among `at` of the point that is farthest from its first one."""
    counts = shapes.lengths[rings]
    points = spread(shapes.firsts[rings], counts)
    first = np.repeat(at[shapes.firsts[rings]], counts)
    ways = (shapes.x[at[points]] - shapes.x[first]) ** 2 + (shapes.y[at[points]] - shapes.y[first]) ** 2
    order = np.lexsort((-numbers[at[points]], ways, parts_of(offsets(counts))))
    found: Numbers = points[order[offsets(counts)[1:] - 1]]
    return found


def left_out(
    shapes: Columns[Numbers], rings: Rings, numbers: Numbers, tolerance: float, whole: Mask
) -> tuple[Columns[Numbers], Numbers]:
    """The shapes with fewer points, and the place of each that is left; chains with a point that is
    marked keep all of theirs. A polygon goes whose shell has less than three points then, or a hole."""
    fixed = np.flatnonzero(rings.fixed)
    first, last = fixed[:-1], fixed[1:]
    marked = offsets(whole[rings.at])
    untouched = marked[last + 1] > marked[first]
    kept = rings.fixed.copy()
    kept[spread(first[untouched], (last - first)[untouched])] = True
    points = (shapes.x[rings.at], shapes.y[rings.at], numbers[rings.at])
    keep_far(kept, points, first[~untouched], last[~untouched], tolerance)
    lengths = gathered(kept, rings.starts)
    flat = lengths < 4
    shells = shapes.polygons[:-1]
    gone = flat | np.repeat(flat[shells], np.diff(shapes.polygons))
    kept &= ~np.repeat(gone, np.diff(rings.starts))
    places = rings.at[kept]
    starts = offsets(gathered(kept, rings.starts))
    made = Columns(shapes.x[places], shapes.y[places], starts, shapes.polygons, shapes.features, shapes.ids)
    return made.of_rings(~gone), places


def keep_far(kept: Mask, points: Points, first: Numbers, last: Numbers, tolerance: float) -> None:
    """Marks the points of chains that have to be kept; `points` are the coordinates and the numbers of
    all points, and a chain has those from its first place to its last one."""
    while len(first):
        inner = last - first > 1
        first, last = first[inner], last[inner]
        place, is_far = farthest(points, first, last, tolerance)
        kept[place[is_far]] = True
        first, last = np.concatenate((first[is_far], place[is_far])), np.concatenate((place[is_far], last[is_far]))


def farthest(points: Points, first: Numbers, last: Numbers, tolerance: float) -> tuple[Numbers, Mask]:
    """For each chain, which has a point between its ends, the place of the one that is farthest from
    the straight line between these, and whether that is beyond the tolerance."""
    x, y, numbers = points
    counts = last - first - 1
    place, chain = spread(first + 1, counts), np.repeat(np.arange(len(first)), counts)
    a, b = first[chain], last[chain]
    across, down, px, py = x[b] - x[a], y[b] - y[a], x[place] - x[a], y[place] - y[a]
    square, along = across * across + down * down, px * across + py * down
    length = np.maximum(square, 1).astype(float)
    beside = (across * py - down * px).astype(float) ** 2
    before, behind = (px * px + py * py) * length, ((x[place] - x[b]) ** 2 + (y[place] - y[b]) ** 2) * length
    # squares of distances, each times that of the line's length
    ways = np.where(along <= 0, before, np.where(along >= square, behind, beside))
    top = np.lexsort((-numbers[place], ways, chain))[offsets(counts)[1:] - 1]
    return place[top], ways[top] > tolerance * tolerance * length[top]


@dataclass(frozen=True)
class Faults:
    """Points where borders aren't what they should be, and whether shapes overlap."""

    x: Numbers
    y: Numbers
    overlap: bool

    def near(self, made: Columns[Numbers]) -> Numbers:
        """The places of the points of edges whose boxes, a unit wider each way, have such a point."""
        if not len(self.x):
            return np.zeros(0, np.int64)
        order = np.argsort(self.x, kind="stable")
        x, y = self.x[order], self.y[order]
        edge = edges_of(made, np.arange(len(made.x))).places
        left, right = (made.x[edge + k] for k in (0, 1))
        top, bottom = (made.y[edge + k] for k in (0, 1))
        begin = np.searchsorted(x, np.minimum(left, right) - 1)
        end = np.searchsorted(x, np.maximum(left, right) + 1, "right")
        spot, at = spread(begin, end - begin), np.repeat(np.arange(len(edge)), end - begin)
        hit = (y[spot] >= np.minimum(top, bottom)[at] - 1) & (y[spot] <= np.maximum(top, bottom)[at] + 1)
        found = edge[np.unique(at[hit])]
        return np.concatenate((found, found + 1))


def faults_of(name: str, made: Columns[Numbers]) -> Faults:
    """What the program finds wrong with shapes: edges that it hasn't, or has besides; what several
    shapes cover; and shapes of another area than that of their shells without their holes."""
    rows = rows_for(name, made)
    overlaps = rows.members[0].counts > 1
    double = rows.shapes.of_features(overlaps)
    areas = gathered(np.array(made.twice_areas(), np.int64), made.features)
    unlike = made.of_features(areas != rows.areas_of(0, len(made.ids)))
    numbers = numbered(np.concatenate((made.x, rows.shapes.x)), np.concatenate((made.y, rows.shapes.y)))
    wanted, found = edges_of(made, numbers[: len(made.x)]), edges_of(rows.shapes, numbers[len(made.x) :])
    lost = wanted.places[~np.isin(wanted.pairs, found.pairs)]
    new = found.places[~np.isin(found.pairs, wanted.pairs)]
    lost, new = np.concatenate((lost, lost + 1)), np.concatenate((new, new + 1))
    x = np.concatenate((double.x, unlike.x, made.x[lost], rows.shapes.x[new]))
    y = np.concatenate((double.y, unlike.y, made.y[lost], rows.shapes.y[new]))
    return Faults(x, y, bool(overlaps.any()))
