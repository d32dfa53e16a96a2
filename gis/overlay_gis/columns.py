"""Polygons as columns, in the layout of GeoArrow: the coordinates of all points, and where each
ring, polygon and feature begins. No point is an object of its own, so a layer takes little room,
and work on it is work on whole arrays."""

from __future__ import annotations

from dataclasses import dataclass, replace
from itertools import pairwise
from typing import Any, Generic, Iterator, Sequence, TypeVar

import numpy as np

# Arrays of one kind of values, as numpy.typing has them, which would take long to be there.
Numbers = np.ndarray[Any, np.dtype[np.int64]]
Floats = np.ndarray[Any, np.dtype[np.float64]]
Mask = np.ndarray[Any, np.dtype[np.bool_]]
Bytes = np.ndarray[Any, np.dtype[np.uint8]]

# Coordinates in a reference system's units, or in a grid's.
C = TypeVar("C", Floats, Numbers)
D = TypeVar("D", Floats, Numbers)

GridPoint = tuple[int, int]
GridRing = list[GridPoint]  # the first point again at its end
GridPolygon = list[GridRing]  # the shell first

# A product of two coordinates of the grid, and a sum of these, in two parts that a whole number of
# 64 bits holds.
HALF = 32
WIDTH = 63  # bits of a number without its sign

# How many features, and how many points, are worked on at a time, so that what is made by the way
# stays where a processor has it at hand.
BLOCK, POINTS = 1 << 12, 1 << 15


def offsets(counts: Numbers | Mask) -> Numbers:
    """Where each of so many things begins among them all, and where the last one ends."""
    return np.concatenate((np.zeros(1, np.int64), np.cumsum(counts, dtype=np.int64)))


def gathered(counts: Numbers | Mask, held: Numbers) -> Numbers:
    """The counts summed by what holds them; `held` are the offsets of the holders."""
    return np.diff(offsets(counts)[held])


def extents(values: Any, starts: Numbers) -> tuple[Any, Any]:
    """The least and the greatest of the values from each of these places up to the next."""
    if not len(starts):
        return values[:0], values[:0]
    return np.minimum.reduceat(values, starts), np.maximum.reduceat(values, starts)


@dataclass(frozen=True)
class Columns(Generic[C]):
    """Ring k has the points from rings[k] up to rings[k + 1], the first one again at its end;
    polygon k the rings from polygons[k] on, its shell first; feature k the polygons from
    features[k] on, and the number ids[k]."""

    x: C
    y: C
    rings: Numbers
    polygons: Numbers
    features: Numbers
    ids: Numbers

    @property
    def firsts(self) -> Numbers:
        return self.rings[:-1]

    @property
    def lengths(self) -> Numbers:
        """The number of points of each ring."""
        return np.diff(self.rings)

    def ring_ids(self) -> Numbers:
        """For each ring the number of its feature."""
        return np.repeat(self.ids, np.diff(self.polygons[self.features]))

    def feature_points(self) -> Numbers:
        """Where the points of each feature begin."""
        points: Numbers = self.rings[self.polygons[self.features]]
        return points

    def at(self, x: D, y: D) -> Columns[D]:
        """The same with other coordinates."""
        return Columns(x, y, self.rings, self.polygons, self.features, self.ids)

    def of_rings(self, kept: Mask) -> Columns[C]:
        """The same with these rings alone; a polygon that has none of them is left out, and a
        feature may be without a polygon."""
        points = np.repeat(kept, self.lengths)
        held = gathered(kept, self.polygons)
        return Columns(
            self.x[points],
            self.y[points],
            offsets(self.lengths[kept]),
            offsets(held[held > 0]),
            offsets(gathered(held > 0, self.features)),
            self.ids,
        )

    def of_features(self, kept: Mask) -> Columns[C]:
        """The same with these features alone."""
        if kept.all():
            return self
        rings = np.repeat(kept, np.diff(self.polygons[self.features]))
        chosen = self.of_rings(rings)
        return replace(chosen, features=offsets(np.diff(chosen.features)[kept]), ids=self.ids[kept])

    def blocks(self, size: int = BLOCK) -> Iterator[Columns[C]]:
        """The same features in order, so many at a time."""
        for at in range(0, len(self.ids), size):
            yield self.part(at, at + size)

    def part(self, at: int, end: int) -> Columns[C]:
        """The same features from that place on up to another."""
        features = self.features[at : end + 1]
        polygons = self.polygons[features[0] : features[-1] + 1]
        rings = self.rings[polygons[0] : polygons[-1] + 1]
        points = slice(rings[0], rings[-1])
        starts = (rings - rings[0], polygons - polygons[0], features - features[0])
        return Columns(self.x[points], self.y[points], *starts, self.ids[at:end])

    def apart(self) -> Columns[C]:
        """The same with a feature for each polygon, numbered from 1."""
        count = len(self.polygons) - 1
        return replace(self, features=np.arange(count + 1), ids=np.arange(1, count + 1))

    def among(self, ids: Numbers, there: Mask) -> Columns[C]:
        """The same features among others without polygons: all their numbers, and which of them
        these here are."""
        counts = np.zeros(len(ids), np.int64)
        counts[there] = np.diff(self.features)
        return replace(self, features=offsets(counts), ids=ids)

    def filled(self) -> Columns[C]:
        """The same without polygons that have no point."""
        empty = np.diff(self.rings[self.polygons]) == 0
        return self.of_rings(np.repeat(~empty, np.diff(self.polygons))) if empty.any() else self

    def twice_areas(self) -> list[int]:
        """Twice the area of each polygon of the grid, whose rings have points: its shell's without
        its holes', whichever way they run."""
        sizes, shells = self.twice_ring_areas(), self.polygons[:-1]
        if not len(shells):
            return []
        found: list[int] = (2 * sizes[shells] - np.add.reduceat(sizes, shells)).tolist()
        return found

    def twice_ring_areas(self) -> np.ndarray[Any, Any]:
        """Twice the area of each ring, by sums of 64 bits where these have room for those of each
        polygon."""
        first, last = self.firsts, self.rings[1:] - 1
        products = np.zeros(len(self.x), np.int64)
        products[:-1] = self.x[:-1] * self.y[1:] - self.x[1:] * self.y[:-1]
        products[last] = 0  # from a ring's end to the next one's beginning
        reach = [max(int(at.max(initial=0)), -int(at.min(initial=0))) for at in (self.x, self.y)]
        most = int(np.diff(self.rings[self.polygons]).max(initial=0))
        if 4 * reach[0] * reach[1] * most >> WIDTH:
            high, low = (np.add.reduceat(part, first) for part in (products >> HALF, products & ((1 << HALF) - 1)))
            sums = [abs((more << HALF) + less) for more, less in zip(high.tolist(), low.tolist())]
            return np.array(sums, object)
        found: Numbers = np.abs(np.add.reduceat(products, first)) if len(first) else products
        return found

    def lists(self) -> list[list[GridPolygon]]:
        """The polygons of each feature as lists of points."""
        points = list(zip(self.x.tolist(), self.y.tolist()))
        rings = [points[at:end] for at, end in pairwise(self.rings.tolist())]
        polygons = [rings[at:end] for at, end in pairwise(self.polygons.tolist())]
        return [polygons[at:end] for at, end in pairwise(self.features.tolist())]


def chained(parts: Sequence[Columns[C]]) -> Columns[C]:
    """All features of several, one after another."""
    if len(parts) == 1:
        return parts[0]
    return Columns(
        np.concatenate([part.x for part in parts]),
        np.concatenate([part.y for part in parts]),
        offsets(np.concatenate([np.diff(part.rings) for part in parts])),
        offsets(np.concatenate([np.diff(part.polygons) for part in parts])),
        offsets(np.concatenate([np.diff(part.features) for part in parts])),
        np.concatenate([part.ids for part in parts]),
    )


def of_polygons(polygons: Sequence[GridPolygon]) -> Columns[Numbers]:
    """Polygons of the grid that are lists of points, each a feature, numbered from 1."""
    rings = [ring for polygon in polygons for ring in polygon]
    points = np.array([point for ring in rings for point in ring], np.int64).reshape(-1, 2)
    count = len(polygons)
    return Columns(
        points[:, 0].copy(),
        points[:, 1].copy(),
        offsets(np.array([len(ring) for ring in rings], np.int64)),
        offsets(np.array([len(polygon) for polygon in polygons], np.int64)),
        np.arange(count + 1),
        np.arange(1, count + 1),
    )


NOTHING: Columns[Floats] = of_polygons([]).at(np.zeros(0), np.zeros(0))
