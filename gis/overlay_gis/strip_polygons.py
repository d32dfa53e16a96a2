"""Polygons that tasks hand on by files, a strip's at a time."""

from __future__ import annotations

from itertools import pairwise
from typing import Iterator, NamedTuple, Sequence

import numpy as np

from .columns import BLOCK, POINTS, Columns, Numbers
from .sections import Values


class Polygons(NamedTuple):
    """Polygons in their order: x and y of all points by turns, where each ring begins among the points,
    and each polygon among the rings, and where the last ones end."""

    coordinates: Values
    rings: Values
    polygons: Values

    @property
    def total(self) -> int:
        return len(self.polygons) - 1

    @property
    def points(self) -> Values:
        """Where each polygon begins among the points, and the last one ends."""
        found: Values = self.rings[self.polygons]
        return found

    def part(self, at: int, end: int) -> Polygons:
        """Those from that place on up to another."""
        polygons = self.polygons[at : end + 1]
        rings = self.rings[polygons[0] : polygons[-1] + 1]
        points = slice(2 * int(rings[0]), 2 * int(rings[-1]))
        return Polygons(self.coordinates[points], rings - rings[0], polygons - polygons[0])

    def parted(self, cuts: Sequence[int]) -> Iterator[Polygons]:
        """Those whose first vertex lies before the first of these columns, from each one to before the
        next, and from the last one on."""
        columns = self.coordinates[0::2][self.points[:-1]]
        for at, end in pairwise([0, *np.searchsorted(columns, cuts).tolist(), self.total]):
            yield self.part(at, end)

    def blocks(self) -> Iterator[Polygons]:
        """Some at a time: so many polygons, or points, at most, or one that has more."""
        points, at = self.points, 0
        while at < self.total:
            room = int(np.searchsorted(points, points[at] + POINTS, "right")) - 1
            end = max(at + 1, min(room, at + BLOCK, self.total))
            yield self.part(at, end)
            at = end

    def features(self, before: int) -> Columns[Numbers]:
        """Each as a feature, numbered behind so many others."""
        points, rings, polygons = (values.astype(np.int64) for values in self)
        ids = np.arange(self.total + 1)
        return Columns(points[0::2], points[1::2], rings, polygons, ids, before + ids[1:])
