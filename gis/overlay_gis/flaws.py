"""What a layer that should cover its area once doesn't: overlaps, and gaps.

An overlap is a row of several features, and a double one that has all that each of them covers. A gap is a part of the plane that all features together
enclose and leave open. The width of either is twice its area divided by the length of its border,
which of a long strip is the strip's width.
"""

from __future__ import annotations

from dataclasses import dataclass
from functools import cached_property
from itertools import pairwise
from typing import Iterator

import numpy as np
from osgeo import osr

from .columns import Columns, Floats, GridPolygon, Mask, Numbers, of_polygons
from .common_grid import CommonGrid
from .frame import LIMIT, Frame
from .program import FACES
from .questions import Layer
from .rings import perimeters
from .rows import Rows

OVERLAP, DOUBLE, GAP, SLIVER = "overlap", "double", "gap", "sliver"

@dataclass(frozen=True)
class Sizes:
    """Below which width or area a gap is one, and below which width an overlap or a gap is a
    sliver, in the system's units."""

    gap_width: float
    gap_area: float
    sliver_width: float


def usual_sizes(system: osr.SpatialReference | None) -> Sizes:
    """A unit of length, which is a meter mostly, or about as much in degrees; and a tenth of it."""
    unit = 0.00001 if system is not None and system.IsGeographic() else 1.0
    return Sizes(unit, unit * unit, unit / 10)


@dataclass(frozen=True)
class Flaw:
    """An overlap of features of these numbers, or a gap where there are none; whether it has all that
    each of them covers; a point of its border, its area and its width."""

    ids: list[int]
    double: bool
    at: tuple[float, float]
    area: float
    width: float


@dataclass(frozen=True)
class Flaws:
    """Overlaps or gaps of a layer on the grid, each a feature of `shapes`, with twice their areas;
    the numbers of the features that overlap in each, none for gaps; and which are doubles."""

    frame: Frame
    shapes: Columns[Numbers]
    twice: Numbers
    ids: list[list[int]]
    double: Mask

    @cached_property
    def widths(self) -> Floats:
        """In grid units."""
        return self.twice / perimeters(self.shapes)

    @property
    def thin(self) -> Mask:
        """Those that are narrower than a grid unit all in all, which rounding may have made."""
        return self.widths < 1

    def chosen(self, kept: Mask) -> Flaws:
        places = np.flatnonzero(kept).tolist()
        return Flaws(self.frame, self.shapes.of_features(kept), self.twice[kept], [self.ids[k] for k in places], self.double[kept])

    def each(self) -> Iterator[Flaw]:
        unit, firsts = float(self.frame.unit), self.shapes.feature_points()[:-1]
        points = zip(self.shapes.x[firsts].tolist(), self.shapes.y[firsts].tolist())
        sizes = zip(self.twice.tolist(), self.widths.tolist())
        for ids, double, point, (twice, width) in zip(self.ids, self.double.tolist(), points, sizes):
            yield Flaw(ids, double, self.frame.placed(*point), self.frame.area(twice), width * unit)


def kind_of(flaw: Flaw, sizes: Sizes) -> str:
    if flaw.double:
        return DOUBLE
    if flaw.width < sizes.sliver_width:
        return SLIVER
    return OVERLAP if flaw.ids else GAP


def overlaps(rows: Rows, ids: Numbers, frame: Frame) -> Flaws:
    """The rows of several features, which have these numbers."""
    several = rows.chosen(rows.counts > 1)
    (held,) = several.members
    starts = held.starts.tolist()
    numbers = [ids[held.places[at:end]].tolist() for at, end in pairwise(starts)]
    wholes = rows.areas_of(0, len(ids))[held.places]
    double = np.maximum.reduceat(wholes, held.starts[:-1]) == several.twice if len(wholes) else np.zeros(0, bool)
    return Flaws(frame, several.shapes, several.twice, numbers, double)


def box_round(layer: Columns[Numbers]) -> GridPolygon:
    """A rectangle a unit wider than a layer that has points, as far as the grid has room."""
    left, low = (max(int(at.min()) - 1, -LIMIT) for at in (layer.x, layer.y))
    right, high = (min(int(at.max()) + 1, LIMIT) for at in (layer.x, layer.y))
    return [[(left, low), (right, low), (right, high), (left, high), (left, low)]]


def meets(polygons: Columns[Numbers], box: GridPolygon) -> Mask:
    """Which polygons have an edge on the border of a rectangle that holds them."""
    (left, low), (right, high) = box[0][0], box[0][2]
    sides = np.zeros(max(len(polygons.x) - 1, 0), bool)
    for at, ends in ((polygons.x, (left, right)), (polygons.y, (low, high))):
        for end in ends:
            sides |= (at[:-1] == end) & (at[1:] == end)
    # from a ring's end to the next one's beginning is no edge
    sides[polygons.rings[1:-1] - 1] = False
    found = np.zeros(len(polygons.polygons) - 1, bool)
    found[np.searchsorted(polygons.rings[polygons.polygons], np.flatnonzero(sides), "right") - 1] = True
    return found


def gaps(beyond: Columns[Numbers], box: GridPolygon, frame: Frame, sizes: Sizes) -> Flaws:
    """The gaps of a layer, of which the box has these polygons beyond it."""
    inside = beyond.of_features(~meets(beyond, box))
    found = Flaws(frame, inside, np.array(inside.twice_areas(), np.int64), [[] for _ in inside.ids], np.zeros(len(inside.ids), bool))
    unit = float(frame.unit)
    small = found.twice * (unit * unit / 2) < sizes.gap_area
    return found.chosen(small | (found.widths * unit < sizes.gap_width))


def found_in(together: CommonGrid, layer: Layer, sizes: Sizes) -> tuple[Rows, Flaws, Flaws]:
    """The rows, the overlaps and the gaps of a layer that has polygons."""
    box, frame = box_round(layer.grid.layer), together.frame
    question = together.questions.ask(FACES, [layer])
    beyond = together.questions.beyond(of_polygons([box]), layer)
    rows = question.rows()
    return rows, overlaps(rows, layer.grid.layer.ids, frame), gaps(beyond.result(), box, frame, sizes)
