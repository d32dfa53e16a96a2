"""Columns of polygons on a grid, taken apart and put together by whole arrays."""

from __future__ import annotations

from typing import NamedTuple

import numpy as np

from ..columns import Columns, Mask, Numbers, extents, offsets
from ..rows import Members


class Box(NamedTuple):
    """An upright rectangle on a grid; y goes down."""

    left: int
    top: int
    right: int
    bottom: int


def spread(starts: Numbers, counts: Numbers) -> Numbers:
    """The whole numbers from each start on, so many of each, one run behind another."""
    places: Numbers = np.repeat(starts - offsets(counts)[:-1], counts) + np.arange(int(counts.sum()))
    return places


def counting(counts: Numbers) -> Numbers:
    """The whole numbers from 0 on, so many for each count, one run behind another."""
    return spread(np.zeros(len(counts), np.int64), counts)


def taken(layer: Columns[Numbers], places: Numbers) -> Columns[Numbers]:
    """The features at these places, in this order."""
    several = np.diff(layer.features)[places]
    polygons = spread(layer.features[places], several)
    more = np.diff(layer.polygons)[polygons]
    rings = spread(layer.polygons[polygons], more)
    most = layer.lengths[rings]
    points = spread(layer.rings[rings], most)
    return Columns(layer.x[points], layer.y[points], offsets(most), offsets(more), offsets(several), layer.ids[places])


def moved(layer: Columns[Numbers], x: int, y: int) -> Columns[Numbers]:
    """The same, so far to the right and down."""
    return layer.at(layer.x + x, layer.y + y)


def boxes(layer: Columns[Numbers]) -> tuple[Numbers, Numbers, Numbers, Numbers]:
    """The least x and y, and the greatest x and y, of each feature, each of which has points."""
    starts = layer.feature_points()[:-1]
    (left, right), (top, bottom) = extents(layer.x, starts), extents(layer.y, starts)
    return left, top, right, bottom


def of_points(layer: Columns[Numbers], kept: Mask) -> Columns[Numbers]:
    """The same with these points alone; each ring keeps its first and its last one, or none."""
    left = offsets(kept)
    return Columns(layer.x[kept], layer.y[kept], left[layer.rings], layer.polygons, layer.features, layer.ids)


def clipped(layer: Columns[Numbers], box: Box) -> Columns[Numbers]:
    """The same without points that say nothing about a box: of points one behind another that lie
    beyond one of its sides, the first and the last are kept. What goes from one to the other stays
    beyond that side, so no point of the box comes to lie in a feature, or out of it."""
    layer = shortened(layer, layer.x < box.left)
    layer = shortened(layer, layer.x > box.right)
    layer = shortened(layer, layer.y < box.top)
    return shortened(layer, layer.y > box.bottom)


def shortened(layer: Columns[Numbers], marked: Mask) -> Columns[Numbers]:
    """The same without marked points between two marked ones of their ring; its first point is kept."""
    inner = np.zeros(len(marked), bool)
    inner[1:-1] = marked[1:-1] & marked[:-2] & marked[2:]
    inner[layer.rings[:-1]] = inner[layer.rings[1:] - 1] = False
    return of_points(layer, ~inner) if inner.any() else layer


def thinned(layer: Columns[Numbers]) -> Columns[Numbers]:
    """The same without points that repeat the one before, and without rings that cover nothing since
    they have less than three points; what is left of a feature may be nothing."""
    kept = np.ones(len(layer.x), bool)
    kept[1:] = (layer.x[1:] != layer.x[:-1]) | (layer.y[1:] != layer.y[:-1])
    kept[layer.rings[:-1]] = True
    held = of_points(layer, kept)
    return held.of_rings(held.lengths > 3)


def composed(members: Members, owners: Members) -> Members:
    """For each row the things that its members have, each once and ascending; `owners` has those of
    each member."""
    counts = owners.counts[members.places]
    row = np.repeat(members.owners(), counts)
    found = owners.places[spread(owners.starts[members.places], counts)]
    width = int(owners.places.max(initial=0)) + 1
    both = np.unique(row * width + found)
    return Members(offsets(np.bincount(both // width, minlength=len(members.starts) - 1)), both % width)
