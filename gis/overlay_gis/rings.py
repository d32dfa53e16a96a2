"""What becomes of a layer's rings on the grid: which are closed or left out, how far their vertices
move, what they measure."""

from __future__ import annotations

from dataclasses import dataclass, replace

import numpy as np

from .columns import POINTS, Columns, Floats, Mask, Numbers, offsets
from .frame import LIMIT, Frame

# A ring of fewer points, the first one again at its end, covers nothing.
LEAST_RING = 4


@dataclass(frozen=True)
class Moves:
    """How far vertices were moved onto the grid, in the system's units."""

    vertices: int
    moved: int
    mean: float
    greatest: float


@dataclass(frozen=True)
class Gridded:
    """A layer in grid units, all rings closed; how many of its segments aren't points; the area
    that it had before. `closed` and `dropped` are the numbers of the features that had an open
    ring, and one that was left out, for each such ring."""

    layer: Columns[Numbers]
    moves: Moves
    segments: int
    closed: list[int]
    dropped: list[int]
    area: float

    @property
    def polygons(self) -> int:
        return len(self.layer.polygons) - 1

    def twice_area(self) -> int:
        return sum(self.layer.twice_areas())

    def lengths(self) -> Floats:
        """The length of each segment."""
        return np.hypot(*segments(self.layer))

    def border_lengths(self) -> Floats:
        """The same of those that are borders by parity."""
        return np.hypot(*borders(self.layer))


def longest(lengths: Floats, count: int) -> float:
    """The length of so many segments, the longest ones."""
    if count <= 0:
        return 0.0
    if count < len(lengths):
        lengths = np.partition(lengths, len(lengths) - count)
    return float(lengths[-count:].sum())


def opened(layer: Columns[Floats]) -> Mask:
    """Which rings end where they don't begin."""
    filled = layer.lengths > 0
    first, last = layer.firsts[filled], layer.rings[1:][filled] - 1
    filled[filled] = (layer.x[first] != layer.x[last]) | (layer.y[first] != layer.y[last])
    return filled


def closed(layer: Columns[Floats], rings: Mask) -> Columns[Floats]:
    """The same, and these rings with their first points again at their ends."""
    first, end = layer.firsts[rings], layer.rings[1:][rings]
    x, y = np.insert(layer.x, end, layer.x[first]), np.insert(layer.y, end, layer.y[first])
    return replace(layer, x=x, y=y, rings=offsets(layer.lengths + rings))


def segments(layer: Columns[Numbers]) -> tuple[Numbers, Numbers]:
    """How far each segment goes to the right and up: none for a point with which a ring begins."""
    across, up = np.zeros_like(layer.x), np.zeros_like(layer.y)
    np.subtract(layer.x[1:], layer.x[:-1], out=across[1:])
    np.subtract(layer.y[1:], layer.y[:-1], out=up[1:])
    across[layer.firsts] = up[layer.firsts] = 0
    return across, up


def borders(layer: Columns[Numbers]) -> tuple[Numbers, Numbers]:
    """The same of each segment that is there an odd number of times, in either direction. By parity
    the others are no borders, and rounding makes none of them: all take the same route."""
    across, up = segments(layer)
    ends = np.flatnonzero(across | up)
    points = ((layer.x + LIMIT) << 30) + layer.y + LIMIT
    pairs = np.stack([points[ends - 1], points[ends]])
    pairs.sort(axis=0)
    order = np.lexsort(pairs)
    found = pairs[:, order]
    firsts = np.flatnonzero(np.append(True, (found[:, 1:] != found[:, :-1]).any(axis=0))[: len(ends)])
    odd = np.diff(firsts, append=len(ends)) % 2 == 1
    kept = ends[order[firsts[odd]]]
    return across[kept], up[kept]


def perimeters(layer: Columns[Numbers]) -> Floats:
    """For each feature, which has points, the length of its border."""
    if not len(layer.ids):
        return np.zeros(0)
    return np.add.reduceat(np.hypot(*segments(layer)), layer.feature_points()[:-1])


def moves_of(layer: Columns[Floats], grid: Columns[Numbers], frame: Frame) -> Moves:
    """How far the vertices of closed rings were moved to where they are on the grid."""
    ways = np.zeros_like(layer.x)
    for at in range(0, len(ways), POINTS):
        held = slice(at, at + POINTS)
        across, up = (axis.placed(way[held]) for axis, way in zip(frame.axes, (grid.x, grid.y)))
        across -= layer.x[held]
        up -= layer.y[held]
        if across.any() or up.any():
            np.hypot(across, up, out=ways[held])
    ways[layer.firsts] = 0.0  # each ring's first point is there again
    moved = int(np.count_nonzero(ways))
    mean = float(ways.sum()) / moved if moved else 0.0
    return Moves(len(ways) - len(layer.firsts), moved, mean, float(ways.max(initial=0.0)))


def gridded(layer: Columns[Floats], area: float, frame: Frame) -> Gridded:
    """A layer of that area, in the system's coordinates, on the grid."""
    ids, open_rings = layer.ring_ids(), opened(layer)
    whole = closed(layer, open_rings) if open_rings.any() else layer
    short = whole.lengths < LEAST_RING
    kept = whole.of_rings(~short) if short.any() else whole
    grid = frame.on_grid(kept)
    across, up = segments(grid)
    return Gridded(
        grid,
        moves_of(kept, grid, frame),
        int(np.count_nonzero(across | up)),
        ids[open_rings].tolist(),
        ids[short].tolist(),
        area,
    )
