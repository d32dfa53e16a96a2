"""What a zoom shows: shapes on its grid, cut to tiles block by block.

A tile's polygons go on beyond its border by the buffer, up to its frame. The shapes of a zoom are
rounded together with the frames, so that what crosses a frame has a corner there, on a whole
coordinate. A block is a square of tiles that are cut together, with the frames of the tiles round it,
whose corners reach into the block. What a tile shows depends on the segments that reach its frame
alone; so it is the same by whatever block it is cut.
"""

from __future__ import annotations

from dataclasses import dataclass
from functools import cached_property
from itertools import product

import numpy as np

from ..columns import Columns, Mask, Numbers, chained, gathered, offsets
from ..merging import Groups, merged
from ..rows import Members, Rows
from .engine import rows_for
from .shaping import Box, boxes, clipped, composed, counting, moved, spread, taken, thinned
from .world import EXTENT, Places

# Tiles of a block, each way.
SIDE = 8

# How far beyond a frame segments are looked at, in units: rounding moves nothing by more than one.
MARGIN = 2


@dataclass(frozen=True)
class Block:
    """A square of SIDE x SIDE tiles, as far as the zoom has them, by its column and its row."""

    zoom: int
    x: int
    y: int

    def columns(self, around: int = 0) -> range:
        return self.places(self.x, around)

    def rows(self, around: int = 0) -> range:
        return self.places(self.y, around)

    def places(self, at: int, around: int) -> range:
        return range(max(at * SIDE - around, 0), min((at + 1) * SIDE + around, 1 << self.zoom))

    def has(self, tile: tuple[int, int]) -> bool:
        return tile[0] in self.columns() and tile[1] in self.rows()

    def box(self, reach: int) -> Box:
        """All units of its tiles, and so many round them."""
        (left, right), (top, bottom) = ((at[0] * EXTENT, (at[-1] + 1) * EXTENT) for at in (self.columns(), self.rows()))
        return Box(left - reach, top - reach, right + reach, bottom + reach)


@dataclass(frozen=True)
class Level:
    """The shapes of a zoom in its units, and for each the features that it is a part of."""

    zoom: int
    shapes: Columns[Numbers]
    owners: Members

    @cached_property
    def boxes(self) -> tuple[Numbers, Numbers, Numbers, Numbers]:
        return boxes(self.shapes)

    def reaching(self, box: Box) -> Numbers:
        """The shapes whose boxes have a point in common with a box."""
        left, top, right, bottom = self.boxes
        return np.flatnonzero((left <= box.right) & (right >= box.left) & (top <= box.bottom) & (bottom >= box.top))

    def blocks(self, buffer: int) -> list[Block]:
        """The blocks with a frame that the box of a shape reaches, in order."""
        side, last = SIDE * EXTENT, max((1 << self.zoom) // SIDE, 1) - 1
        reaches = (-buffer, -buffer, buffer, buffer)
        left, top, right, bottom = (np.clip((at + way) // side, 0, last) for at, way in zip(self.boxes, reaches))
        across, down = right - left + 1, bottom - top + 1
        inside = counting(across * down)
        owner = np.repeat(np.arange(len(across)), across * down)
        x, y = left[owner] + inside % across[owner], top[owner] + inside // across[owner]
        return [Block(self.zoom, *place) for place in np.unique(np.stack((x, y), axis=1), axis=0).tolist()]


def made_of(zoom: int, shapes: Columns[Numbers], owners: Members) -> Level:
    """A level of these shapes, of which those without points are left out."""
    there = np.diff(shapes.feature_points()) > 0
    return Level(zoom, shapes.of_features(there), owners.chosen(there))


@dataclass(frozen=True)
class Pieces:
    """What tiles show of features: piece k is of tile tiles[tile[k]], which is told by its column and
    row, and of a feature; ordered by both. Shapes are in units from their tile's upper left corner."""

    tiles: list[tuple[int, int]]
    tile: Numbers
    feature: Numbers
    shapes: Columns[Numbers]


def frames(block: Block, buffer: int) -> tuple[list[tuple[int, int]], Columns[Numbers]]:
    """The tiles of a block and those round it, and their frames."""
    tiles = list(product(block.columns(1), block.rows(1)))
    corners = np.array(tiles, np.int64) * EXTENT - buffer
    side = EXTENT + 2 * buffer
    x = corners[:, :1] + np.array([0, side, side, 0, 0])
    y = corners[:, 1:] + np.array([0, 0, side, side, 0])
    count = np.arange(len(tiles) + 1)
    return tiles, Columns(x.ravel(), y.ravel(), 5 * count, count, count, count[:-1])


def cut(level: Level, block: Block, buffer: int, wanted: Places | None) -> Pieces:
    """What the tiles of a block show, or those of them that are wanted."""
    box = block.box(buffer + MARGIN)
    places = level.reaching(box)
    x, y = (box.left + box.right) // 2, (box.top + box.bottom) // 2
    shapes = moved(thinned(clipped(taken(level.shapes, places), box)), -x, -y)
    tiles, squares = frames(block, buffer)
    rows = rows_for(f"zoom {level.zoom}", shapes, moved(squares, -x, -y))
    own = [block.has(tile) and (wanted is None or tile in wanted) for tile in tiles]
    tile, feature, made = by_pairs(rows, members_at(level.owners, places), np.array(own))
    corners = np.repeat(np.array(tiles, np.int64)[tile] * EXTENT, np.diff(made.feature_points()), axis=0)
    return Pieces(tiles, tile, feature, made.at(made.x + x - corners[:, 0], made.y + y - corners[:, 1]))


def members_at(owners: Members, places: Numbers) -> Members:
    """Those of the rows at these places, in this order."""
    counts = owners.counts[places]
    return Members(offsets(counts), owners.places[spread(owners.starts[places], counts)])


def by_pairs(rows: Rows, owners: Members, own: Mask) -> tuple[Numbers, Numbers, Columns[Numbers]]:
    """The pairs of a tile and a feature that have points in common, ordered by both, and what each of
    them has, a feature each. The rows are those of shapes and frames; `owners` are the features of each
    shape, and `own` says which tiles are asked for."""
    shapes, squares = rows.members
    rows = rows.chosen((shapes.counts > 0) & (gathered(own[squares.places], squares.starts) > 0))
    of, at = composed(rows.members[0], owners), rows.members[1]
    counts = of.counts * at.counts
    row, inside = np.repeat(np.arange(len(counts)), counts), counting(counts)
    feature = of.places[of.starts[row] + inside // at.counts[row]]
    tile = at.places[at.starts[row] + inside % at.counts[row]]
    kept = own[tile]
    width = int(owners.places.max(initial=0)) + 1
    pairs, group = np.unique(tile[kept] * width + feature[kept], return_inverse=True)
    return pairs // width, pairs % width, together(rows.shapes, row[kept], group, len(pairs))


def together(shapes: Columns[Numbers], row: Numbers, group: Numbers, count: int) -> Columns[Numbers]:
    """What the rows of each of so many groups cover together: row[k] is of group group[k]."""
    several = np.bincount(group, minlength=count)[group] > 1
    many, rank = np.unique(group[several], return_inverse=True)
    alone = taken(shapes, row[~several])
    if not len(many):
        return taken(alone, np.argsort(group))
    united = merged(shapes, Groups(row[several], rank, len(many)))
    return taken(chained([alone, united]), np.argsort(np.concatenate((group[~several], many))))
