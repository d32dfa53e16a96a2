"""A zoom with less detail and the same neighbours.

1. The rows of faces of a zoom are united where the same features cover them, so that borders between
   features of one value vanish.
2. Small pieces are given to neighbours, the least first: each becomes a part of the neighbour with
   which it has the longest border. An island is left out.
3. Borders are simplified from each point where other than two edges meet to the next one, by the rule
   of Douglas and Peucker. The rule doesn't depend on the way that a border is followed, so both sides
   of it leave out the same points.
4. The program judges what comes out. Where a border has other ends than its own, or a shape another
   area, or two shapes overlap, the borders there get all their points back. Where two still overlap,
   all borders of the zoom do.
"""

from __future__ import annotations

from typing import NamedTuple

import numpy as np

from ..by_values import alike
from ..columns import Columns, Numbers
from ..merging import Groups, merged
from ..rows import Members
from .engine import rows_for
from .levels import Level, made_of
from .shaping import composed, moved, thinned
from .simplifying import simplified
from .small import without_small


class Detail(NamedTuple):
    """How far a border may move, in units, and below how many square units a piece is small; 0 where
    none is simplified, or is small."""

    simplify: float
    small: float

    @property
    def leaves_out(self) -> bool:
        return bool(self.simplify or self.small)


def coarse(level: Level, detail: Detail) -> Level:
    """The same level with less detail."""
    if not len(level.shapes.ids):
        return level
    name, (left, top, right, bottom) = f"zoom {level.zoom}", level.boxes
    x, y = (int(left.min()) + int(right.max())) // 2, (int(top.min()) + int(bottom.max())) // 2
    rows = rows_for(name, moved(level.shapes, -x, -y))
    owners, shapes = of_equal_features(rows.shapes, composed(rows.members[0], level.owners))
    if detail.small:
        owners, shapes = without_small(owners, shapes, 2 * detail.small)
    if detail.simplify:
        shapes = simplified(name, shapes, detail.simplify)
    return made_of(level.zoom, moved(shapes, x, y), owners)


def halved(level: Level) -> Level:
    """The level on the grid of the next lower zoom, whose units are twice as large: halves go to the
    right and down."""
    shapes = level.shapes.at(level.shapes.x + 1 >> 1, level.shapes.y + 1 >> 1)
    return made_of(level.zoom - 1, thinned(shapes), level.owners)


def of_equal_features(shapes: Columns[Numbers], owners: Members) -> tuple[Members, Columns[Numbers]]:
    """Rows united that the same features cover."""
    group, firsts = alike([owners])
    if len(firsts) == len(group):
        return owners, shapes
    first = np.zeros(len(group), bool)
    first[firsts] = True
    return owners.chosen(first), merged(shapes, Groups(np.arange(len(group)), group, len(firsts)))


