"""The grid of a zoom and its tiles.

At zoom z the square of EPSG:3857 has 2^z tiles a side, and a tile has 4096 units a side. Columns and
rows of tiles are counted from the left and from the top, and so are units: y goes down.
"""

from __future__ import annotations

import math
from fractions import Fraction
from typing import NamedTuple

from ..columns import Columns, Floats, Numbers
from ..rounding import Axis

HALF = 20037508.342789244  # half the side of the square, in metres
EXTENT = 4096
GREATEST = 22  # the greatest zoom


Places = frozenset[tuple[int, int]]  # tiles of a zoom, by their columns and rows


class Tile(NamedTuple):
    """A tile by its zoom, its column and its row."""

    zoom: int
    x: int
    y: int

    def __str__(self) -> str:
        return f"{self.zoom}/{self.x}/{self.y}"


def axis(zoom: int) -> Axis:
    """The units of a zoom from the left edge of the square on; those from its top on, for -y."""
    return Axis(Fraction(-HALF), Fraction(2 * HALF) / (EXTENT << zoom))


def rounded(polygons: Columns[Floats], zoom: int) -> Columns[Numbers]:
    """Polygons of EPSG:3857 on the grid of a zoom: the nearest points, halves to the right and down."""
    units = axis(zoom)
    return polygons.at(units.rounded(polygons.x), units.rounded(-polygons.y))


def degrees(x: float, y: float) -> tuple[float, float]:
    """The longitude and the latitude of a point of EPSG:3857."""
    return x / HALF * 180, math.degrees(2 * math.atan(math.exp(y / HALF * math.pi)) - math.pi / 2)
