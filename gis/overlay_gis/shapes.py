"""Shapes as GEOS has them, by Shapely: what is wrong with them."""

from __future__ import annotations

import logging
from itertools import pairwise
from typing import Iterator

from shapely import wkb
from shapely.errors import ShapelyError
from shapely.validation import explain_validity

from .columns import Columns, Floats
from .wkb import collected, encoded

# Shapely 1.8 would print what its exceptions say
logging.getLogger("shapely").addHandler(logging.NullHandler())


def features_of(layer: Columns[Floats]) -> Iterator[bytes]:
    """The geometry of each feature in WKB."""
    polygons = encoded(layer)
    for at, end in pairwise(layer.features.tolist()):
        yield collected([next(polygons) for _ in range(end - at)])


def fault_of(geometry: bytes) -> str | None:
    """What GEOS finds wrong with a geometry in WKB."""
    try:
        shape = wkb.loads(geometry)
        return None if shape.is_valid else explain_validity(shape)
    except (ShapelyError, ValueError) as error:
        return f"GEOS can't compute with it: {error}"
