"""Rows of faces as a layer: the features of each row, its area and the fields that are kept."""

from __future__ import annotations

from itertools import chain
from typing import Any, Iterator, Sequence

import numpy as np
from osgeo import ogr

from .columns import Columns, Floats, Numbers
from .fields import Kept
from .frame import Frame
from .output import Column, Table
from .rows import Rows
from .wkb import collected, encoded


def table_of(rows: Rows, held: Sequence[Kept], frame: Frame, by_parts: bool = False) -> Table:
    """A layer with a feature for each row, or for each polygon of a row."""
    for layer, members in zip(held, rows.members):
        layer.several = members.counts.max(initial=0) > 1
    columns = [Column(layer.name, ogr.OFTString) for layer in held if layer.ids is not None] + [Column("area", ogr.OFTReal)]
    columns += [column for layer in held for column in layer.columns()]
    ids, values = values_of(rows, held)
    if by_parts:
        features = parts(rows.shapes, frame)
        made = ((shape, (*ids[k], area, *values[k])) for k, shape, area in features)
        return Table(columns, made, ogr.wkbPolygon, boxes_of(frame.boxes(rows.shapes.apart()), held), frame=frame)
    wholes = zip(shapes(rows.shapes, frame), ids, rows.twice.tolist(), values)
    made = ((shape, (*numbers, frame.area(twice), *kept)) for shape, numbers, twice, kept in wholes)
    return Table(columns, made, ogr.wkbMultiPolygon, boxes_of(frame.boxes(rows.shapes), held), frame=frame)


def boxes_of(boxes: Floats, held: Sequence[Kept]) -> Floats | None:
    """The same, if all values that are kept are numbers and texts."""
    return boxes if all(layer.is_plain() for layer in held) else None


def values_of(rows: Rows, held: Sequence[Kept]) -> tuple[list[tuple[Any, ...]], list[list[Any]]]:
    """For each row the numbers of its features, layer by layer where these are told, and the values
    of all fields that are kept."""
    count, pairs = len(rows.twice), list(zip(held, rows.members))
    ids = list(zip(*(layer.numbers(members) for layer, members in pairs if layer.ids is not None)))
    kept = zip(*(layer.kept(members) for layer, members in pairs if layer.fields))
    return ids or [()] * count, [list(chain.from_iterable(values)) for values in kept] or [[]] * count


def shapes(polygons: Columns[Numbers], frame: Frame) -> Iterator[bytes]:
    """The polygons of each feature as one shape."""
    for block in polygons.blocks():
        made = encoded(frame.off_grid(block))
        for count in np.diff(block.features).tolist():
            yield collected([next(made) for _ in range(count)], as_many=True)


def parts(polygons: Columns[Numbers], frame: Frame) -> Iterator[tuple[int, bytes, float]]:
    """The place of each polygon's feature, the polygon, and its area."""
    owners = np.repeat(np.arange(len(polygons.ids)), np.diff(polygons.features)).tolist()
    made = chain.from_iterable(encoded(frame.off_grid(block)) for block in polygons.blocks())
    for owner, polygon, twice in zip(owners, made, polygons.twice_areas()):
        yield owner, polygon, frame.area(twice)

