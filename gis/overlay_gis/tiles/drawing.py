"""The layers that tiles show: their polygons in EPSG:3857, their features and the values of these."""

from __future__ import annotations

import math
from dataclasses import dataclass
from itertools import compress
from typing import Any, Sequence

import numpy as np
from osgeo import ogr, osr

from ..columns import POINTS, Columns, Floats, Numbers, gathered
from ..common_grid import Losses, tell_losses
from ..encodings import WAYS, is_known
from ..faults import Refusal
from ..fields import fields_of, told_apart
from ..fitting import text_of
from ..layers import Kind, Source, Survey
from ..messages import during
from ..rings import LEAST_RING, closed, opened
from ..surveys import surveyed
from ..systems import same, system_from, system_name
from . import mvt
from .world import HALF

WEB = "EPSG:3857"

# How far beyond the square a point may lie, in metres, which reckoning with angles may bring about.
SLACK = 0.001

# The same of longitudes, in the units of their system.
SLACK_OF_ANGLES = 1e-9


@dataclass(frozen=True)
class Fields:
    """The fields of a layer that its features have in tiles; `by` says that features with equal values
    of them are one."""

    names: Sequence[str]
    by: bool


@dataclass(frozen=True)
class Drawn:
    """A layer of the tiles: its name; the names of its fields, and what their values are in words; and
    of each feature its number, and its values as a tile has them, an empty one for none."""

    name: str
    keys: list[bytes]
    kinds: list[str]
    ids: list[int]
    values: list[tuple[bytes, ...]]

    def told(self, zooms: range) -> dict[str, Any]:
        """What TileJSON has of it."""
        fields = {key.decode(): kind for key, kind in zip(self.keys, self.kinds)}
        return {"id": self.name, "fields": fields, "minzoom": zooms[0], "maxzoom": zooms[-1]}


@dataclass(frozen=True)
class Read:
    """A layer as it is read: its polygons in EPSG:3857, for each of their features that of the tiles of
    which it is a part, and the layer of the tiles."""

    polygons: Columns[Floats]
    features: Numbers
    drawn: Drawn

    @property
    def segments(self) -> int:
        return len(self.polygons.x) - len(self.polygons.lengths)


def read(source: Source, fields: Fields, system: str | None) -> Read:
    """A layer with these fields; `system` is its reference system where it names none."""
    seen = surveyed(source)
    defined = fields_of(source, fields.names)
    names = [field.GetName() for field in defined]
    values = list(compress(source.values(names, seen), seen.kinds == Kind.SOUND))
    ids = seen.sound.ids.tolist()
    check_texts(source, ids, values)
    polygons = in_web(source, whole_rings(source, seen), system)
    features, firsts = told_apart(values) if fields.by else (np.arange(len(ids)), list(range(len(ids))))
    shown = [tuple(map(value_of, defined, values[k])) for k in firsts]
    keys, kinds = [name.encode() for name in names], list(map(kind_of, defined))
    return Read(polygons, features, Drawn(source.stem, keys, kinds, [ids[k] for k in firsts], shown))


def check_texts(source: Source, ids: Sequence[int], values: Sequence[tuple[Any, ...]]) -> None:
    """Refuses a layer of which a feature has a text in no known encoding."""
    for number, held in zip(ids, values):
        if not all(map(is_known, held)):
            raise Refusal(source.name, f"feature {number}: a field has no text in UTF-8: {WAYS}")


def kind_of(field: ogr.FieldDefn) -> str:
    """What the values of a field are, as metadata of tiles call it."""
    if field.GetSubType() == ogr.OFSTBoolean:
        return "Boolean"
    return "Number" if field.GetType() in (ogr.OFTInteger, ogr.OFTInteger64, ogr.OFTReal) else "String"


def value_of(field: ogr.FieldDefn, held: Any) -> bytes:
    """A value as a tile has it, which is empty for none."""
    if held is None:
        return b""
    return mvt.value(bool(held) if kind_of(field) == "Boolean" else text_of(held))


def whole_rings(source: Source, seen: Survey) -> Columns[Floats]:
    """The polygons of a layer; its open rings are closed, and those of less than three points left out,
    which is told."""
    sound, ids = seen.sound, seen.sound.ring_ids()
    open_rings = opened(sound)
    layer = closed(sound, open_rings)
    short = layer.lengths < LEAST_RING
    tell_losses(source.name, Losses(ids[open_rings].tolist(), ids[short].tolist(), [], 0, seen.features))
    return layer.of_rings(~short)


def in_web(source: Source, layer: Columns[Floats], told: str | None) -> Columns[Floats]:
    """Polygons of a layer in EPSG:3857; refuses what lies beyond its square."""
    system, web = source.system() or (system_from(told) if told else None), system_from(WEB)
    if system is None:
        raise Refusal(source.name, "names no reference system: name it by --system, as EPSG:25832")
    if same(system, web):
        refuse_beyond(source, layer, layer.x, HALF + SLACK)
        made = layer
    else:
        made = transformed(layer, system, web, f"{source.name}, {system_name(system)}")
        if system.IsGeographic():
            refuse_beyond(source, layer, layer.x, math.pi / system.GetAngularUnits() + SLACK_OF_ANGLES)
        else:
            refuse_long(source, made)
        refuse_beyond(source, made, made.x, HALF + SLACK)
    refuse_beyond(source, made, made.y, HALF + SLACK)
    return made


def refuse_beyond(source: Source, layer: Columns[Floats], at: Floats, most: float) -> None:
    """Refuses a layer with a coordinate, of these along one axis, that is no number up to the most."""
    beyond = np.flatnonzero(gathered(~(abs(at) <= most), layer.feature_points()))
    if len(beyond):
        words = "lies beyond web mercator's square, which reaches from 180 degrees W to E and from 85.0511 S to N: cut it"
        raise Refusal(source.name, f"feature {layer.ids[beyond[0]]} {words}")


def refuse_long(source: Source, layer: Columns[Floats]) -> None:
    """Refuses a layer with a side longer than half of the square. PROJ brings what lies beyond one edge of
    the square to the other one, so that a side over the edge becomes as long."""
    sides = np.zeros(len(layer.x), bool)
    sides[1:] = abs(layer.x[1:] - layer.x[:-1]) > HALF
    sides[layer.firsts] = False
    beyond = np.flatnonzero(gathered(sides, layer.feature_points()))
    if len(beyond):
        words = "goes over the 180th meridian, or has a side as long as half of the equator: cut it there"
        raise Refusal(source.name, f"feature {layer.ids[beyond[0]]} {words}")


def transformed(
    layer: Columns[Floats], system: osr.SpatialReference, web: osr.SpatialReference, name: str
) -> Columns[Floats]:
    """The same in another system, whose sides are straight lines between the corners there. A point
    that has no place there has inf for its coordinates."""
    with during(f"transforming {name}"):
        way, x, y = osr.CoordinateTransformation(system, web), np.empty_like(layer.x), np.empty_like(layer.y)
        for at in range(0, len(x), POINTS):
            part = slice(at, at + POINTS)
            points = np.array(way.TransformPoints(np.stack((layer.x[part], layer.y[part]), axis=1)))
            x[part], y[part] = points[:, 0], points[:, 1]
    return layer.at(x, y)
