"""What `check` finds, one by one: as lines, as JSON and as rows of a layer."""

from __future__ import annotations

import json
from dataclasses import dataclass
from itertools import chain
from typing import Any, Iterator, Sequence

import numpy as np
from osgeo import ogr

from .columns import Columns, Numbers
from .flaws import DOUBLE, SLIVER, Flaw, Flaws, Sizes, kind_of
from .frame import Frame
from .geopackage import Row
from .output import NO_BOXES, Column, Table
from .row_tables import shapes
from .surveys import numbers

# What a feature may be that is wrong by itself.
BARE, STRANGE, UNBOUND, OPEN, SHORT, CROSSES, INVALID = (
    "no geometry",
    "no polygon",
    "not finite",
    "open ring",
    "short ring",
    "crosses itself",
    "invalid",
)
# What is wrong with the layer as a whole.
LAYER = "layer"

COLUMNS = [
    Column("kind", ogr.OFTString),
    Column("first", ogr.OFTInteger64),
    Column("second", ogr.OFTInteger64),
    Column("area", ogr.OFTReal),
    Column("width", ogr.OFTReal),
    Column("features", ogr.OFTString),
    Column("finding", ogr.OFTString),
]


@dataclass(frozen=True)
class Finding:
    """One thing that is wrong: its kind, the numbers of its features, and words; of an overlap or a
    gap a point of its border, its area and its width."""

    kind: str
    ids: Sequence[int]
    words: str
    at: tuple[float, float] | None = None
    area: float | None = None
    width: float | None = None

    def line(self) -> str:
        return f"feature {self.ids[0]}: {self.words}" if len(self.ids) == 1 else self.words

    def values(self) -> list[Any]:
        """The values of a row's fields."""
        first, second = [*self.ids[:2], None, None][:2]
        return [self.kind, first, second, self.area, self.width, ",".join(map(str, self.ids)) or None, self.line()]

    def object(self) -> dict[str, Any]:
        """As JSON has it."""
        held = {"kind": self.kind, "features": list(self.ids), "at": self.at, "area": self.area, "width": self.width}
        return {**{name: value for name, value in held.items() if value is not None}, "finding": self.line()}


@dataclass(frozen=True)
class Units:
    """The names of the units of lengths and of areas, and the sizes by which kinds are told."""

    length: str
    square: str
    sizes: Sizes

    def finding(self, flaw: Flaw) -> Finding:
        """An overlap or a gap as a finding."""
        kind, area = kind_of(flaw, self.sizes), f"{flaw.area:,.6g} {self.square}"
        named = f"features {flaw.ids[0]} and {flaw.ids[1]}" if len(flaw.ids) == 2 else numbers(flaw.ids)
        if kind == DOUBLE:
            words = f"{named}: the same area of {area}"
        elif flaw.ids:
            words = f"{named}: overlap by {area}"
        else:
            words = f"gap at {flaw.at[0]:.12g} {flaw.at[1]:.12g}: {area}"
        if kind == SLIVER:
            words += f", a sliver {flaw.width:,.3g} {self.length} wide"
        return Finding(kind, flaw.ids, words, flaw.at, flaw.area, flaw.width)


def as_json(layer: str, features: int, findings: Sequence[Finding], areas: dict[str, float]) -> str:
    """All that was found of a layer, as one line of JSON."""
    told = {"layer": layer, "features": features, "findings": [finding.object() for finding in findings], "areas": areas}
    return json.dumps(told, ensure_ascii=False)


def table_of(alone: Sequence[Finding], layer: Columns[Numbers], parts: Sequence[Flaws], frame: Frame, units: Units) -> Table:
    """A row for each thing that is wrong with a feature alone, with its polygons on the grid where it
    has such, and for each overlap and gap."""
    found = [finding for finding in alone if finding.kind != LAYER]
    held = layer.of_features(np.isin(layer.ids, [finding.ids[0] for finding in found]) & (np.diff(layer.features) > 0))
    shape_of = dict(zip(held.ids.tolist(), shapes(held, frame)))
    box_of = dict(zip(held.ids.tolist(), frame.boxes(held)))
    own = [box_of[finding.ids[0]] for finding in found if finding.ids[0] in box_of]
    boxes = np.concatenate([np.reshape(own, (-1, 4)), *(frame.boxes(part.shapes) for part in parts)])
    rows = chain(((shape_of.get(finding.ids[0]), finding.values()) for finding in found), flaw_rows(parts, units))
    return Table(COLUMNS, rows, ogr.wkbMultiPolygon, boxes, frame=frame)


def flaw_rows(parts: Sequence[Flaws], units: Units) -> Iterator[Row]:
    for part in parts:
        for shape, flaw in zip(shapes(part.shapes, part.frame), part.each()):
            yield shape, units.finding(flaw).values()


def table_without_shapes(alone: Sequence[Finding]) -> Table:
    """The rows of a layer that has no polygon on the grid."""
    rows = ((None, finding.values()) for finding in alone if finding.kind != LAYER)
    return Table(COLUMNS, rows, ogr.wkbMultiPolygon, NO_BOXES)
