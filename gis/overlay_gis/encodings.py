"""Texts of a layer that are in another encoding than GDAL takes them to be in."""

from __future__ import annotations

from typing import Any, Sequence

from osgeo import ogr

from .faults import Refusal
from .fields import is_plain
from .questions import Layer

WAYS = (
    "where it is a Shapefile, name its encoding in a .cpg file beside it, or as"
    " SHAPE_ENCODING=ISO-8859-1 in the environment; else write the layer anew, in UTF-8"
)


def is_known(value: Any) -> bool:
    """Whether a value is no text, or one of Unicode's signs: GDAL's bindings make others of bytes
    that are none."""
    if isinstance(value, list):
        return all(map(is_known, value))
    return not isinstance(value, str) or is_plain(value)


def check_texts(layer: Layer, fields: Sequence[ogr.FieldDefn], values: Sequence[tuple[Any, ...]]) -> None:
    """Refuses a layer of which a feature has a text in no known encoding; `values` are those of
    these fields of all features."""
    for number, held in zip(layer.seen.numbers.tolist(), values):
        if not all(map(is_known, held)):
            name = next(field.GetName() for field, value in zip(fields, held) if not is_known(value))
            raise Refusal(layer.source.name, f"feature {number}: its field {name} has no text in UTF-8: {WAYS}")
