"""What a file has of the values that were written to it. Many a format has less room than they
take, and its driver cuts or rounds them, or leaves them out, without raising it."""

from __future__ import annotations

import json
from array import array
from collections import Counter
from dataclasses import dataclass, field
from datetime import date
from math import isclose, nan
from typing import Any, Callable, Iterator, Sequence

import numpy as np
from osgeo import ogr

from .columns import Floats
from .fitting import LISTS, text_of

# Numbers that are the same to so many parts of themselves have the same 15 digits.
DIGITS = 1e-14

# How far a shape may come out from its place, in grid units.
OFF = 0.01

# How OGR tells the zone of a time: one that isn't known, that of the place, or quarters of an hour
# before or behind UTC.
LOCAL, UTC = 1, 100

# The most signs of a text that is told.
SHOWN = 40


@dataclass(frozen=True)
class Written:
    """How many rows a layer got; and, where a driver wrote them, its fields and their values, and the
    boxes of all shapes, one after another."""

    count: int
    fields: Sequence[ogr.FieldDefn] = ()
    rows: list[Sequence[Any]] = field(default_factory=list)
    boxes: array[float] = field(default_factory=lambda: array("d"))


@dataclass(frozen=True)
class Difference:
    """A field's value that isn't as it was written, in the row of that number; `near`: but for its
    last digits, or for blanks at its end, or no number that came out as no value."""

    name: str
    row: int
    wanted: Any
    found: Any
    near: bool

    def __str__(self) -> str:
        return f"field {self.name} in row number {self.row}: {told(self.wanted)} comes out as {told(self.found)}"


def told(value: Any) -> str:
    text = str(value) if value is not None else ""
    if not text:
        return "nothing"
    return text if len(text) <= SHOWN else f"a text of {len(text):,} signs"


def differences(layer: ogr.Layer, written: Written) -> Iterator[Difference]:
    """The first difference of each field that has any, those that are no near ones before others of
    their field."""
    layer.SetIgnoredFields(["OGR_GEOMETRY"])
    layer.ResetReading()
    definition = layer.GetLayerDefn()
    places = [definition.GetFieldIndex(held.GetName()) for held in written.fields]
    reads = [reader(held, definition.GetFieldDefn(at) if at >= 0 else None, at) for held, at in zip(written.fields, places)]
    found = zip(*[[read(feature) for read in reads] for feature in layer]) if reads else ()
    for held, wanted, there in zip(written.fields, zip(*written.rows), found):
        yield from of_field(held, wanted, there)


def box_of(feature: ogr.Feature) -> tuple[float, ...]:
    """The least and greatest x, and y, of a feature's shape; no numbers where it has none."""
    shape = feature.GetGeometryRef()
    return (nan,) * 4 if shape is None or shape.IsEmpty() else tuple(shape.GetEnvelope())


def shape_difference(layer: ogr.Layer, written: Written, unit: float) -> str | None:
    """What is wrong with the first shape that isn't where it was written, by more than a small part
    of a grid unit, if one isn't."""
    definition = layer.GetLayerDefn()
    layer.SetIgnoredFields([definition.GetFieldDefn(k).GetName() for k in range(definition.GetFieldCount())])
    layer.ResetReading()
    wanted, most = np.array(written.boxes).reshape(-1, 4), OFF * unit
    found = np.array([box_of(feature) for feature in layer]).reshape(-1, 4) if len(wanted) else wanted
    if len(wanted) != len(found):
        return None  # which is told by itself
    apart = off(wanted, found)
    if not (apart > most).any() or not (off(in_order(wanted), in_order(found)) > most).any():
        return None
    row = int(np.flatnonzero(apart > most)[0])
    if np.isnan(found[row, 0]):
        return f"the shape in row number {row + 1} comes out as nothing"
    return f"the shape in row number {row + 1} comes out {apart[row]:.3g} from its place"


def in_order(boxes: Floats) -> Floats:
    """The same, however a driver has put the rows."""
    ordered: Floats = boxes[np.lexsort(boxes.T)]
    return ordered


def off(wanted: Floats, found: Floats) -> Floats:
    """How far each of two boxes is from the other one, at most; infinitely where one of both isn't
    there."""
    apart: Floats = np.abs(wanted - found).max(axis=1, initial=0.0)
    alone = np.isnan(wanted[:, 0]) != np.isnan(found[:, 0])
    return np.where(alone, np.inf, np.nan_to_num(apart))


def of_field(held: ogr.FieldDefn, wanted: Sequence[Any], found: Sequence[Any]) -> Iterator[Difference]:
    known = comparable(held)
    ours, theirs = list(map(known, wanted)), list(map(known, found))
    unlike = [k for k, pair in enumerate(zip(ours, theirs)) if not same(*pair)]
    if not unlike:
        return
    lost = [k for k in unlike if not near(ours[k], theirs[k])]
    if lost and Counter(map(key, ours)) == Counter(map(key, theirs)):
        return  # a driver may have put the rows in another order
    k = (lost or unlike)[0]
    yield Difference(held.GetName(), k + 1, wanted[k], found[k], not lost)


def same(one: Any, other: Any) -> bool:
    return one == other or is_same_nothing(one, other) or is_same_json(one, other)


def is_same_nothing(one: Any, other: Any) -> bool:
    """Whether both are nothing, and no number hasn't become no value."""
    return is_nothing(one) and is_nothing(other) and (one == one or other != other)


def is_nothing(value: Any) -> bool:
    """No value, a text or a list of nothing and no number are one for formats of text."""
    return value is None or value in ("", []) or value != value


def key(value: Any) -> str:
    """A text that the same values have."""
    return "" if is_nothing(value) else repr(value)


def is_same_json(one: Any, other: Any) -> bool:
    """Whether both are texts of one object, or list, of JSON: drivers lay it out in their own
    ways."""
    if not (isinstance(one, str) and isinstance(other, str) and one[:1] in ("{", "[")):
        return False
    try:
        return bool(json.loads(one) == json.loads(other))
    except (ValueError, RecursionError):
        return False


def near(one: Any, other: Any) -> bool:
    """Whether two values differ by the last digits of a floating-point number at most, or by blanks
    at the end, or are both nothing."""
    if is_nothing(one) and is_nothing(other):
        return True
    if isinstance(one, list) and isinstance(other, list):
        return len(one) == len(other) and all(map(near, one, other))
    if isinstance(one, float) and isinstance(other, (int, float)):
        return isclose(one, other, rel_tol=DIGITS)
    if isinstance(one, str) and isinstance(other, str):
        return one.rstrip() == other.rstrip()
    return same(one, other)


def reader(wanted: ogr.FieldDefn, found: ogr.FieldDefn | None, place: int) -> Callable[[ogr.Feature], Any]:
    """What takes a field's value from a feature that was read, as the type has it in which it was
    written."""
    if found is None:
        return lambda feature: None
    if wanted.GetType() == ogr.OFTString:
        if found.GetType() in LISTS:
            return lambda feature: text_of(feature.GetField(place))
        return lambda feature: feature.GetFieldAsString(place)  # nothing is a text of no sign
    if found.GetType() == wanted.GetType():
        return lambda feature: feature.GetField(place)
    converted = converter(wanted)
    return lambda feature: converted(feature.GetField(place))


def converter(wanted: ogr.FieldDefn) -> Callable[[Any], Any]:
    """What makes a value of a field's type of one that another type has, as GDAL does it."""
    feature = alone(wanted)

    def converted(value: Any) -> Any:
        if value == "":
            return None
        if not isinstance(value, str):
            return value
        feature.SetField(0, value)
        return feature.GetField(0)

    return converted


def as_it_is(value: Any) -> Any:
    return value


def alone(wanted: ogr.FieldDefn) -> ogr.Feature:
    """A feature with that field alone."""
    definition = ogr.FeatureDefn()
    definition.AddFieldDefn(wanted)
    return ogr.Feature(definition)


def comparable(wanted: ogr.FieldDefn) -> Callable[[Any], Any]:
    """What makes the same of all texts of one moment, if the field is one of moments; and of a list
    its text, if it is one of JSON."""
    if wanted.GetType() != ogr.OFTDateTime:
        return text_of if wanted.GetSubType() == ogr.OFSTJSON else as_it_is
    feature = alone(wanted)

    def moment(value: Any) -> Any:
        if value is None:
            return None
        feature.SetField(0, value)
        year, month, day, hour, minute, second, zone = feature.GetFieldAsDateTime(0)
        if not year:
            return value
        ahead = 15 * (zone - UTC) if zone > LOCAL else 0
        return date(year, month, day).toordinal() * 1440 + hour * 60 + minute - ahead, round(second, 3)

    return moment
