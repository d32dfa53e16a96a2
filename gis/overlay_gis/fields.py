"""Fields of layers that rows take over: which, and the values of a row's features."""

from __future__ import annotations

import re
from dataclasses import dataclass
from itertools import chain, pairwise
from math import isfinite
from typing import Any, Iterable, Sequence

import numpy as np
from osgeo import ogr

from .columns import Numbers
from .faults import Refusal
from .fitting import text_of
from .inexact import refuse_inexact
from .layers import Source
from .output import Column
from .program import LETTERS
from .questions import Layer
from .rows import Members

# The names of layers in an output.
NAMES = LETTERS.lower()

# What stands behind a time, as GDAL has it, whose zone is known.
ZONE = re.compile(r"[+-][0-9:]+$|Z$")

# Between the values of several features that cover one row.
JOINT = ","


@dataclass
class Kept:
    """A layer's name in the output, its features' numbers, if rows tell them, and the values of the
    fields that are kept; and whether a row has several of its features."""

    name: str
    fields: list[ogr.FieldDefn]
    ids: Numbers | None
    values: list[tuple[Any, ...]]
    several: bool = False

    def is_plain(self) -> bool:
        """Whether all values are numbers and texts."""
        return all(map(is_plain, chain.from_iterable(self.values)))

    def typed(self) -> list[Column]:
        """The fields that are kept, as the layer has them."""
        return [column_of(field, held, f"{self.name}_") for field, held in zip(self.fields, by_fields(self.fields, self.values))]

    def columns(self) -> list[Column]:
        """The same for rows; they are texts where several features of the layer cover one row."""
        if self.several:
            return [Column(f"{self.name}_{field.GetName()}", ogr.OFTString) for field in self.fields]
        return self.typed()

    def numbers(self, held: Members) -> list[str | None]:
        """For each row the features' numbers as text, if it has any."""
        ids = self.ids if self.ids is not None else np.zeros(0, np.int64)
        words = list(map(str, ids[held.places].tolist()))
        return [JOINT.join(words[at:end]) or None for at, end in pairwise(held.starts.tolist())]

    def kept(self, held: Members) -> list[list[Any]]:
        """For each row the values of its features."""
        places = held.places.tolist()
        return [self.values_of(places[at:end]) for at, end in pairwise(held.starts.tolist())]

    def values_of(self, covering: Sequence[int]) -> list[Any]:
        if not covering:
            return [None] * len(self.fields)
        if not self.several:
            return list(self.values[covering[0]])
        if len(covering) == 1:
            return [None if value is None else str(text_of(value)) for value in self.values[covering[0]]]
        return [
            JOINT.join("" if value is None else str(text_of(value)) for value in column)
            for column in zip(*(self.values[k] for k in covering))
        ]


def is_plain(value: Any) -> bool:
    """Whether a value is a number, nothing, or a text of Unicode's signs; GDAL makes other signs of
    bytes that are none."""
    if isinstance(value, str):
        return value.isascii() or value == value.encode(errors="ignore").decode()
    return value is None or isinstance(value, (int, float))


def by_fields(fields: Sequence[ogr.FieldDefn], values: Sequence[tuple[Any, ...]]) -> list[tuple[Any, ...]]:
    """For each field its values."""
    return list(zip(*values)) if values else [()] * len(fields)


def column_of(field: ogr.FieldDefn, values: Iterable[Any], mark: str = "") -> Column:
    """A field as it is, with a mark before its name; without its width where that is no bound of its
    values, as many a format has it."""
    width, precision, held = field.GetWidth(), field.GetPrecision(), list(values)
    if width and not all(fits(value, width, precision) for value in held):
        width = precision = 0
    unzoned = field.GetType() == ogr.OFTDateTime and not any(value and ZONE.search(value) for value in held)
    strange = field.GetType() == ogr.OFTStringList and any(map(is_strange, chain.from_iterable(filter(None, held))))
    return Column(mark + field.GetName(), field.GetType(), field.GetSubType(), width, precision, unzoned, strange)


def is_strange(text: str) -> bool:
    return not text or "\\" in text


def fits(value: Any, width: int, precision: int) -> bool:
    """Whether a text has so many signs at most, or a number so many digits, of which some stand behind
    the point."""
    if isinstance(value, str):
        return len(value) <= width
    if isinstance(value, (int, float)) and isfinite(value):
        return abs(value) < 10 ** (width - precision) and round(value, precision) == value
    return True


def fields_of(source: Source, names: Sequence[str]) -> list[ogr.FieldDefn]:
    """The fields of a layer that are named; a space at a name's end is no part of it unless a field's
    name has it too."""
    fields = source.fields()
    there = {field.GetName(): field for field in fields}
    wanted = [name if name in there else name.strip() for name in names]
    for name in wanted:
        if name not in there:
            raise Refusal(source.name, f"has no field {name}, but {', '.join(there) or 'none'}")
        if sum(field.GetName() == name for field in fields) > 1:
            raise Refusal(source.name, f"has several fields {name}, of which none can be named alone")
    return [there[name] for name in dict.fromkeys(wanted)]


def check_fields(source: Source, names: Sequence[str]) -> None:
    """Refuses, before any work is done, fields that a layer hasn't, or that don't come out as they
    are."""
    for field in fields_of(source, names):
        refuse_inexact(source, field)


def values_in(layer: Layer, fields: Sequence[ogr.FieldDefn]) -> list[tuple[Any, ...]]:
    """The values of these fields of all features."""
    return layer.source.values([field.GetName() for field in fields], layer.seen)


def kept(layer: Layer, name: str, names: Sequence[str]) -> Kept:
    fields = fields_of(layer.source, names)
    return Kept(name, fields, layer.grid.layer.ids, values_in(layer, fields))


def told_apart(values: Sequence[tuple[Any, ...]]) -> tuple[Numbers, list[int]]:
    """For each feature the number of its values among all that differ, in the order of their first
    features, and where these are."""
    known: dict[tuple[Any, ...], int] = {}
    firsts: list[int] = []
    classes = []
    for place, held in enumerate(values):
        at = known.setdefault(tuple(map(comparable, held)), len(firsts))
        if at == len(firsts):
            firsts.append(place)
        classes.append(at)
    return np.array(classes, np.int64), firsts


def comparable(value: Any) -> Any:
    """A value that is the same as another one just where it is equal to it: lists are kept apart,
    and no number is one number."""
    if isinstance(value, list):
        return tuple(map(comparable, value))
    return "no number" if value != value else (type(value).__name__, value)
