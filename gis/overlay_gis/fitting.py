"""What a format takes in place of what it hasn't: names and types of fields; and how values are put
into them."""

from __future__ import annotations

import json
from typing import Any, Callable, Iterable, Sequence

from osgeo import gdal, ogr

# What puts a value into a feature's field, where that isn't one of numbers, texts or times.
Put = Callable[[ogr.Feature, int, Any], object]
LISTS: dict[int, Put] = {
    ogr.OFTIntegerList: ogr.Feature.SetFieldIntegerList,
    ogr.OFTInteger64List: ogr.Feature.SetFieldInteger64List,
    ogr.OFTRealList: ogr.Feature.SetFieldDoubleList,
    ogr.OFTStringList: ogr.Feature.SetFieldStringList,
}
PUTS: dict[int, Put] = {ogr.OFTBinary: ogr.Feature.SetFieldBinaryFromHexString, **LISTS}

# What stands in for a type of fields that a format hasn't.
TEXTS = (ogr.OFTDate, ogr.OFTTime, ogr.OFTDateTime, *PUTS)
INSTEAD = {ogr.OFTInteger64: ogr.OFTReal, **dict.fromkeys(TEXTS, ogr.OFTString)}

# How many bytes a name may have that a server would cut else, and how many one keeps that has more,
# so that lines have room behind it.
NAME_BYTES, SHORTENED = {"PostgreSQL": 63}, 56

# Names of columns that each table of a driver has already, beside those that its layers tell.
OWN_NAMES = {"PostgreSQL": ("tableoid", "ctid", "xmin", "xmax", "cmin", "cmax")}

# How a driver is to make a layer, where its usual way has no room for all texts.
OPTIONS = {"ESRI Shapefile": ("ENCODING=UTF-8",), "MapInfo File": ("ENCODING=UTF-8",)}


def fitted(field: ogr.FieldDefn, driver: gdal.Driver) -> ogr.FieldDefn:
    """The field, of a type that the format has."""
    types = (driver.GetMetadataItem(gdal.DMD_CREATIONFIELDDATATYPES) or "").split()
    if not types or field.GetType() not in INSTEAD or field.GetTypeName() in types:
        return field
    made = ogr.FieldDefn(field.GetName(), INSTEAD[field.GetType()])
    if field.GetType() in LISTS:
        made.SetSubType(ogr.OFSTJSON)
    return made


def text_of(value: Any) -> Any:
    """A list as a text of JSON, for a field of texts; others as they are."""
    return json.dumps(value, ensure_ascii=False) if isinstance(value, list) else value


def with_room(name: str, driver: gdal.Driver) -> str:
    """A name, shortened where a driver has no room for it."""
    held = name.encode()
    return name if len(held) <= NAME_BYTES.get(driver.ShortName, len(held)) else held[:SHORTENED].decode(errors="ignore")


def apart(names: Sequence[str], taken: Iterable[str]) -> list[str]:
    """The names, each of another letter than the others and than those that are taken, whatever
    their case: one that comes too late has lines behind it."""
    held, own = {name.lower() for name in taken}, {name.lower() for name in names}
    found = []
    for name in names:
        if name.lower() in held:
            name = lined(name, held | own)
        held.add(name.lower())
        found.append(name)
    return found


def lined(name: str, taken: set[str]) -> str:
    """The name with as many lines behind it as make it another one than these."""
    while name.lower() in taken:
        name += "_"
    return name


def putting(field: ogr.FieldDefn) -> Put:
    """What puts a value into a field of that type, as `ogr.Feature.GetField` has it."""
    if field.GetSubType() == ogr.OFSTJSON:
        return lambda feature, place, value: feature.SetField(place, text_of(value))
    return PUTS.get(field.GetType(), ogr.Feature.SetField)
