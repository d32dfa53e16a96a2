"""Fields of QGIS's layers as columns of a GeoPackage, and values as they are put there: whole
milliseconds, objects and lists as texts of JSON, and bytes."""

from __future__ import annotations

import json
from typing import Any, Sequence

from osgeo import ogr
from qgis.core import QgsField
from qgis.PyQt.QtCore import QByteArray, QDate, QDateTime, Qt, QTime, QVariant

# The types of columns; those of other fields are texts.
TYPES = {
    QVariant.Bool: (ogr.OFTInteger, ogr.OFSTBoolean),
    QVariant.Int: (ogr.OFTInteger, ogr.OFSTNone),
    QVariant.UInt: (ogr.OFTInteger64, ogr.OFSTNone),
    QVariant.LongLong: (ogr.OFTInteger64, ogr.OFSTNone),
    QVariant.Double: (ogr.OFTReal, ogr.OFSTNone),
    QVariant.Date: (ogr.OFTDate, ogr.OFSTNone),
    QVariant.DateTime: (ogr.OFTDateTime, ogr.OFSTNone),
    QVariant.ByteArray: (ogr.OFTBinary, ogr.OFSTNone),
    QVariant.Map: (ogr.OFTString, ogr.OFSTJSON),
    QVariant.List: (ogr.OFTString, ogr.OFSTJSON),
    QVariant.StringList: (ogr.OFTString, ogr.OFSTJSON),
}

# How OGR tells the zone of a time: as one that isn't known, or quarters of an hour from UTC on.
UNKNOWN, UTC, QUARTER = 0, 100, 900


def column_of(field: QgsField, name: str) -> ogr.FieldDefn:
    """The column of a field."""
    kind, subtype = TYPES.get(field.type(), (ogr.OFTString, ogr.OFSTNone))
    column = ogr.FieldDefn(name, kind)
    column.SetSubType(subtype)
    if field.type() == QVariant.String:
        column.SetWidth(max(field.length(), 0))
    return column


def names_apart(names: Sequence[str]) -> list[str]:
    """The names, of which SQLite takes no two for one: one that comes too late has lines behind it."""
    own = {name.lower() for name in names}
    found: dict[str, str] = {}
    for name in names:
        called = name
        while called.lower() in found or (called != name and called.lower() in own):
            called += "_"
        found[called.lower()] = called
    return list(found.values())


def put(feature: ogr.Feature, place: int, value: Any) -> None:
    """Puts a value of QGIS into a column."""
    if is_nothing(value):
        feature.SetFieldNull(place)
    elif isinstance(value, QDateTime):
        put_moment(feature, place, value)
    elif isinstance(value, QDate):
        feature.SetField(place, value.year(), value.month(), value.day(), 0, 0, 0.0, UNKNOWN)
    elif isinstance(value, QTime):
        feature.SetField(place, value.toString(Qt.ISODateWithMs if value.msec() else Qt.ISODate))
    elif isinstance(value, QByteArray):
        feature.SetFieldBinaryFromHexString(place, bytes(value).hex())
    elif isinstance(value, (dict, list)):
        feature.SetField(place, json.dumps(value, ensure_ascii=False, default=plain))
    elif isinstance(value, int):
        feature.SetFieldInteger64(place, value)
    else:
        feature.SetField(place, value if isinstance(value, float) else str(value))


def put_moment(feature: ogr.Feature, place: int, value: QDateTime) -> None:
    day, time = value.date(), value.time()
    zone = UNKNOWN if value.timeSpec() == Qt.LocalTime else UTC + value.offsetFromUtc() // QUARTER
    seconds = time.second() + time.msec() / 1000
    feature.SetField(place, day.year(), day.month(), day.day(), time.hour(), time.minute(), seconds, zone)


def is_nothing(value: Any) -> bool:
    return value is None or (isinstance(value, QVariant) and value.isNull())


def plain(value: Any) -> Any:
    """A value within an object or a list, for JSON."""
    return None if is_nothing(value) else str(value)
