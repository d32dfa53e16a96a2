"""Fields of a database, or of GeoJSON, that GDAL has otherwise than they are there: they are told
before any work is done."""

from __future__ import annotations

import re
from typing import Callable, Iterator

from osgeo import gdal, ogr

from . import gdal_state
from .database import answer, literal, quoted
from .faults import Refusal
from .fitting import LISTS
from .gdal_errors import blamed_on
from .geopackage import quoted as quoted_whole
from .layers import Source

# Types, as the server calls them, whose values GDAL has as they are.
SAME = ("int2", "int4", "int8", "bool", "float4", "float8", "bytea")
TEXTS = ("text", "varchar", "bpchar", "name")

# Years that GDAL and all formats have.
YEARS = "'0001-01-01' AND '9999-12-31 23:59:59.999'"

# Drivers of one form of texts; the types of fields, beside texts of JSON, that may have bounds of
# whole numbers in the place of greater ones; and times of more digits than GDAL has, which the
# second driver doesn't tell.
JSON = ("GeoJSON", "GeoJSONSeq")
CLAMPED = (ogr.OFTInteger64, ogr.OFTInteger64List)
BOUNDS = re.compile(r"(9223372036854775807|-9223372036854775808)(?![0-9])")
FINER = re.compile(r":[0-9]{2}\.[0-9]{3}[0-9]*[1-9]")
TIMES = (ogr.OFTTime, ogr.OFTDateTime)

NEVER, ALWAYS = "false", "true"


def of_whole(value: str, bits: int) -> str:
    """Whether a value isn't a whole number of so many bits."""
    bounds = f"{-(1 << bits - 1)} AND {(1 << bits - 1) - 1}"
    return f"CASE WHEN {value}::text ~ '^-?[0-9]+$' THEN {value}::text::numeric NOT BETWEEN {bounds} ELSE true END"


def of_real(value: str) -> str:
    """Whether a value isn't what a floating-point number is, by its 15 or by its shortest digits."""
    text = f"{value}::text"
    is_long = f"length({text}) > 300 OR {text}::numeric NOT IN ({text}::float8::numeric, {text}::float8::text::numeric)"
    is_none = f"{text} NOT IN ('NaN', 'Infinity', '-Infinity')"
    return f"CASE WHEN {text} ~ '^-?[0-9]+([.][0-9]+)?$' THEN {is_long} ELSE {is_none} END"


def of_moment(value: str, kind: str) -> str:
    """Whether a time has more than milliseconds, or a year that there isn't."""
    if kind == "time":
        return f"{value} = '24:00' OR {value}::interval <> date_trunc('milliseconds', {value}::interval)"
    if kind not in ("date", "timestamp", "timestamptz"):
        return ALWAYS
    finer = f" OR {value} <> date_trunc('milliseconds', {value})" if kind != "date" else ""
    return f"NOT isfinite({value}) OR {value} NOT BETWEEN {YEARS}{finer}"


def of_text(value: str) -> str:
    """Whether a text of a list is another one to GDAL."""
    return f"strpos({value}, chr(92)) > 0 OR upper({value}) = 'NULL'"


def of_list(value: str, kind: str) -> str:
    """Whether a list has lists, begins elsewhere, or has what GDAL takes for something else."""
    element = NEVER if kind in SAME else of_text("e") if kind in TEXTS else of_real("e") if kind == "numeric" else ALWAYS
    of_any = f"EXISTS (SELECT 1 FROM unnest({value}) AS held(e) WHERE e IS NULL OR {element})"
    return f"CASE WHEN array_ndims({value}) > 1 OR array_lower({value}, 1) <> 1 THEN true ELSE {of_any} END"


# By the type that a field has to GDAL, what tells which values of a column of a server's type are
# others there.
WAYS: dict[int, Callable[[str, str], str]] = {
    ogr.OFTInteger: lambda value, _: of_whole(value, 32),
    ogr.OFTInteger64: lambda value, _: of_whole(value, 64),
    ogr.OFTReal: lambda value, _: of_real(value),
    **dict.fromkeys((ogr.OFTDate, ogr.OFTTime, ogr.OFTDateTime), of_moment),
    **dict.fromkeys(LISTS, of_list),
}


def another(field: ogr.FieldDefn, kind: str) -> str:
    """What tells whether a value of a field is another one to GDAL."""
    if field.GetType() not in WAYS or (kind in SAME and field.GetType() not in LISTS):
        return NEVER
    return WAYS[field.GetType()](quoted_whole(field.GetName()), kind)


def refuse_inexact(source: Source, field: ogr.FieldDefn) -> None:
    """Refuses a field that GDAL takes for another one, or of which it takes a value for another."""
    name = source.layer.GetName()
    with blamed_on(source.name, source.path):
        if source.is_postgis:
            refuse_confused(source, field.GetName())
            for table in (quoted(name), quoted_whole(name)):
                refuse(source, field, inexact(source, table, field), f"a view that has {field.GetName()}::text keeps them")
        elif source.dataset.GetDriver().ShortName in JSON:
            refuse(source, field, next(clamped(source, field), None), "as texts, in quotes, they are kept")
            refuse(source, field, next(too_fine(source, field), None), "ogr2ogr -oo DATE_AS_STRING=YES makes texts of them")


def refuse(source: Source, field: ogr.FieldDefn, found: str | None, way: str) -> None:
    if found:
        raise Refusal(source.name, f"the field {field.GetName()} has values, as {found}, that GDAL takes for others: {way}")


def read_again(source: Source, name: str) -> Iterator[str]:
    """The texts of a field's values, where times are texts as well."""
    with gdal_state.options({"OGR_GEOJSON_DATE_AS_STRING": "YES"}):
        dataset = gdal.OpenEx(source.path, gdal.OF_VECTOR | gdal.OF_READONLY)
        layer = dataset.GetLayerByName(source.layer.GetName())
        place = layer.GetLayerDefn().GetFieldIndex(name)
        for feature in layer:
            yield feature.GetFieldAsString(place)


def clamped(source: Source, field: ogr.FieldDefn) -> Iterator[str]:
    """Bounds of whole numbers of 64 bits that stand for greater ones, or for themselves."""
    if field.GetType() in CLAMPED or field.GetSubType() == ogr.OFSTJSON:
        found = map(BOUNDS.search, read_again(source, field.GetName()))
        yield from (f"{match[0]} or beyond" for match in found if match)


def too_fine(source: Source, field: ogr.FieldDefn) -> Iterator[str]:
    """Times of more than milliseconds."""
    if field.GetType() in TIMES:
        yield from filter(FINER.search, read_again(source, field.GetName()))


def inexact(source: Source, table: str, field: ogr.FieldDefn) -> str | None:
    """A value of a table's column that GDAL takes for another one, if there is one."""
    types = "pg_attribute JOIN pg_type AS own ON own.oid = atttypid LEFT JOIN pg_type AS of_list"
    listed = f"{types} ON of_list.oid = own.typelem AND own.typcategory = 'A'"
    of_column = f"WHERE attrelid = to_regclass({literal(table)}) AND attname = {literal(field.GetName())}"
    kind = answer(source.dataset, f"SELECT coalesce(of_list.typname, own.typname)::text FROM {listed} {of_column}")
    words = another(field, kind) if kind else NEVER
    if words == NEVER:
        return None
    column = quoted_whole(field.GetName())
    found = answer(source.dataset, f"SELECT {column}::text FROM {table} WHERE {column} IS NOT NULL AND ({words}) LIMIT 1")
    return found if found is None else str(found)


def refuse_confused(source: Source, name: str) -> None:
    """Refuses a column that has the name of another one but for the case: GDAL has the values of one
    of them for both."""
    if not source.is_postgis:
        return
    layer, defined = source.layer, source.layer.GetLayerDefn()
    shapes = [defined.GetGeomFieldDefn(k).GetName() for k in range(defined.GetGeomFieldCount())]
    there = [layer.GetFIDColumn(), *shapes, *(field.GetName() for field in source.fields())]
    others = [other for other in there if other != name and other.lower() == name.lower()]
    if others:
        told = f"has columns {name} and {others[0]}, which GDAL takes for one: a view gives them other names"
        raise Refusal(source.name, told)
