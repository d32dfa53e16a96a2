"""Polygonal geometries in WKB: decoded into shapes, and encoded from polygons of the grid that were brought back."""

from __future__ import annotations

import struct
from array import array
from itertools import islice
from typing import Iterator, List, Optional, Tuple

from ._shapes import POINT, Builder

BIG_ENDIAN, LITTLE_ENDIAN = 0, 1
NAMES = {
    1: "Point",
    2: "LineString",
    3: "Polygon",
    4: "MultiPoint",
    5: "MultiLineString",
    6: "MultiPolygon",
    7: "GeometryCollection",
    8: "CircularString",
    9: "CompoundCurve",
    10: "CurvePolygon",
    11: "MultiCurve",
    12: "MultiSurface",
    15: "PolyhedralSurface",
    16: "TIN",
    17: "Triangle",
}
POLYGON, MULTIPOLYGON, COLLECTION = 3, 6, 7
WIDTH = 8  # bytes of a coordinate
BEGINNING = 5  # bytes that tell WKB from a text

# How a kind says that points have Z or M, or that a number of a reference system follows: by bits, as PostGIS does, or by thousands.
Z_BIT, M_BIT, SYSTEM_BIT, THOUSAND = 1 << 31, 1 << 30, 1 << 29, 1000
WITH_Z, WITH_M = (1, 3), (2, 3)

# A polygon of one ring in two dimensions begins with these.
PLAIN = struct.Struct("<BIII")
HEADS = {BIG_ENDIAN: struct.Struct(">II"), LITTLE_ENDIAN: struct.Struct("<II")}
COUNTS = {BIG_ENDIAN: struct.Struct(">I"), LITTLE_ENDIAN: struct.Struct("<I")}


class Unusual(ValueError):
    """A geometry that isn't made of polygons, or isn't whole."""


def begins(data: bytes) -> bool:
    """Whether some bytes begin as WKB does, and no text: with a byte order, and the kind of a geometry."""
    if len(data) < BEGINNING or data[0] > LITTLE_ENDIAN:
        return False
    (kind,) = COUNTS[data[0]].unpack_from(data, 1)
    thousands, flat = divmod(kind & ~(Z_BIT | M_BIT | SYSTEM_BIT), THOUSAND)
    return thousands < 4 and flat in NAMES


def head_of(data: bytes, at: int) -> Tuple[int, int, int, int, int]:
    """Byte order, kind without what that says of dimensions, dimensions, number of parts, and where these begin."""
    order = data[at]
    if order not in HEADS:
        raise Unusual("is of no byte order that WKB has")
    kind, parts = HEADS[order].unpack_from(data, at + 1)
    at += 9
    if kind & SYSTEM_BIT:
        (parts,) = COUNTS[order].unpack_from(data, at)
        at += 4
    thousands, flat = divmod(kind & ~(Z_BIT | M_BIT | SYSTEM_BIT), THOUSAND)
    dimensions = 2 + (thousands in WITH_Z or bool(kind & Z_BIT)) + (thousands in WITH_M or bool(kind & M_BIT))
    return order, flat, dimensions, parts, at


def points_of(data: bytes, order: int, dimensions: int) -> bytes:
    """x and y of some points, in this machine's form."""
    if order == LITTLE_ENDIAN and dimensions == 2:
        return data
    held = array("d", data)
    if order == BIG_ENDIAN:
        held.byteswap()
    flat = array("d", bytes(16 * (len(held) // dimensions)))
    flat[0::2], flat[1::2] = held[0::dimensions], held[1::dimensions]
    return flat.tobytes()


def plain_end(data: bytes, at: int) -> int:
    """Where a polygon of one ring in two dimensions ends; 0 where there is none such, or it isn't whole."""
    if len(data) - at < PLAIN.size:
        return 0
    order, kind, rings, points = PLAIN.unpack_from(data, at)
    end: int = at + PLAIN.size + points * POINT
    return end if order == LITTLE_ENDIAN and kind == POLYGON and rings == 1 and points and end <= len(data) else 0


def add_polygon(data: bytes, at: int, builder: Builder, part: int) -> Tuple[int, int]:
    """Adds a polygon's rings; how many they are, and where it ends."""
    end = plain_end(data, at)
    if end:
        builder.ring(data[at + PLAIN.size : end], part)
        return 1, end
    order, kind, dimensions, rings, at = head_of(data, at)
    if kind != POLYGON:
        raise Unusual(f"a {NAMES.get(kind, f'geometry of kind {kind}')} is no polygon")
    added = 0
    for _ in range(rings):
        (points,) = COUNTS[order].unpack_from(data, at)
        end = at + 4 + points * dimensions * WIDTH
        if end > len(data):
            raise Unusual("is WKB that isn't whole")
        if points:
            builder.ring(points_of(data[at + 4 : end], order, dimensions), part)
            added += 1
        at = end
    return added, at


def add(data: Optional[bytes], builder: Builder) -> None:
    """Adds a geometry; nothing is one without polygons."""
    if data is None:
        return builder.feature([])
    if data and plain_end(data, 0) == len(data):
        builder.ring(data[PLAIN.size :], 1)
        return builder.feature([1])
    try:
        builder.feature(list(polygons_of(data, builder)))
    except (struct.error, IndexError) as error:
        raise builder.refused("is WKB that isn't whole") from error
    except Unusual as error:
        raise builder.refused(str(error)) from error


def polygons_of(data: bytes, builder: Builder) -> Iterator[int]:
    """Adds the rings of a geometry that isn't plain; how many each of its polygons has."""
    _, kind, _, parts, at = head_of(data, 0)
    if kind == POLYGON:
        at, parts = 0, 1
    elif kind != MULTIPOLYGON and (kind != COLLECTION or parts):  # Shapely 1.8 has empty geometries as collections of nothing
        raise Unusual(f"a {NAMES.get(kind, f'geometry of kind {kind}')} is no polygon")
    for part in range(1, parts + 1):
        rings, at = add_polygon(data, at, builder, part)
        yield rings
    if at < len(data):
        raise Unusual(f"is WKB that goes on behind its end, by {len(data) - at} of {len(data)} bytes")


def encoded(points: "array[float]", rings: List[int], polygons: List[int]) -> bytes:
    """Polygons as one geometry: a polygon where there is one, or none, and else a multipolygon."""
    if not polygons:
        return PLAIN.pack(LITTLE_ENDIAN, POLYGON, 0, 0)[:9]
    data, at, each = points.tobytes(), 0, iter(rings)
    count = COUNTS[LITTLE_ENDIAN].pack
    made = []
    for held in polygons:
        made.append(PLAIN.pack(LITTLE_ENDIAN, POLYGON, held, 0)[:9])
        for number in islice(each, held):
            end = at + number * 2 * WIDTH
            made += (count(number), data[at:end])
            at = end
    if len(polygons) > 1:
        made.insert(0, PLAIN.pack(LITTLE_ENDIAN, MULTIPOLYGON, len(polygons), 0)[:9])
    return b"".join(made)
