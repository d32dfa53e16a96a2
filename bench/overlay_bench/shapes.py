"""Polygons as other tools write them: read from WKT, from WKB in hexadecimal digits, or from a GeoPackage; their area, and one form for the same ones."""
from __future__ import annotations

import contextlib
import math
import re
import sqlite3
import struct
from typing import Any

Ring = list[tuple[float, float]]
Polygon = list[Ring]
Turned = tuple[tuple[float, float], ...]

RING = re.compile(r"\(([^()]+)\)")
POLYGON = re.compile(r"\(\s*\([^()]*\)(?:\s*,\s*\([^()]*\))*\s*\)")
# How many bytes stand between the head of a GeoPackage's geometry and its WKB, by the kind of its envelope.
ENVELOPES = (0, 32, 48, 48, 64)


def of_wkt(text: str) -> list[Polygon]:
    """The polygons of a WKT text, each ring without its first point again."""

    def point(pair: str) -> tuple[float, float]:
        x, y = map(float, pair.split())
        return x, y

    return [[[point(pair) for pair in ring.split(",")][:-1] for ring in RING.findall(polygon)] for polygon in POLYGON.findall(text)]


def of_wkb(data: bytes, at: int = 0) -> tuple[list[Polygon], int]:
    """The polygons among a geometry and its parts, and where it ends. Points and lines have no part in an area."""
    order = "<" if data[at] else ">"
    kind, count = struct.unpack_from(order + "II", data, at + 1)
    if kind == 3:
        at, rings = at + 9, []
        for _ in range(count):
            (points,) = struct.unpack_from(order + "I", data, at)
            numbers = struct.unpack_from("%s%dd" % (order, 2 * points), data, at + 4)
            rings.append(list(zip(numbers[::2], numbers[1::2]))[:-1])
            at += 4 + 16 * points
        return [rings] if rings else [], at
    if kind in (1, 2):
        return [], at + (21 if kind == 1 else 9 + 16 * count)
    if kind not in (4, 5, 6, 7):
        raise ValueError("WKB of kind %d" % kind)
    at, found = at + 9, []
    for _ in range(count):
        part, at = of_wkb(data, at)
        found += part
    return found, at


def of_lines(text: str) -> list[Polygon]:
    """The polygons of lines, each of which is WKT or WKB."""
    found = []
    for line in filter(None, map(str.strip, text.splitlines())):
        found += of_wkt(line) if not line[0].isdigit() else of_wkb(bytes.fromhex(line))[0]
    return found


def rows_of_geopackage(path: str, fields: tuple[str | None, ...]) -> list[tuple[Any, ...]]:
    """Fields of the first layer's rows, in their order, of the types that the file gives them; `None` stands for its geometry."""
    with contextlib.closing(sqlite3.connect("file:%s?mode=ro" % path, uri=True)) as source:
        table, column = source.execute("select table_name, column_name from gpkg_geometry_columns").fetchone()
        names = ", ".join('"%s"' % (field or column) for field in fields)
        return source.execute('select %s from "%s" order by rowid' % (names, table)).fetchall()


def geometries_of_geopackage(path: str) -> list[bytes]:
    """The geometries of the first layer as WKB."""
    return [blob[8 + ENVELOPES[blob[3] >> 1 & 7]:] for (blob,) in rows_of_geopackage(path, (None,)) if blob]


def twice_area(ring: Ring) -> float:
    """Twice the signed area; of whole numbers below 2^26 it is exact."""
    x, y = ring[0]
    moved = [(p - x, q - y) for p, q in ring]
    return math.fsum(p * t - q * s for (p, q), (s, t) in zip(moved, moved[1:] + moved[:1]))


def area(polygons: list[Polygon]) -> float:
    return math.fsum(abs(twice_area(rings[0])) - sum(abs(twice_area(ring)) for ring in rings[1:]) for rings in polygons if rings) / 2


def turned(ring: Ring, left: bool) -> Turned:
    """The ring from its least point, with its inner side to the left or to the right."""
    ring = ring if (twice_area(ring) > 0) == left else ring[::-1]
    first = ring.index(min(ring))
    return tuple(ring[first:] + ring[:first])


def normal(polygons: list[Polygon]) -> list[tuple[Turned, list[Turned]]]:
    """The same for the same polygons, wherever their rings start and in whatever order they come."""
    return sorted((turned(rings[0], True), sorted(turned(ring, False) for ring in rings[1:])) for rings in polygons if rings)
