"""The rows of a new layer of a GeoPackage, put in by SQLite all together.

GDAL makes the layer, with all that readers want to find of it. It takes long to put rows in one by
one, though, and to have triggers enter each into the layer's index. What these do for a single row
is done for all at the end, so they are laid aside meanwhile.
"""

from __future__ import annotations

import sqlite3
from contextlib import closing
from dataclasses import dataclass
from itertools import chain
from pathlib import Path
from typing import Any, Iterable, Iterator, Sequence

import numpy as np
from osgeo import ogr

from .columns import BLOCK, Floats

# The types of fields whose values SQLite takes as they are.
TYPES = (ogr.OFTString, ogr.OFTInteger, ogr.OFTInteger64, ogr.OFTReal)

# What stands before a geometry in WKB: the magic number, the version, that a box follows and that
# numbers have their least byte first, the number of the reference system, and the box.
HEAD = np.dtype([("magic", "S2"), ("version", "u1"), ("flags", "u1"), ("system", "<i4"), ("box", "<f8", (4,))])
MAGIC, BOXED = b"GP", 0b11

# A geometry in WKB, if there is one, with the values of the fields.
Row = tuple[bytes | None, Sequence[Any]]


@dataclass(frozen=True)
class Place:
    """A layer without a row: its table, and the columns of its rows' numbers, of its geometries, if
    it has such, and of its fields."""

    table: str
    number: str
    geometry: str
    fields: Sequence[str]

    @property
    def index(self) -> str:
        return f"rtree_{self.table}_{self.geometry}"


def place_of(layer: ogr.Layer) -> Place | None:
    """A layer of a GeoPackage that GDAL has just made, if SQLite takes the values of its fields as
    they are."""
    definition = layer.GetLayerDefn()
    fields = [definition.GetFieldDefn(k) for k in range(definition.GetFieldCount())]
    names = [field.GetName() for field in fields]
    if any(field.GetType() not in TYPES or field.GetSubType() != ogr.OFSTNone for field in fields):
        return None
    return Place(layer.GetName(), layer.GetFIDColumn(), layer.GetGeometryColumn(), names)


def connected(path: Path) -> sqlite3.Connection:
    """The file of a GeoPackage, for reading what has been committed, whoever has it open."""
    return sqlite3.connect(f"{path.as_uri()}?mode=ro", uri=True)


def quoted(name: str) -> str:
    return '"' + name.replace('"', '""') + '"'


def filled(path: Path, place: Place, rows: Iterable[Row], boxes: Floats) -> int:
    """Puts all rows into a layer of a file that nothing else has open, and answers how many they
    were; `boxes` are the least and greatest x, and y, of each row's geometry."""
    with closing(sqlite3.connect(path, isolation_level=None)) as held:
        held.execute("PRAGMA synchronous = OFF")  # the file is synced as a whole
        held.execute("BEGIN")
        triggers = laid_aside(held, place.table)
        columns = [place.number, *filter(None, [place.geometry]), *place.fields]
        words = f"{', '.join(map(quoted, columns))}) VALUES ({', '.join('?' * len(columns))}"
        heads = headed(held, place, boxes) if place.geometry else None
        held.executemany(f"INSERT INTO {quoted(place.table)} ({words})", numbered(rows, heads))
        (count,) = held.execute(f"SELECT count(*) FROM {quoted(place.table)}").fetchone()
        if place.geometry and len(boxes):
            enter(held, place, boxes)
        if count:  # of no row GDAL tells no number either
            held.execute("UPDATE gpkg_ogr_contents SET feature_count = ? WHERE table_name = ?", (count, place.table))
        for trigger in triggers:
            held.execute(trigger)
        held.execute("COMMIT")
    return int(count)


def laid_aside(held: sqlite3.Connection, table: str) -> list[str]:
    """Takes the triggers of a table away, and answers how they are made."""
    found = held.execute("SELECT name, sql FROM sqlite_master WHERE type = 'trigger' AND tbl_name = ?", (table,)).fetchall()
    for name, _ in found:
        held.execute(f"DROP TRIGGER {quoted(name)}")
    return [words for _, words in found]


def headed(held: sqlite3.Connection, place: Place, boxes: Floats) -> Iterator[memoryview]:
    """What stands before the geometries."""
    (system,) = held.execute("SELECT srs_id FROM gpkg_geometry_columns WHERE table_name = ?", (place.table,)).fetchone()
    return chain.from_iterable(heads_of(int(system), part) for part in parts_of(boxes))


def parts_of(boxes: Floats) -> Iterator[Floats]:
    """Some boxes at a time, which may lie in a file."""
    return (boxes[at : at + BLOCK] for at in range(0, len(boxes), BLOCK))


def heads_of(system: int, boxes: Floats) -> Iterator[memoryview]:
    heads = np.zeros(len(boxes), HEAD)
    heads["magic"], heads["flags"], heads["system"], heads["box"] = MAGIC, BOXED, system, boxes
    text, width = memoryview(heads.tobytes()), HEAD.itemsize
    return (text[at : at + width] for at in range(0, len(text), width))


def numbered(rows: Iterable[Row], heads: Iterator[memoryview] | None) -> Iterator[tuple[Any, ...]]:
    """What is put into the columns; each geometry has a head, where the layer has any."""
    for number, (geometry, values) in enumerate(rows, 1):
        if heads is None:
            yield (number, *values)
        else:
            yield (number, None if geometry is None else b"".join((next(heads), geometry)), *values)


def enter(held: sqlite3.Connection, place: Place, boxes: Floats) -> None:
    """Puts all geometries into the layer's index, and tells the box round them."""
    there = f"SELECT {quoted(place.number)} FROM {quoted(place.table)} WHERE {quoted(place.geometry)} IS NOT NULL"
    sides = chain.from_iterable(part.tolist() for part in parts_of(boxes))
    entries = ((*number, *box) for number, box in zip(held.execute(there), sides))
    held.executemany(f"INSERT INTO {quoted(place.index)} VALUES (?, ?, ?, ?, ?)", entries)
    (left, _, low, _), (_, right, _, high) = boxes.min(axis=0).tolist(), boxes.max(axis=0).tolist()
    words = "min_x = ?, min_y = ?, max_x = ?, max_y = ?, last_change = strftime('%Y-%m-%dT%H:%M:%fZ', 'now')"
    held.execute(f"UPDATE gpkg_contents SET {words} WHERE table_name = ?", (left, low, right, high, place.table))
