"""Features as GDAL hands them over in Arrow's C data interface: batches of numbers and geometries,
read where they lie."""

from __future__ import annotations

import ctypes
from contextlib import suppress
from dataclasses import dataclass
from typing import Any, Iterator

import numpy as np
from osgeo import gdal, ogr

from .columns import Bytes, Mask, Numbers
from .faults import Fault

# How many features a batch has at most.
BATCH = 16384

NO_NUMBER = -1  # what OGR gives a feature that has none


class Schema(ctypes.Structure):
    """A column's type, as the interface lays it out; what follows in it isn't read."""


Schema._fields_ = [
    ("format", ctypes.c_char_p),
    ("name", ctypes.c_char_p),
    ("metadata", ctypes.c_void_p),
    ("flags", ctypes.c_int64),
    ("n_children", ctypes.c_int64),
    ("children", ctypes.POINTER(ctypes.POINTER(Schema))),
]


class Array(ctypes.Structure):
    """A column's values, likewise."""


Array._fields_ = [
    ("length", ctypes.c_int64),
    ("null_count", ctypes.c_int64),
    ("offset", ctypes.c_int64),
    ("n_buffers", ctypes.c_int64),
    ("n_children", ctypes.c_int64),
    ("buffers", ctypes.POINTER(ctypes.c_void_p)),
    ("children", ctypes.POINTER(ctypes.POINTER(Array))),
]

# The formats of a feature's number, and of geometries, whose offsets have four bytes or eight.
NUMBER = b"l"
GEOMETRIES: dict[bytes, np.dtype[Any]] = {b"z": np.dtype(np.int32), b"Z": np.dtype(np.int64)}


@dataclass(frozen=True)
class Batch:
    """Features' numbers, and their geometries as WKB: that of feature k lies from starts[k] up to
    ends[k] in `data`, and has no byte where there is none. It is there until the next batch is
    asked for."""

    numbers: Numbers
    data: Bytes
    starts: Numbers
    ends: Numbers


def seen(address: int | None, kind: np.dtype[Any], count: int) -> np.ndarray[Any, Any]:
    """So many numbers that lie at an address."""
    if not address or not count:
        return np.zeros(0, kind)
    return np.frombuffer(memoryview((ctypes.c_uint8 * (count * kind.itemsize)).from_address(address)), kind)


def present(column: Array) -> Mask:
    """Which of a column's values are there."""
    end = column.offset + column.length
    if not column.buffers[0]:
        return np.ones(column.length, bool)
    bits = np.unpackbits(seen(column.buffers[0], np.dtype(np.uint8), (end + 7) // 8), bitorder="little")
    return bits[column.offset : end].astype(bool)


def numbers_of(column: Array) -> Numbers:
    held = seen(column.buffers[1], np.dtype(np.int64), column.offset + column.length)[column.offset :]
    return np.where(present(column), held, NO_NUMBER)


def batch_of(numbers: Array, geometries: Array | None, width: np.dtype[Any] | None) -> Batch:
    ids = numbers_of(numbers)
    if geometries is None or width is None:
        none = np.zeros(len(ids), np.int64)
        return Batch(ids, np.zeros(0, np.uint8), none, none)
    end = geometries.offset + geometries.length
    at = seen(geometries.buffers[1], width, end + 1)[geometries.offset :].astype(np.int64)
    data = seen(geometries.buffers[2], np.dtype(np.uint8), int(at[-1]))
    return Batch(ids, data, at[:-1], np.where(present(geometries), at[1:], at[:-1]))


def pass_over(layer: ogr.Layer, names: list[str]) -> None:
    """Has GDAL pass over these fields of a layer; a virtual layer of a source that can't has all."""
    with suppress(RuntimeError):
        layer.SetIgnoredFields(names)


def batches(layer: ogr.Layer, with_fields: bool = False) -> Iterator[Batch]:
    """All features of a layer, whose fields GDAL passes over unless it needs them for geometries."""
    if not hasattr(layer, "GetArrowStream"):
        raise Fault(
            f"GDAL {gdal.__version__}",
            "is too old: 3.6 is the first that hands features over in batches",
        )
    definition = layer.GetLayerDefn()
    fields = [definition.GetFieldDefn(k).GetName() for k in range(definition.GetFieldCount())]
    pass_over(layer, [] if with_fields else fields)
    layer.ResetReading()
    stream = layer.GetArrowStream([f"MAX_FEATURES_IN_BATCH={BATCH}"])
    held = stream.GetSchema()  # what it tells is there as long as it is
    schema = Schema.from_address(held._getPtr())
    formats = [schema.children[k].contents.format for k in range(schema.n_children)]
    first = len(formats) - definition.GetGeomFieldCount()  # before it are the number and the fields
    place = next((k for k, name in enumerate(formats) if k >= first and name in GEOMETRIES), None)
    width = GEOMETRIES[formats[place]] if place is not None else None
    while (part := stream.GetNextRecordBatch()) is not None:
        array = Array.from_address(part._getPtr())
        columns = [array.children[k].contents for k in range(array.n_children)]
        yield batch_of(columns[formats.index(NUMBER)], None if place is None else columns[place], width)
