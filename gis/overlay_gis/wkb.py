"""Geometries in WKB, decoded into columns and encoded from them.

A polygon of one ring in two dimensions, as most are, is found for all features of a batch at once;
the rings of the others are walked one by one. Then the coordinates of all rings are taken together.
What is no polygon of lines is left to GDAL.
"""

from __future__ import annotations

import struct
from itertools import chain, pairwise
from struct import Struct
from typing import Any, Callable, Iterator, NamedTuple, Sequence

import numpy as np

from .arrow import Batch
from .columns import Bytes, Columns, Floats, Mask, Numbers, offsets

POLYGON, MULTIPOLYGON, LINE = 3, 6, 2

# The bytes before the points of a plain polygon: the byte order, the kind, the number of rings, the
# number of points.
PLAIN = np.dtype([("order", "u1"), ("kind", "<u4"), ("rings", "<u4"), ("points", "<u4")])
BIG_ENDIAN, LITTLE_ENDIAN = 0, 1
WIDTH = 8  # bytes of a coordinate

# How a kind says that points have Z or M: by bits, as PostGIS and old versions of GDAL do, or by
# thousands.
Z_BIT, M_BIT, THOUSAND = 1 << 31, 1 << 30, 1000
WITH_Z, WITH_M = (1, 3), (2, 3)


class Unusual(ValueError):
    """A geometry that isn't made of polygons of lines, or isn't whole."""


class Form(NamedTuple):
    """How the numbers of a geometry are written."""

    order: int
    dimensions: int

    @property
    def number(self) -> Struct:
        return NUMBERS[self.order]

    @property
    def coordinate(self) -> np.dtype[Any]:
        return np.dtype("<f8" if self.order == LITTLE_ENDIAN else ">f8")


NUMBERS = {BIG_ENDIAN: Struct(">I"), LITTLE_ENDIAN: Struct("<I")}


FORMS = [Form(order, dimensions) for order in (BIG_ENDIAN, LITTLE_ENDIAN) for dimensions in (2, 3, 4)]

POLYGON_HEAD, MULTIPOLYGON_HEAD = (struct.pack("<BI", LITTLE_ENDIAN, kind) for kind in (POLYGON, MULTIPOLYGON))
LINE_HEAD = struct.pack("<BII", LITTLE_ENDIAN, LINE, 2)


class Ring(NamedTuple):
    """Where a ring's points are, how many, and in which form."""

    place: int
    points: int
    form: Form


def head_of(data: memoryview, at: int) -> tuple[Form, int, int]:
    """The form of a geometry's numbers; its kind, without what that says of dimensions; and how
    many parts it has."""
    if data[at] not in NUMBERS:
        raise Unusual("of no byte order")
    number = NUMBERS[data[at]]
    (kind,), (parts,) = number.unpack_from(data, at + 1), number.unpack_from(data, at + 5)
    thousands, flat = divmod(kind & ~(Z_BIT | M_BIT), THOUSAND)
    z, m = thousands in WITH_Z or bool(kind & Z_BIT), thousands in WITH_M or bool(kind & M_BIT)
    return Form(data[at], 2 + z + m), flat, parts


def polygon_at(data: memoryview, at: int, base: int) -> tuple[list[Ring], int]:
    """The rings of a polygon, and where it ends."""
    form, kind, parts = head_of(data, at)
    if kind != POLYGON:
        raise Unusual(f"of kind {kind}")
    at += 9
    rings = []
    for _ in range(parts):
        (points,) = form.number.unpack_from(data, at)
        rings.append(Ring(base + at + 4, points, form))
        at += 4 + points * form.dimensions * WIDTH
    if at > len(data):
        raise Unusual("too short")
    return rings, at


def polygons_at(data: memoryview, base: int) -> list[list[Ring]]:
    """The rings of a polygonal geometry's polygons; its bytes have the places from `base` on."""
    try:
        _, kind, parts = head_of(data, 0)
        if kind == POLYGON:
            return [polygon_at(data, 0, base)[0]]
        polygons, at = [], 9
        for _ in range(parts if kind == MULTIPOLYGON else 0):
            rings, at = polygon_at(data, at, base)
            polygons.append(rings)
    except (struct.error, IndexError) as error:
        raise Unusual("too short") from error
    if kind != MULTIPOLYGON:
        raise Unusual(f"of kind {kind}")
    return polygons


def plain(data: Bytes, starts: Numbers, ends: Numbers) -> tuple[Mask, Numbers]:
    """Which geometries are a polygon of one ring in two dimensions, and how many points that
    has."""
    long = ends - starts >= PLAIN.itemsize
    places = np.where(long, starts, 0)[:, np.newaxis] + np.arange(PLAIN.itemsize)
    if not long.any():
        return long, np.zeros(len(starts), np.int64)
    heads = data[places].view(PLAIN)[:, 0]
    points = heads["points"].astype(np.int64)
    whole = ends - starts >= PLAIN.itemsize + points * 2 * WIDTH
    kinds = (heads["order"] == LITTLE_ENDIAN) & (heads["kind"] == POLYGON) & (heads["rings"] == 1)
    return long & whole & kinds, points


def coordinates(data: Bytes, places: Numbers, points: Numbers, form: Form) -> tuple[Floats, Floats]:
    """x and y of all points of some rings of one form."""
    memory, ends = data.data, places + points * form.dimensions * WIDTH
    taken = b"".join([memory[place:end] for place, end in zip(places.tolist(), ends.tolist())])
    held = np.frombuffer(taken, form.coordinate).reshape(-1, form.dimensions)
    return held[:, 0].astype(np.float64), held[:, 1].astype(np.float64)


class Decoder:
    """The geometries of one batch. `by_gdal` makes polygons of lines, in WKB, of one that is
    unusual, or answers nothing where it has none."""

    def __init__(self, batch: Batch, by_gdal: Callable[[Batch, int], bytes | None]):
        self.batch = batch
        self.data = batch.data
        self.by_gdal = by_gdal
        self.simple, self.points = plain(batch.data, batch.starts, batch.ends)
        self.strange: list[int] = []
        self.added: list[bytes] = []  # what GDAL made, which stands behind the batch's own bytes
        self.end = len(batch.data)
        self.walked = {int(k): self.walk(int(k)) for k in np.flatnonzero(~self.simple & (batch.ends > batch.starts))}
        if self.added:
            self.data = np.concatenate((batch.data, np.frombuffer(b"".join(self.added), np.uint8)))

    def walk(self, k: int) -> list[list[Ring]]:
        """The rings of the polygons of a feature."""
        start, end = int(self.batch.starts[k]), int(self.batch.ends[k])
        geometry = self.data.data[start:end]
        try:
            return polygons_at(geometry, start)
        except Unusual:
            lines = self.by_gdal(self.batch, k)
        if lines is None:
            self.strange.append(k)
            return []
        base = self.end
        self.added.append(lines)
        self.end += len(lines)
        return polygons_at(memoryview(lines), base)

    def merged(self, held: Mask, of_simple: Numbers | int, of_walked: Sequence[int]) -> Numbers:
        """A column of which the simple features, where `held` says so, have some values, and the
        others theirs."""
        column = np.empty(len(held), np.int64)
        column[held], column[~held] = of_simple, of_walked
        return column

    def columns(self) -> Columns[Floats]:
        """All features' polygons; what is strange has none."""
        walked = list(self.walked.values())
        polygons = list(chain.from_iterable(walked))
        rings = list(chain.from_iterable(polygons))
        per_feature, per_feature_rings = self.simple.astype(np.int64), self.simple.astype(np.int64)
        places = list(self.walked)
        per_feature[places] = list(map(len, walked))
        per_feature_rings[places] = [sum(map(len, held)) for held in walked]
        simple = np.repeat(self.simple, per_feature_rings)
        points = self.merged(simple, self.points[self.simple], [ring.points for ring in rings])
        starts = self.merged(simple, self.batch.starts[self.simple] + PLAIN.itemsize, [ring.place for ring in rings])
        forms = self.merged(simple, FORMS.index(Form(LITTLE_ENDIAN, 2)), [FORMS.index(ring.form) for ring in rings])
        x, y = self.taken(starts, points, forms)
        per_polygon = self.merged(np.repeat(self.simple, per_feature), 1, list(map(len, polygons)))
        return Columns(x, y, offsets(points), offsets(per_polygon), offsets(per_feature), self.batch.numbers)

    def taken(self, starts: Numbers, points: Numbers, forms: Numbers) -> tuple[Floats, Floats]:
        """x and y of the points of all rings."""
        found = np.unique(forms)
        if len(found) == 1:
            return coordinates(self.data, starts, points, FORMS[found[0]])
        x, y = np.empty(points.sum()), np.empty(points.sum())
        for form in found:
            rings = forms == form
            held = np.repeat(rings, points)
            x[held], y[held] = coordinates(self.data, starts[rings], points[rings], FORMS[form])
        return x, y


def encoded(polygons: Columns[Floats]) -> Iterator[bytes]:
    """Each polygon of some columns in WKB."""
    points = np.empty((len(polygons.x), 2), "<f8")
    points[:, 0], points[:, 1] = polygons.x, polygons.y
    # the number of points of each ring before these
    words = np.insert(points.view("<u4").ravel(), 4 * polygons.firsts, polygons.lengths)
    places = (4 * (4 * polygons.rings + np.arange(len(polygons.rings))))[polygons.polygons]
    rings, count = memoryview(words.tobytes()), NUMBERS[LITTLE_ENDIAN].pack
    for held, (at, end) in zip(np.diff(polygons.polygons).tolist(), pairwise(places.tolist())):
        yield b"".join((POLYGON_HEAD, count(held), rings[at:end]))


def collected(polygons: Sequence[bytes], as_many: bool = False) -> bytes:
    """The geometry of a feature in WKB, of its polygons'; `as_many`: also that of one polygon as
    one that may have several."""
    if len(polygons) == 1 and not as_many:
        return polygons[0]
    return b"".join((MULTIPOLYGON_HEAD, NUMBERS[LITTLE_ENDIAN].pack(len(polygons)), *polygons))


def lines(points: Floats) -> Iterator[bytes]:
    """Lines in WKB; each row has the coordinates of the two points of one."""
    held, width = memoryview(points.tobytes()), points.shape[1] * WIDTH
    for at in range(0, len(held), width):
        yield LINE_HEAD + held[at : at + width]
