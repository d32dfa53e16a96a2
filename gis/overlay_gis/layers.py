"""Polygon layers as OGR reads them, into columns.

A layer is named as GDAL names its source, a file or a connection string, with `|layername=NAME`
behind it (as QGIS writes it) where the source has several layers.
"""

from __future__ import annotations

import os
from dataclasses import dataclass
from enum import IntEnum
from itertools import chain
from typing import Any, Iterator, Sequence

import numpy as np
from osgeo import gdal, ogr, osr

from . import wkb
from .arrow import Batch, batches, pass_over
from .columns import NOTHING, Bytes, Columns, Floats, Numbers, chained, extents, gathered
from .faults import Fault, Refusal
from .gdal_errors import blamed_on, told_as
from .messages import followed
from .passwords import hidden, remember
from .systems import known, names_apart, same, system_from, system_name
from .whole import paths_of, state_of


LAYER_MARK = "|layername="

# How the name of an archive ends that GDAL looks into.
ARCHIVE = ".zip"

# The driver whose geometries may be made of fields, and are nothing where these are passed over.
VIRTUAL = "OGR_VRT"


# What makes all reads of a session in PostgreSQL one.
STILL = (
    "SELECT set_config(name, 'off', false) FROM pg_settings WHERE name = 'synchronize_seqscans'",
    "SET SESSION CHARACTERISTICS AS TRANSACTION ISOLATION LEVEL REPEATABLE READ, READ ONLY",
)


@dataclass
class Box:
    """The least upright rectangle round some points; `farthest` is the layer and the feature that
    lie farthest from 0 0."""

    left: float
    low: float
    right: float
    high: float
    farthest: tuple[str, int] | None = None

    @property
    def reach(self) -> float:
        return max(-self.left, -self.low, self.right, self.high)

    def joined(self, other: Box) -> Box:
        return Box(
            min(self.left, other.left),
            min(self.low, other.low),
            max(self.right, other.right),
            max(self.high, other.high),
            max(self, other, key=lambda box: box.reach).farthest,
        )


class Kind(IntEnum):
    """What a feature is: polygons of finite coordinates; without a geometry, or with an empty one;
    no polygon; polygons of which a coordinate is no finite number."""

    SOUND, BARE, STRANGE, UNBOUND = range(4)


@dataclass
class Survey:
    """What a pass over a layer tells: of all features the numbers and what they are, of those that
    are no polygons the names of what they are, and the polygons of the sound ones; and whether a point
    has more than x and y."""

    numbers: Numbers
    kinds: Bytes
    names: list[str]
    sound: Columns[Floats]
    deep: bool

    @property
    def features(self) -> int:
        return len(self.numbers)

    def of(self, kind: Kind) -> list[int]:
        """The numbers of the features that are of a kind."""
        found: list[int] = self.numbers[self.kinds == kind].tolist()
        return found

    def area(self) -> float:
        """The sum of the areas of all sound polygons, in the system's units, which may be
        infinite."""
        return float(areas(self.sound).sum())

    def box(self, name: str) -> Box | None:
        """The box of a layer of that name, if it has a polygon."""
        held = self.sound
        if not len(held.ids):
            return None
        starts = held.feature_points()[:-1]
        lows, highs = zip(extents(held.x, starts), extents(held.y, starts))
        farthest = np.argmax(np.max((*highs, *(-side for side in lows)), axis=0))
        left, low = (float(side.min()) for side in lows)
        right, high = (float(side.max()) for side in highs)
        return Box(left, low, right, high, (name, int(held.ids[farthest])))


def areas(held: Columns[Floats]) -> Floats:
    """For each ring with points its area, below 0 where it is that of a hole. Each is measured from
    the ring's first point, so that coordinates far from 0 don't swallow it."""
    filled = held.lengths > 0
    starts, counts = held.firsts[filled], held.lengths[filled]
    if not len(starts):
        return np.zeros(0)
    x, y = held.x - np.repeat(held.x[starts], counts), held.y - np.repeat(held.y[starts], counts)
    products = np.zeros_like(x)
    products[:-1] = x[:-1] * y[1:] - x[1:] * y[:-1]
    products[starts + counts - 1] = 0.0
    shells = np.zeros(len(held.lengths), bool)
    shells[held.polygons[:-1]] = True
    sizes: Floats = np.abs(np.add.reduceat(products, starts)) / 2
    return np.where(shells[filled], sizes, -sizes)


def unpacked(path: str) -> str:
    """The name by which GDAL opens a file; one of an archive that no driver takes as a whole."""
    is_archive = path.lower().endswith(ARCHIVE) and os.path.isfile(path)
    return f"/vsizip/{path}" if is_archive and gdal.IdentifyDriverEx(path, gdal.OF_VECTOR) is None else path


class Source:
    """A layer that is open for reading. With `polygons_only`, features that are no polygons are left
    out, and of collections their polygons alone are taken; `mixed` has the numbers of these."""

    def __init__(self, name: str, polygons_only: bool = False):
        self.path, _, self.wanted = name.partition(LAYER_MARK)
        remember(self.path)
        self.name = hidden(self.path)
        self.polygons_only = polygons_only
        self.mixed: list[int] = []
        with blamed_on(self.name, self.path):
            self.path = unpacked(self.path)
            self.dataset = gdal.OpenEx(self.path, gdal.OF_VECTOR | gdal.OF_READONLY)
        if self.dataset is None:
            raise Fault(self.name, "GDAL can't read it as a vector layer")
        if self.is_postgis:
            self.hold_still()
        self.state = self.state_of_files()
        self.layer = self.chosen()

    def hold_still(self) -> None:
        """Has a database tell the same rows in the same order each time that they are read: a server
        begins to read a large table where another reader is, and others may change it meanwhile."""
        with blamed_on(self.name, self.path):
            for words in STILL:
                rows = self.dataset.ExecuteSQL(words)
                if rows is not None:
                    rows.GetNextFeature()  # which GDAL asks for when it is wanted
                    self.dataset.ReleaseResultSet(rows)
            self.dataset.StartTransaction()

    def let_go(self) -> None:
        """Lets others change what a database tells, after all reads."""
        if self.is_postgis:
            with blamed_on(self.name, self.path):
                self.dataset.RollbackTransaction()

    def chosen(self) -> ogr.Layer:
        names = [self.dataset.GetLayer(k).GetName() for k in range(self.dataset.GetLayerCount())]
        if self.wanted:
            if self.wanted not in names:
                raise Refusal(
                    self.name,
                    f"has no layer {self.wanted}, but {', '.join(names) or 'none at all'}",
                )
            return self.dataset.GetLayerByName(self.wanted)
        if len(names) != 1:
            told = (
                f"{len(names)} layers ({', '.join(names[:8])}): name one, as"
                f" {self.name}{LAYER_MARK}{names[0]}"
                if names
                else "no layer"
            )
            raise Refusal(self.name, f"has {told}")
        return self.dataset.GetLayer(0)

    @property
    def stem(self) -> str:
        """A short name: that of the file without its ending, or that of the layer where one was
        named."""
        if os.path.exists(self.path) and not self.wanted:
            return os.path.splitext(os.path.basename(os.path.normpath(self.path)))[0]
        return str(self.layer.GetName())

    @property
    def is_postgis(self) -> bool:
        return bool(self.dataset.GetDriver().ShortName == "PostgreSQL")

    @property
    def reads_all(self) -> bool:
        """Whether nothing is passed over: a virtual layer may need it, and a server that is asked for
        something else may tell rows in another order."""
        return self.is_postgis or bool(self.dataset.GetDriver().ShortName == VIRTUAL)

    def files(self) -> list[str]:
        """Everything that the source is read from, as far as GDAL tells."""
        return [self.path, *(self.dataset.GetFileList() or [])]

    def state_of_files(self) -> list[object]:
        """What tells whether the source was changed, if it is one of files."""
        return [state_of(path) for held in self.files() for path in paths_of(held)]

    def system(self) -> osr.SpatialReference | None:
        return known(self.layer.GetSpatialRef())

    def fields(self) -> list[ogr.FieldDefn]:
        defined = self.layer.GetLayerDefn()
        return [defined.GetFieldDefn(k) for k in range(defined.GetFieldCount())]

    def counted(self, parts: Iterator[Batch]) -> Iterator[Batch]:
        """The same batches. A read that fails, or ends before the number that the layer tells, is a
        fault."""
        with blamed_on(self.name, self.path):
            told = self.layer.GetFeatureCount()
            read = 0
            for part in followed(parts, f"looking through {self.name}", told, lambda part: len(part.numbers)):
                read += len(part.numbers)
                yield part
        if read < told:
            raise Fault(self.name, f"only {read} of {told} features could be read")

    def survey(self) -> Survey:
        parts = [self.looked_at(batch) for batch in self.counted(batches(self.layer, self.reads_all))]
        return Survey(
            np.concatenate([NOTHING.ids, *(part.numbers for part in parts)]),
            np.concatenate([NO_KINDS, *(part.kinds for part in parts)]),
            [name for part in parts for name in part.names],
            chained([part.sound for part in parts]) if parts else NOTHING,
            any(part.deep for part in parts),
        )

    def looked_at(self, batch: Batch) -> Survey:
        """What a batch tells."""
        decoder = wkb.Decoder(batch, self.lines)
        held = decoder.columns().filled()
        kinds = kinds_of(held)
        kinds[decoder.strange] = Kind.STRANGE
        names = [self.geometry(batch, k).GetGeometryName() for k in decoder.strange]
        deep = any(ring.form.dimensions > 2 for polygons in decoder.walked.values() for ring in chain.from_iterable(polygons))
        return Survey(batch.numbers.copy(), kinds, names, held.of_features(kinds == Kind.SOUND), deep)

    def geometry(self, batch: Batch, k: int) -> ogr.Geometry:
        """The geometry of a batch's feature k as GDAL has it."""
        told = f"GDAL can't read the geometry of feature {batch.numbers[k]}"
        with told_as(lambda words: Fault(self.name, f"{told}: {words}")):
            return ogr.CreateGeometryFromWkb(bytes(batch.data[batch.starts[k] : batch.ends[k]]))

    def lines(self, batch: Batch, k: int) -> bytes | None:
        """Polygons that GDAL makes of that geometry, curves as lines, in WKB; nothing where it is
        none."""
        geometry = self.geometry(batch, k)
        held = NO_POLYGON if geometry.IsEmpty() else lines_of(geometry)
        if held is None and self.polygons_only and (held := polygons_within(geometry)):
            self.mixed.append(int(batch.numbers[k]))
        return None if held is None else bytes(held.ExportToWkb(ogr.wkbNDR))

    def values(self, names: Sequence[str], seen: Survey) -> list[tuple[Any, ...]]:
        """The values of these fields of all features."""
        if not names:
            return [()] * seen.features
        pass_over(self.layer, [] if self.reads_all else ["OGR_GEOMETRY"])
        self.layer.ResetReading()
        there = [field.GetName() for field in self.fields()]
        places = list(map(there.index, names))  # by a name GDAL's bindings look through all fields
        with blamed_on(self.name, self.path):
            unread: Iterator[ogr.Feature] = iter(self.layer.GetNextFeature, None)
            features = followed(unread, f"reading {self.name}", seen.features)
            read = [(feature.GetFID(), tuple(map(feature.GetField, places))) for feature in features]
        if [number for number, _ in read] != seen.numbers.tolist() or self.state_of_files() != self.state:
            raise Fault(self.name, "was changed while it was read")
        return [values for _, values in read]


NO_KINDS = np.zeros(0, np.uint8)
NO_POLYGON = ogr.Geometry(ogr.wkbPolygon)


def kinds_of(held: Columns[Floats]) -> Bytes:
    """What the features are, whose polygons have points."""
    points = held.feature_points()
    finite = np.isfinite(held.x) & np.isfinite(held.y)
    unbound = gathered(~finite, points) > 0 if not finite.all() else np.zeros(len(held.ids), bool)
    return np.where(np.diff(points) == 0, Kind.BARE, np.where(unbound, Kind.UNBOUND, Kind.SOUND)).astype(np.uint8)


def files_of(sources: Sequence[Source]) -> list[str]:
    """Everything that the sources are read from."""
    return [file for source in sources for file in source.files()]


def common_system(sources: Sequence[Source], told: str | None = None) -> osr.SpatialReference | None:
    """The one reference system of all layers; `told` is that of layers which name none."""
    given = system_from(told) if told else None
    named = [source.system() for source in sources]
    if given and named[0] and all(named) and not same(given, named[0]):
        reason = f"{sources[0].name} has {system_name(named[0])}, and the option is for layers that name none"
        raise Refusal(f"--system {told}", reason)
    systems = [system or given for system in named]
    first = systems[0]
    for source, system in zip(sources[1:], systems[1:]):
        if not same(first, system):
            one, other = names_apart(system, first)
            if None in (system, first):
                hint = "name that of the other by --system"
            elif system_name(system) == system_name(first):
                hint = "where they are one, give both the same, as by ogr2ogr -a_srs"
            else:
                hint = "bring one into the other's, as by ogr2ogr -t_srs"
            raise Refusal(source.name, f"has {one}, and {sources[0].name} has {other}: {hint}")
    return first


def polygons_within(geometry: ogr.Geometry) -> ogr.Geometry | None:
    """The polygons of a collection, and of collections in it; nothing where it has none."""
    if ogr.GT_Flatten(geometry.GetGeometryType()) != ogr.wkbGeometryCollection:
        return None
    found = ogr.Geometry(ogr.wkbMultiPolygon)
    for k in range(geometry.GetGeometryCount()):
        part = geometry.GetGeometryRef(k)
        held = lines_of(part)
        if held is None:
            held = polygons_within(part)
        for polygon in [] if held is None else polygons_of(held):
            found.AddGeometry(polygon)
    return None if found.IsEmpty() else found


def polygons_of(geometry: ogr.Geometry) -> list[ogr.Geometry]:
    """The polygons of a polygon or a multipolygon."""
    if ogr.GT_Flatten(geometry.GetGeometryType()) == ogr.wkbPolygon:
        return [geometry]
    return [geometry.GetGeometryRef(k) for k in range(geometry.GetGeometryCount())]


FLAT = (ogr.wkbPolygon, ogr.wkbMultiPolygon)
CURVED = (ogr.wkbCurvePolygon, ogr.wkbMultiSurface)


def lines_of(geometry: ogr.Geometry) -> ogr.Geometry | None:
    """A polygonal geometry, curves as GDAL makes lines of them; nothing where it isn't one."""
    kind = ogr.GT_Flatten(geometry.GetGeometryType())
    if kind in FLAT:
        return geometry
    return geometry.GetLinearGeometry() if kind in CURVED else None
