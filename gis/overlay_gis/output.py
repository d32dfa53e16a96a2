"""Layers as OGR writes them: a file whole, or not at all."""

from __future__ import annotations

import sqlite3
import sys
from array import array
from dataclasses import dataclass, replace
from decimal import Decimal
from pathlib import Path
from tempfile import TemporaryDirectory
from traceback import clear_frames
from typing import Any, Callable, Iterable, Iterator, Sequence

import numpy as np
from osgeo import gdal, ogr, osr

from . import gdal_state
from .columns import Floats
from .faults import Fault, Refusal
from .fitting import OPTIONS, OWN_NAMES, Put, apart, fitted, putting, with_room
from .frame import Frame
from .gdal_errors import blamed_on
from .geopackage import Place, Row, filled, place_of
from .layers import LAYER_MARK, Source
from .messages import followed, unheard, warn
from .read_back import Difference, Written, box_of, differences, shape_difference
from .stopping import look
from .systems import is_another, names_apart
from .whole import Drafts, Target, blamed, target_of

# Drivers whose files are folders.
FOLDERS = ("OpenFileGDB", "FileGDB")

# Drivers that bring each layer to a system of their own, and so off its grid.
MOVING = ("GeoJSONSeq", "KML", "LIBKML", "GPX", "MBTiles")

# The driver whose files have whole numbers for coordinates, between bounds that are told.
BOUNDED = "MapInfo File"

# What is told where a format has none for a value.
ROOM = "a GeoPackage, whose name ends in .gpkg, has room for it"

# The driver whose files may have several layers here.
PACKAGE = "GPKG"


def driver_for(target: Target) -> gdal.Driver:
    """GDAL's first driver that writes vector files with the ending of this one."""
    ending = target.path.suffix.lstrip(".").lower()
    for k in range(gdal.GetDriverCount()):
        driver = gdal.GetDriver(k)
        writes = driver.GetMetadataItem(gdal.DCAP_VECTOR) and driver.GetMetadataItem(gdal.DCAP_CREATE)
        if ending and writes and ending in (driver.GetMetadataItem(gdal.DMD_EXTENSIONS) or "").split():
            return driver
    raise Refusal(
        target.name,
        f"no driver of this GDAL writes files that end in .{ending}"
        if ending
        else "has no ending that names a format, as .gpkg",
    )


@dataclass
class Column:
    """A field of a layer that is written: its name and OGR's type; `unzoned`: its times are those of
    a place that isn't told; `strange`: its lists have texts of no sign, or with backslashes."""

    name: str
    type: int
    subtype: int = ogr.OFSTNone
    width: int = 0
    precision: int = 0
    unzoned: bool = False
    strange: bool = False

    def defined(self) -> ogr.FieldDefn:
        definition = ogr.FieldDefn(self.name, self.type)
        definition.SetSubType(self.subtype)
        definition.SetWidth(self.width)
        definition.SetPrecision(self.precision)
        return definition


# The fields of the polygons of an answer.
POLYGONS = [Column("id", ogr.OFTInteger64), Column("area", ogr.OFTReal)]

# There is no box where there is no geometry.
NO_BOXES: Floats = np.zeros((0, 4))


@dataclass
class Table:
    """What is written as a layer: its fields and its rows; the kind of its shapes, wkbNone for a
    table without any; the least and greatest x, and y, of each shape that is there; its name, or
    nothing for that of its file; and the frame of its shapes, if it has any. Where no boxes are
    told, GDAL writes the rows, and so it does with values that are more than numbers and texts."""

    columns: Sequence[Column]
    rows: Iterable[Row]
    kind: int = ogr.wkbPolygon
    boxes: Floats | None = None
    name: str = ""
    frame: Frame | None = None


def layer_target(name: str, overwrite: bool, inputs: Iterable[str]) -> Target:
    """The place of a layer, whose ending names its format; refuses one that can't be written,
    before any work is done."""
    target = target_of(name, overwrite, inputs)
    driver = driver_for(target).ShortName
    if driver in MOVING:
        raise Refusal(
            name,
            f"GDAL brings all that it writes as {driver} to a system of its own; .gpkg, .geojson, .shp and .fgb"
            " keep that of the layers",
        )
    if driver not in FOLDERS and target.path.is_dir():
        raise Refusal(name, "is a folder, and no file of this format")
    return target


@dataclass(frozen=True)
class Made:
    """A layer that was made, its fields as its file has to have them, and what puts values there."""

    layer: ogr.Layer
    fields: Sequence[ogr.FieldDefn]
    puts: Sequence[Put]


def bounds(driver: gdal.Driver, table: Table) -> Iterator[str]:
    """The option for bounds, which a MapInfo file divides into as many parts as it has room for: half
    a grid unit each. Those of GDAL's own are centimetres in a metric system."""
    if table.frame and driver.ShortName == BOUNDED:
        yield f"BOUNDS={','.join(map(repr, table.frame.room()))}"


def digits(driver: gdal.Driver, table: Table) -> Iterator[str]:
    """The option for GeoJSON to write as many digits behind the point as the grid's points have."""
    if table.frame and driver.ShortName == "GeoJSON":
        yield f"COORDINATE_PRECISION={table.frame.digits()}"


def unquoted(driver: gdal.Driver, table: Table) -> Iterator[str]:
    """The option for a file of CSV that has numbers alone: GDAL puts whole ones between quotes, and
    reads what stands so as texts."""
    if driver.ShortName == "CSV" and not any(column.type == ogr.OFTString for column in table.columns):
        yield "STRING_QUOTING=IF_NEEDED"


def create(
    layers: Any, name: str, system: osr.SpatialReference | None, table: Table, told: str, *options: str
) -> Made:
    """A new layer of a data set that is told by that name, with the table's fields. None of them is
    called as another one, or as the layer's columns that are no fields."""
    driver = layers.GetDriver()
    asked = [*options, *OPTIONS.get(driver.ShortName, ()), *bounds(driver, table), *digits(driver, table), *unquoted(driver, table)]
    layer = layers.CreateLayer(name, None if table.kind == ogr.wkbNone else system, table.kind, asked)
    taken = (layer.GetFIDColumn(), layer.GetGeometryColumn(), *OWN_NAMES.get(driver.ShortName, ()))
    names = apart([with_room(column.name, driver) for column in table.columns], taken)
    fields = []
    for column, called in zip(table.columns, names):
        fields.append(made_in(layer, fitted(replace(column, name=called).defined(), driver)))
        if fields[-1].GetName() != column.name:
            warn(told, f"the field {column.name} is called {fields[-1].GetName()} there")
    return Made(layer, fields, list(map(putting, fields)))


def made_in(layer: ogr.Layer, field: ogr.FieldDefn) -> ogr.FieldDefn:
    """A field that is made in a layer, with the name that it gets there."""
    layer.CreateField(field)
    definition = layer.GetLayerDefn()
    field.SetName(definition.GetFieldDefn(definition.GetFieldCount() - 1).GetName())
    return field


def add(made: Made, geometry: bytes | None, values: Sequence[Any]) -> ogr.Feature:
    feature = ogr.Feature(made.layer.GetLayerDefn())
    if geometry is not None:
        feature.SetGeometryDirectly(ogr.CreateGeometryFromWkb(geometry))
    for k, (put, value) in enumerate(zip(made.puts, values)):
        if value is None:
            feature.SetFieldNull(k)
        else:
            put(feature, k, value)
    made.layer.CreateFeature(feature)
    return feature


def watched(rows: Iterable[Row], fields: Sequence[ogr.FieldDefn], lost: dict[int, Difference]) -> Iterator[Row]:
    """The same rows; what SQLite makes of no number, which is no value, is told by the field's place,
    once for each."""
    reals = [k for k, held in enumerate(fields) if held.GetType() == ogr.OFTReal]
    for number, row in enumerate(rows, 1):
        for k in reals:
            if row[1][k] != row[1][k] and k not in lost:
                lost[k] = Difference(fields[k].GetName(), number, row[1][k], None, True)
        yield row


class Output:
    """A target's file that is being written, in a folder that isn't its own yet."""

    def __init__(self, target: Target, folder: Path):
        self.target = target
        self.path = folder / target.path.name
        self.dataset: Any = None
        self.made: Any = None
        self.begun = False  # whether the file is there

    def opened(self) -> Any:
        made = driver_for(self.target).Create(str(self.path), 0, 0, 0, gdal.GDT_Unknown)
        if made is None:
            raise Fault(self.target.name, "GDAL makes none, and doesn't say why")
        return made

    def again(self) -> Any:
        """The file that was closed meanwhile."""
        return gdal.OpenEx(str(self.path), gdal.OF_VECTOR | gdal.OF_UPDATE)

    def begin(self, system: osr.SpatialReference | None, table: Table) -> None:
        self.dataset = self.dataset or (self.again() if self.begun else self.opened())
        self.begun = True
        self.made = create(self.dataset, table.name or self.path.stem, system, table, self.target.name)
        if table.kind != ogr.wkbNone and self.made.layer.GetLayerDefn().GetGeomFieldCount() == 0:
            raise Refusal(self.target.name, "a file of this format keeps no shapes")

    def fill(self, table: Table) -> Written:
        """Writes all rows."""
        rows = followed(table.rows, f"writing {self.target.name}")
        place = place_of(self.made.layer) if self.takes_all_at_once(table) else None
        if place is None:
            return self.fill_one_by_one(rows)
        return Written(self.fill_at_once(place, rows, table.boxes))

    def takes_all_at_once(self, table: Table) -> bool:
        return table.boxes is not None and self.dataset.GetDriver().ShortName == PACKAGE

    def fill_at_once(self, place: Place, rows: Iterable[Row], boxes: Floats | None) -> int:
        """Writes all rows of a GeoPackage's layer, whose file GDAL has to close before; what it
        can't make is told here."""
        self.made.layer.SyncToDisk()
        fields, lost = self.made.fields, dict[int, Difference]()
        self.close()
        try:
            count = filled(self.path, place, watched(rows, fields, lost), NO_BOXES if boxes is None else boxes)
        except sqlite3.Error as error:
            raise Fault(self.target.name, f"can't be written: {error}") from error
        for difference in lost.values():
            warn(self.target.name, str(difference))
        return count

    def fill_one_by_one(self, rows: Iterable[Row]) -> Written:
        grouped = self.dataset.TestCapability(ogr.ODsCTransactions)
        if grouped:
            self.dataset.StartTransaction()
        written, boxes = [], array("d")
        for geometry, values in rows:
            boxes.extend(box_of(self.add(geometry, values)))
            written.append(values)
        if grouped:
            self.dataset.CommitTransaction()
        self.dataset.FlushCache()
        return Written(len(written), self.made.fields, written, boxes)

    def add(self, geometry: bytes | None, values: Sequence[Any]) -> ogr.Feature:
        return add(self.made, geometry, values)

    def close(self) -> None:
        """Closes the file. GDAL's bindings would print what fails here, and can't raise it: a look
        at the file tells."""
        told, sys.unraisablehook = sys.unraisablehook, lambda _: None
        self.made = self.dataset = None
        sys.unraisablehook = told
        look()

    def check(self, system: osr.SpatialReference | None, table: Table, written: Written) -> None:
        """Reads back what a layer of the closed file has."""
        try:
            named = LAYER_MARK + table.name if table.name else ""
            held = Source(str(self.path) + named)  # a layer is there only as long as its source is
            with blamed_on(held.name, held.path):
                found, unlike = held.layer.GetFeatureCount(), list(differences(held.layer, written))
                there = held.system() if table.kind != ogr.wkbNone else system
                moved = shape_difference(held.layer, written, float(table.frame.unit)) if table.frame else None
        except Fault as error:
            raise Fault(self.target.name, f"can't be read back: {error.reason}") from error
        if found != written.count:
            raise Fault(
                self.target.name,
                f"has {found} of the {written.count} features that were written to it",
            )
        if is_another(there, system):
            one, other = names_apart(there, system)
            warn(self.target.name, f"its reference system comes out as {one}, and was {other}")
        way = "" if driver_for(self.target).ShortName == PACKAGE else f": {ROOM}"
        if moved:
            raise Fault(self.target.name, f"{moved}{way}")
        for difference in unlike:
            if not difference.near:
                raise Fault(self.target.name, f"{difference}{way}")
            warn(self.target.name, str(difference))


def write_tables(
    target: Target,
    held: Drafts,
    system: osr.SpatialReference | None,
    tables: Sequence[Table],
    begun: Callable[[Target, Path], Output] = Output,
) -> list[int]:
    """Drafts a file of these layers, and answers how many features each has."""
    with blamed(target), gdal_state.options(gdal_state.WRITING):
        return write_into(held.folder(target), target, system, tables, begun)


def write_into(
    folder: Path,
    target: Target,
    system: osr.SpatialReference | None,
    tables: Sequence[Table],
    begun: Callable[[Target, Path], Output] = Output,
) -> list[int]:
    """The same, in a folder that is there."""
    output = begun(target, folder)
    filled = []
    with blamed_on(target.name, str(output.path)):
        try:
            for table in tables:
                output.begin(system, table)
                filled.append(output.fill(table))
        except BaseException as error:
            clear_frames(error.__traceback__)  # they would keep the file open
            raise
        finally:
            output.close()
    for table, written in zip(tables, filled):
        output.check(system, table, written)
    return [written.count for written in filled]


# How names of layers begin that neither GDAL nor SQLite makes in a GeoPackage.
RESERVED = ("gpkg", "sqlite_")


def refuse_reserved(target: Target, names: Sequence[str]) -> None:
    """Refuses names of layers that no GeoPackage takes; none stands for that of the file."""
    for name in names:
        held = name or target.path.stem
        if held.lower().startswith(RESERVED):
            raise Refusal(target.name, f"no layer of a GeoPackage may be called {held}: --layer names another one")


# What a file of a format is tried with: a field of each usual type, and polygons of two sizes.
TRIED = [Column("id", ogr.OFTInteger64), Column("area", ogr.OFTReal), Column("a", ogr.OFTString)]
SQUARES = ["POLYGON ((0 0, 1 0, 1 1, 0 1, 0 0))", "POLYGON ((2.003 0, 5 0, 5 7, 2.003 7, 2.003 0))"]
FRAME = Frame(Decimal("0.001"), (Decimal(0), Decimal(0)), None)


def refuse_without_layers(target: Target) -> None:
    """Refuses a format that keeps no polygons with fields; two features are tried."""
    shapes = [bytes(ogr.CreateGeometryFromWkt(words).ExportToWkb(ogr.wkbNDR)) for words in SQUARES]
    rows = [(shape, (number, 0.5, "a")) for number, shape in enumerate(shapes, 1)]
    try:
        with unheard(), TemporaryDirectory() as folder:
            write_into(Path(folder), target, None, [Table(TRIED, rows, frame=FRAME)])
    except Refusal:
        raise
    except Fault as fault:
        words = "a file of this format keeps no polygons with fields, as one of .gpkg does"
        raise Refusal(target.name, f"{words}: {fault.reason}") from fault


def refuse_without_rows(target: Target) -> None:
    """Refuses a format that keeps no rows without shapes; a row is tried."""
    table = Table([Column("a", ogr.OFTInteger64)], [(None, (1,))], ogr.wkbNone, NO_BOXES)
    try:
        with TemporaryDirectory() as folder:
            write_into(Path(folder), target, None, [table])
    except Fault as fault:
        words = "a file of this format keeps no rows without shapes; one of .csv or .gpkg does"
        raise Refusal(target.name, words) from fault
