"""A layer of a GeoPackage that has others, which stay as they are: the file is copied beside
itself, changed there, and put in its place."""

from __future__ import annotations

import shutil
import sqlite3
from contextlib import closing
from pathlib import Path
from typing import Any, Sequence

from osgeo import gdal, osr

from .faults import Fault, Refusal
from .gdal_errors import told_as
from .geopackage import connected
from .layers import LAYER_MARK, Source
from .messages import during, is_watched, progress
from .output import Output, Table
from .read_back import Written
from .whole import Target, identity, paths_of, state_of

# Pages of a GeoPackage that are copied at a time.
PAGES = 4096


def layers_of(target: Target) -> list[str]:
    """The names of a GeoPackage's layers."""
    words = "is no GeoPackage, which alone takes another layer"
    with told_as(lambda _: Refusal(target.name, words)):
        dataset = gdal.OpenEx(str(target.path), gdal.OF_VECTOR | gdal.OF_READONLY, ["GPKG"])
        return [dataset.GetLayer(k).GetName() for k in range(dataset.GetLayerCount())]


def tables_of(target: Target) -> list[str]:
    """The names of everything that SQLite has in the file of a GeoPackage."""
    try:
        with closing(connected(target.path)) as held:
            return [name for (name,) in held.execute("SELECT name FROM sqlite_master")]
    except sqlite3.Error as error:
        raise Fault(target.name, f"can't be read: {error}") from error


def is_view(target: Target, name: str) -> bool:
    """Whether a layer of a GeoPackage is a view, which reads others."""
    with closing(connected(target.path)) as held:
        found = held.execute("SELECT type FROM sqlite_master WHERE lower(name) = lower(?)", (name,)).fetchone()
    return found is not None and found[0] == "view"


def same_name(one: str, other: str) -> bool:
    """Whether SQLite takes two names of tables for one."""
    return one.lower() == other.lower()


def is_read(target: Target, name: str, is_there: bool, source: Source) -> bool:
    """Whether a layer of a GeoPackage is one that is read, or may be: where the source is a view, or
    names the file in another way, as a virtual layer does."""
    file = identity(target.path)
    if identity(Path(source.path)) == file:
        layer = source.layer.GetName()
        return same_name(name, layer) or (is_there and is_view(target, layer))
    return is_there and any(identity(path) == file for held in source.files() for path in paths_of(held))


def check_layers(target: Target, names: Sequence[str], overwrite: bool, sources: Sequence[Source]) -> None:
    """Refuses names of layers that are there without leave to replace them, those of inputs, and
    those of what is no layer, as a raster."""
    there, tables = layers_of(target), tables_of(target)
    for name in names:
        is_layer, is_table = (any(same_name(name, other) for other in held) for held in (there, tables))
        if is_table and not is_layer:
            raise Refusal(
                target.name, f"has {name} already, which is no layer: --layer names another one"
            )
        if is_layer and not overwrite:
            raise Refusal(
                target.name,
                (
                    f"has a layer {name} already; --overwrite replaces it, and --layer names"
                    " another one"
                ),
            )
        for source in sources:
            if is_read(target, name, is_layer, source):
                raise Refusal(f"{target.name}{LAYER_MARK}{name}", "is an input, or a part of one")


class Enlarged(Output):
    """The copy of a GeoPackage to which layers are added, or of which layers of these names are
    replaced."""

    def __init__(self, target: Target, folder: Path):
        super().__init__(target, folder)
        self.state = state_of(target.path)

    def opened(self) -> Any:
        try:
            with during(f"copying {self.target.name}"):
                self.copy()
        except sqlite3.Error as error:
            raise Fault(self.target.name, f"can't be copied: {error}") from error
        return gdal.OpenEx(str(self.path), gdal.OF_VECTOR | gdal.OF_UPDATE, ["GPKG"])

    def copy(self) -> None:
        with closing(connected(self.target.path)) as held, closing(sqlite3.connect(self.path)) as copied:
            held.backup(copied, pages=PAGES, progress=self.tell_copied, sleep=0)
            copied.execute("PRAGMA journal_mode = DELETE")
        shutil.copymode(self.target.path, self.path)

    def tell_copied(self, _: int, left: int, pages: int) -> None:
        """Says how far the copy is; a signal that came meanwhile is acted on here."""
        if is_watched():
            progress(f"copying {self.target.name}", 1 - left / max(pages, 1))

    def begin(self, system: osr.SpatialReference | None, table: Table) -> None:
        self.dataset = self.dataset or (self.again() if self.begun else self.opened())
        for k in reversed(range(self.dataset.GetLayerCount())):
            if same_name(self.dataset.GetLayer(k).GetName(), table.name):
                self.dataset.DeleteLayer(k)
        super().begin(system, table)

    def check(self, system: osr.SpatialReference | None, table: Table, written: Written) -> None:
        super().check(system, table, written)
        if state_of(self.target.path) != self.state:
            raise Fault(
                self.target.name, "was changed meanwhile by another program: nothing was written"
            )

