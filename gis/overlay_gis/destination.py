"""Where an answer goes: a new file, layers of a GeoPackage that is there, or tables of a database.
It is looked at before any work is done."""

from __future__ import annotations

import os
from argparse import Namespace
from dataclasses import dataclass, replace
from functools import partial
from pathlib import Path
from typing import Callable, Sequence

from osgeo import osr

from .database import Database, is_database
from .faults import Refusal
from .layers import Source, files_of
from .output import PACKAGE, Table, driver_for, layer_target, refuse_reserved, refuse_without_layers, write_tables
from .package import Enlarged, check_layers
from .whole import Drafts, Target, drafts

# The table of pairs, beside the rows in one file with them.
PAIRS = "pairs"

Writer = Callable[[Drafts, osr.SpatialReference, Sequence[Table]], "list[int]"]


@dataclass(frozen=True)
class Destination:
    """The names of an answer's layer and of the tables beside it, and what writes them."""

    names: Sequence[str]
    writer: Writer

    def write(self, system: osr.SpatialReference | None, *tables: Table) -> list[int]:
        """Writes all tables or none of them, and answers how many features each has."""
        with drafts() as held:
            return self.draft(held, system, *tables)

    def draft(self, held: Drafts, system: osr.SpatialReference | None, *tables: Table) -> list[int]:
        """The same, to be put in place with all other drafts."""
        return self.writer(held, system, [replace(table, name=name) for table, name in zip(tables, self.names)])


@dataclass(frozen=True)
class Wanted:
    """An output as the command line names it, what may become of what is there, and the names of
    tables that go beside the layer."""

    out: str
    layer: str
    append: bool
    overwrite: bool
    beside: Sequence[str]

    def names(self, usual: str) -> list[str]:
        """The layer's name, which is the usual one where none was asked for, and those of the
        tables beside it."""
        mark = self.layer or (usual if usual in self.beside else "")
        return [self.layer or usual, *(f"{mark}_{name}" if mark else name for name in self.beside)]

    def place(self, sources: Sequence[Source], files: Sequence[str]) -> Destination:
        """The destination, if all of this may be written there."""
        if is_database(self.out):
            return self.database(sources)
        there = os.path.lexists(self.out)
        if there and (self.append or (self.layer and self.overwrite)):
            return self.enlarged(sources)
        if there and self.layer:
            words = (
                "is there already; --append puts the layer into it, --overwrite replaces its layer"
                " of that name alone"
            )
            raise Refusal(self.out, words)
        target = layer_target(self.out, self.overwrite, files)
        several = self.layer or self.append or self.beside
        if driver_for(target).ShortName != PACKAGE:
            if several:
                raise Refusal(self.out, "only a GeoPackage takes several layers, or one of another name")
            refuse_without_layers(target)
            return Destination(self.names(""), partial(write_tables, target))
        names = self.names(target.path.stem if several else "")
        refuse_reserved(target, names)
        return Destination(names, partial(write_tables, target))

    def enlarged(self, sources: Sequence[Source]) -> Destination:
        target = Target(self.out, Path(os.path.realpath(self.out)), True, frozenset())
        names = self.names(target.path.stem)
        check_layers(target, names, self.overwrite, sources)
        refuse_reserved(target, names)
        return Destination(names, partial(write_tables, target, begun=Enlarged))

    def database(self, sources: Sequence[Source]) -> Destination:
        database = Database(self.out, self.overwrite, sources)
        if not self.layer or self.append:
            raise Refusal(
                database.name, "takes a table that --layer names, as schema.table, and no --append"
            )
        names = self.names(self.layer)
        database.check(names)
        return Destination(names, database.write)


def destination(
    arguments: Namespace, sources: Sequence[Source], files: Sequence[str] = (), beside: Sequence[str] = ()
) -> Destination:
    """Where the answer goes, as the arguments of `options.add_output` say; `files` are further
    inputs."""
    wanted = Wanted(arguments.out, arguments.layer or "", arguments.append, arguments.overwrite, beside)
    return wanted.place(sources, [*files_of(sources), *files])
