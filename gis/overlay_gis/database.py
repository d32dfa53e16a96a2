"""A table of a PostgreSQL database with PostGIS, made in one transaction: it is there whole, or as
it was."""

from __future__ import annotations

from contextlib import contextmanager
from dataclasses import replace
from pathlib import Path
from typing import Any, Iterator, Sequence

from osgeo import gdal, ogr, osr

from .faults import Fault, Refusal
from .fitting import NAME_BYTES
from .gdal_errors import blamed_on
from .geopackage import quoted as quoted_whole
from .layers import LAYER_MARK, VIRTUAL, Source
from .messages import followed
from .output import Column, Table, add, create
from .passwords import hidden, remember
from .stopping import go_on
from .whole import Drafts

PREFIXES = ("pg:", "postgresql://", "postgres://")

# How the columns of a table are called that aren't fields.
OPTIONS = ("GEOMETRY_NAME=geom", "FID=fid", "LAUNDER=NO", "SPATIAL_INDEX=GIST")

# The kinds of relations, as the server names them, that DROP TABLE drops.
TABLES = ("r", "p")

# How many bytes a table's name may have: the server cuts longer ones, and so that of an index, for
# which GDAL puts something behind the table's.
TABLE_BYTES = NAME_BYTES["PostgreSQL"] - 1

# How long a table that others use is waited for.
LOCK_SECONDS = 20


def is_database(name: str) -> bool:
    return name.lower().startswith(PREFIXES)


def quoted(table: str) -> str:
    """The name of a table, or schema.table, as SQL has it."""
    return ".".join(map(quoted_whole, table.split(".", 1)))


def literal(words: str) -> str:
    return "'" + words.replace("'", "''") + "'"


def identity(dataset: Any, table: str) -> str | None:
    """What tells whether two names, in two sessions, lead to one table: when the server began, the
    database and the table's number there; nothing where no table is. The name is quoted."""
    number = f"to_regclass({literal(table)})::oid"
    found = answer(dataset, f"SELECT concat_ws(' ', pg_postmaster_start_time(), current_database(), {number}) WHERE {number} > 0")
    return found if found is None else str(found)


def identities(source: Source) -> set[str | None]:
    """The tables that a layer's name may stand for, if it is one of a database: one with a point is
    also that of a table in the usual schema."""
    if not source.is_postgis:
        return set()
    name = source.layer.GetName()
    with blamed_on(source.name, source.path):
        return {identity(source.dataset, words) for words in (quoted(name), quoted_whole(name))}


def systems_in(source: Source) -> list[str]:
    """The numbers of the reference systems that a layer's geometries have, if it is one of a database
    whose column takes any: GDAL tells the first one's as that of all."""
    if not source.is_postgis:
        return []
    name, column = source.layer.GetName(), source.layer.GetGeometryColumn()
    with blamed_on(source.name, source.path):
        for words in (quoted(name), quoted_whole(name)):
            of_column = f"FROM pg_attribute WHERE attrelid = to_regclass({literal(words)}) AND attname = {literal(column)}"
            if answer(source.dataset, f"SELECT postgis_typmod_srid(atttypmod) {of_column}") == 0:
                numbers = f"array_agg(DISTINCT ST_SRID({quoted_whole(column)}::geometry)::text)"
                return list(answer(source.dataset, f"SELECT {numbers} FROM {words} WHERE {quoted_whole(column)} IS NOT NULL") or [])
    return []


def may_read_tables(source: Source) -> bool:
    """Whether a layer may be a virtual one of a table, of which GDAL doesn't tell the name."""
    if source.dataset.GetDriver().ShortName != VIRTUAL:
        return False
    try:
        text = Path(source.path).read_text(encoding="utf-8", errors="replace").lower()
    except (OSError, ValueError):
        return True  # it is in an archive, or the text itself
    return any(prefix in text for prefix in PREFIXES)


class Database:
    """A database in which tables are made."""

    def __init__(self, address: str, overwrite: bool, sources: Sequence[Source]):
        remember(address)
        self.address, self.name, self.overwrite = address, hidden(address), overwrite
        self.sources = sources
        if gdal.GetDriverByName("PostgreSQL") is None:
            raise Fault(self.name, "this GDAL has no driver for PostgreSQL")

    def opened(self) -> Any:
        address = self.address if self.address.lower().startswith("pg:") else f"PG:{self.address}"
        with blamed_on(self.name, self.address):
            return gdal.OpenEx(address, gdal.OF_VECTOR | gdal.OF_UPDATE, ["PostgreSQL"])

    def check(self, tables: Sequence[str]) -> None:
        """Refuses, before any work is done, a database without PostGIS, tables that are there without
        leave to replace them, and those that can't be made."""
        dataset = self.opened()
        if not answer(dataset, "SELECT 1 FROM pg_extension WHERE extname = 'postgis'"):
            raise Refusal(self.name, "has no PostGIS: CREATE EXTENSION postgis")
        inputs = set().union(*map(identities, self.sources))
        known = [dataset.GetLayer(k).GetName() for k in range(dataset.GetLayerCount())]
        for table in tables:
            self.refuse_misnamed(table, known)
            there = identity(dataset, quoted(table))
            if there and there in inputs:
                raise Refusal(f"{self.name}{LAYER_MARK}{table}", "is an input")
            for source in filter(may_read_tables, self.sources if there else ()):
                raise Refusal(self.name, f"the table {table} may be what {source.name} reads: --layer names another one")
            if there and not self.overwrite:
                raise Refusal(
                    self.name,
                    (
                        f"has a table {table} already; --overwrite replaces it, and --layer names"
                        " another one"
                    ),
                )
            with blamed_on(self.name, self.address):
                self.refuse_unmakeable(dataset, table)

    def refuse_misnamed(self, table: str, known: Sequence[str]) -> None:
        """Refuses a name that the server would cut, or that GDAL takes for that of a layer it knows."""
        for part in table.split(".", 1):
            if not 0 < len(part.encode()) <= TABLE_BYTES:
                raise Refusal(self.name, f"a name has 1 to {TABLE_BYTES} bytes, and not {len(part.encode())} as in {table}: --layer names another one")
        for name in known:
            if name != table and name.lower() == table.lower():
                raise Refusal(self.name, f"has a table {name}, which GDAL takes for {table}: --layer names another one")

    def refuse_unmakeable(self, dataset: Any, table: str) -> None:
        """Refuses a table that this user can't make, or replace what is there by."""
        named, _, rest = table.partition(".")
        schema = f"to_regnamespace({literal(quoted_whole(named)) if rest else 'quote_ident(current_schema())'})::oid"
        if answer(dataset, f"SELECT {schema} > 0") is None:
            raise Refusal(self.name, f"has no schema {named}: CREATE SCHEMA" if rest else "names no schema for tables")
        there = f"FROM pg_class WHERE oid = to_regclass({literal(quoted(table))})"
        if answer(dataset, f"SELECT relkind {there}") not in (None, *TABLES):
            raise Refusal(self.name, f"{table} is no table: --layer names another one")
        owner = answer(dataset, f"SELECT pg_get_userbyid(relowner) {there} AND NOT pg_has_role(relowner, 'USAGE')")
        if owner:
            raise Refusal(self.name, f"the table {table} belongs to {owner}, and replacing it is up to its owner")
        user = answer(dataset, f"SELECT current_user WHERE NOT has_schema_privilege({schema}, 'CREATE')")
        if user:
            raise Refusal(self.name, f"{user} may create nothing in the schema{f' {named}' if rest else ' of its tables'}")

    def write(self, held: Drafts, system: osr.SpatialReference | None, tables: Sequence[Table]) -> list[int]:
        """Makes the tables, and answers how many features each has; all layers were read before."""
        for source in self.sources:
            source.let_go()
        dataset = held.within(self.changed())
        dataset.ExecuteSQL(f"SET LOCAL lock_timeout = '{LOCK_SECONDS}s'")
        return [self.made(dataset, system, table) for table in tables]

    @contextmanager
    def changed(self) -> Iterator[Any]:
        """The database in a transaction, whose failures are its faults."""
        with blamed_on(self.name, self.address), transaction(self.opened()) as dataset:
            yield dataset

    def made(self, dataset: Any, system: osr.SpatialReference | None, table: Table) -> int:
        if identity(dataset, quoted(table.name)):
            # which fails where a view stands on it
            dataset.ExecuteSQL(f"DROP TABLE {quoted(table.name)}")
        table = replace(table, columns=list(map(without_strange, table.columns)))
        made = create(dataset, table.name, system, table, self.name, *OPTIONS)
        for column, held in zip(table.columns, made.fields):
            if column.unzoned:  # GDAL would have them as of the server's zone
                way = f"ALTER COLUMN {quoted_whole(held.GetName())} TYPE timestamp"
                dataset.ExecuteSQL(f"ALTER TABLE {quoted(table.name)} {way}")
        count = 0
        for geometry, values in followed(table.rows, f"writing {table.name}"):
            add(made, geometry, values)
            count += 1
        made.layer.SyncToDisk()
        found = int(answer(dataset, f"SELECT count(*) FROM {quoted(table.name)}") or 0)
        if found != count:
            raise Fault(
                self.name,
                f"{table.name} has {found} of the {count} features that were written to it",
            )
        return count


def without_strange(column: Column) -> Column:
    """A field of texts of JSON in the place of one of lists from which GDAL would take backslashes, or
    make no value of a text."""
    return replace(column, type=ogr.OFTString, subtype=ogr.OFSTJSON) if column.strange else column


@contextmanager
def transaction(dataset: Any) -> Iterator[Any]:
    """Does all that is done within, or nothing: GDAL by itself would commit when it closes what
    wasn't finished."""
    dataset.StartTransaction()
    try:
        yield dataset
        go_on()
        dataset.CommitTransaction()
    except BaseException:
        dataset.RollbackTransaction()
        raise


def answer(dataset: Any, question: str) -> Any:
    """The one value that a query answers, or nothing."""
    rows = dataset.ExecuteSQL(question)
    if rows is None:
        return None
    try:
        feature = rows.GetNextFeature()
        return feature.GetField(0) if feature is not None and feature.IsFieldSetAndNotNull(0) else None
    finally:
        dataset.ReleaseResultSet(rows)
