"""Ranges of a GeoPackage's features, by which many read a layer at once."""

from __future__ import annotations

import os
import sqlite3
from contextlib import closing
from dataclasses import dataclass
from pathlib import Path
from typing import Iterator

import numpy as np

from .faults import Fault, Refusal
from .gdal_errors import blamed_on
from .geopackage import connected, quoted
from .layers import LAYER_MARK, Source
from .output import PACKAGE
from .whole import state_of

# How many bytes a feature takes beside its geometry, and how many features are looked at at a time.
BESIDE, FEATURES = 64, 1 << 16

WAY = "ogr2ogr -f GPKG makes a file of it that many can read at once"


@dataclass(frozen=True)
class Input:
    """A layer as all who read it find it: its name as it is told, the file and the layer there, the
    column of its features' numbers, and what tells whether it was changed."""

    name: str
    path: str
    layer: str
    column: str
    state: tuple[tuple[int, int], ...]

    def opened(self) -> Source:
        """The layer, if it is as it was."""
        source = Source(self.path + LAYER_MARK + self.layer)
        source.name = self.name
        self.check()
        return source

    def part(self, first: int, last: int) -> Source:
        """The layer of these features alone: those with numbers from the first one to the last."""
        source = self.opened()
        with blamed_on(self.name, self.path):
            source.layer.SetAttributeFilter(f"{quoted(self.column)} BETWEEN {first} AND {last}")
        return source

    def check(self) -> None:
        if state_told(self.path) != self.state:
            raise Fault(self.name, "was changed while it was read")


def state_told(path: str) -> tuple[tuple[int, int], ...]:
    """What tells whether a file was changed, on any machine that sees it."""
    return tuple((size, time) for _, size, time in state_of(Path(path)))


def input_of(source: Source) -> Input:
    """A layer that many can read at once, which is a table of a GeoPackage."""
    path, name, column = os.path.abspath(source.path), str(source.layer.GetName()), str(source.layer.GetFIDColumn())
    if source.dataset.GetDriver().ShortName != PACKAGE or not os.path.isfile(path):
        raise Refusal(source.name, f"--engine dask reads files of GeoPackages alone: {WAY}")
    held = Input(source.name, path, name, column, state_told(path))
    if not column or not is_table(held):
        raise Refusal(source.name, f"{name} is no table whose features have numbers: {WAY}")
    return held


def is_table(held: Input) -> bool:
    try:
        with closing(connected(Path(held.path))) as package:
            found = package.execute("SELECT type FROM sqlite_master WHERE name = ?", (held.layer,)).fetchone()
    except sqlite3.Error as error:
        raise Fault(held.name, f"can't be read: {error}") from error
    return found is not None and found[0] == "table"


def sizes(held: Input, geometry: str) -> Iterator[tuple[np.ndarray, np.ndarray]]:  # type: ignore[type-arg]
    """The numbers of all features, ascending, and how many bytes each takes, some at a time."""
    length = f"ifnull(length({quoted(geometry)}), 0)" if geometry else "0"
    words = f"SELECT {quoted(held.column)}, {length} FROM {quoted(held.layer)} ORDER BY 1"
    with closing(connected(Path(held.path))) as package:
        cursor = package.execute(words)
        while rows := cursor.fetchmany(FEATURES):
            found = np.array(rows, np.int64)
            yield found[:, 0], found[:, 1] + BESIDE


def ranges(held: Input, geometry: str, most: int) -> list[tuple[int, int]]:
    """The first and the last number of the features of each part: parts of so many bytes, or of one
    feature that is greater."""
    lasts: dict[int, int] = {}
    total, least = 0, 0
    try:
        for numbers, lengths in sizes(held, geometry):
            least = least if lasts else int(numbers[0])
            ends = total + np.cumsum(lengths)
            parts = (ends - 1) // most
            changes = np.append(np.flatnonzero(np.diff(parts)), len(parts) - 1)
            lasts.update(zip(parts[changes].tolist(), numbers[changes].tolist()))
            total = int(ends[-1])
    except sqlite3.Error as error:
        raise Fault(held.name, f"can't be read: {error}") from error
    found, first = [], least
    for last in lasts.values():
        found.append((first, last))
        first = last + 1
    return found
