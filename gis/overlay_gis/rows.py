"""The program's answer to `faces`, read by whole arrays: which features cover what.

A line has twice the area, for each layer the numbers of its features with commas between, and the
polygons, with tabs between these. What stands before the polygons is cut out and read apart, so
that the rest is a text of polygons.
"""

from __future__ import annotations

from dataclasses import dataclass, replace
from typing import Sequence

import numpy as np

from .columns import Bytes, Columns, Mask, Numbers, chained, offsets
from .faults import Refusal
from .parsing import DIGITS, NEW_LINE, geometries_in

TAB, COMMA, SPACE, ZERO = b"\t, 0"
POLYGONS = b"M"[0]  # with which each row's polygons begin

# Digits of twice an area, which is at most 2^59.
AREA = 18

# How many rows' polygons are read at a time.
ROWS = 1 << 12

PLAIN = bytes.maketrans(b"\t,", b"  ")


@dataclass(frozen=True)
class Members:
    """The features of one layer in each row: row k has those at the places from starts[k] up to
    starts[k + 1], places of the layer's features from 0, ascending."""

    starts: Numbers
    places: Numbers

    @property
    def counts(self) -> Numbers:
        return np.diff(self.starts)

    def owners(self) -> Numbers:
        """For each of the places the row that has it."""
        return np.repeat(np.arange(len(self.starts) - 1), self.counts)

    def chosen(self, kept: Mask) -> Members:
        """Those of these rows alone."""
        return Members(offsets(self.counts[kept]), self.places[np.repeat(kept, self.counts)])


@dataclass(frozen=True)
class Rows:
    """Rows, each all points that just the same features cover: twice its area in grid units, these
    features by their layers, and its polygons, which are those of one feature of `shapes`."""

    twice: Numbers
    members: list[Members]
    shapes: Columns[Numbers]

    @property
    def counts(self) -> Numbers:
        """How many features each row has, of all layers."""
        sums: Numbers = np.sum([layer.counts for layer in self.members], axis=0)
        return sums

    def chosen(self, kept: Mask) -> Rows:
        """These rows alone."""
        return Rows(self.twice[kept], [layer.chosen(kept) for layer in self.members], self.shapes.of_features(kept))

    def areas_of(self, layer: int, count: int) -> Numbers:
        """Twice the area of each of the layer's so many features."""
        held, made = self.members[layer], np.zeros(count, np.int64)
        np.add.at(made, held.places, self.twice[held.owners()])
        return made

    def within(self, kept: Mask) -> int:
        """Twice the area of these rows together."""
        return sum(self.twice[kept].tolist())


def lines_of(signs: Bytes, layers: int) -> tuple[Numbers, Numbers] | None:
    """Where the lines of a text begin, and where their polygons do; nothing where it isn't made of
    lines of so many fields."""
    marks = np.flatnonzero(signs < SPACE)
    kinds = signs[marks]
    ends, tabs = marks[kinds == NEW_LINE], marks[kinds == TAB]
    starts = np.append(0, ends + 1)
    if starts[-1] != len(signs) or len(tabs) != len(ends) * (layers + 1):
        return None
    polygons = tabs.reshape(-1, layers + 1)[:, -1] + 1
    own = np.searchsorted(ends, tabs) == np.repeat(np.arange(len(ends)), layers + 1)
    return (starts[:-1], polygons) if own.all() and (signs[polygons] == POLYGONS).all() else None


def are_heads(heads: bytes, layers: int) -> bool:
    """Whether what stands before the polygons of all rows is an area and lists of features, with a
    tab behind each."""
    signs = np.frombuffer(heads, np.uint8)
    marks = np.flatnonzero(signs - np.uint8(ZERO) >= 10)  # a byte below 0 comes out as one above 9
    kinds, digits = signs[marks], np.diff(marks, prepend=-1) - 1
    tabs = kinds == TAB
    field = (np.cumsum(tabs) - tabs) % (layers + 1)
    alone = tabs & np.append(True, tabs)[:-1]  # a list of no feature may have no digit
    known = tabs | (kinds == COMMA) & (field > 0)
    sized = (digits <= np.where(field > 0, DIGITS, AREA)) & ((digits > 0) | alone & (field > 0))
    return bool((known & sized).all())


def fields_of(heads: bytes, layers: int) -> tuple[Numbers, list[Members]]:
    """Twice the areas, and the features of each layer."""
    signs = np.frombuffer(heads, np.uint8)
    tabs = np.flatnonzero(signs == TAB).reshape(-1, layers + 1)
    commas = np.searchsorted(np.flatnonzero(signs == COMMA), tabs)
    counts = np.where(np.diff(tabs) > 1, np.diff(commas) + 1, 0)
    numbers = np.fromstring(heads.translate(PLAIN), np.int64, sep=" ")
    widths = np.insert(counts, 0, 1, axis=1)
    fields = np.repeat(np.tile(np.arange(layers + 1), len(tabs)), widths.ravel())
    members = [Members(offsets(counts[:, k]), numbers[fields == k + 1] - 1) for k in range(layers)]
    return numbers[fields == 0], members


def rows_in(text: bytes, layers: int, name: str) -> Rows:
    """The rows of a text of so many layers."""
    signs = np.frombuffer(text, np.uint8)
    lines = lines_of(signs, layers)
    if lines is None:
        raise Refusal(name, "has a line that is no row of faces")
    starts, polygons = lines
    heads = b"".join([text[at:end] for at, end in zip(starts.tolist(), polygons.tolist())])
    if not are_heads(heads, layers):
        raise Refusal(
            name, "has a row without an area, or with other numbers than those of features"
        )
    shapes = shapes_of(text, polygons.tolist(), np.append(starts[1:], len(text)).tolist(), name)
    if len(shapes.ids) != len(starts):
        raise Refusal(name, "has a line that is no row of faces")
    return Rows(*fields_of(heads, layers), shapes)


def shapes_of(text: bytes, starts: Sequence[int], ends: Sequence[int], name: str) -> Columns[Numbers]:
    """The polygons of rows, of which these are the stretches of a text; those of some rows at a
    time, so that what they take by the way is little."""
    parts = []
    for at in range(0, max(len(starts), 1), ROWS):
        stretches = zip(starts[at : at + ROWS], ends[at : at + ROWS])
        parts.append(geometries_in(b"".join([text[start:end] for start, end in stretches]), name))
    found = chained(parts)
    return replace(found, ids=np.arange(1, len(found.features)))
