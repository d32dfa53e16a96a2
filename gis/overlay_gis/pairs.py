"""Pairs of features, one of either layer, that have points in common, with the areas of these."""

from __future__ import annotations

from dataclasses import dataclass
from itertools import pairwise, repeat
from typing import Iterator, Sequence

import numpy as np
from osgeo import ogr

from .columns import Numbers, offsets
from .fields import Kept
from .frame import Frame
from .geopackage import Row
from .output import NO_BOXES, Column, Table
from .rows import Rows

COLUMNS = [
    Column("a", ogr.OFTInteger64),
    Column("b", ogr.OFTInteger64),
    Column("twice_area", ogr.OFTInteger64),
    Column("area", ogr.OFTReal),
    Column("share_a", ogr.OFTReal),
    Column("share_b", ogr.OFTReal),
]


# How many pairs of features in rows are held at a time: features that lie on many others cover many
# rows together.
AT_A_TIME = 1 << 20


@dataclass(frozen=True)
class Pairs:
    """The places of both features in their layers, and twice the common area, in grid units."""

    first: Numbers
    second: Numbers
    twice: Numbers


def pairs_in(rows: Rows) -> Pairs:
    """All pairs of two layers' features that cover a row together, ordered by the first and then
    the second one."""
    a, b = rows.members
    width = int(b.places.max(initial=0)) + 1
    totals = offsets(a.counts * b.counts)
    cuts = np.unique(np.append(np.searchsorted(totals, np.arange(0, totals[-1], AT_A_TIME)), len(totals) - 1))
    keys, twice = np.zeros(0, np.int64), np.zeros(0, np.int64)
    for at, end in pairwise(cuts.tolist()):
        of_block, row = keys_of(rows, np.arange(at, end), width)
        keys, twice = summed(np.concatenate((keys, of_block)), np.concatenate((twice, rows.twice[row])))
    return Pairs(keys // width, keys % width, twice)


def keys_of(rows: Rows, block: Numbers, width: int) -> tuple[Numbers, Numbers]:
    """A number for each pair of features that cover one of some rows together, and that row."""
    a, b = rows.members
    counts = (a.counts * b.counts)[block]
    row = np.repeat(block, counts)
    inside = np.arange(len(row)) - np.repeat(offsets(counts)[:-1], counts)
    of_b = b.counts[row]
    first, second = a.places[a.starts[row] + inside // of_b], b.places[b.starts[row] + inside % of_b]
    return first * width + second, row


def summed(keys: Numbers, twice: Numbers) -> tuple[Numbers, Numbers]:
    """Each key once, ascending, with the sum of its areas."""
    order = np.argsort(keys, kind="stable")
    ordered = keys[order]
    firsts = np.flatnonzero(np.diff(ordered, prepend=-1))
    return ordered[firsts], np.add.reduceat(twice[order], firsts)


def table_of(rows: Rows, ids: tuple[Numbers, Numbers], held: Sequence[Kept], frame: Frame) -> Table:
    """The table of pairs of two layers, whose features have these numbers. A pair has one feature of
    either layer, so the fields that are kept have the layers' types."""
    columns = [*COLUMNS, *(column for layer in held for column in layer.typed())]
    boxes = NO_BOXES if all(layer.is_plain() for layer in held) else None
    return Table(columns, lines(rows, ids, held, frame), ogr.wkbNone, boxes)


def lines(rows: Rows, ids: tuple[Numbers, Numbers], held: Sequence[Kept], frame: Frame) -> Iterator[Row]:
    pairs = pairs_in(rows)
    places = (pairs.first, pairs.second)
    wholes = [rows.areas_of(k, len(numbers))[at] for k, (numbers, at) in enumerate(zip(ids, places))]
    numbers = [known[at].tolist() for known, at in zip(ids, places)]
    kept = [[layer.values[k] for k in at.tolist()] if layer.fields else repeat(()) for layer, at in zip(held, places)]
    areas = (pairs.twice.tolist(), *(whole.tolist() for whole in wholes))
    for a, b, twice, of_a, of_b, values_a, values_b in zip(*numbers, *areas, *kept):
        yield None, (a, b, twice, frame.area(twice), share(twice, of_a), share(twice, of_b), *values_a, *values_b)


def share(part: int, whole: int) -> float:
    """To as many digits as any format keeps."""
    return float(f"{part / whole:.15g}")
