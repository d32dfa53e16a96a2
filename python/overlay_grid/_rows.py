"""Rows of faces: all points of the grid that just the same features cover."""

from __future__ import annotations

from array import array
from itertools import repeat
from typing import Any, List, NamedTuple, Sequence, Tuple

from ._shapes import Piece, Polygons, Whole

Ids = Tuple[Tuple[int, ...], ...]


class Line(NamedTuple):
    """A row of faces: twice its area in squares of the grid, the features of each layer, from 1 on, and its polygons."""

    twice: int
    ids: Ids
    polygons: Polygons


def numbers_in(ids: "array[int]", offsets: "array[int]") -> List[Tuple[int, ...]]:
    """Lists of features, from 1 on. Each number is one object, however many lists have it."""
    names = list(range(1, max(ids, default=-1) + 2))
    return [tuple(map(names.__getitem__, ids[first:past])) for first, past in zip(offsets, offsets[1:])]


def lines_of(text: bytes) -> List[Line]:
    """The rows of an answer that is a text."""
    return [line_of(line) for line in text.decode("ascii").splitlines()]


def line_of(line: str) -> Line:
    """The row of a line."""
    twice, *ids, wkt = line.split("\t")
    return Line(int(twice), tuple(tuple(map(int, numbers.split(","))) if numbers else () for numbers in ids), wkt)


def lines_in(lists: Sequence["array[int]"], layers: int, numbered: bool = True) -> List[Line]:
    """The rows of so many layers' faces, as the library answers columns. Where they aren't to be numbered, ranges stand for the lists of
    features, which are as long."""
    coordinates, rings, polygons, rows, twice, ids, offsets = lists
    each: Sequence[Any]
    if numbered:
        each = numbers_in(ids, offsets)
    else:
        each = [range(first, past) for first, past in zip(offsets, offsets[1:])]
    count = len(twice)
    sets = zip(*(each[layer * count : (layer + 1) * count] for layer in range(layers)))
    return list(map(Line, twice, sets, map(Piece, repeat(Whole(coordinates, rings, polygons)), rows, rows[1:])))
