"""Calls of the library on layers that are columns of the grid, in the layout of GeoArrow, and the polygons that it answers."""

from __future__ import annotations

import ctypes
from array import array
from bisect import bisect_right
from itertools import repeat
from operator import add
from typing import Iterator, List, Optional, Sequence, Tuple, Union

from ._calls import IDS, LAYERS, MOST_SEGMENTS, SEGMENTS, SIDE, fault_of, limit_of, places_of, side_number
from ._faults import OutOfMemory, Refusal, Refused
from ._library import ANSWERED, SMALL, Answer, Columns, ColumnsAnswer, FacesAnswer, Measures, library
from ._rooms import Room, face_lengths_for, face_size, given_back, size_for, size_for_faces, taken
from ._rows import Line, lines_in
from ._shapes import Features, Found, Paired, Piece, Rings, Whole, counts_of

# Pairs go to the library in calls of so many points, or of one pair: each pair is answered alone, so that this has no influence.
POINTS = 1 << 16


class Passed:
    """Rings as the library takes them, which stay where they are as long as this is there. They are read by parity, so that they may be
    those of one polygon."""

    __slots__ = ("held", "columns")

    def __init__(self, rings: Rings) -> None:
        offsets, whole = rings.offsets, array("I", (0, len(rings.offsets) - 1))
        one, (first, _) = array("I", (0, 1)), offsets.buffer_info()
        place, count = rings.coordinates.buffer_info()
        self.held = (rings, whole, one)
        self.columns = Columns(place or first, count, *offsets.buffer_info(), *whole.buffer_info(), *one.buffer_info())


def fill(call: int, side: int, limit: int, a: Passed, b: Passed, points: int, measures: Optional[Measures]) -> Room:
    """The room with what the library answers, in which the columns are whole where there are any."""
    filled = library.overlay_columns_fill if measures is None else library.overlay_measured_columns_fill
    more = places_of(measures)
    while True:
        room = taken(size_for(points))
        filled(call, side, limit, a.columns, b.columns, *room.columns, *more)
        if room.columns_answer.status != SMALL:
            return room
        points = room.columns_answer.coordinates // 2
        given_back(room)


def polygons_of(
    call: int, a: Rings, b: Rings, side: Optional[int], segments: Optional[int], measures: Optional[Measures] = None
) -> Found:
    """What an operation answers on the rings of two layers; `measures` gets what became of these."""
    limit = SEGMENTS if segments is None else limit_of(segments)
    first, second = Passed(a), Passed(b)
    points = 64 + len(a.coordinates) + len(b.coordinates)  # a guess: where it is too small, all is made again
    room = fill(call, SIDE if side is None else side_number(side), limit, first, second, points, measures)
    if side is None and room.columns_answer.number == Refusal.TOO_MANY_TILES:
        given_back(room)
        room = fill(call, library.overlay_columns_side(first.columns, second.columns), limit, first, second, points, measures)
    told = room.columns_answer
    if told.status != ANSWERED:
        raise fault_in(told)
    found = found_in(room)
    given_back(room)
    return found


def fault_in(told: Union[ColumnsAnswer, FacesAnswer], layers: int = 2) -> Union[Refused, OutOfMemory]:
    """The exception of an answer to a call on so many layers of columns."""
    return fault_of(Answer(0, told.detail, told.status, told.number, told.part), layers)


def found_in(room: Room) -> Found:
    """The polygons that a room has."""
    coordinates, rings, polygons = room.lists()
    return Found(coordinates[0::2], coordinates[1::2], counts_of(rings), counts_of(polygons))


def columns_of(layer: Features) -> Columns:
    """A layer as the library takes it, which has to stay where it is meanwhile."""
    rings = layer.rings.buffer_info()
    place, count = layer.coordinates.buffer_info()
    return Columns(place or rings[0], count, *rings, *layer.polygons.buffer_info(), *layer.features.buffer_info())


def fill_pairs(call: int, a: Columns, b: Columns, features: "array[int]", points: int) -> Room:
    """As `fill`, of an operation on pairs of features; it is told in a column of its own where each result begins."""
    while True:
        room = taken(size_for(points))
        *columns, answer = room.columns
        library.overlay_pairs_fill(call, MOST_SEGMENTS, a, b, *columns, *features.buffer_info(), answer)
        if room.columns_answer.status != SMALL:
            return room
        points = room.columns_answer.coordinates // 2
        given_back(room)


def pieces_of(call: int, a: Features, b: Features) -> List[Piece]:
    """What an operation answers on each feature of a layer and the one with the same number of another layer, in one call."""
    features = array("I", bytes(4 * len(a.features)))
    points = 64 + len(a.coordinates) + len(b.coordinates)  # a guess: where it is too small, all is made again
    room = fill_pairs(call, columns_of(a), columns_of(b), features, points)
    if room.columns_answer.status != ANSWERED:
        raise fault_in(room.columns_answer)
    whole = Whole(*room.lists())
    given_back(room)
    return list(map(Piece, repeat(whole), features, features[1:]))


def runs_of(starts: Sequence[int]) -> Iterator[Tuple[int, int]]:
    """Pairs for one call, from which one to before which, by where the points of each begin."""
    first, count = 0, len(starts) - 1
    while first < count:
        past = max(first + 1, bisect_right(starts, starts[first] + POINTS) - 1)
        yield first, past
        first = past


def pairs_of(call: int, a: Paired, b: Paired) -> Iterator[Piece]:
    """The same in several calls, whose memory is bounded so."""
    for first, past in runs_of(list(map(add, a.starts(), b.starts()))):
        yield from pieces_of(call, a.part(first, past), b.part(first, past))


def fill_faces(side: int, limit: int, layers: "ctypes.Array[Columns]", size: int) -> Room:
    """As `fill`, of the faces of layers."""
    room, count = taken(size), len(layers)
    lengths = face_lengths_for(room.size, count)
    while True:
        library.overlay_faces_columns_fill(side, limit, IDS, layers, count, room.for_faces(lengths), room.faces_place)
        if room.faces_answer.status != SMALL:
            return room
        lengths = room.face_lengths()
        given_back(room)
        room = taken(face_size(lengths))


def lines_on(layers: Sequence[Features], side: Optional[int], segments: Optional[int], numbered: bool = True) -> List[Line]:
    """The rows of the faces of layers, as `lines_in` tells them."""
    limit, count = SEGMENTS if segments is None else limit_of(segments), len(layers)
    if count > LAYERS:
        raise ValueError(f"{count} layers, and there may be {LAYERS}")
    held = (Columns * count)(*map(columns_of, layers))
    # a guess: where it is too small, all is made again
    size = size_for_faces(16 + sum(len(layer.coordinates) for layer in layers) // 6, count)
    room = fill_faces(SIDE if side is None else side_number(side), limit, held, size)
    if side is None and room.faces_answer.number == Refusal.TOO_MANY_TILES:
        given_back(room)
        room = fill_faces(library.overlay_faces_columns_side(held, count), limit, held, size)
    told = room.faces_answer
    if told.status != ANSWERED:
        raise fault_in(told, count)
    lines = lines_in(room.face_lists(), count, numbered)
    given_back(room)
    return lines
