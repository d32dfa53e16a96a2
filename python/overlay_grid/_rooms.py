"""Rooms for answers, which are used again: to make one takes longer than the rest of a small call.

A call takes a room and gives it back, so that each thread has its own, also where a call is made in the midst of another one.
"""

from __future__ import annotations

import ctypes
from array import array
from struct import Struct
from typing import Any, List, Sequence, Tuple

from ._library import Answer, ColumnsAnswer, FacesAnswer

# Rooms up to this many bytes are kept.
MOST = 1 << 20
LEAST = 1 << 14

# The columns of faces, in the library's order: what their numbers are.
FACES = "iIIIqII"
AREAS = FACES.index("q")

# Where these columns go and how many numbers there may be, and how many there are.
PLACES, LENGTHS = Struct("14Q"), Struct("7Q")


class Room:
    """Memory for a text or for columns, and for what a call answers.

    Columns of polygons with so many points have twice as many coordinates, and an offset more than there are rings, or polygons. No ring
    has fewer than four points.
    """

    __slots__ = ("size", "held", "answer", "place", "answer_place", "columns_answer", "columns", "faces_answer", "faces_place", "places")

    def __init__(self, size: int) -> None:
        self.size = max(LEAST, size)
        self.held: Any = ctypes.create_string_buffer(self.size)
        self.answer, self.columns_answer, self.faces_answer = Answer(), ColumnsAnswer(), FacesAnswer()
        self.places = (ctypes.c_char * PLACES.size)()
        self.place = ctypes.addressof(self.held)
        self.answer_place, self.faces_place = ctypes.addressof(self.answer), ctypes.addressof(self.faces_answer)
        points = (self.size - 16) // 10
        lists = points // 4 + 2
        rings = self.place + 8 * points
        self.columns = (self.place, 2 * points, rings, lists, rings + 4 * lists, lists, ctypes.addressof(self.columns_answer))

    def text(self) -> bytes:
        """The text that was answered."""
        text: bytes = self.held[: self.answer.length]
        return text

    def lists(self) -> Tuple["array[int]", "array[int]", "array[int]"]:
        """The columns that were answered."""
        coordinates, _, rings, _, polygons, *_ = self.columns
        answer = self.columns_answer
        return column("i", coordinates, answer.coordinates), column("I", rings, answer.rings), column("I", polygons, answer.polygons)


    def for_faces(self, lengths: Sequence[int]) -> int:
        """Where it is told to the library which rooms in it are for columns of faces of these lengths."""
        held: List[int] = []
        at = self.place + 8 * lengths[AREAS]
        for kind, length in zip(FACES, lengths):
            held += (self.place if kind == "q" else at, length)
            at += 0 if kind == "q" else 4 * length
        PLACES.pack_into(self.places, 0, *held)
        return ctypes.addressof(self.places)

    def face_lengths(self) -> Tuple[int, ...]:
        """How long the columns of faces are that were answered."""
        return LENGTHS.unpack_from(self.faces_answer)

    def face_lists(self) -> List["array[int]"]:
        """The columns of faces that were answered."""
        places = PLACES.unpack_from(self.places)[0::2]
        return list(map(column, FACES, places, self.face_lengths()))


def column(kind: str, place: int, count: int) -> "array[int]":
    """So many numbers that stand at a place."""
    return array(kind, ctypes.string_at(place, (8 if kind == "q" else 4) * count))


def size_for(points: int) -> int:
    """How many bytes a room for polygons with so many points has."""
    return 10 * points + 16


def face_size(lengths: Sequence[int]) -> int:
    """How many bytes a room for columns of faces of these lengths has."""
    return 4 * (sum(lengths) + lengths[AREAS])


def face_lengths_for(size: int, layers: int) -> Tuple[int, ...]:
    """Columns for faces of so many layers that a room of so many bytes has room for: six points a row, and a feature more than there are
    layers."""
    rows = (size - 16) // (72 + 8 * layers)
    return 12 * rows, rows + 1, rows + 1, rows + 1, rows, (layers + 1) * rows, layers * rows + 1


def size_for_faces(rows: int, layers: int) -> int:
    """How many bytes a room for so many such rows has."""
    return (72 + 8 * layers) * rows + 16


_free: List[Room] = []


def taken(size: int) -> Room:
    """A room of at least so many bytes."""
    if size > MOST:
        return Room(size)
    try:
        room = _free.pop()
    except IndexError:  # every thread may take the last one
        return Room(1 << (size - 1).bit_length())
    return room if room.size >= size else Room(1 << (size - 1).bit_length())


def given_back(room: Room) -> None:
    """Lets a room be used again."""
    if room.size <= MOST:
        _free.append(room)
