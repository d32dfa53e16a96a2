"""Calls of the library on layers that are bytes, and the exceptions of those that it refuses."""

from __future__ import annotations

import ctypes
import enum
from operator import index
from typing import Optional, Sequence, SupportsIndex, Tuple, Union

from ._faults import OutOfMemory, Refusal, Refused
from ._library import ANSWERED, NO_CALL, NO_MEMORY, SMALL, Answer, Layer, Measures, library
from ._rooms import Room, given_back, taken

# How many segments all layers together may have, where nothing is said of texts; and where nothing is said of geometries.
SEGMENTS = 1_048_576
MOST_SEGMENTS = 2**32 - 1

# The longest text, in bytes: no shorter than this, and so many for each segment of the limit up to the most of all.
LONGEST = 268_435_456
BYTES_A_SEGMENT = 256
MOST_BYTES = 2**32 - 1

# How many layers faces may have, and how many features all rows together.
LAYERS = 64
IDS = 268_435_456

# The side of a tile that the library takes where it doesn't give too many tiles. Texts up to so many bytes are tried with it, since to
# ask for theirs reads them once more.
SIDE = 262_144
TRIED = 1 << 16


class Operation(enum.Enum):
    """What to compute, by the program's words.

    >>> Operation("union")
    <Operation.UNION: 'union'>
    """

    UNION = "union"
    INTERSECTION = "intersection"
    DIFFERENCE = "difference"
    SYMDIFFERENCE = "symdifference"
    EDGES = "edges"


# The numbers of the library's calls.
CALLS = {
    Operation.UNION: 0,
    Operation.INTERSECTION: 1,
    Operation.DIFFERENCE: 2,
    Operation.SYMDIFFERENCE: 3,
    Operation.EDGES: 4,
}

# What the number beside a refusal tells.
HAVE_OFFSETS = (Refusal.SYNTAX, Refusal.NUMBER_RANGE, Refusal.SHORT_RING, Refusal.OPEN_RING)
HAVE_COUNTS = (Refusal.TOO_MANY_SEGMENTS, Refusal.TOO_MANY_TILES, Refusal.TOO_MANY_IDS)

# The part of an answer that is about the run, for the library's words.
RUN = 2


def words_of(answer: Answer) -> str:
    """The words of an answer, without the layer."""
    if answer.number == Refusal.TOO_MANY_IDS:
        return f"{answer.number} too many ids: {answer.detail}"
    room = ctypes.create_string_buffer(64)
    told = Answer(0, answer.detail, answer.status, answer.number, RUN)
    length: int = library.overlay_words(told, room, len(room))
    return room.raw[:length].decode("ascii")


def layer_name(number: int) -> str:
    """What a layer is called, from 0 on."""
    return chr(ord("A") + number) if number < 26 else str(number + 1)


def fault_of(answer: Answer, layers: int = 2) -> Union[Refused, OutOfMemory]:
    """The exception of an answer to a call on so many layers."""
    words = words_of(answer)
    if answer.status == NO_MEMORY:
        return OutOfMemory(words)
    number = Refusal(answer.number)
    layer = layer_name(answer.part) if answer.part < layers else None
    return Refused(
        f"{layer}: {words}" if layer else words,
        number,
        layer,
        answer.detail if number in HAVE_OFFSETS else None,
        answer.detail if number in HAVE_COUNTS else None,
    )


def bytes_of(layer: Union[str, bytes]) -> bytes:
    """A layer's text."""
    if isinstance(layer, str):
        return layer.encode("utf-8", "surrogatepass")  # so that the library tells the place of what no UTF-8 has
    return layer if type(layer) is bytes else bytes(memoryview(layer))


def whole(number: SupportsIndex, name: str) -> int:
    """A whole number that was said, also one of numpy's."""
    if isinstance(number, bool) or not hasattr(number, "__index__"):
        raise TypeError(f"{name} is an int")
    return index(number)


def side_number(side: SupportsIndex) -> int:
    """The side of a tile that was said."""
    number = whole(side, "the side of a tile")
    return number if 0 <= number < 2**32 else 0  # 0 is refused as every other bad side


def limit_of(segments: SupportsIndex) -> int:
    """The number of segments that was said."""
    number = whole(segments, "the number of segments")
    if number < 1:
        raise ValueError("the number of segments is below 1")
    return min(number, MOST_SEGMENTS)  # two texts never have as many


def longest_of(limit: int) -> int:
    """How many bytes a text may have, by the most segments."""
    return min(max(BYTES_A_SEGMENT * limit, LONGEST), MOST_BYTES)


def places_of(measures: Optional[Measures]) -> Tuple[int, ...]:
    """Where measures go, for a call that tells them."""
    return () if measures is None else (ctypes.addressof(measures),)


def fill(call: int, side: int, limit: int, a: bytes, b: bytes, covered: bool, measures: Optional[Measures]) -> Room:
    """The room with what the library answers, in which the text is whole where there is one."""
    filled = library.overlay_covered_fill if covered else library.overlay_fill_within
    if measures is not None:
        filled = library.overlay_measured_fill
    more = places_of(measures)
    # a guess: where it is too small, all is made again
    size = 256 + (6 if call == 4 else 2) * (len(a) + len(b))
    while True:
        room = taken(size)
        filled(call, side, limit, a, len(a), b, len(b), room.place, room.size, room.answer_place, *more)
        if room.answer.status != SMALL:
            return room
        size = room.answer.length
        given_back(room)


def text_of(
    call: int,
    a: bytes,
    b: bytes,
    side: Optional[int],
    segments: Optional[int],
    covered: bool = False,
    measures: Optional[Measures] = None,
) -> bytes:
    """What an operation answers on two texts, whose geometries don't cancel each other where they are read as covered. Where they aren't,
    `measures` gets what became of the layers."""
    limit = SEGMENTS if segments is None else limit_of(segments)
    tried = side is None and len(a) + len(b) <= TRIED
    if side is None:
        number = SIDE if tried else library.overlay_side(a, len(a), b, len(b))
    else:
        number = side_number(side)
    room = fill(call, number, limit, a, b, covered, measures)
    if tried and room.answer.number == Refusal.TOO_MANY_TILES:
        given_back(room)
        room = fill(call, library.overlay_side(a, len(a), b, len(b)), limit, a, b, covered, measures)
    if room.answer.status != ANSWERED:
        raise fault_of(room.answer)
    text = room.text()
    given_back(room)
    return text


def fill_faces(side: int, limit: int, layers: "ctypes.Array[Layer]", size: int) -> Room:
    """As `fill`, of the faces of layers."""
    while True:
        room = taken(size)
        library.overlay_faces_fill(side, limit, IDS, layers, len(layers), room.place, room.size, room.answer_place)
        if room.answer.status != SMALL:
            return room
        size = room.answer.length
        given_back(room)


def faces_of(layers: Sequence[bytes], side: Optional[int], segments: Optional[int]) -> bytes:
    """The faces of layers."""
    limit, count = SEGMENTS if segments is None else limit_of(segments), len(layers)
    if count > LAYERS:
        raise ValueError(f"{count} layers, and there may be {LAYERS}")
    held = (Layer * count)(*(Layer(layer, len(layer)) for layer in layers))
    # a guess: where it is too small, all is made again
    size = 256 + 4 * sum(map(len, layers))
    tried = side is None and size <= TRIED
    if side is None:
        number = SIDE if tried else library.overlay_faces_side(held, count)
    else:
        number = side_number(side)
    room = fill_faces(number, limit, held, size)
    if tried and room.answer.number == Refusal.TOO_MANY_TILES:
        given_back(room)
        room = fill_faces(library.overlay_faces_side(held, count), limit, held, size)
    if room.answer.status == NO_CALL:
        raise ValueError(f"the library has no call for {count} layers")
    if room.answer.status != ANSWERED:
        raise fault_of(room.answer, count)
    text = room.text()
    given_back(room)
    return text
