"""Polygons as Mapbox vector tiles 2.1, by whole arrays.

A tile has layers, a layer features, and a feature a number, tags and a geometry: commands for a pen
that goes through all of its rings. Fields stand in the order of their numbers but that a layer's
version comes first; keys and values stand in the order of their first use; each varint has its least
form. So the same polygons and values have the same bytes everywhere.
"""

from __future__ import annotations

import struct
import zlib
from typing import Any, Iterable, Sequence

import numpy as np

from ..columns import Columns, Numbers, offsets
from .world import EXTENT

MOVE_TO, LINE_TO, CLOSE_PATH = 1, 2, 7  # commands of a geometry
POLYGON = 3  # the kind of a feature
VERSION = 2

# The bits of a varint's byte that tell of the number, and how many bytes one of these numbers has.
BITS, MOST_BYTES = 7, 5


def varint(number: int) -> bytes:
    """A whole number from 0 on, the least seven bits first."""
    out = bytearray()
    while number >> BITS:
        out.append(number & 127 | 128)
        number >>= BITS
    out.append(number)
    return bytes(out)


def message(number: int, data: bytes) -> bytes:
    """A field of that number that has bytes: a text, a message, or packed numbers."""
    return varint(number << 3 | 2) + varint(len(data)) + data


def plain(number: int, value: int) -> bytes:
    """A field of that number that has a whole number."""
    return varint(number << 3) + varint(value)


def value(held: Any) -> bytes:
    """A value of a tag: a truth value, a whole number, a floating-point number or a text."""
    if isinstance(held, bool):
        return plain(7, int(held))
    if isinstance(held, int):
        return plain(5, held) if held >= 0 else plain(6, (-held << 1) - 1)
    if isinstance(held, float):
        return varint(3 << 3 | 1) + struct.pack("<d", held)
    return message(1, str(held).encode())


def varints(numbers: Numbers) -> tuple[bytes, Numbers]:
    """The varints of numbers from 0 to 2^35, one behind another, and where each begins."""
    sizes = np.ones(len(numbers), np.int64)
    for k in range(1, MOST_BYTES):
        sizes += numbers >> (BITS * k) > 0
    starts = offsets(sizes)
    out = np.zeros(int(starts[-1]), np.uint8)
    for k in range(MOST_BYTES):
        there = np.flatnonzero(sizes > k)
        goes_on = sizes[there] > k + 1
        out[starts[there] + k] = (numbers[there] >> (BITS * k) & 127) | (goes_on << BITS)
    return out.tobytes(), starts


def zigzag(steps: Numbers) -> Numbers:
    """Steps as numbers from 0 on: 0, -1, 1, -2, .. are 0, 1, 2, 3, .."""
    folded: Numbers = (steps << 1) ^ (steps >> 63)
    return folded


def steps_of(at: Numbers, heads: Numbers) -> Numbers:
    """How far the pen goes to each point along one axis; at a head it comes from 0."""
    steps = np.diff(at, prepend=0)
    steps[heads] = at[heads]
    return steps


def geometries(shapes: Columns[Numbers]) -> list[bytes]:
    """The commands of each feature: of each ring one MoveTo, one LineTo for all its other points, and
    ClosePath, which stands for the point that the ring begins and ends with."""
    lengths = shapes.lengths - 1
    drawn = np.ones(len(shapes.x), bool)
    drawn[shapes.rings[1:] - 1] = False
    starts = offsets(lengths)
    features = shapes.polygons[shapes.features]  # where the rings of each feature begin
    heads = starts[features[:-1][np.diff(features) > 0]]
    commands = offsets(2 * lengths + 3)  # where those of each ring begin
    stream = np.empty(int(commands[-1]), np.int64)
    inside = np.arange(int(starts[-1])) - np.repeat(starts[:-1], lengths)
    places = np.repeat(commands[:-1], lengths) + 1 + 2 * inside + (inside > 0)
    for k, at in enumerate((shapes.x, shapes.y)):
        stream[places + k] = zigzag(steps_of(at[drawn], heads))
    stream[commands[:-1]] = 1 << 3 | MOVE_TO
    stream[commands[:-1] + 3] = (lengths - 1) << 3 | LINE_TO
    stream[commands[1:] - 1] = 1 << 3 | CLOSE_PATH
    data, begins = varints(stream)
    ends = begins[commands[features]].tolist()
    return [data[at:end] for at, end in zip(ends, ends[1:])]


def feature(number: int | None, tags: bytes, geometry: bytes) -> bytes:
    """A feature of polygons; `number` is its id, if it has one."""
    parts = [plain(1, number)] if number is not None else []
    parts += [message(2, tags)] if tags else []
    return b"".join((*parts, plain(3, POLYGON), message(4, geometry)))


def layer(name: str, keys: Sequence[bytes], features: Iterable[tuple[int | None, Sequence[bytes], bytes]]) -> bytes:
    """A layer as a tile has it. A feature has its id, its values, one for each key and an empty one for
    none, and its geometry."""
    known_keys: dict[bytes, int] = {}
    known_values: dict[bytes, int] = {}
    made = []
    for number, values, geometry in features:
        there = [(key, held) for key, held in zip(keys, values) if held]
        tags = [varint(numbered(known_keys, key)) + varint(numbered(known_values, held)) for key, held in there]
        made.append(message(2, feature(number, b"".join(tags), geometry)))
    parts = [plain(15, VERSION), message(1, name.encode()), *made]
    parts += [message(3, key) for key in known_keys] + [message(4, held) for held in known_values]
    return message(3, b"".join((*parts, plain(5, EXTENT))))


def numbered(known: dict[bytes, int], one: bytes) -> int:
    """The number of one thing among those that are known, to which it belongs from then on."""
    return known.setdefault(one, len(known))


def packed(data: bytes) -> bytes:
    """The same by gzip, without a name or a time."""
    made = zlib.compressobj(6, zlib.DEFLATED, 16 + zlib.MAX_WBITS)
    return made.compress(data) + made.flush()
