"""A reader of vector tiles of its own, which refuses all that their specification forbids for polygons;
and what it says of the specification's examples, and of tiles that are wrong."""

from __future__ import annotations

import gzip
import struct
from dataclasses import dataclass
from typing import Iterator

import numpy as np
import pytest
from shapely.geometry import MultiPolygon, Polygon

from conftest import COMMAND  # noqa: F401 which puts the package on the path
from overlay_gis.columns import of_polygons
from overlay_gis.tiles import archives, mvt
from overlay_gis.tiles.world import Tile

Ring = list[tuple[int, int]]


class Bad(Exception):
    """A tile isn't what the specification demands."""


def demand(holds: bool, words: str) -> None:
    if not holds:
        raise Bad(words)


@dataclass
class Piece:
    number: int | None
    values: dict
    polygons: list[list[Ring]]

    def shape(self) -> MultiPolygon:
        return MultiPolygon([Polygon(shell, holes) for shell, *holes in self.polygons])


def varint(data: bytes, at: int) -> tuple[int, int]:
    number = shift = 0
    while True:
        demand(at < len(data), "a number is cut short")
        byte = data[at]
        at += 1
        number |= (byte & 127) << shift
        shift += 7
        if byte < 128:
            demand(byte > 0 or shift == 7, "a number is longer than it need be")
            demand(shift <= 70, "a number is too long")
            return number, at


def fields(data: bytes) -> Iterator[tuple[int, int, object]]:
    at = 0
    while at < len(data):
        key, at = varint(data, at)
        number, form = key >> 3, key & 7
        if form == 0:
            held, at = varint(data, at)
        elif form == 2:
            size, at = varint(data, at)
            held, at = data[at : at + size], at + size
            demand(len(held) == size, "a field is cut short")
        else:
            demand(form in (1, 5), "a field has no known form")
            size = 8 if form == 1 else 4
            held, at = data[at : at + size], at + size
            demand(len(held) == size, "a field is cut short")
        yield number, form, held


def numbers(data: bytes) -> list[int]:
    found, at = [], 0
    while at < len(data):
        number, at = varint(data, at)
        found.append(number)
    return found


def value(data: bytes) -> object:
    ((number, form, held),) = fields(data)
    demand((number, form) in ((1, 2), (2, 5), (3, 1), (4, 0), (5, 0), (6, 0), (7, 0)), "a value has no known kind")
    if number == 1:
        return held.decode()
    if number in (2, 3):
        return struct.unpack("<f" if number == 2 else "<d", held)[0]
    return bool(held) if number == 7 else step(held) if number == 6 else held


def step(number: int) -> int:
    return (number >> 1) ^ -(number & 1)


def twice_area(ring: Ring) -> int:
    return sum(a[0] * b[1] - b[0] * a[1] for a, b in zip(ring, ring[1:] + ring[:1]))


def rings(commands: list[int]) -> list[Ring]:
    """The rings that a pen draws, each of the commands MoveTo, LineTo and ClosePath, without its first
    point at the end."""
    found, at, x, y = [], 0, 0, 0

    def moved(count: int) -> Ring:
        nonlocal at, x, y
        points = []
        demand(at + 2 * count <= len(commands), "commands are cut short")
        for _ in range(count):
            x, y, at = x + step(commands[at]), y + step(commands[at + 1]), at + 2
            points.append((x, y))
        return points

    def command(wanted: int) -> int:
        nonlocal at
        demand(at < len(commands) and commands[at] & 7 == wanted, "commands are out of order")
        at += 1
        return commands[at - 1] >> 3

    while at < len(commands):
        demand(command(1) == 1, "MoveTo goes to one point")
        ring = moved(1)
        count = command(2)
        demand(count >= 2, "a ring has three points at least")
        ring += moved(count)
        demand(command(7) == 1, "ClosePath is there once")
        demand(all(a != b for a, b in zip(ring, ring[1:] + ring[:1])), "a point is there twice")
        found.append(ring)
    return found


def polygons(commands: list[int]) -> list[list[Ring]]:
    """Polygons, each a shell, whose area is positive, and its holes, whose areas are negative."""
    found: list[list[Ring]] = []
    for ring in rings(commands):
        area = twice_area(ring)
        demand(area != 0, "a ring has no area")
        demand(len(set(ring)) == len(ring), "a ring visits a point twice")
        demand(area > 0 or bool(found), "a hole comes before a shell")
        if area > 0:
            found.append([ring])
        else:
            found[-1].append(ring)
    demand(bool(found), "a geometry has no ring")
    return found


def piece(data: bytes, keys: list[str], values: list, used: set) -> Piece:
    held = {number: content for number, _, content in fields(data)}
    demand(set(held) <= {1, 2, 3, 4} and held.get(3) == 3 and 4 in held, "a feature is no polygon")
    tags = numbers(held.get(2, b""))
    demand(len(tags) % 2 == 0, "a tag has no value")
    pairs = list(zip(tags[::2], tags[1::2]))
    demand(all(k < len(keys) and v < len(values) for k, v in pairs), "a tag names nothing")
    demand(len({k for k, _ in pairs}) == len(pairs), "a feature has a key twice")
    used.update(("key", k) for k, _ in pairs)
    used.update(("value", v) for _, v in pairs)
    return Piece(held.get(1), {keys[k]: values[v] for k, v in pairs}, polygons(numbers(held[4])))


def decoded(data: bytes) -> dict[str, list[Piece]]:
    """The pieces of each layer of a packed tile."""
    found: dict[str, list[Piece]] = {}
    for number, form, content in fields(gzip.decompress(data)):
        demand((number, form) == (3, 2), "a tile has layers alone")
        held = list(fields(content))
        one = {number: held for number, _, held in held if number in (1, 5, 15)}
        demand({number for number, *_ in held} <= {1, 2, 3, 4, 5, 15}, "a layer has another field")
        demand(one.get(15) == 2 and one.get(5, 4096) == 4096 and 1 in one, "a layer has no name, version or extent")
        name = one[1].decode()
        demand(name not in found, "two layers have one name")
        keys, values = [held.decode() for number, _, held in held if number == 3], [value(held) for number, _, held in held if number == 4]
        used: set = set()
        found[name] = [piece(held, keys, values, used) for number, _, held in held if number == 2]
        demand(bool(found[name]), "a layer has no feature")
        demand(len(used) == len(keys) + len(values), "a key or a value is of no feature")
        ids = [held.number for held in found[name] if held.number is not None]
        demand(len(set(ids)) == len(ids), "two features have one id")
    return found


# The specification's examples of polygons, with their commands.
TRIANGLE = [[[(3, 6), (8, 12), (20, 34), (3, 6)]]]
TRIANGLE_COMMANDS = [9, 6, 12, 18, 10, 12, 24, 44, 15]
TWO = [
    [[(0, 0), (10, 0), (10, 10), (0, 10), (0, 0)]],
    [
        [(11, 11), (20, 11), (20, 20), (11, 20), (11, 11)],
        [(13, 13), (13, 17), (17, 17), (17, 13), (13, 13)],
    ],
]
TWO_COMMANDS = [9, 0, 0, 26, 20, 0, 0, 20, 19, 0, 15, 9, 22, 2, 26, 18, 0, 0, 18, 17, 0, 15, 9, 4, 13, 26, 0, 8, 8, 0, 0, 7, 15]


def feature_of(shapes):
    """Polygons as the columns of one feature."""
    held = of_polygons(shapes)
    return type(held)(held.x, held.y, held.rings, held.polygons, np.array([0, len(shapes)]), np.array([1]))


@pytest.mark.parametrize("shapes, commands", [(TRIANGLE, TRIANGLE_COMMANDS), (TWO, TWO_COMMANDS)])
def test_the_examples_of_the_specification(shapes, commands):
    (data,) = mvt.geometries(feature_of(shapes))
    assert list(data) == commands  # each is below 128, and so a byte
    assert polygons(commands) == [[ring[:-1] for ring in shape] for shape in shapes]


def test_each_feature_begins_at_the_corner_of_its_tile():
    """The pen goes back to 0 0 between features, and not between rings."""
    assert list(map(list, mvt.geometries(of_polygons(TRIANGLE + TRIANGLE)))) == [TRIANGLE_COMMANDS] * 2


def test_the_tags_of_the_specifications_example():
    keys = [b"hello", b"h", b"count"]
    world, again = mvt.value("world"), mvt.value("again")
    shape = bytes(TRIANGLE_COMMANDS)
    made = [(1, (world, world, mvt.value(1.23)), shape), (2, (again, b"", mvt.value(2)), shape)]
    data = mvt.layer("points", keys, made)
    assert bytes([0x12, 6, 0, 0, 1, 0, 2, 1]) in data and bytes([0x12, 4, 0, 2, 2, 3]) in data
    first, second = decoded(mvt.packed(data))["points"]
    assert (first.number, first.values) == (1, {"hello": "world", "h": "world", "count": 1.23})
    assert (second.number, second.values) == (2, {"hello": "again", "count": 2})


@pytest.mark.parametrize("held", [0, 1, -1, 127, 128, -(1 << 63), (1 << 64) - 1, 0.5, float("inf"), True, False, "", "\u00e4\u4e2d"])
def test_values(held):
    found = value(mvt.value(held))
    assert found == held and type(found) is type(held)


@pytest.mark.parametrize("steps, folded", [([0, -1, 1, -2, 2], [0, 1, 2, 3, 4]), ([4095, -4096], [8190, 8191])])
def test_steps_as_the_specification_folds_them(steps, folded):
    assert mvt.zigzag(np.array(steps)).tolist() == folded and list(map(step, folded)) == steps


def test_numbers_have_their_least_form():
    held = [0, 1, 127, 128, 300, 16383, 16384, (1 << 21) - 1, 1 << 21, (1 << 28) - 1, 1 << 28, (1 << 35) - 1]
    data, starts = mvt.varints(np.array(held))
    assert data == b"".join(map(mvt.varint, held)) and numbers(data) == held
    assert data[starts[4] : starts[5]] == b"\xac\x02"  # 300, as protobuf's pages have it


WRONG = {
    "commands are out of order": [[9, 0, 0, 9, 0, 0, 15], [18, 0, 0, 2, 2, 15], [9, 0, 0, 18, 2, 0, 0, 2], [15], [9, 0, 0, 18, 2, 0, 0, 2, 9, 0, 0, 15]],
    "MoveTo goes to one point": [[17, 0, 0, 2, 2, 18, 2, 0, 0, 2, 15]],
    "a ring has three points at least": [[9, 0, 0, 10, 2, 2, 15]],
    "a point is there twice": [[9, 0, 0, 26, 2, 0, 0, 0, 0, 2, 15], [9, 0, 0, 26, 20, 0, 0, 20, 19, 19, 15]],
    "a ring has no area": [[9, 0, 0, 18, 2, 2, 2, 2, 15]],
    "a hole comes before a shell": [[9, 0, 0, 26, 0, 20, 20, 0, 0, 19, 15]],
    "a ring visits a point twice": [[9, 0, 0, 42, 8, 0, 0, 8, 3, 0, 4, 7, 7, 8, 15]],
    "ClosePath is there once": [[9, 0, 0, 26, 20, 0, 0, 20, 19, 0, 23]],
    "commands are cut short": [[9, 0], [9, 0, 0, 26, 20, 0]],
    "a geometry has no ring": [[]],
}


@pytest.mark.parametrize("words", WRONG)
def test_the_reader_refuses_what_the_specification_forbids(words):
    for commands in WRONG[words]:
        with pytest.raises(Bad, match=words):
            polygons(commands)


# Of the specification of PMTiles.
NUMBERS = {(0, 0, 0): 0, (1, 0, 0): 1, (1, 0, 1): 2, (1, 1, 1): 3, (1, 1, 0): 4, (2, 0, 0): 5, (12, 3423, 1763): 19078479}


def test_numbers_of_tiles_are_those_of_the_specification():
    for tile, number in NUMBERS.items():
        assert archives.numbered(Tile(*tile)) == number and archives.tile_of(number) == tile
    for number in range(5000):
        assert archives.numbered(archives.tile_of(number)) == number


def test_a_directory_of_many_entries_has_leaves():
    entries = [archives.Entry(7 * k, 1 + k % 3, 1000 * k, 999 + k % 2) for k in range(50_000)]
    root, leaves = archives.directories(entries)
    assert len(root) <= 16384 - 127 and leaves
    tops = archives.entries_in(root)
    assert all(one.run == 0 for one in tops)
    found = [one for top in tops for one in archives.entries_in(leaves[top.at : top.at + top.size])]
    assert found == entries
