"""tiles: its options, files and refusals, and what becomes of its output when it is stopped."""

from __future__ import annotations

import gzip
import json
import os
import re
import signal
import sqlite3
import struct
import subprocess
import sys
import time
from argparse import ArgumentParser
from pathlib import Path

import numpy as np
import pytest
from osgeo import gdal, ogr
from shapely.geometry import Polygon, box

from conftest import COMMAND, numbers_in, running, write
from overlay_gis import whole
from overlay_gis.calls import Cancelled, call
from overlay_gis.columns import of_polygons
from overlay_gis.rows import Members
from overlay_gis.tiles import add_arguments, archives, levels, simplifying, small
from overlay_gis.tiles.world import EXTENT, HALF, Tile, rounded
from test_kills import stopped  # noqa: F401 a fixture
from test_tiles_judge import LAND, WEB, tiles_of
from test_tiles_reading import decoded

TOP = Path(COMMAND).parents[1]
FILES = ["out.mbtiles", "out.pmtiles", "out"]
ZOOM = 8
UNIT = 2 * HALF / (EXTENT << ZOOM)


def units(x: float, y: float, right: float, bottom: float, tile: tuple[int, int] = (128, 80)):
    """A rectangle in units of zoom 8 from the corner of a tile, in EPSG:3857."""
    left, top = (tile[0] * EXTENT + x) * UNIT - HALF, HALF - (tile[1] * EXTENT + y) * UNIT
    return box(left, top - (bottom - y) * UNIT, left + (right - x) * UNIT, top)


def made(gis, *words) -> dict[str, dict[str, list]]:
    """The layers of all tiles of a run."""
    answer = gis("tiles", *words, "-o", "out.mbtiles", "--overwrite")
    assert answer.status == 0, answer.err
    return {str(tile): decoded(data) for tile, data in tiles_of("out.mbtiles")}


def shapes_of(pieces) -> dict:
    return {piece.number: piece.polygons for piece in pieces}


def write_land(tmp_path, stem="land", shapes=LAND, **more) -> str:
    fields = {"number": list(range(len(shapes))), **more}
    return write(tmp_path / f"{stem}.gpkg", shapes, WEB, fields)


def contents(path) -> dict[str, bytes]:
    """All that a file or a folder has."""
    place = Path(path)
    return {str(held): held.read_bytes() for held in [place, *sorted(place.rglob("*"))] if held.is_file()}


def test_a_square_by_hand(gis, tmp_path):
    """Two squares with a common border, of which one goes over the border of its tile up to the buffer;
    it has corners where the frame of the next tile begins, and that of its own ends."""
    a = write(tmp_path / "a.gpkg", [units(110, 120, 130, 150), units(130, 120, EXTENT + 500, 150)], WEB, {"use": ["wood", "lake"]})
    found = made(gis, a, "--zooms", str(ZOOM), "--keep", "use")
    assert set(found) == {"8/128/80", "8/129/80"}
    first, second = found["8/128/80"]["a"]
    assert (first.number, first.values, second.number, second.values) == (1, {"use": "wood"}, 2, {"use": "lake"})
    assert first.polygons == [[[(110, 120), (130, 120), (130, 150), (110, 150)]]]
    assert second.polygons == [[[(130, 120), (4032, 120), (4160, 120), (4160, 150), (4032, 150), (130, 150)]]]
    (other,) = found["8/129/80"]["a"]
    assert other.number == 2 and other.shape().equals(box(-64, 120, 500, 150))


@pytest.mark.parametrize("zoom", [0, 5, 22])
def test_halves_go_to_the_right_and_down(zoom):
    """From the middle of the square half a unit to each side: a unit of zoom z is HALF / (2048 * 2^z)."""
    half, middle = HALF / (4096 << zoom), 2048 << zoom
    shape = of_polygons([[[(0, 0), (1, 0), (1, 1), (0, 1)]]]).at(np.array([half, -half, half, -half]), np.array([half, half, -half, -half]))
    found = rounded(shape, zoom)
    assert (found.x - middle).tolist() == [1, 0, 1, 0] and (found.y - middle).tolist() == [0, 0, 1, 1]


@pytest.mark.parametrize("buffer", [0, 1, 2047])
def test_a_buffer(gis, tmp_path, buffer):
    a = write(tmp_path / "a.gpkg", [units(-EXTENT, -EXTENT, 2 * EXTENT, 2 * EXTENT)], WEB)
    found = made(gis, a, "--zooms", str(ZOOM), "--buffer", str(buffer))
    (piece,) = found["8/128/80"]["a"]
    assert piece.shape().equals(box(-buffer, -buffer, EXTENT + buffer, EXTENT + buffer))
    assert len(found) == (9 if buffer == 0 else 25)


def test_ids_and_values(gis, tmp_path):
    a = write(tmp_path / "a.gpkg", [None, units(100, 100, 140, 140), units(200, 100, 240, 140)], WEB, {"n": [7, 8, -9], "share": [0.5, 0.25, 0.5], "name": ["x", "\u00e4", "y"]})
    first, second = made(gis, a, "--zooms", str(ZOOM), "--keep", "n,share", "--keep", "a:name")["8/128/80"]["a"]
    assert (first.number, first.values) == (2, {"n": 8, "share": 0.25, "name": "\u00e4"})
    assert (second.number, second.values) == (3, {"n": -9, "share": 0.5, "name": "y"})
    first, second = made(gis, a, "--zooms", str(ZOOM), "--ids", "none")["8/128/80"]["a"]
    assert (first.number, first.values) == (None, {})


def test_features_of_equal_values_are_one(gis, tmp_path):
    """At a whole zoom, and at one below it."""
    shapes = [units(x, 200, x + 40, 240) for x in (200, 240, 280)]
    a = write(tmp_path / "a.gpkg", shapes, WEB, {"use": ["wood", "wood", "lake"], "n": [1, 2, 3]})
    found = made(gis, a, "--zooms", "7-8", "--by", "use")
    wood, lake = found["8/128/80"]["a"]
    assert (wood.number, wood.values, lake.number, lake.values) == (1, {"use": "wood"}, 3, {"use": "lake"})
    assert wood.shape().equals(box(200, 200, 280, 240)) and lake.shape().equals(box(280, 200, 320, 240))
    assert shapes_of(found["7/64/40"]["a"]) == {
        1: [[[(100, 100), (140, 100), (140, 120), (100, 120)]]],
        3: [[[(140, 100), (160, 100), (160, 120), (140, 120)]]],
    }


def test_layers_are_layers_of_the_tiles(gis, tmp_path):
    """They are rounded together: where the side of one crosses that of the other both have a corner."""
    corners = [units(x, y, x + 1, y + 1).exterior.coords[2] for x, y in ((200, 200), (300, 200), (200, 261))]
    a = write(tmp_path / "a.gpkg", [Polygon(corners)], WEB, {"n": [1]})
    b = write(tmp_path / "b.gpkg", [units(220, 201, 240, 260)], WEB, {"rule": ["wet"]})
    found = made(gis, a, b, "--zooms", str(ZOOM), "--keep", "b:rule")["8/128/80"]
    assert list(found) == ["a", "b"]
    assert [piece.values for piece in found["a"] + found["b"]] == [{}, {"rule": "wet"}]
    triangle, square = (set(found[name][0].polygons[0][0]) for name in ("a", "b"))
    # the side from 200 261 to 300 200 meets x = 220 at 248.8, and x = 240 at 236.6
    assert triangle & square == {(220, 249), (240, 237)}


def test_another_system(gis, tmp_path):
    """Degrees are brought to EPSG:3857: 0 0 is the middle of the square."""
    a = write(tmp_path / "a.gpkg", [box(0, -1, 11.25, 0)], "EPSG:4326")
    (piece,) = made(gis, a, "--zooms", "5")["5/16/16"]["a"]
    # a degree of latitude at the equator is 111325.14 m of EPSG:3857, and a unit of zoom 5 305.75 m
    assert piece.shape().bounds == (0, 0, 4096, 364)
    b = write(tmp_path / "b.gpkg", [box(0, 0, 1, 1)], None)
    answer = gis("tiles", b, "-o", "b.mbtiles", "--zooms", "5")
    assert answer.status == 3 and "b.gpkg: names no reference system: name it by --system" in answer.err
    assert gis("tiles", b, "-o", "b.mbtiles", "--zooms", "5", "--system", "EPSG:4326").status == 0


def test_the_whole_square(gis, tmp_path):
    """Of the world all tiles are there, and none beyond."""
    a = write(tmp_path / "a.gpkg", [box(-HALF, -HALF, HALF, HALF)], WEB)
    found = made(gis, a, "--zooms", "0-2")
    assert len(found) == 1 + 4 + 16
    for zoom in range(3):
        for x in range(1 << zoom):
            for y in range(1 << zoom):
                sides = [0 if at == 0 else -64 for at in (x, y)] + [EXTENT if at == (1 << zoom) - 1 else EXTENT + 64 for at in (x, y)]
                (piece,) = found[f"{zoom}/{x}/{y}"]["a"]
                assert piece.shape().equals(box(*sides))


# Small pieces, and simplified borders.


def columns(shapes):
    """Rectangles as shapes on the grid, of one polygon each."""
    return of_polygons([[[(l, t), (r, t), (r, b), (l, b), (l, t)]] for l, t, r, b in shapes])


def each_its_own(count: int) -> Members:
    return Members(np.arange(count + 1), np.arange(count))


def test_a_small_piece_goes_to_the_longest_border():
    """The strip in the middle has a border of 8 with the upper one and of 8 with the lower two, of 5 and
    3: it goes to the upper one. What stands alone is left out."""
    shapes = of_polygons(
        [
            [[(0, 0), (8, 0), (8, 9), (0, 9), (0, 0)]],
            [[(0, 9), (8, 9), (8, 10), (5, 10), (0, 10), (0, 9)]],
            [[(0, 10), (5, 10), (5, 20), (0, 20), (0, 10)]],
            [[(5, 10), (8, 10), (8, 20), (5, 20), (5, 10)]],
            [[(50, 50), (52, 50), (52, 52), (50, 52), (50, 50)]],
        ]
    )
    owners, held = small.without_small(each_its_own(5), shapes, 2 * 9)
    assert owners.places.tolist() == [0, 2, 3]
    assert held.lists()[0] == [[[(0, 0), (8, 0), (8, 9), (8, 10), (5, 10), (0, 10), (0, 9), (0, 0)]]]
    assert len(held.lists()) == 3


def test_small_pieces_join_until_they_are_large():
    """Four rectangles of 2 x 1 in a row: the second takes the first, and then the third, which has an
    equal border with the fourth; and that, whose neighbour is a part of the second by now."""
    owners, held = small.without_small(each_its_own(4), columns([(2 * k, 0, 2 * k + 2, 1) for k in range(4)]), 2 * 4)
    assert owners.places.tolist() == [1] and held.twice_areas() == [2 * 8]


def test_nothing_is_small():
    shapes = columns([(0, 0, 4, 4)])
    assert small.without_small(each_its_own(1), shapes, 2 * 16)[1] is shapes


def corners_left(*shapes):
    """The corners of shapes that are left where borders may move by 4 units; each shape is a list of
    rings."""
    closed = [[[*ring, ring[0]] for ring in shape] for shape in shapes]
    made = simplifying.simplified("zoom 8", of_polygons(closed), 4)
    return [[set(ring) for polygon in polygons for ring in polygon] for polygons in made.lists()]


@pytest.mark.parametrize(
    "points, kept",
    [
        ([(50, 4), (100, -4), (150, 4)], []),
        ([(50, 4), (100, 5), (150, 4)], [(100, 5)]),
        ([(50, 20), (100, 22), (150, 20)], [(50, 20), (100, 22), (150, 20)]),
        ([(50, 20), (100, 23), (150, 20)], [(50, 20), (100, 23), (150, 20)]),
        ([(66, 5), (134, 5)], [(66, 5)]),  # equally far: the one to the left, and then the other is near
    ],
)
def test_both_sides_of_a_border_keep_the_same_points(program, points, kept):
    """Points up to 4 units off the straight line between kept ones are left out, by both sides."""
    above = [(0, -100), (200, -100), (200, 0), *reversed(points), (0, 0)]
    below = [(0, 0), *points, (200, 0), (200, 100), (0, 100)]
    for rings in corners_left([above], [below]):
        assert rings[0] & set(points) == set(kept)


LAND_WITH_BAY = [(0, 0), (200, 0), (200, 50), (120, 50), (120, 47), (80, 47), (80, 50), (0, 50)]
LAND_WITH_SPIT = [(0, 0), (200, 0), (200, 50), (120, 50), (120, 54), (80, 54), (80, 50), (0, 50)]
STRAIGHT = {(0, 0), (0, 50), (200, 0), (200, 50)}


def test_a_border_gets_its_points_back_where_another_shape_would_lie_in_its_own(program):
    """A bay 3 units deep is left out, but not where two islets that touch lie in it."""
    assert corners_left([LAND_WITH_BAY]) == [[STRAIGHT]]
    islets = [[(x, 48), (x + 10, 48), (x + 10, 49), (x, 49)] for x in (90, 100)]
    land, *_ = corners_left([LAND_WITH_BAY], *([islet] for islet in islets))
    assert land == [set(LAND_WITH_BAY)]


def test_a_border_gets_its_points_back_where_a_hole_would_lie_outside(program):
    """A spit of land 4 units wide is left out, but not where it has a pond with two islets that touch."""
    assert corners_left([LAND_WITH_SPIT]) == [[STRAIGHT]]
    pond = [(90, 51), (90, 53), (110, 53), (110, 51)]
    (land, *_) = corners_left([LAND_WITH_SPIT, pond], [[(100, 51), (110, 51), (110, 53), (100, 53)]])
    assert land[0] == set(LAND_WITH_SPIT)


def test_both_sides_get_their_points_back(program):
    """The bay is that of the right one of two shapes. Where it has an end of their border it gets that
    back, too, and so does the left one, which has no fault."""
    border = [(60, 0), (62, 25), (60, 50)]
    left, right = [(0, 0), *border, (0, 50)], [(60, 0), *LAND_WITH_BAY[1:7], *border[:0:-1]]
    assert corners_left([left], [right]) == [[{(0, 0), (0, 50), (60, 0), (60, 50)}], [{(60, 0), (200, 0), (200, 50), (60, 50)}]]
    islets = [[[(x, 48), (x + 10, 48), (x + 10, 49), (x, 49)]] for x in (90, 100)]
    assert corners_left([left], [right], *islets)[:2] == [[set(left)], [set(right)]]


def test_an_islet_goes_with_its_hole(program):
    """A strip 2 units wide within land: neither has it, and nothing is left between them."""
    hole = [(90, 20), (90, 22), (110, 22), (110, 20)]
    assert corners_left([LAND_WITH_BAY, hole], [hole[::-1]]) == [[STRAIGHT], []]


# Files, and how they are made.


@pytest.mark.parametrize("name", FILES)
def test_any_number_of_workers_makes_the_same_bytes(gis, tmp_path, monkeypatch, name):
    monkeypatch.setattr(levels, "SIDE", 2)
    a = write_land(tmp_path)
    found = []
    for workers in (1, 2, 3):
        assert gis("tiles", a, "-o", name, "--overwrite", "--zooms", "5-8", "--workers", str(workers)).status == 0
        found.append(contents(name))
    assert found[0] == found[1] == found[2]


def files_of(gis, *words) -> list[dict[str, bytes]]:
    for name in FILES:
        assert gis("tiles", *words, "-o", name).status == 0
    return [{str(tile): data for tile, data in archives.tiles_in(Path(name))} for name in FILES]


def test_all_files_have_the_same_tiles(gis, tmp_path):
    a = write_land(tmp_path)
    first, second, third = files_of(gis, a, "--zooms", "5-8")
    assert first == second == third and {str(tile): data for tile, data in tiles_of("out.mbtiles")} == first


def test_the_head_of_a_pmtiles_file(gis, tmp_path):
    """As the specification has it, byte for byte; equal tiles are there once."""
    a = write(tmp_path / "a.gpkg", [units(-20 * EXTENT, -20 * EXTENT, 20 * EXTENT, 20 * EXTENT)], WEB)
    assert gis("tiles", a, "-o", "out.pmtiles", "--zooms", "8").status == 0
    data = Path("out.pmtiles").read_bytes()
    assert data[:8] == b"PMTiles\x03"
    root, root_size, text, text_size, leaves, leaves_size, tiles, tiles_size, addressed, entries, different = struct.unpack("<11Q", data[8:96])
    assert (root, root + root_size, text + text_size, leaves + leaves_size, tiles + tiles_size) == (127, text, leaves, tiles, len(data))
    # 41 or 42 tiles a side: inner ones are all alike
    assert addressed == 42 * 42 and entries < addressed and different == 25
    assert list(data[96:102]) == [1, 2, 2, 1, 8, 8]
    west, south, east, north = (value / 1e7 for value in struct.unpack("<4i", data[102:118]))
    assert (west, east) == (-28.125, 28.125) and 0 < south < north
    assert json.loads(gzip.decompress(data[text : text + text_size]))["vector_layers"] == [{"id": "a", "fields": {}, "minzoom": 8, "maxzoom": 8}]


def test_a_folder_has_a_tilejson(gis, tmp_path):
    a = write_land(tmp_path)
    assert gis("tiles", a, "-o", "out", "--zooms", "5-6", "--keep", "number").status == 0
    told = json.loads(Path("out/metadata.json").read_text())
    assert (told["tilejson"], told["tiles"], told["minzoom"], told["maxzoom"]) == ("3.0.0", ["{z}/{x}/{y}.pbf"], 5, 6)
    assert told["vector_layers"] == [{"id": "land", "fields": {"number": "Number"}, "minzoom": 5, "maxzoom": 6}]
    held = gdal.OpenEx("MVT:out/6", gdal.OF_VECTOR, open_options=["METADATA_FILE=out/metadata.json"])
    layer = held.GetLayer(0)
    assert layer.GetName() == "land" and {feature["number"] for feature in layer} == set(range(len(LAND)))


def test_blocks_of_any_size_make_the_same_tiles(gis, tmp_path, monkeypatch):
    """Also where features are large, so that most of their points are left out of a block."""
    a = write_land(tmp_path, shapes=[*LAND, LAND[0].union(LAND[1]).union(LAND[7])])
    found = []
    for side in (1, 2, 8):
        monkeypatch.setattr(levels, "SIDE", side)
        assert gis("tiles", a, "-o", "out.mbtiles", "--overwrite", "--zooms", "6-9", "--full", "8").status == 0
        found.append(Path("out.mbtiles").read_bytes())
    assert found[0] == found[1] == found[2]


def test_a_tile_made_alone_is_the_same(gis, tmp_path):
    """Of the features alone whose boxes reach its frame."""
    a = write_land(tmp_path)
    assert gis("tiles", a, "-o", "all.mbtiles", "--zooms", "9").status == 0
    held = dict(tiles_of("all.mbtiles"))
    for tile in sorted(held)[::9]:
        unit = 2 * HALF / (EXTENT << 9)
        corner = tile.x * EXTENT * unit - HALF, HALF - tile.y * EXTENT * unit
        reach = box(corner[0] - 70 * unit, corner[1] - (EXTENT + 70) * unit, corner[0] + (EXTENT + 70) * unit, corner[1] + 70 * unit)
        near = [shape if box(*shape.bounds).intersects(reach) else None for shape in LAND]
        assert 0 < sum(shape is not None for shape in near) < len(near)
        (tmp_path / "near.gpkg").unlink(missing_ok=True)
        write_land(tmp_path, "near", near)
        out = f"{tile.x}-{tile.y}.mbtiles"
        assert gis("tiles", "near.gpkg", "-o", out, "--zooms", "9", "--only", str(tile)).status == 0
        ((found, data),) = tiles_of(out)
        assert found == tile and gzip.decompress(data).replace(b"near", b"land") == gzip.decompress(held[tile])


# Tiles put into a file that is there.


def changed_land(tmp_path) -> str:
    """The land with a corner of one feature moved, another value, and a feature less."""
    shapes = list(LAND)
    shapes[8] = Polygon([(x + 900, y) if k == 3 else (x, y) for k, (x, y) in enumerate(shapes[8].exterior.coords)])
    shapes[30] = None
    names = ["old"] * len(LAND)
    names[21] = "new"
    return write_land(tmp_path, "now/land", shapes, name=names)


@pytest.mark.parametrize("name", FILES)
def test_tiles_that_differ_are_put_into_the_file(gis, tmp_path, monkeypatch, name):
    """It is then what it is when all of it is made anew; of whole zooms only what differs is made."""
    (tmp_path / "now").mkdir()
    old, new = write_land(tmp_path, name=["old"] * len(LAND)), changed_land(tmp_path)
    words = ["--zooms", "6-9", "--full", "8", "--keep", "number,name"]
    assert gis("tiles", old, "-o", name, *words).status == 0
    (tmp_path / "all").mkdir()
    assert gis("tiles", new, "-o", f"all/{name}", *words).status == 0
    assert contents(name) != [data for data in contents(f"all/{name}").values()]
    answer = gis("tiles", new, "-o", name, *words, "--changed", old)
    assert answer.status == 0 and "3 features differ" in answer.err
    assert list(contents(name).values()) == list(contents(f"all/{name}").values())
    told = {line.split()[2]: int(line.split()[3]) for line in answer.err.splitlines() if " zoom " in line}
    count = sum(tile.zoom == 9 for tile, _ in archives.tiles_in(Path(name)))
    assert 0 < told["9:"] <= count / 2


def test_named_tiles_are_put_into_the_file(gis, tmp_path):
    (tmp_path / "now").mkdir()
    old, new = write_land(tmp_path, name=["old"] * len(LAND)), changed_land(tmp_path)
    words = ["--zooms", "7-9", "--keep", "number,name"]
    assert gis("tiles", old, "-o", "out.mbtiles", *words).status == 0
    assert gis("tiles", new, "-o", "all.mbtiles", *words).status == 0
    before, after = (dict(tiles_of(name)) for name in ("out.mbtiles", "all.mbtiles"))
    first, second = [tile for tile in sorted(before) if before[tile] != after.get(tile)][::4][:2]
    assert gis("tiles", new, "-o", "out.mbtiles", *words, "--only", f"{first},{second}").status == 0
    assert dict(tiles_of("out.mbtiles")) == {**before, first: after[first], second: after[second]}


def test_tiles_of_other_options_are_not_mixed(gis, tmp_path):
    a = write_land(tmp_path)
    assert gis("tiles", a, "-o", "out.mbtiles", "--zooms", "6-7").status == 0
    old = contents("out.mbtiles")
    for words, said in ((["--buffer", "32"], "another buffer, 64, and not 32"), (["--keep", "number"], "another fields, [[]], and not [['number']]"), (["--simplify", "2"], "another simplify, 4.0, and not 2.0")):
        answer = gis("tiles", a, "-o", "out.mbtiles", "--zooms", "6-7", "--only", "6/33/21", *words)
        assert answer.status == 3 and f"out.mbtiles: was made with {said}" in answer.err
    sqlite3.connect("plain.mbtiles").execute("CREATE TABLE metadata (name text, value text)")
    answer = gis("tiles", a, "-o", "plain.mbtiles", "--zooms", "6-7", "--only", "6/33/21")
    assert answer.status == 3 and "plain.mbtiles: doesn't tell by which options it was made" in answer.err
    assert contents("out.mbtiles") == old


@pytest.mark.parametrize("name", FILES[:2])
def test_tiles_are_not_put_into_a_broken_file(gis, tmp_path, name):
    a = write_land(tmp_path)
    words = ["tiles", a, "-o", name, "--zooms", "6-8"]
    assert gis(*words).status == 0
    held = Path(name).read_bytes()
    broken = held[: len(held) // 2] + (bytes(len(held) - len(held) // 2) if name == "out.mbtiles" else b"")
    Path(name).write_bytes(broken)
    answer = gis(*words, "--only", "6/33/21")
    assert answer.status == 1 and answer.err.startswith(f"overlay-gis: {name}: can't be read as tiles: "), answer.err
    assert Path(name).read_bytes() == broken and not list(tmp_path.glob(".*"))


# Refusals.

WORDS = {
    ("--zooms", "7-6"): "argument --zooms: 7-6 is no zoom or range of zooms from 0 to 22, as 6-14",
    ("--zooms", "23"): "argument --zooms: 23 is no zoom",
    ("--zooms", "x"): "argument --zooms: x is no zoom",
    ("--buffer", "2048"): "argument --buffer: 2048 is no whole number from 0 to 2047",
    ("--buffer", "-1"): "argument --buffer: -1 is no whole number",
    ("--simplify", "-1"): "argument --simplify: a size is 0 or above, not -1",
    ("--small", "x"): "argument --small: x is no number",
    ("--full", "23"): "argument --full: 23 is no zoom",
    ("--ids", "some"): "argument --ids: invalid choice: 'some'",
    ("--only", "6/64/0"): "argument --only: 6/64/0 names no tiles as ZOOM/COLUMN/ROW,..",
    ("--only", "6/1"): "argument --only: 6/1 names no tiles",
    ("--tile-limit", "much"): "argument --tile-limit: much is no size of memory",
    ("--workers", "0"): "argument --workers: 0 is no whole number from 1",
}


@pytest.mark.parametrize("words", WORDS, ids=lambda words: " ".join(words))
def test_options_that_are_not_accepted(gis, words):
    answer = gis("tiles", "a.gpkg", "-o", "out.mbtiles", "--zooms", "6", *words)
    assert answer.status == 2 and WORDS[words] in answer.err


REFUSED = {
    "--keep number --by name": "--by a:name: its features have these values alone",
    "--keep c:number": "--keep c:number: there is no layer c",
    "--keep owner": "land.gpkg: has no field owner, but number, name",
    "--only 9/0/0": "--only: names a tile of a zoom that isn't among 6-7",
    "--only 6/33/21 --changed land.gpkg": "--only: names tiles, and --changed finds them",
    "--changed land.gpkg": "out.mbtiles: isn't there: --changed makes",
    "--by name --changed land.gpkg": "--changed: goes by the numbers of features",
    "--tile-limit 900B": "tile 7/67/43: has 3,835 bytes, above --tile-limit, which is 900",
    "--segments 100": "land.gpkg: more than 100 segments",
}


@pytest.mark.parametrize("words", REFUSED)
def test_what_is_refused_by_name(gis, tmp_path, words):
    write_land(tmp_path, name=["x"] * len(LAND))
    answer = gis("tiles", "land.gpkg", "-o", "out.mbtiles", "--zooms", "6-7", *words.split())
    assert answer.status == 3 and answer.err.splitlines()[-1].startswith(f"overlay-gis: {REFUSED[words]}"), answer.err
    assert not Path("out.mbtiles").exists() and not list(tmp_path.glob(".*"))


def test_a_tile_limit_that_is_none(gis, tmp_path):
    a = write_land(tmp_path)
    for size in ("none", "1MB"):
        assert gis("tiles", a, "-o", "out.mbtiles", "--overwrite", "--zooms", "6", "--tile-limit", size).status == 0


@pytest.mark.parametrize(
    "shape, srs",
    [
        (box(0, 80, 10, 86), "EPSG:4326"),
        (box(0, -90, 10, 0), "EPSG:4326"),
        (box(170, 0, 181, 10), "EPSG:4326"),
        (box(170, 0, 180, 10).union(box(-190, 0, -185, 1)), "EPSG:4326"),
        (box(0, 0, HALF + 1, 10), WEB),
        (box(0, -HALF - 1, 1, 0), WEB),
    ],
)
def test_what_lies_beyond_web_mercator(gis, tmp_path, shape, srs):
    write(tmp_path / "a.gpkg", [box(0, 0, 1, 1), shape], srs)
    answer = gis("tiles", "a.gpkg", "-o", "out.mbtiles", "--zooms", "3")
    assert answer.status == 3, answer.err
    assert answer.err == "overlay-gis: a.gpkg: feature 2 lies beyond web mercator's square, which reaches from 180 degrees W to E and from 85.0511 S to N: cut it\n"


def test_what_goes_over_the_180th_meridian(gis, tmp_path):
    """In a system whose coordinates go on there: PROJ has the points on the other side of the square."""
    write(tmp_path / "a.gpkg", [box(600_000, 8_000_000, 700_000, 8_100_000), box(800_000, 8_000_000, 900_000, 8_100_000)], "EPSG:32760")
    answer = gis("tiles", "a.gpkg", "-o", "out.mbtiles", "--zooms", "3")
    assert answer.status == 3 and answer.err.startswith("overlay-gis: a.gpkg: feature 2 goes over the 180th meridian"), answer.err
    write(tmp_path / "b.gpkg", [box(-180, -10, 180, 10)], "EPSG:4326")
    assert len(made(gis, "b.gpkg", "--zooms", "3")) == 8 * 2


def test_outputs_that_are_refused(gis, tmp_path):
    a = write_land(tmp_path)
    (tmp_path / "home").mkdir()
    (tmp_path / "home" / "letter.txt").write_text("dear")
    (tmp_path / "b").mkdir()
    write_land(tmp_path, "b/land")
    for out, words, said in (
        ("out.gpkg", [], "out.gpkg: tiles go to a file whose name ends in .mbtiles or .pmtiles, or to a folder without an ending"),
        ("home", ["--overwrite"], "home: is there, and is no folder that has tiles alone"),
        ("land.gpkg", ["--overwrite"], "land.gpkg: is an input"),
        ("out.mbtiles", ["b/land.gpkg"], "would be layers of one name"),
    ):
        answer = gis("tiles", a, *words, "-o", out, "--zooms", "6")
        assert answer.status == 3 and said in answer.err, answer.err
    assert (tmp_path / "home" / "letter.txt").read_text() == "dear"
    assert gis("tiles", a, "-o", "out", "--zooms", "6").status == 0
    assert "out: is there already; --overwrite replaces it" in gis("tiles", a, "-o", "out", "--zooms", "6").err
    assert gis("tiles", a, "-o", "out", "--zooms", "5", "--overwrite").status == 0
    assert [path.name for path in Path("out").iterdir() if path.is_dir()] == ["5"]


# What is heard, and stops.


def test_another_program_hears_how_far_it_is_and_may_end_it(tmp_path, program):
    a, out, works = write_land(tmp_path), tmp_path / "out.mbtiles", {}

    def progress(work, share):
        works[work] = share
        return work != "cutting tiles" or share == 0

    with pytest.raises(Cancelled):
        call(["tiles", a, "-o", str(out), "--zooms", "7-9"], progress=progress)
    assert set(works) >= {"simplifying zoom 8", "simplifying zoom 7", "cutting tiles"}
    assert [path.name for path in tmp_path.iterdir()] == ["land.gpkg"]



@pytest.mark.parametrize("number", [signal.SIGKILL, signal.SIGTERM], ids=lambda number: number.name)
@pytest.mark.parametrize("place", [(archives, "write", True), (archives, "write", False), (whole, "go_on", True)], ids=["cut", "written", "on-disk"])
@pytest.mark.parametrize("name", FILES)
def test_a_run_that_is_stopped_leaves_what_was_there(stopped, tmp_path, name, place, number):  # noqa: F811
    a = write_land(tmp_path, shapes=LAND[:4])
    words = ["tiles", a, "-o", name, "--zooms", "5"]
    answer = stopped(place, number, *words)
    assert not list(tmp_path.glob("out*")), answer.err
    (tmp_path / "out").mkdir()
    Path("out/metadata.json").write_text("{}")
    for held in FILES[:2]:
        Path(held).write_bytes(b"old")
    old = contents(name)
    answer = stopped(place, number, *words, "--overwrite")
    assert contents(name) == old and answer.status == (-signal.SIGKILL if number == signal.SIGKILL else 1)
    if number == signal.SIGTERM:
        assert answer.err.splitlines()[-1] == "overlay-gis: stopped by SIGTERM: no output was written or changed"
        assert not list(tmp_path.glob(".*"))


@pytest.mark.parametrize("workers", ["1", "2"])
def test_a_program_that_fails_leaves_what_was_there(gis, tmp_path, pretend, workers):
    a = write_land(tmp_path)
    Path("out.mbtiles").write_bytes(b"old")
    pretend("echo 'overlay: 10 too large' >&2; exit 1")
    answer = gis("tiles", a, "-o", "out.mbtiles", "--overwrite", "--zooms", "8", "--simplify", "0", "--small", "0", "--workers", workers)
    assert answer.status == 1 and "zoom 8: overlay says" in answer.err or "overlay: overlay says" in answer.err
    assert contents("out.mbtiles") == {"out.mbtiles": b"old"} and not list(tmp_path.glob(".*"))


@pytest.mark.parametrize("way", ["worker", "command"])
def test_a_worker_that_is_killed_and_a_command_that_is(tmp_path, program, way):
    """Where a worker is lost the command says so; where the command is, no worker goes on for long."""
    a = write_land(tmp_path)
    begun = tmp_path / "begun"
    begun.mkdir()
    slow = tmp_path / "slow"
    slow.write_text(f'#!/bin/sh\ntouch "{begun}/$PPID"\nsleep 2\nexec "{program}" "$@"\n')
    slow.chmod(0o755)
    words = [sys.executable, COMMAND, "tiles", a, "-o", "out.mbtiles", "--zooms", "11", "--workers", "2", "--simplify", "0", "--small", "0"]
    command = subprocess.Popen(words, cwd=tmp_path, env={**os.environ, "OVERLAY": str(slow)}, stderr=subprocess.PIPE, text=True)
    try:
        while len(numbers_in(begun)) < 2:
            assert command.poll() is None
            time.sleep(0.01)
        first, second = numbers_in(begun)
        if way == "worker":
            os.kill(first, signal.SIGKILL)
            said = command.communicate(timeout=300)[1]
            assert command.returncode == 1 and "a worker: ended before its time" in said
        else:
            command.send_signal(signal.SIGTERM)
            said = command.communicate(timeout=300)[1]
            assert command.returncode == 1 and said.endswith("stopped by SIGTERM: no output was written or changed\n")
        for number in (first, second):
            for _ in range(300):
                if not running(number):
                    break
                time.sleep(0.1)
            assert not running(number)
    finally:
        command.kill()
    assert not list(tmp_path.glob("out*")) and not list(tmp_path.glob(".*"))


def test_borders_are_whole_where_shapes_would_still_overlap(program, monkeypatch):
    """Here after a first look, at which no border has got a point back."""
    monkeypatch.setattr(simplifying, "TRIES", 1)
    islets = [[(x, 48), (x + 10, 48), (x + 10, 49), (x, 49)] for x in (90, 100)]
    wavy = [(300, 0), (400, 1), (500, 0), (500, 50), (300, 50)]
    assert corners_left([LAND_WITH_BAY], *([ring] for ring in (*islets, wavy)))[3] == [set(wavy)]
    assert corners_left([wavy]) == [[set(wavy) - {(400, 1)}]]


def test_a_layer_without_features(gis, tmp_path):
    a = write(tmp_path / "a.gpkg", [], WEB)
    for name in FILES:
        assert gis("tiles", a, "-o", name, "--zooms", "6-7").status == 0
        assert list(archives.tiles_in(Path(name))) == []


def test_rings_that_are_open_or_too_short_are_told(gis, tmp_path):
    rings = ["(0 0, 9000 0, 9000 9000, 0 9000)", "(0 0, 9000 0, 0 0)"]
    a = write(tmp_path / "a.gpkg", [ogr.CreateGeometryFromWkt(f"POLYGON ({ring})") for ring in rings], WEB)
    answer = gis("tiles", a, "-o", "out.mbtiles", "--zooms", "9")
    assert answer.status == 0 and "rings were open, and closed: feature 1" in answer.err
    assert "rings of less than four points were left out: feature 2" in answer.err and "1 of 2 features vanished" in answer.err


def test_a_great_layer_at_a_great_zoom(gis, tmp_path):
    """Whole zooms are cut block by block, so a town has room at zoom 22; a simplified one needs room for
    all of it together."""
    a = write(tmp_path / "a.gpkg", [units(0, 0, 30, 30), units(EXTENT * 100, 0, EXTENT * 100 + 30, 30)], WEB)
    words = [a, "-o", "out.mbtiles", "--overwrite", "--zooms", "21-22", "--only", "22/2097152/1310720"]
    assert gis("tiles", *words, "--simplify", "0", "--small", "0").status == 0
    ((_, data),) = tiles_of("out.mbtiles")
    ((piece,),) = decoded(data).values()
    assert piece.number == 1 and piece.shape().equals(box(0, 0, EXTENT + 64, EXTENT + 64))
    Path("out.mbtiles").unlink()
    answer = gis("tiles", *words[:-2], "--only", "21/1048576/655360")
    assert answer.status == 3 and "zoom 21: a feature reaches beyond the limits of its grid" in answer.err


PAGE = (TOP / "docs" / "TILES.md").read_text()


def test_the_page_has_what_its_example_says(gis, tmp_path):
    """But for the bytes, which another PROJ or zlib may make others."""
    (tmp_path / "samples").symlink_to(TOP / "samples")
    block = PAGE.partition("## An example\n")[2].partition("\n## ")[0].replace("\\\n", " ")
    (command,) = re.findall(r"^    overlay-gis (.*)$", block, re.M)
    answer = gis(*command.split())
    assert answer.status == 0
    said, told = (re.findall(r"zoom \d+: .* vanished", text) for text in (answer.err, block))
    assert said == told and len(told) == 7


def test_the_page_has_all_options():
    parser = ArgumentParser()
    add_arguments(parser)
    words = {word for action in parser._actions for word in action.option_strings} - {"-h", "--help", "--out"}
    assert words == set(re.findall(r"(?<=[`\s])--?[a-z-]+", PAGE.partition("## Options\n\n")[2].partition("\n\n")[0]))
