"""All tiles of a map of municipalities, and of a raw map whose borders cross: read by a strict reader
and by GDAL, and judged by Shapely."""

from __future__ import annotations

import gzip
import math
import random
import sqlite3
from itertools import chain, combinations
from pathlib import Path

import pytest
from osgeo import gdal
from shapely.affinity import affine_transform, translate
from shapely.geometry import LineString, Polygon, box
from shapely.ops import polygonize, unary_union

from conftest import write
from overlay_gis.tiles.world import EXTENT, HALF, Tile
from test_tiles_reading import decoded

WEB = "EPSG:3857"
WEST, SOUTH, SIZE = 900_000.0, 6_300_000.0, 300_000.0

Place = tuple[float, float]


class Lattice:
    """A map of SIZE metres: cells of a shaken lattice, between which each border is a line of 2^levels
    segments, of which the middle of each half lies off by up to so much of its length."""

    def __init__(self, seed: int, side: int, levels: int, rough: float):
        self.rng, self.side, self.levels, self.rough = random.Random(seed), side, levels, rough
        self.lines: dict[tuple, list[Place]] = {}
        step = SIZE / side
        self.corners = {(i, j): self.place(WEST + step * (i + self.off(0.28)), SOUTH + step * (j + self.off(0.28))) for i in range(side + 1) for j in range(side + 1)}

    def off(self, by: float) -> float:
        return self.rng.uniform(-by, by)

    @staticmethod
    def place(x: float, y: float) -> Place:
        return round(x, 3), round(y, 3)

    def bent(self, a: Place, b: Place, levels: int) -> list[Place]:
        """The points from a on, without b."""
        if not levels:
            return [a]
        by = self.off(self.rough)
        middle = self.place((a[0] + b[0]) / 2 - (b[1] - a[1]) * by, (a[1] + b[1]) / 2 + (b[0] - a[0]) * by)
        return self.bent(a, middle, levels - 1) + self.bent(middle, b, levels - 1)

    def border(self, u: tuple, v: tuple) -> list[Place]:
        key = min(u, v), max(u, v)
        if key not in self.lines:
            a, b = (self.corners[end] for end in key)
            self.lines[key] = self.bent(a, b, self.levels) + [b]
        return self.lines[key][:-1] if key[0] == u else self.lines[key][:0:-1]

    def cells(self) -> list[Polygon]:
        found = []
        for j in range(self.side):
            for i in range(self.side):
                ways = [(i, j), (i + 1, j), (i + 1, j + 1), (i, j + 1), (i, j)]
                found.append(Polygon([point for ways in zip(ways, ways[1:]) for point in self.border(*ways)]))
        return found


LAND = Lattice(5, 6, 4, 0.09).cells()
RAW = Lattice(7, 5, 3, 0.7).cells()
MAPS = {"land": LAND, "raw": RAW}
ZOOMS = (5, 8)


@pytest.fixture(scope="module")
def made(tmp_path_factory, program):
    """The tiles of both maps, simplified but for the greatest zoom, and with all that zooms have room
    for: their pieces by maps, whether they are whole, and tiles; and their files."""
    from overlay_gis import cli

    folder = tmp_path_factory.mktemp("tiles")
    found, files = {}, {}
    for name, shapes in MAPS.items():
        source = write(folder / f"{name}.gpkg", shapes, WEB, {"number": list(range(len(shapes))), "name": [f"place {k}" for k in range(len(shapes))]})
        for whole in (False, True):
            out = str(folder / f"{name}-{whole}.mbtiles")
            words = ["--simplify", "0", "--small", "0"] if whole else []
            assert cli.main(["tiles", source, "-o", out, "--zooms", "{}-{}".format(*ZOOMS), "--keep", "number,name", *words]) == 0
            files[name, whole] = out
            found[name, whole] = {tile: decoded(data)[name] for tile, data in tiles_of(out)}
    return found, files


def tiles_of(path: str | Path) -> list[tuple[Tile, bytes]]:
    """The tiles of an MBTiles file, whose rows are counted from the bottom."""
    rows = sqlite3.connect(path).execute("SELECT zoom_level, tile_column, tile_row, tile_data FROM tiles")
    return [(Tile(zoom, x, (1 << zoom) - 1 - y), data) for zoom, x, y, data in rows]


ALL = [(name, whole) for name in MAPS for whole in (False, True)]


def unit(zoom: int) -> float:
    return 2 * HALF / (EXTENT << zoom)


def on_grid(shape, tile: Tile):
    """A shape of EPSG:3857 in units from the corner of a tile."""
    by = unit(tile.zoom)
    return affine_transform(shape, [1 / by, 0, 0, -1 / by, HALF / by - tile.x * EXTENT, HALF / by - tile.y * EXTENT])


def frame(buffer: int = 64):
    return box(-buffer, -buffer, EXTENT + buffer, EXTENT + buffer)


def by_parity(polygon: Polygon):
    """What a polygon covers that may cross itself."""
    faces = polygonize(unary_union(LineString(polygon.exterior.coords)))
    return unary_union([face for face in faces if winding(polygon.exterior.coords, face.representative_point())])


def winding(ring, point) -> bool:
    """Whether a ring has a point inside, by parity."""
    x, y = point.x, point.y
    return sum((a[1] > y) != (b[1] > y) and x < a[0] + (y - a[1]) / (b[1] - a[1]) * (b[0] - a[0]) for a, b in zip(ring, ring[1:])) % 2 == 1


@pytest.mark.parametrize("which", ALL, ids=lambda which: f"{which[0]}-{which[1]}")
def test_every_polygon_is_valid(made, which):
    """The reader refuses wrong winding, and rings without an area or with a point twice; so what is
    left are rings that cross, and holes outside of their shells."""
    tiles = made[0][which]
    assert {tile.zoom for tile in tiles} == set(range(ZOOMS[0], ZOOMS[1] + 1))
    for pieces in tiles.values():
        assert all(piece.shape().is_valid for piece in pieces)


@pytest.mark.parametrize("which", ALL, ids=lambda which: f"{which[0]}-{which[1]}")
def test_both_tiles_at_a_border_have_the_same_points_of_each_feature(made, which):
    tiles = made[0][which]
    common = 0
    for tile, pieces in tiles.items():
        for x, y in ((1, 0), (0, 1), (1, 1), (-1, 1)):
            other = Tile(tile.zoom, tile.x + x, tile.y + y)
            one = {piece.number: piece.shape() for piece in pieces}
            two = {piece.number: piece.shape() for piece in tiles.get(other, ())}
            strip = frame().intersection(box(-64 + x * EXTENT, -64 + y * EXTENT, EXTENT + 64 + x * EXTENT, EXTENT + 64 + y * EXTENT))
            for number in one.keys() | two.keys():
                here = one.get(number, Polygon()).intersection(strip)
                there = translate(two.get(number, Polygon()), x * EXTENT, y * EXTENT).intersection(strip)
                assert here.symmetric_difference(there).area == 0
                common += here.area > 0
    assert common


@pytest.mark.parametrize("whole", [False, True])
def test_neighbours_have_neither_gaps_nor_overlaps(made, whole):
    """The municipalities fill a square without a hole: so does what a tile shows of them, and their
    areas add up to that of all of them together."""
    for pieces in made[0]["land", whole].values():
        shapes = [piece.shape() for piece in pieces]
        together = unary_union(shapes)
        assert together.area == sum(shape.area for shape in shapes)
        assert not any(part.interiors for part in getattr(together, "geoms", [together]))
        assert all(one.intersection(other).area == 0 for one, other in combinations(shapes, 2))


@pytest.mark.parametrize("name", MAPS)
def test_each_feature_has_its_own_points(made, name):
    """In whole zooms a point that is farther than 1.5 units from a feature's border lies in the piece
    just where it lies in the feature, by parity; so overlaps are there, too."""
    sources = [by_parity(shape) for shape in MAPS[name]]
    for tile, pieces in made[0][name, True].items():
        found = {piece.values["number"]: piece.shape() for piece in pieces}
        for number, source in enumerate(sources):
            inside = on_grid(source, tile).intersection(frame())
            wrong = found.get(number, Polygon()).symmetric_difference(inside)
            assert wrong.difference(on_grid(MAPS[name][number].exterior, tile).buffer(1.5)).area < 1e-3


def test_simplified_borders_stay_near_their_own(made):
    """A border that is simplified at each of several zooms moves by less than twice the tolerance and
    some units: the half of it at the zoom before, and so on."""
    for tile, pieces in made[0]["land", False].items():
        found = {piece.values["number"]: piece.shape() for piece in pieces}
        for number, source in enumerate(LAND):
            inside = on_grid(source, tile).intersection(frame())
            wrong = found.get(number, Polygon()).symmetric_difference(inside)
            assert wrong.difference(on_grid(source.exterior, tile).buffer(2 * 4 + 4)).area < 1e-3


def test_simplified_zooms_have_fewer_points(made):
    counts = [sum(len(ring) for pieces in made[0]["land", whole].values() for piece in pieces for ring in chain.from_iterable(piece.polygons)) for whole in (False, True)]
    least = [sum(len(ring) for tile, pieces in made[0]["land", whole].items() if tile.zoom == 5 for piece in pieces for ring in chain.from_iterable(piece.polygons)) for whole in (False, True)]
    assert counts[0] < counts[1] and least[0] < least[1] / 2


@pytest.mark.parametrize("which", ALL, ids=lambda which: f"{which[0]}-{which[1]}")
def test_gdal_reads_the_same_points_and_values(made, which, tmp_path):
    """By its driver for tiles, which brings the points to EPSG:3857."""
    points = 0
    for tile, data in tiles_of(made[1][which]):
        pieces = decoded(data)[which[0]]
        path = tmp_path / "tile.pbf"
        path.write_bytes(gzip.decompress(data))
        held = gdal.OpenEx(f"MVT:{path}", open_options=[f"X={tile.x}", f"Y={tile.y}", f"Z={tile.zoom}", "CLIP=NO"])
        features = list(held.GetLayerByName(which[0]))
        assert len(features) == len(pieces)
        for feature, piece in zip(features, pieces):
            rings = rings_of(feature.GetGeometryRef(), tile)
            assert sorted(rings) == sorted(sorted(ring) for ring in chain.from_iterable(piece.polygons))
            assert {key: feature[key] for key in piece.values} == piece.values
            points += sum(map(len, rings))
    assert points > 1000


def rings_of(shape, tile: Tile) -> list[list[tuple[int, int]]]:
    """The points of all rings in units of a tile, in order."""
    if shape.GetGeometryName() == "LINEARRING":
        places = [(round((x + HALF) / unit(tile.zoom)) - tile.x * EXTENT, round((HALF - y) / unit(tile.zoom)) - tile.y * EXTENT) for x, y, *_ in shape.GetPoints()]
        return [sorted(places[:-1])]
    return [ring for k in range(shape.GetGeometryCount()) for ring in rings_of(shape.GetGeometryRef(k), tile)]


def test_gdal_opens_the_file_by_its_metadata(made):
    held = gdal.OpenEx(made[1]["land", False], gdal.OF_VECTOR)
    layer = held.GetLayer(0)
    assert layer.GetName() == "land" and held.GetMetadataItem("maxzoom") == str(ZOOMS[1])
    assert {layer.GetLayerDefn().GetFieldDefn(k).GetName() for k in range(layer.GetLayerDefn().GetFieldCount())} >= {"number", "name"}
    west, south, east, north = map(float, held.GetMetadataItem("bounds").split(","))
    assert math.isclose(west, min(shape.bounds[0] for shape in LAND) / HALF * 180, abs_tol=1e-6) and south < north and west < east
    assert {feature["number"] for feature in layer} == set(range(len(LAND)))
