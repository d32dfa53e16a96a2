"""--polygons-only, and layers in archives."""

import json
import zipfile

import pytest
from shapely.geometry import GeometryCollection, LineString, MultiPoint, Point, box, mapping

from conftest import EAST, NORTH, read

SYSTEM = {"type": "name", "properties": {"name": "urn:ogc:def:crs:EPSG::25832"}}


def square(x, side=2):
    return box(EAST + x, NORTH, EAST + x + side, NORTH + side)


def layer(path, shapes):
    """A file of GeoJSON, which holds geometries of any kind."""
    features = [{"type": "Feature", "properties": {"name": f"f{k}"}, "geometry": mapping(shape)} for k, shape in enumerate(shapes, 1)]
    path.write_text(json.dumps({"type": "FeatureCollection", "crs": SYSTEM, "features": features}))
    return path


MIXED = [
    square(0),
    Point(EAST, NORTH),
    GeometryCollection([square(10), LineString([(EAST, NORTH), (EAST + 1, NORTH)]), GeometryCollection([square(20)])]),
    GeometryCollection([Point(EAST, NORTH)]),
    MultiPoint([(EAST, NORTH), (EAST + 1, NORTH)]),
]


@pytest.mark.parametrize("words", [("run", "union"), ("faces",), ("dissolve",)], ids=lambda words: words[0])
def test_what_is_no_polygon_is_left_out_by_number(gis, tmp_path, words):
    a, b = layer(tmp_path / "a.geojson", MIXED), layer(tmp_path / "b.geojson", [square(0)])
    layers = [a] if words == ("dissolve",) else [a, b]
    refused = gis(*words, *layers, "-o", "out.gpkg")
    assert refused.status == 3 and "--polygons-only leaves them out" in refused.err
    answer = gis(*words, *layers, "-o", "out.gpkg", "--polygons-only")
    assert answer.status == 0, answer.err
    assert f"{a}: warning: no polygon, left out: features 1, 3, 4" in answer.err
    assert f"{a}: warning: a collection, of which the polygons are taken: feature 2" in answer.err
    assert sum(shape.area for shape, _ in read("out.gpkg")) == 12


def test_features_keep_their_numbers_and_fields(gis, tmp_path):
    a = layer(tmp_path / "a.geojson", MIXED)
    assert gis("faces", a, "-o", "out.gpkg", "--keep-a", "name", "--polygons-only").status == 0
    assert sorted((fields["a"], fields["a_name"], fields["area"]) for _, fields in read("out.gpkg")) == [("0", "f1", 4.0), ("2", "f3", 8.0)]


def test_strips_take_polygons_alone_as_ever(gis, tmp_path):
    a = layer(tmp_path / "a.geojson", MIXED)
    answer = gis("run", "union", a, a, "-o", "out.gpkg", "--parity", "--engine", "dask", "--polygons-only")
    assert answer.status == 3 and "--polygons-only: isn't there for --engine dask" in answer.err


def test_an_archive_is_a_source(gis, tmp_path):
    held = layer(tmp_path / "lots.geojson", [square(0), square(5, 3)])
    with zipfile.ZipFile(tmp_path / "lots.zip", "w") as archive:
        archive.write(held, "lots.geojson")
    held.unlink()
    assert gis("dissolve", "lots.zip", "-o", "out.gpkg").status == 0
    assert sum(shape.area for shape, _ in read("out.gpkg")) == 13
    refused = gis("dissolve", "lots.zip", "-o", "lots.zip", "--overwrite")
    assert refused.status == 3 and "is an input" in refused.err
