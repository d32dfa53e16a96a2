"""The recipe by GDAL's tools alone."""

import os
import re
import subprocess
from pathlib import Path

import pytest
from osgeo import gdal, ogr
from shapely.geometry import box
from shapely.ops import unary_union

from conftest import EAST, NORTH, blobs, parcels, read, system, write

TOP = Path(__file__).resolve().parents[2]
PLACE = {"GRID": "0.001", "X": str(EAST), "Y": str(NORTH)}
SQUARE = box(EAST, NORTH, EAST + 4, NORTH + 4)


def by_ogr2ogr(*words, **place):
    """The recipe on these words, with its status and what it said."""
    command = [TOP / "gis/by-ogr2ogr", *words]
    return subprocess.run(command, env={**os.environ, **PLACE, **place}, capture_output=True, text=True, check=False)


@pytest.mark.parametrize("operation, judge", [("intersection", "intersection"), ("difference", "difference")])
def test_the_recipe_by_ogr2ogr(tmp_path, operation, judge):
    first, second = parcels(91, 3), blobs(92, 3)
    a, b, out = write(tmp_path / "a.gpkg", first), write(tmp_path / "b.shp", second), tmp_path / "out.gpkg"
    assert by_ogr2ogr(operation, a, b, out).returncode == 0
    wanted, result = getattr(unary_union(first), judge)(unary_union(second)), read(out)
    assert all(shape.is_valid for shape, _ in result)
    assert abs(sum(shape.area for shape, _ in result) - wanted.area) <= 0.00071 * sum(
        shape.length for shape in first + second
    )


def test_the_recipe_stops_where_a_file_cannot_be_read(tmp_path):
    b = write(tmp_path / "b.gpkg", [box(EAST, NORTH, EAST + 2, NORTH + 2)])
    done = by_ogr2ogr("union", tmp_path / "none.gpkg", b, tmp_path / "out.gpkg")
    assert done.returncode != 0 and not (tmp_path / "out.gpkg").exists()


@pytest.mark.parametrize("ending", ["gpkg", "geojson", "shp"])
def test_an_empty_result_is_an_empty_layer(tmp_path, ending):
    a = write(tmp_path / "a.gpkg", [SQUARE])
    b, out = write(tmp_path / "b.gpkg", [box(EAST + 9, NORTH, EAST + 11, NORTH + 2)]), tmp_path / f"out.{ending}"
    done = by_ogr2ogr("intersection", a, b, out)
    assert (done.returncode, done.stderr) == (0, "")
    held = gdal.OpenEx(str(out))
    layer = held.GetLayer(0)
    assert layer.GetFeatureCount() == 0 and layer.GetSpatialRef().GetAuthorityCode(None) == "25832"
    assert layer.GetGeomType() in (ogr.wkbPolygon, ogr.wkbUnknown)


def test_the_result_has_the_system_of_the_layer_that_was_read(tmp_path):
    a, out = write(tmp_path / "a.gpkg", [SQUARE]), tmp_path / "out.gpkg"
    held = gdal.OpenEx(a, gdal.OF_VECTOR | gdal.OF_UPDATE)
    held.CreateLayer("later", system("EPSG:4326"))
    del held
    assert by_ogr2ogr("union", a, write(tmp_path / "b.gpkg", [SQUARE]), out).returncode == 0
    held = gdal.OpenEx(str(out))
    assert held.GetLayer(0).GetSpatialRef().GetAuthorityCode(None) == "25832"


def at_home(wkt):
    """A geometry of WKT, in which `x y` and `r t` are the corners of a square."""
    places = {"x": EAST, "y": NORTH, "r": EAST + 4, "t": NORTH + 4}
    return ogr.CreateGeometryFromWkt(re.sub(r"\b[xyrt]\b", lambda found: str(places[found[0]]), wkt))


@pytest.mark.parametrize(
    "wkt",
    [
        "POLYGON Z ((x y 5,r y 5,r t 7,x t 5,x y 5))",
        "POLYGON M ((x y 5,r y 5,r t 7,x t 5,x y 5))",
        "MULTIPOLYGON ZM (((x y 5 6,r y 5 6,r t 7 6,x t 5 6,x y 5 6)))",
        "CURVEPOLYGON (COMPOUNDCURVE (CIRCULARSTRING (x y,r y,r t),(r t,x t,x y)))",
        "MULTISURFACE Z (CURVEPOLYGON Z (CIRCULARSTRING Z (x y 1,r t 1,x y 1)))",
    ],
)
def test_the_recipe_takes_what_run_takes(gis, tmp_path, wkt):
    a = write(tmp_path / "a.gpkg", [None, at_home(wkt), ogr.Geometry(ogr.wkbPolygon)])
    b = write(tmp_path / "b.gpkg", [None, box(EAST + 2, NORTH - 9, EAST + 9, NORTH + 9)])
    done = by_ogr2ogr("union", a, b, tmp_path / "out.gpkg")
    assert done.returncode == 0, done.stderr
    assert gis("run", "union", a, b, "-o", "run.gpkg", "--grid", "0.001", "--origin", f"{EAST},{NORTH}").status == 0
    ((found, _),), ((wanted, _),) = read("out.gpkg"), read("run.gpkg")
    assert found.equals(wanted)


@pytest.mark.parametrize(
    "wkt, words",
    [
        ("POINT (x y)", "by-ogr2ogr: {}: a feature is no polygon but a POINT"),
        ("POLYGON ((x y,r y,r t))", "overlay: {} on the grid: 4 open ring at "),
    ],
)
def test_a_refusal_names_the_file_and_the_reason(tmp_path, wkt, words):
    a, b = write(tmp_path / "a.gpkg", [SQUARE]), write(tmp_path / "b.gpkg", [SQUARE, at_home(wkt)])
    for files in ((a, b), (b, a)):
        done = by_ogr2ogr("union", *files, tmp_path / "out.gpkg")
        assert done.returncode == 3 and done.stderr.splitlines()[-1].startswith(words.format(b))
    assert not (tmp_path / "out.gpkg").exists()


@pytest.mark.parametrize("unit", ["0", "-1", "fine"])
def test_a_unit_that_is_none(tmp_path, unit):
    a = write(tmp_path / "a.gpkg", [SQUARE])
    done = by_ogr2ogr("union", a, a, tmp_path / "out.gpkg", GRID=unit)
    assert (done.returncode, done.stderr) == (2, f"by-ogr2ogr: GRID is a number above 0, not {unit}\n")


def test_features_smaller_than_the_unit_are_left_out(tmp_path):
    a, out = write(tmp_path / "a.gpkg", [SQUARE, box(EAST + 1000, NORTH, EAST + 2000, NORTH + 1000)]), tmp_path / "out.gpkg"
    assert by_ogr2ogr("union", a, a, out, GRID="1000").returncode == 0
    assert [shape.area for shape, _ in read(out)] == [1_000_000]
