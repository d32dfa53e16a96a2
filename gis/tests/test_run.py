"""run: Shapely judges the areas, and the bytes don't depend on the format."""

import random
import re
import resource
import subprocess
import sys
from math import hypot

import pytest
from osgeo import gdal, ogr
from shapely.affinity import translate
from shapely.geometry import Point, Polygon, box
from shapely.ops import unary_union

from conftest import COMMAND, EAST, NORTH, blobs, parcels, read, write

JUDGE = {
    "union": "union",
    "intersection": "intersection",
    "difference": "difference",
    "symdifference": "symmetric_difference",
}


def perimeter(shapes):
    return sum(shape.length for shape in shapes)


def judged(gis, tmp_path, operation, first, second, unit, reach):
    """Runs an operation, and has Shapely compare the area and the validity; `reach` is how far a
    border may move, in units."""
    a, b, out = write(tmp_path / "a.gpkg", first), write(tmp_path / "b.gpkg", second), tmp_path / "out.gpkg"
    answer = gis("run", operation, a, b, "-o", out, "--grid", unit)
    assert answer.status == 0, answer.err
    result = read(out)
    wanted = getattr(unary_union(first), JUDGE[operation])(unary_union(second)).area
    area = sum(shape.area for shape, _ in result)
    assert abs(area - wanted) <= reach * float(unit) * (perimeter(first) + perimeter(second))
    assert all(shape.is_valid for shape, _ in result)
    assert sum(fields["area"] for _, fields in result) == pytest.approx(area, rel=1e-6)
    return result, answer


@pytest.mark.parametrize("operation", JUDGE)
@pytest.mark.parametrize("digits, unit", [(2, "0.01"), (3, "0.001"), (2, "0.001")])
def test_areas_on_the_grid(gis, tmp_path, operation, digits, unit):
    _, answer = judged(gis, tmp_path, operation, parcels(11, digits), blobs(12, digits), unit, 0.71)
    assert "warning" not in answer.err


@pytest.mark.parametrize("operation", JUDGE)
@pytest.mark.parametrize("unit", ["1", "0.25", "0.0001"])
def test_areas_off_the_grid(gis, tmp_path, operation, unit):
    judged(gis, tmp_path, operation, parcels(21, 7), blobs(22, 7), unit, 1.42)


def test_what_rounding_means_is_told(gis, tmp_path):
    shape = [box(EAST + 15, NORTH + 0.5, EAST + 99, NORTH + 70)]
    _, answer = judged(gis, tmp_path, "union", shape, shape, "0.01", 0.71)
    told = "grid 0.01 m, origin 412010, 5654000: a corner moves by at most 0.0071 m (0.71 grid units), a border between two corners by at most 0.0142"
    assert told in answer.err


@pytest.mark.parametrize("digits, unit", [(3, "0.001"), (7, "0.01"), (7, "0.5")])
def test_what_moved_is_told(gis, tmp_path, digits, unit):
    first, size = parcels(21, digits), float(unit)
    a, b = write(tmp_path / "a.gpkg", first), write(tmp_path / "b.gpkg", [])
    answer = gis("run", "union", a, b, "-o", "out.gpkg", "--grid", unit)
    parts = [part for shape in first for part in getattr(shape, "geoms", [shape])]
    points = [point for part in parts for ring in (part.exterior, *part.interiors) for point in ring.coords[1:]]
    ways = [hypot(*(at - round(at / size) * size for at in point)) for point in points]
    moved = [way for way in ways if way > 1e-7]
    line = r"a\.gpkg: ([\d,]+) of ([\d,]+) vertices moved(.*); area ([\d.,]+) m² in sum, and ([\d.,]+) united\n"
    told = re.search(line, answer.err)
    count, vertices, before, after = (float(told[k].replace(",", "")) for k in (1, 2, 4, 5))
    assert (count, vertices) == (len(moved), len(points))
    assert before == pytest.approx(sum(shape.area for shape in first), rel=1e-9)
    assert after == pytest.approx(sum(fields["area"] for _, fields in read("out.gpkg")), rel=1e-9)
    assert bool(moved) == (digits == 7) == bool(told[3])
    if moved:
        mean, greatest = map(float, re.findall(r"[\d.]+", told[3]))
        assert told[3] == f", by {mean:.3g} m on average and {greatest:.3g} at most"
        assert (mean, greatest) == pytest.approx((sum(moved) / len(moved), max(moved)), rel=0.01)


def test_formats_give_the_same_bytes(gis, tmp_path):
    first, second, seen = parcels(31, 3), blobs(32, 3), set()
    for ending in ("gpkg", "shp", "geojson"):
        a, b = write(tmp_path / f"a.{ending}", first), write(tmp_path / f"b.{ending}", second)
        assert gis("run", "difference", a, b, "-o", "out.geojson", "--overwrite").status == 0
        seen.add((tmp_path / "out.geojson").read_bytes())
    assert len(seen) == 1


@pytest.mark.parametrize("ending", ["gpkg", "shp", "geojson", "fgb"])
def test_results_are_written_as_the_ending_says(gis, tmp_path, ending):
    a, b = write(tmp_path / "a.gpkg", [box(EAST, NORTH, EAST + 4, NORTH + 4)]), write(
        tmp_path / "b.gpkg", [box(EAST + 2, NORTH + 2, EAST + 6, NORTH + 6)]
    )
    assert gis("run", "intersection", a, b, "-o", f"out.{ending}").status == 0
    ((shape, fields),) = read(tmp_path / f"out.{ending}")
    assert shape.equals(box(EAST + 2, NORTH + 2, EAST + 4, NORTH + 4))
    assert (fields["id"], fields["area"]) == (1, 4.0)
    assert gdal.OpenEx(f"out.{ending}").GetLayer(0).GetSpatialRef().GetName() == "ETRS89 / UTM zone 32N"


def test_the_whole_range_of_the_grid(gis, tmp_path):
    first, second = [box(-268435, -268435, 268435, 268435)], [box(0, 0, 268435.25, 1)]
    judged(gis, tmp_path, "difference", first, second, "0.001", 0.71)


def test_a_grid_that_is_too_fine_is_refused(gis, tmp_path):
    a, b = write(tmp_path / "a.gpkg", [box(0, 0, 600000, 1)]), write(tmp_path / "b.gpkg", [box(0, 0, 1, 1)])
    answer = gis("run", "union", a, b, "-o", "out.gpkg", "--grid", "0.001")
    assert (answer.status, answer.err.count("\n")) == (3, 1)
    assert "the finest that fits is --grid 0.002" in answer.err
    assert gis("run", "union", a, b, "-o", "out.gpkg").status == 0


def test_overlaps_are_told_and_united(gis, tmp_path):
    first = [box(EAST, NORTH, EAST + 10, NORTH + 10), box(EAST + 5, NORTH, EAST + 15, NORTH + 10)]
    a, b = write(tmp_path / "a.gpkg", first), write(tmp_path / "b.gpkg", [])
    answer = gis("run", "union", a, b, "-o", "out.gpkg", "--parity")
    assert answer.status == 0
    assert "a.gpkg: warning: its polygons have 200 m² in sum, and 100 by parity" in answer.err
    assert sum(shape.area for shape, _ in read("out.gpkg")) == pytest.approx(100)
    answer = gis("run", "union", a, b, "-o", "out.gpkg", "--overwrite")
    assert "by parity" not in answer.err and "area 200 m² in sum, and 150 united" in answer.err
    assert [fields["area"] for _, fields in read("out.gpkg")] == [150]


@pytest.mark.parametrize("operation", JUDGE)
def test_layers_that_overlap_are_united_before_an_operation(gis, tmp_path, operation):
    rng, layers = random.Random(91), []
    for _ in "ab":
        corners = [(EAST + rng.randrange(60), NORTH + rng.randrange(60)) for _ in range(14)]
        layers.append([box(x, y, x + rng.randint(5, 20), y + rng.randint(5, 20)) for x, y in corners])
    a, b = (write(tmp_path / f"{name}.gpkg", shapes) for name, shapes in zip("ab", layers))
    answer = gis("run", operation, a, b, "-o", "out.gpkg", "--grid", "0.01")
    assert answer.status == 0 and "warning" not in answer.err
    first, second = map(unary_union, layers)
    wanted = getattr(first, JUDGE[operation])(second)
    found = [shape for shape, _ in read("out.gpkg")]
    assert all(shape.is_valid for shape in found)
    assert unary_union(found).symmetric_difference(wanted).area == 0
    assert sum(shape.area for shape in found) == pytest.approx(wanted.area)


def test_a_small_overlap_among_many_parcels_is_told(gis, tmp_path):
    first = [box(EAST + 30 * k, NORTH, EAST + 30 * k + 30, NORTH + 30) for k in range(200)] + [
        box(EAST + 10, NORTH + 10, EAST + 10.5, NORTH + 10.5)
    ]
    a, b = write(tmp_path / "a.gpkg", first), write(tmp_path / "b.gpkg", [box(EAST, NORTH, EAST + 1, NORTH + 1)])
    assert "a.gpkg: warning: its polygons have" in gis("run", "union", a, b, "-o", "out.gpkg", "--parity").err


def test_empty_layers(gis, tmp_path):
    a, b = write(tmp_path / "a.gpkg", []), write(tmp_path / "b.gpkg", [None, box(EAST, NORTH, EAST + 1, NORTH + 1)])
    answer = gis("run", "intersection", a, b, "-o", "out.gpkg")
    assert answer.status == 0
    assert "a.gpkg: warning: the layer has no features" in answer.err
    assert "b.gpkg: warning: no geometry, left out: feature 1" in answer.err
    assert read("out.gpkg") == []


SOLID = ogr.CreateGeometryFromWkt(f"POLYGON (({EAST} {NORTH}, {EAST + 4} {NORTH}, {EAST + 4} {NORTH + 4}, {EAST} {NORTH}))")


@pytest.mark.parametrize(
    "kind, declared, told",
    [
        (ogr.wkbPolygon25D, ogr.wkbPolygon25D, "Z"),
        (ogr.wkbPolygonM, ogr.wkbPolygonM, "M"),
        (ogr.wkbPolygonZM, ogr.wkbPolygonZM, "Z and M"),
        (ogr.wkbPolygon25D, ogr.wkbUnknown, "Z or M"),
        (ogr.wkbPolygonM, ogr.wkbUnknown, "Z or M"),
        (ogr.wkbMultiPolygonZM, ogr.wkbUnknown, "Z or M"),
        (ogr.wkbCurvePolygonM, ogr.wkbUnknown, "Z or M"),
        (ogr.wkbPolygon, ogr.wkbUnknown, ""),
    ],
)
def test_further_coordinates_are_left_out(gis, tmp_path, kind, declared, told):
    flat = box(EAST + 9, NORTH, EAST + 10, NORTH + 1)
    a, b = write(tmp_path / "a.gpkg", [flat, ogr.ForceTo(SOLID.Clone(), kind)], kind=declared), write(tmp_path / "b.gpkg", [])
    answer = gis("run", "union", a, b, "-o", "out.gpkg")
    warned = [line for line in answer.err.splitlines() if "left out" in line]
    assert warned == ([f"overlay-gis: {a}: warning: has {told} coordinates, which are left out"] if told else [])
    assert sorted(shape.area for shape, _ in read("out.gpkg")) == [1, 8] and not read("out.gpkg")[0][0].has_z


def test_curves_become_lines(gis, tmp_path):
    curve = ogr.CreateGeometryFromWkt(
        f"CURVEPOLYGON (CIRCULARSTRING ({EAST} {NORTH}, {EAST + 10} {NORTH}, {EAST} {NORTH}))"
    )
    a, b = write(tmp_path / "a.gpkg", [curve]), write(tmp_path / "b.gpkg", [])
    assert gis("run", "union", a, b, "-o", "out.gpkg").status == 0
    assert sum(shape.area for shape, _ in read("out.gpkg")) == pytest.approx(Point(0, 0).buffer(5, 90).area, rel=0.002)


def test_a_byte_order_mark_is_no_fault(gis, tmp_path):
    a, b = write(tmp_path / "a.geojson", [box(EAST, NORTH, EAST + 4, NORTH + 4)]), write(tmp_path / "b.gpkg", [])
    (tmp_path / "a.geojson").write_bytes(b"\xef\xbb\xbf" + (tmp_path / "a.geojson").read_bytes())
    assert gis("run", "union", a, b, "-o", "out.gpkg").status == 0
    assert [shape.area for shape, _ in read("out.gpkg")] == [16]


def test_systems_have_to_be_one(gis, tmp_path):
    shape = [box(EAST, NORTH, EAST + 4, NORTH + 4)]
    a, b, c = (
        write(tmp_path / "a.gpkg", shape),
        write(tmp_path / "b.gpkg", shape, "EPSG:25833"),
        write(tmp_path / "c.shp", shape, None),
    )
    answer = gis("run", "union", a, b, "-o", "out.gpkg")
    assert answer.status == 3 and "b.gpkg: has EPSG:25833, and" in answer.err and "has EPSG:25832" in answer.err
    answer = gis("run", "union", a, c, "-o", "out.gpkg")
    assert answer.status == 3 and "c.shp: has no reference system" in answer.err and "--system" in answer.err
    assert gis("run", "union", a, c, "-o", "out.gpkg", "--system", "EPSG:25832").status == 0


def test_a_system_that_would_be_passed_over_is_refused(gis, tmp_path):
    a = write(tmp_path / "a.gpkg", [box(EAST, NORTH, EAST + 4, NORTH + 4)])
    for words in (("run", "union", a, a), ("faces", a), ("dissolve", a), ("check", a), ("to-grid", a)):
        answer = gis(*words, "-o", "out.gpkg" if words[0] != "to-grid" else "grid", "--system", "EPSG:4326")
        told = f"--system EPSG:4326: {a} has EPSG:25832, and the option is for layers that name none"
        assert answer.status == 3 and answer.err == f"overlay-gis: {told}\n", answer.err
    assert gis("dissolve", a, "-o", "out.gpkg", "--system", "EPSG:25832").status == 0


def test_grads_are_no_degrees(gis, tmp_path):
    a = write(tmp_path / "a.gpkg", [box(1, 50, 3, 52)], "EPSG:4807")
    answer = gis("dissolve", a, "-o", "out.gpkg", "--grid", "0.001")
    assert answer.status == 0 and "grid 0.001 grad, origin" in answer.err and "area 4 square grad in sum" in answer.err, answer.err


def test_two_systems_of_one_name_are_told_apart(gis, tmp_path):
    """A file of MapInfo tells the system of New York in feet that aren't quite those."""
    a = write(tmp_path / "a.gpkg", [box(980000, 200000, 980004, 200004)], "EPSG:2263")
    gdal.VectorTranslate(str(tmp_path / "b.tab"), a, format="MapInfo File")
    answer = gis("run", "union", a, "b.tab", "-o", "out.gpkg")
    words = f"b.tab: has another definition of EPSG:2263, and {a} has EPSG:2263: where they are one, give both the same"
    assert answer.status == 3 and words in answer.err, answer.err


def test_layers_of_one_file(gis, tmp_path):
    write(tmp_path / "a.gpkg", [box(EAST, NORTH, EAST + 4, NORTH + 4)])
    gdal.VectorTranslate(
        "a.gpkg",
        gdal.OpenEx(write(tmp_path / "b.gpkg", [box(EAST + 1, NORTH, EAST + 2, NORTH + 4)])),
        accessMode="append",
        layerName="b",
    )
    answer = gis("run", "union", "a.gpkg", "b.gpkg", "-o", "out.gpkg")
    assert answer.status == 3 and "has 2 layers (a, b): name one, as a.gpkg|layername=a" in answer.err
    assert gis("run", "difference", "a.gpkg|layername=a", "a.gpkg|layername=b", "-o", "out.gpkg").status == 0
    assert sum(shape.area for shape, _ in read("out.gpkg")) == 12
    assert "has no layer c, but a, b" in gis("run", "union", "a.gpkg|layername=c", "b.gpkg", "-o", "out2.gpkg").err


@pytest.mark.parametrize(
    "name, data",
    [
        ("none.gpkg", None),
        ("empty.gpkg", b""),
        ("empty.geojson", b""),
        ("broken.geojson", b'{"type": "FeatureCollection", "features": [{'),
    ],
)
def test_unreadable_files(gis, tmp_path, name, data):
    if data is not None:
        (tmp_path / name).write_bytes(data)
    b = write(tmp_path / "b.gpkg", [])
    answer = gis("run", "union", name, b, "-o", "out.gpkg")
    assert answer.status == 1 and answer.err.startswith(f"overlay-gis: {name}: ") and answer.err.count("\n") == 1
    assert not (tmp_path / "out.gpkg").exists()


def test_truncated_files(gis, tmp_path):
    shapes = parcels(41, 3)
    write(tmp_path / "a.shp", shapes)
    data = (tmp_path / "a.shp").read_bytes()
    (tmp_path / "a.shp").write_bytes(data[: len(data) // 2])
    answer = gis("run", "union", "a.shp", write(tmp_path / "b.gpkg", []), "-o", "out.gpkg")
    assert answer.status == 1 and answer.err.startswith("overlay-gis: a.shp: ")


def test_what_is_no_polygon_is_refused(gis, tmp_path):
    a = write(tmp_path / "a.gpkg", [box(EAST, NORTH, EAST + 4, NORTH + 4), Point(EAST, NORTH)])
    answer = gis("run", "union", a, a, "-o", "out.gpkg")
    assert answer.status == 3 and "feature 2 is no polygon but POINT" in answer.err


def test_outputs_that_cannot_be(gis, tmp_path):
    a = write(tmp_path / "a.gpkg", [box(EAST, NORTH, EAST + 4, NORTH + 4)])
    (tmp_path / "there.gpkg").write_text("mine")
    for out, words, status in (
        ("there.gpkg", "is there already", 3),
        ("out.xyz", "files that end in .xyz", 3),
        ("out", "has no ending", 3),
        ("no/out.gpkg", "its folder isn't there", 1),
    ):
        answer = gis("run", "union", a, a, "-o", out)
        assert answer.status == status and answer.err.startswith(f"overlay-gis: {out}: ")
        assert words in answer.err
    assert (tmp_path / "there.gpkg").read_text() == "mine"


def test_an_output_that_is_an_input(gis, tmp_path):
    a = write(tmp_path / "a.gpkg", [box(EAST, NORTH, EAST + 4, NORTH + 4)])
    held = (tmp_path / "a.gpkg").read_bytes()
    answer = gis("run", "union", a, f"{a}|layername=a", "-o", "./a.gpkg", "--overwrite")
    assert (answer.status, answer.err) == (3, "overlay-gis: ./a.gpkg: is an input\n")
    assert (tmp_path / "a.gpkg").read_bytes() == held


def test_a_format_without_shapes(gis, tmp_path):
    a = write(tmp_path / "a.gpkg", [box(EAST, NORTH, EAST + 4, NORTH + 4)])
    answer = gis("run", "union", a, write(tmp_path / "b.gpkg", []), "-o", "out.csv")
    assert (
        answer.status == 3
        and answer.err.splitlines()[-1] == "overlay-gis: out.csv: a file of this format keeps no shapes"
    )
    assert not (tmp_path / "out.csv").exists()


def test_the_program_refuses(gis, tmp_path, pretend):
    a = write(tmp_path / "a.gpkg", [box(EAST, NORTH, EAST + 4, NORTH + 4)])
    pretend("echo 'overlay: 5 too many segments: 1048577' >&2; exit 3\n")
    answer = gis("run", "union", a, a, "-o", "out.gpkg")
    assert (
        answer.status == 3
        and "overlay: overlay says: 5 too many segments: 1048577 (the limit of all layers" in answer.err
    )
    pretend("echo 'overlay: A: 1 syntax at 3' >&2; exit 3\n")
    assert f"overlay-gis: {a}: overlay says: 1 syntax at 3" in gis("run", "union", a, a, "-o", "out.gpkg").err
    pretend("kill -9 $$\n")
    answer = gis("run", "union", a, a, "-o", "out.gpkg")
    assert answer.status == 1 and "status -9" in answer.err
    assert not (tmp_path / "out.gpkg").exists()


def test_no_program(gis, tmp_path, monkeypatch):
    a = write(tmp_path / "a.gpkg", [box(EAST, NORTH, EAST + 4, NORTH + 4)])
    monkeypatch.setenv("OVERLAY", "/nowhere/overlay")
    answer = gis("run", "union", a, a, "-o", "out.gpkg")
    assert (
        answer.status == 1 and answer.err.splitlines()[-1] == "overlay-gis: /nowhere/overlay: No such file or directory"
    )


def test_borders_nearly_on_one_another(gis, tmp_path):
    rng = random.Random(7)
    first = parcels(51, 7)
    second = [translate(shape, rng.uniform(-2e-3, 2e-3), rng.uniform(-2e-3, 2e-3)) for shape in first[:18]]
    a, b = write(tmp_path / "a.gpkg", first), write(tmp_path / "b.gpkg", second)
    assert gis("run", "intersection", a, b, "-o", "out.gpkg", "--grid", "0.01").status == 0
    wanted, result = unary_union(first).intersection(unary_union(second)), read("out.gpkg")
    assert all(shape.is_valid for shape, _ in result)
    assert abs(sum(shape.area for shape, _ in result) - wanted.area) <= 0.0142 * (perimeter(first) + perimeter(second))


def test_a_star_of_thin_polygons(gis, tmp_path):
    star = Polygon(
        [
            (EAST, NORTH),
            (EAST + 90, NORTH + 31.7),
            (EAST + 3, NORTH + 55),
            (EAST + 60.2, NORTH),
            (EAST + 50.1, NORTH + 70),
            (EAST, NORTH),
        ]
    )
    a, b = write(tmp_path / "a.gpkg", [star]), write(tmp_path / "b.gpkg", [])
    answer = gis("run", "union", a, b, "-o", "out.gpkg", "--parity")
    assert answer.status == 0 and "overlap or cross themselves" in answer.err
    assert all(shape.is_valid for shape, _ in read("out.gpkg"))


@pytest.mark.parametrize(
    "out, room",
    [("out.gpkg", 40_000), ("out.gpkg", 150_000), ("out.geojson", 150_000), ("out.shp", 75_000), ("out.gpkg", 10)],
)
def test_an_output_that_has_no_room(tmp_path, out, room):
    a, b = write(tmp_path / "a.gpkg", [Point(EAST + 3 * k, NORTH).buffer(1, 9) for k in range(220)]), write(
        tmp_path / "b.gpkg", []
    )
    words = [sys.executable, COMMAND, "run", "union", a, b, "-o", out]
    done = subprocess.run(
        words,
        stderr=subprocess.PIPE,
        cwd=tmp_path,
        preexec_fn=lambda: resource.setrlimit(resource.RLIMIT_FSIZE, (room, room)),
        check=False,
    )
    lines = done.stderr.decode().splitlines()
    assert done.returncode == 1 and all(line.startswith("overlay-gis: ") for line in lines), lines
    assert not (tmp_path / out).exists()


def test_a_source_that_is_no_file(gis, tmp_path):
    held = '{"type": "Polygon", "coordinates": [[[8.5, 50], [8.75, 50], [8.75, 50.25], [8.5, 50.25], [8.5, 50]]]}'
    answer = gis("run", "union", held, write(tmp_path / "b.gpkg", [], "EPSG:4326"), "-o", "out.gpkg")
    assert answer.status == 0 and "grid 0.000001 degrees, origin 8.5, 50" in answer.err
    assert [shape.bounds for shape, _ in read("out.gpkg")] == [(8.5, 50.0, 8.75, 50.25)]


def test_passwords_are_not_told(gis, tmp_path):
    answer = gis("check", "PG:host=127.0.0.1 port=1 dbname=town user=me password=secret")
    assert answer.status == 1 and "secret" not in answer.err + answer.out
    assert answer.err.startswith("overlay-gis: PG:host=127.0.0.1 port=1 dbname=town user=me password=..: ")


def test_open_rings_are_closed_and_short_ones_left_out(gis, tmp_path):
    held = [f"POLYGON (({EAST} {NORTH}, {EAST + 4} {NORTH}, {EAST + 4} {NORTH + 4}, {EAST} {NORTH + 4}))"]
    held.append(f"POLYGON (({EAST} {NORTH}, {EAST + 1} {NORTH}, {EAST} {NORTH}))")
    a = write(tmp_path / "a.gpkg", [ogr.CreateGeometryFromWkt(text) for text in held])
    b = write(tmp_path / "b.gpkg", [])
    answer = gis("run", "union", a, b, "-o", "out.gpkg")
    assert answer.status == 0 and [shape.area for shape, _ in read("out.gpkg")] == [16]
    assert "a.gpkg: warning: rings were open, and closed: feature 1" in answer.err
    assert "a.gpkg: warning: rings of less than four points were left out: feature 2" in answer.err
    answer = gis("run", "union", a, b, "-o", "out.gpkg", "--overwrite")
    assert answer.status == 0 and [shape.area for shape, _ in read("out.gpkg")] == [16]


@pytest.mark.parametrize("name", ["out.geojsonl", "out.geojsons", "out.kml", "out.kmz", "out.gpx"])
def test_formats_that_have_another_system_are_refused(gis, tmp_path, name):
    answer = gis("dissolve", write(tmp_path / "a.gpkg", [box(EAST, NORTH, EAST + 1, NORTH + 1)]), "-o", name)
    assert answer.status == 3 and ".gpkg, .geojson, .shp and .fgb keep that of the layers" in answer.err
    assert answer.err.count("\n") == 1 and not (tmp_path / name).exists()


@pytest.mark.parametrize("seed", range(20))
def test_what_the_other_layer_bends_is_no_overlap(gis, tmp_path, seed):
    """Triangles apart on a coarse grid, whose borders a layer of many short ones bends: what that wins or loses is never told as an overlap."""
    rng, first = random.Random(seed), []
    for k in range(6):
        corners = [(EAST + 25 * k + rng.randrange(25), NORTH + rng.randrange(25)) for _ in range(3)]
        first += [Polygon(corners)] if Polygon(corners).area else []
    second = [Polygon([(EAST + rng.uniform(0, 150), NORTH + rng.uniform(0, 25)) for _ in range(9)]) for _ in range(4)]
    a, b = write(tmp_path / "a.gpkg", first), write(tmp_path / "b.gpkg", second)
    answer = gis("run", "union", a, b, "-o", "out.gpkg", "--parity", "--grid", "1")
    told = re.search(r"a\.gpkg: 0 of \d+ vertices moved; area ([\d.]+) m² before, and ([\d.]+) after\n", answer.err)
    assert answer.status == 0 and "a.gpkg: warning" not in answer.err
    assert float(told[1]) == sum(shape.area for shape in first) != float(told[2])
