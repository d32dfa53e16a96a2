"""to-grid and from-grid: the two halves of a run, with the program between them."""

import json
import subprocess
from pathlib import Path

import pytest
from osgeo import gdal
from shapely.geometry import box

from conftest import EAST, NORTH, UTM, blobs, parcels, read, write


def overlaid(program, operation, a, b, out):
    Path(out).write_bytes(subprocess.run([program, operation, a, b], stdout=subprocess.PIPE, check=True).stdout)


def test_both_halves_are_a_run(gis, tmp_path, program):
    a, b = write(tmp_path / "a.gpkg", parcels(1, 3)), write(tmp_path / "b.gpkg", blobs(2, 3))
    assert gis("to-grid", a, b, "-o", "grid").status == 0
    overlaid(program, "intersection", "grid/a.wkt", "grid/b.wkt", "grid/common.wkt")
    assert gis("from-grid", "grid/common.wkt", "-o", "halves.geojson").status == 0
    assert gis("run", "intersection", a, b, "-o", "whole.geojson").status == 0
    assert Path("halves.geojson").read_text().replace("halves", "whole") == Path("whole.geojson").read_text()


def test_the_text_of_a_layer(gis, tmp_path):
    shapes = [
        box(EAST, NORTH, EAST + 4.0004, NORTH + 2),
        box(EAST + 5, NORTH, EAST + 6, NORTH + 1).union(box(EAST + 8, NORTH, EAST + 9, NORTH + 1)),
    ]
    answer = gis("to-grid", write(tmp_path / "a.gpkg", shapes), "-o", "grid", "--origin", f"{EAST},{NORTH}")
    assert answer.status == 0 and "3 polygons, 12 segments" in answer.err
    lines = Path("grid/a.wkt").read_text().splitlines()
    assert lines[0] == "POLYGON ((4000 0, 4000 2000, 0 2000, 0 0, 4000 0))"
    assert lines[1].startswith("MULTIPOLYGON (((") and lines[1].count("((") == 2
    assert json.loads(Path("grid/frame.json").read_text()) == {
        "grid": "0.001",
        "origin": ["412000", "5654000"],
        "system": UTM,
    }


def test_a_layer_comes_back_as_it_was(gis, tmp_path):
    shapes = parcels(3, 3)
    assert gis("to-grid", write(tmp_path / "a.gpkg", shapes), "-o", "grid").status == 0
    assert gis("from-grid", "grid/a.wkt", "-o", "back.gpkg").status == 0
    parts = [part for shape in shapes for part in getattr(shape, "geoms", [shape])]
    assert [part.wkt for part in parts] == [shape.wkt for shape, _ in read("back.gpkg")]


def test_edges_come_back_as_lines(gis, tmp_path, program):
    a, b = write(tmp_path / "a.gpkg", [box(EAST, NORTH, EAST + 4, NORTH + 4)]), write(
        tmp_path / "b.gpkg", [box(EAST + 2, NORTH + 2, EAST + 6, NORTH + 6)]
    )
    assert gis("to-grid", a, b, "-o", "grid", "--grid", "1").status == 0
    overlaid(program, "edges", "grid/a.wkt", "grid/b.wkt", "grid/edges.txt")
    assert gis("from-grid", "grid/edges.txt", "-o", "edges.gpkg").status == 0
    lines = read("edges.gpkg")
    assert len(lines) == 12 and sum(shape.length for shape, _ in lines) == 32
    assert [sum(fields[name] for _, fields in lines) for name in ("count_a", "count_b")] == [6, 6]


def test_a_later_layer_takes_the_frame_that_is_there(gis, tmp_path):
    a, b = write(tmp_path / "a.gpkg", [box(EAST, NORTH, EAST + 4, NORTH + 4)]), write(
        tmp_path / "b.gpkg", [box(EAST - 7, NORTH, EAST + 1, NORTH + 4)]
    )
    assert gis("to-grid", a, "-o", "one").status == 0
    assert gis("to-grid", b, "-o", "two", "--frame", "one/frame.json").status == 0
    assert Path("two/frame.json").read_text() == Path("one/frame.json").read_text()
    assert "-7000 0" in Path("two/b.wkt").read_text()
    far, other = write(tmp_path / "far.gpkg", [box(0, 0, 1, 1)]), write(
        tmp_path / "other.gpkg", [box(EAST, NORTH, EAST + 1, NORTH + 1)], "EPSG:3035"
    )
    assert "off the limits of its grid" in gis("to-grid", far, "-o", "two", "--frame", "one/frame.json").err
    assert "is a frame of EPSG:25832" in gis("to-grid", other, "-o", "two", "--frame", "one/frame.json").err


@pytest.mark.parametrize(
    "words, told", [(("--grid", "0.1"), "--grid"), (("--grid", "0.1", "--origin", "1,1"), "--grid and --origin")]
)
def test_a_frame_takes_no_grid_and_no_origin(gis, tmp_path, words, told):
    a = write(tmp_path / "a.gpkg", [box(EAST, NORTH, EAST + 4, NORTH + 4)])
    assert gis("to-grid", a, "-o", "one").status == 0
    answer = gis("to-grid", a, "-o", "two", "--frame", "one/frame.json", *words)
    assert (answer.status, answer.err) == (3, f"overlay-gis: {told}: the frame that --frame names has its own\n")
    assert not Path("two").exists()


def test_layers_of_one_name_are_refused(gis, tmp_path):
    (tmp_path / "x").mkdir()
    a, b = write(tmp_path / "a.gpkg", []), write(tmp_path / "x" / "a.gpkg", [])
    answer = gis("to-grid", a, b, "-o", "grid")
    assert answer.status == 3 and "would be written under one name" in answer.err


def test_layers_of_one_file_have_their_own_names(gis, tmp_path):
    write(tmp_path / "a.gpkg", [box(EAST, NORTH, EAST + 4, NORTH + 4)])
    other = gdal.OpenEx(write(tmp_path / "b.gpkg", [box(EAST + 1, NORTH, EAST + 2, NORTH + 4)]))
    gdal.VectorTranslate("a.gpkg", other, accessMode="append", layerName="b")
    assert gis("to-grid", "a.gpkg|layername=a", "a.gpkg|layername=b", "-o", "grid").status == 0
    assert sorted(path.name for path in Path("grid").iterdir()) == ["a.wkt", "b.wkt", "frame.json"]


def test_a_layer_whose_name_is_no_file_name(gis, tmp_path):
    square = gdal.OpenEx(write(tmp_path / "a.gpkg", [box(EAST, NORTH, EAST + 4, NORTH + 4)]))
    for number, name in enumerate(("plan/2024", "plan_2024")):
        gdal.VectorTranslate("f.gpkg", square, accessMode="append" if number else None, layerName=name)
    answer = gis("to-grid", "f.gpkg|layername=plan/2024", "-o", "grid")
    assert answer.status == 0 and "grid/plan_2024.wkt: 1 polygons, 4 segments" in answer.err
    assert sorted(path.name for path in Path("grid").iterdir()) == ["frame.json", "plan_2024.wkt"]
    answer = gis("to-grid", "f.gpkg|layername=plan/2024", "f.gpkg|layername=plan_2024", "-o", "grid")
    assert answer.status == 3 and "would be written under one name" in answer.err


def test_dissolved_layers(gis, tmp_path):
    a = write(tmp_path / "a.gpkg", [box(EAST, NORTH, EAST + 4, NORTH + 4), box(EAST + 2, NORTH, EAST + 6, NORTH + 4)])
    assert "1 polygons" in gis("to-grid", a, "-o", "grid", "--dissolve").err
    assert gis("from-grid", "grid/a.wkt", "-o", "back.gpkg").status == 0
    assert [shape.area for shape, _ in read("back.gpkg")] == [24]


FRAME = '{"grid": "1", "origin": ["0", "0"], "system": null}'


def from_grid(gis, text, output, frame=FRAME):
    """What `from-grid` answers for a text, beside a frame file where there is one."""
    Path("t.wkt").write_text(text, encoding="utf-8")
    if frame is not None:
        Path("frame.json").write_text(frame)
    return gis("from-grid", "t.wkt", "-o", output)


TEXTS_THAT_ARE_NONE = (
    "POLYGON ((0 0, 1 0",
    "POLYGON ((0 0, 1.5 0, 0 1, 0 0))",
    "POINT (1 1)",
    "POLYGON ((0 0, 1 0, 0 1, 0 0)) x",
    "1 2 3\n",
    "0 0 1 1 1 x\n",
)


@pytest.mark.parametrize("text", TEXTS_THAT_ARE_NONE)
def test_texts_that_are_none(gis, tmp_path, text):
    answer = from_grid(gis, text, "out.gpkg")
    assert answer.status == 3 and answer.err.startswith("overlay-gis: t.wkt: ") and answer.err.count("\n") == 1
    assert not Path("out.gpkg").exists()


def test_rows_of_faces_are_told_as_such(gis, program):
    Path("a.wkt").write_text("POLYGON ((0 0, 4 0, 4 4, 0 4, 0 0))\nPOLYGON ((2 0, 4 0, 4 4, 2 4, 2 0))\n")
    for layers in (["a.wkt"], ["a.wkt", "a.wkt"]):
        text = subprocess.run([program, "faces", *layers], stdout=subprocess.PIPE, check=True).stdout.decode()
        told = "overlay-gis: t.wkt: has the rows that overlay faces prints: overlay-gis faces writes a file of them, from the layers\n"
        for answer in (from_grid(gis, text, "out.gpkg"), gis("show", "t.wkt")):
            assert (answer.status, answer.err) == (3, told)


@pytest.mark.parametrize("frame", [None, "", "[]", FRAME.replace('"1"', '"0"'), FRAME.replace('["0", "0"]', '["0"]')])
def test_frames_that_are_none(gis, tmp_path, frame):
    answer = from_grid(gis, "POLYGON EMPTY", "out.gpkg", frame)
    assert answer.status in (1, 3) and answer.err.count("\n") == 1


@pytest.mark.parametrize(
    "text, count",
    [
        ("", 0),
        ("MULTIPOLYGON EMPTY\n", 0),
        ("\ufeffpolygon((0 0,1 0,0 1,0 0))\r\n", 1),
        ("MultiPolygon ( ((0 0,1 0,0 1,0 0)) , ((5 5 , 6 5,5 6,5 5)) )", 2),
    ],
)
def test_texts_in_the_grammar(gis, tmp_path, text, count):
    assert from_grid(gis, text, "out.geojson").status == 0
    assert len(read("out.geojson")) == count
