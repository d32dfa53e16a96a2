"""faces --pairs: worked by hand, and by Shapely's intersections of each feature with each."""

import csv
import os
from pathlib import Path

import pytest
from osgeo import gdal, ogr
from shapely.geometry import box

from conftest import EAST, NORTH, blobs, parcels, read, write
from overlay_gis import pairs
from test_faces import heap


def layers(tmp_path):
    """Two squares that overlap by half, and three: one across both, one beside, one that only
    touches."""
    at = lambda x, y, w, h: box(EAST + x, NORTH + y, EAST + x + w, NORTH + y + h)  # noqa: E731
    a = write(tmp_path / "a.gpkg", [at(0, 0, 10, 10), at(5, 0, 10, 10)])
    return a, write(tmp_path / "b.gpkg", [at(0, 0, 20, 4), at(50, 0, 1, 1), at(15, 4, 5, 5)])


WANTED = [(1, 1, 80, 40.0, 0.4, 0.5), (2, 1, 80, 40.0, 0.4, 0.5)]


def table(path, name):
    dataset = gdal.OpenEx(path)
    layer = dataset.GetLayerByName(name)
    assert layer.GetGeomType() == ogr.wkbNone
    return [tuple(feature.items().values()) for feature in layer]


def test_pairs_in_the_output(gis, tmp_path):
    a, b = layers(tmp_path)
    answer = gis("faces", a, b, "-o", "out.gpkg", "--pairs", "out.gpkg", "--grid", "1")
    assert answer.status == 0 and answer.err.endswith("out.gpkg: 9 rows\noverlay-gis: out.gpkg: 2 pairs\n")
    assert table("out.gpkg", "pairs") == WANTED
    dataset = gdal.OpenEx("out.gpkg")
    assert dataset.GetLayerByName("out").GetFeatureCount() == 9


@pytest.mark.parametrize("at_a_time", [1, 50, 1 << 20])
def test_few_pairs_are_held_at_a_time(gis, tmp_path, monkeypatch, at_a_time):
    """Twelve strips, each a metre farther: two of them have 20 metres less their distance in common, and
    each row has up to twelve features of both layers."""
    a = write(tmp_path / "a.gpkg", [box(EAST + k, NORTH, EAST + k + 20, NORTH + 1) for k in range(12)])
    held, keys_of = [], pairs.keys_of
    monkeypatch.setattr(pairs, "AT_A_TIME", at_a_time)
    monkeypatch.setattr(pairs, "keys_of", lambda *words: held.append(keys_of(*words)) or held[-1])
    assert gis("faces", a, a, "-o", "out.gpkg", "--pairs", "out.gpkg", "--grid", "1").status == 0
    common = [(i, j, 20 - abs(i - j)) for i in range(1, 13) for j in range(1, 13)]
    assert table("out.gpkg", "pairs") == [(i, j, 2 * area, area, area / 20, area / 20) for i, j, area in common]
    assert max(len(keys) for keys, _ in held) <= at_a_time + 12 * 12


def test_pairs_in_a_table_of_their_own(gis, tmp_path):
    a, b = layers(tmp_path)
    assert gis("faces", a, b, "-o", "out.shp", "--pairs", "pairs.csv", "--grid", "1").status == 0
    with open("pairs.csv", newline="", encoding="utf-8") as file:
        head, *lines = csv.reader(file)
    assert head == ["a", "b", "twice_area", "area", "share_a", "share_b"]
    assert [tuple(map(float, line)) for line in lines] == WANTED
    assert '"' not in Path("pairs.csv").read_text()
    assert gis("faces", a, b, "-o", "out2.shp", "--pairs", "pairs.csv").status == 3
    assert gis("faces", a, b, "-o", "out3.gpkg", "--pairs", "pairs.gpkg", "--grid", "1").status == 0
    assert table("pairs.gpkg", "pairs") == WANTED
    assert gis("faces", a, b, "-o", "out4.gpkg", "--pairs", "pairs.tab", "--grid", "1").status == 0
    assert table("pairs.tab", "pairs") == WANTED


def test_pairs_are_those_of_two_layers(gis, tmp_path):
    a, b = layers(tmp_path)
    answer = gis("faces", a, b, a, "-o", "out.gpkg", "--pairs", "pairs.csv")
    assert (answer.status, answer.err) == (3, "overlay-gis: --pairs: are those of two layers, and 3 are named\n")
    answer = gis("faces", a, b, "-o", "out.shp", "--pairs", "out.shp")
    assert answer.status == 3 and "only a GeoPackage takes several layers" in answer.err


@pytest.mark.parametrize("first, second", [(parcels(81, 3), blobs(82, 3)), (heap(1, 20), heap(2, 20))])
def test_pairs_have_the_areas_that_shapely_finds(gis, tmp_path, first, second):
    a, b = write(tmp_path / "a.gpkg", first), write(tmp_path / "b.gpkg", second)
    assert gis("faces", a, b, "-o", "out.gpkg", "--pairs", "out.gpkg", "--parts").status == 0
    found = {(row[0], row[1]): row[2:] for row in table("out.gpkg", "pairs")}
    for k, one in enumerate(first, 1):
        for n, other in enumerate(second, 1):
            twice, area, share, other_share = found.pop((k, n), (0, 0.0, 0.0, 0.0))
            assert area == pytest.approx(one.intersection(other).area, abs=0.00071 * (one.length + other.length))
            assert area == pytest.approx(twice / 2e6, rel=1e-12)
            assert share == pytest.approx(area / one.area, abs=1e-4) and other_share == pytest.approx(area / other.area, abs=1e-4)
    assert not found


@pytest.mark.parametrize("out", ["out.shp", "out.fgb", "out.dxf"])
def test_formats_without_rows_are_refused_before_any_work(gis, tmp_path, pretend, out):
    a, b = layers(tmp_path)
    pretend("exit 1\n")
    answer = gis("faces", a, b, "-o", "o.gpkg", "--pairs", out)
    told = f"overlay-gis: {out}: a file of this format keeps no rows without shapes; one of .csv or .gpkg does\n"
    assert (answer.status, answer.err) == (3, told)
    assert not list(tmp_path.glob("o*"))


@pytest.mark.parametrize("out, pairs", [("o.shp", "o.dbf"), ("o.tab", "o.dat"), ("o.gpkg", "o.gpkg-wal")])
def test_no_part_of_the_rows_is_the_pairs(gis, tmp_path, out, pairs):
    a, b = layers(tmp_path)
    answer = gis("faces", a, b, "-o", out, "--pairs", pairs)
    assert answer.status == 3 and not list(tmp_path.glob("o.*")), answer.err


def test_rows_and_pairs_are_there_together_or_not_at_all(gis, tmp_path, monkeypatch):
    """Also where the last step of putting them in place fails."""
    a, b = layers(tmp_path)
    for name in ("out.gpkg", "pairs.csv"):
        (tmp_path / name).write_text("old")
    replace = os.replace

    def failing(source, place):
        if Path(place).name == "pairs.csv" and Path(source).parent.suffix == ".partial":
            raise OSError(5, "Input/output error")
        replace(source, place)

    with monkeypatch.context() as changed:
        changed.setattr(os, "replace", failing)
        answer = gis("faces", a, b, "-o", "out.gpkg", "--pairs", "pairs.csv", "--overwrite")
    assert answer.status == 1 and answer.err.splitlines()[-1] == "overlay-gis: pairs.csv: Input/output error"
    assert (tmp_path / "out.gpkg").read_text() == (tmp_path / "pairs.csv").read_text() == "old"
    assert not list(tmp_path.glob(".*"))
    assert gis("faces", a, b, "-o", "out.gpkg", "--pairs", "pairs.csv", "--overwrite").status == 0
    assert len(read("out.gpkg")) and (tmp_path / "pairs.csv").read_text().startswith("a,b,")


def with_fields(path, shapes, rows):
    """A layer with the fields number, a whole one, and note, a text."""
    write(path, shapes)
    dataset = ogr.Open(str(path), 1)
    layer = dataset.GetLayer(0)
    layer.CreateField(ogr.FieldDefn("number", ogr.OFTInteger64))
    layer.CreateField(ogr.FieldDefn("note", ogr.OFTString))
    for fid, values in enumerate(rows, 1):
        feature = layer.GetFeature(fid)
        for name, value in zip(("number", "note"), values):
            if value is not None:
                feature.SetField(name, value)
        layer.SetFeature(feature)
    return path


@pytest.mark.parametrize("overlaps", [False, True])
def test_fields_of_pairs_have_the_types_of_their_layers(gis, tmp_path, overlaps):
    """Whether features of one layer overlap or not: a pair has one of either."""
    at = lambda x, w: box(EAST + x, NORTH, EAST + x + w, NORTH + 10)  # noqa: E731
    a = with_fields(tmp_path / "a.gpkg", [at(0, 10), at(5 if overlaps else 10, 10)], [(7, "x,y"), (None, None)])
    b = with_fields(tmp_path / "b.gpkg", [at(0, 20)], [(9, "z")])
    words = ("faces", a, b, "-o", "out.gpkg", "--keep-a", "number,note", "--keep-b", "number", "--pairs", "out.gpkg", "--grid", "1")
    assert gis(*words).status == 0
    dataset = gdal.OpenEx("out.gpkg")
    definition = dataset.GetLayerByName("pairs").GetLayerDefn()
    fields = {definition.GetFieldDefn(k).GetName(): definition.GetFieldDefn(k).GetTypeName() for k in range(6, 9)}
    assert fields == {"a_number": "Integer64", "a_note": "String", "b_number": "Integer64"}
    assert [row[6:] for row in table("out.gpkg", "pairs")] == [(7, "x,y", 9), (None, None, 9)]


def test_pairs_have_the_fields_by_which_rows_are_united(gis, tmp_path):
    at = lambda x, w: box(EAST + x, NORTH, EAST + x + w, NORTH + 10)  # noqa: E731
    a = with_fields(tmp_path / "a.gpkg", [at(0, 10), at(10, 10)], [(7, "x"), (8, "x")])
    b = with_fields(tmp_path / "b.gpkg", [at(0, 20)], [(9, "z")])
    assert gis("faces", a, b, "-o", "out.gpkg", "--by", "a:note", "--pairs", "pairs.csv", "--grid", "1").status == 0
    with open("pairs.csv", newline="", encoding="utf-8") as file:
        head, *lines = csv.reader(file)
    assert head == ["a", "b", "twice_area", "area", "share_a", "share_b", "a_note"]
    assert lines == [["1", "1", "200", "100", "1", "0.5", "x"], ["2", "1", "200", "100", "1", "0.5", "x"]]
    assert [fields["area"] for _, fields in read("out.gpkg")] == [200.0]
