"""Rows that SQLite puts into a GeoPackage: the file is as GDAL would have written it, and its index
is sound."""

import sqlite3
from contextlib import closing

import pytest
from osgeo import gdal, ogr
from shapely.geometry import MultiPolygon, box

from conftest import EAST, NORTH, parcels, read, write
from overlay_gis import geopackage, output
from overlay_gis.faults import Fault

NODES = ("node", "rowid", "parent")


def contents(path):
    """All tables of a GeoPackage but for the nodes of indexes, with the types of all values; what
    its schema tells; and what SQLite finds wrong."""
    with closing(sqlite3.connect(path)) as held:
        schema = sorted(held.execute("select type, name, sql from sqlite_master where sql is not null").fetchall())
        tables = [name for kind, name, _ in schema if kind == "table"]
        indexes = [name for name in tables if name.startswith("rtree_") and not name.endswith(NODES)]
        found = {"schema": schema, "wrong": held.execute("pragma integrity_check").fetchall()}
        for name in tables:
            if name.startswith("rtree_") and name not in indexes:
                continue
            columns = [row[1] for row in held.execute(f"pragma table_info({geopackage.quoted(name)})") if row[1] != "last_change"]
            asked = ", ".join(map(geopackage.quoted, columns))
            rows = held.execute(f"select {asked} from {geopackage.quoted(name)} order by 1").fetchall()
            # GDAL tells the extent of a layer by SQLite's own decimals, which are off in the last ones
            shown = float_shown if name == "gpkg_contents" else lambda value: value
            found[name] = [tuple((type(value), shown(value)) for value in row) for row in rows]
        for name in indexes:
            assert held.execute("select rtreecheck(?)", (name,)).fetchone() == ("ok",)
        return found


def float_shown(value):
    return f"{value:.14g}" if isinstance(value, float) else value


@pytest.fixture
def both_ways(gis):
    """Runs a command by SQLite and by GDAL alone, and answers what either file has, and how often
    SQLite filled a layer."""

    def run(out, *words):
        filled, calls = output.filled, []
        with pytest.MonkeyPatch.context() as changed:
            changed.setattr(output, "filled", lambda *held: calls.append(held) or filled(*held))
            assert gis(*words, "-o", out, "--overwrite").status in (0, 4)
        ours = contents(out)
        with pytest.MonkeyPatch.context() as changed:
            changed.setattr(output.Output, "takes_all_at_once", lambda *_: False)
            assert gis(*words, "-o", out, "--overwrite").status in (0, 4)
        return ours, contents(out), len(calls)

    return run


FIELDS = {"owner": ["é\"'", "", "b", "c"], "number": [2**62, -1, 0, 7], "share": [0.1, -1e300, 2.0, float("inf")]}
COMMANDS = [
    ("run", "union", "a.gpkg", "b.gpkg"),
    ("run", "union", "a.gpkg", "b.gpkg", "--keep-a", "owner,number,share"),
    ("faces", "a.gpkg", "b.gpkg", "--keep-a", "owner,number,share"),
    ("faces", "a.gpkg", "b.gpkg", "--parts"),
    ("faces", "a.gpkg", "b.gpkg", "--by", "owner"),
    ("faces", "a.gpkg", "b.gpkg", "--pairs", "out.gpkg"),
    ("dissolve", "a.gpkg"),
    ("dissolve", "a.gpkg", "--by", "owner,share", "--parts"),
    ("dissolve", "a.gpkg", "--by", "number"),
    ("check", "a.gpkg"),
    ("run", "intersection", "a.gpkg", "far.gpkg"),
]


@pytest.mark.parametrize("words", COMMANDS, ids=lambda words: "-".join(word.strip("-") for word in words))
@pytest.mark.parametrize("srs", ["EPSG:25832", None, "EPSG:4326"])
def test_a_file_is_as_gdal_writes_it(both_ways, program, tmp_path, words, srs):
    """Also where a feature covers nothing."""
    x, y = (7, 51) if srs == "EPSG:4326" else (EAST, NORTH)
    shapes = [box(x, y, x + 2, y + 2), box(x + 1, y, x + 3, y + 2), MultiPolygon([box(x + k, y + 5, x + k + 1, y + 6) for k in (0, 4)]), None]
    write(tmp_path / "a.gpkg", shapes, srs, FIELDS)
    write(tmp_path / "b.gpkg", [box(x + 1, y + 1, x + 9, y + 9)], srs)
    write(tmp_path / "far.gpkg", [box(x + 20, y, x + 21, y + 1)], srs)
    ours, gdals, count = both_ways('out "1".gpkg' if "--pairs" not in words else "out.gpkg", *words)
    assert ours == gdals and count == (2 if "--pairs" in words else 1)
    assert ours["wrong"] == [("ok",)]


@pytest.mark.parametrize("size", [7, geopackage.BLOCK])
def test_many_rows_are_as_gdal_writes_them(both_ways, program, tmp_path, monkeypatch, size):
    """However many boxes are worked on at a time."""
    monkeypatch.setattr(geopackage, "BLOCK", size)
    write(tmp_path / "a.gpkg", parcels(1, 3, 60))
    ours, gdals, _ = both_ways("out.gpkg", "faces", "a.gpkg")
    assert ours == gdals and len(ours["rtree_out_geom"]) > 3600


@pytest.mark.parametrize("page", [1024, 65536])
def test_a_layer_beside_others(gis, program, tmp_path, page):
    """Also where the file's pages aren't those that GDAL would make."""
    write(tmp_path / "a.gpkg", parcels(1, 3, 12))
    with closing(sqlite3.connect("a.gpkg", isolation_level=None)) as held:
        held.execute("pragma journal_mode = delete")
        held.execute(f"pragma page_size = {page}")
        held.execute("vacuum")
    before = contents("a.gpkg")
    assert gis("faces", "a.gpkg", "-o", "a.gpkg", "--layer", "rows", "--append").status == 0
    found = contents("a.gpkg")
    assert found["a"] == before["a"] and len(found["rows"]) == len(found["rtree_rows_geom"]) > 144


def kept(tmp_path, kind, subtype, value):
    """A layer of one feature with a value of that type."""
    dataset = gdal.GetDriverByName("GPKG").Create(str(tmp_path / "a.gpkg"), 0, 0, 0, gdal.GDT_Unknown)
    layer = dataset.CreateLayer("a", None, ogr.wkbPolygon)
    field = ogr.FieldDefn("kept", kind)
    field.SetSubType(subtype)
    layer.CreateField(field)
    feature = ogr.Feature(layer.GetLayerDefn())
    feature.SetGeometry(ogr.CreateGeometryFromWkb(box(0, 0, 1, 1).wkb))
    if kind == ogr.OFTBinary:
        feature.SetFieldBinaryFromHexString("kept", value)
    elif value is not None:
        feature.SetField("kept", value)
    layer.CreateFeature(feature)


@pytest.mark.parametrize(
    "kind, subtype, value, all_at_once",
    [
        (ogr.OFTString, ogr.OFSTNone, "x", True),
        (ogr.OFTInteger, ogr.OFSTNone, 7, True),
        (ogr.OFTReal, ogr.OFSTNone, None, True),
        (ogr.OFTInteger, ogr.OFSTBoolean, 1, False),
        (ogr.OFTReal, ogr.OFSTFloat32, 0.1, False),
        (ogr.OFTString, ogr.OFSTJSON, "{}", False),
        (ogr.OFTBinary, ogr.OFSTNone, "00FF27AB", False),
        (ogr.OFTDate, ogr.OFSTNone, "2026/11/27", False),
        (ogr.OFTDateTime, ogr.OFSTNone, "2026/11/27 10:11:12+01", False),
    ],
)
def test_values_that_are_no_numbers_or_texts_are_left_to_gdal(both_ways, program, tmp_path, kind, subtype, value, all_at_once):
    kept(tmp_path, kind, subtype, value)
    for words in (("faces", "a.gpkg", "--keep-a", "kept"), ("dissolve", "a.gpkg", "--by", "kept")):
        ours, gdals, count = both_ways("out.gpkg", *words)
        assert ours == gdals and count == all_at_once


@pytest.mark.parametrize("ending", ["gpkg", "sqlite", "fgb", "shp", "geojson"])
def test_bytes_are_kept(gis, tmp_path, ending):
    """As texts of hexadecimal digits where a format has none."""
    kept(tmp_path, ogr.OFTBinary, ogr.OFSTNone, "00FF27AB")
    for words, name in ((("faces", "a.gpkg", "--keep-a", "kept"), "a_kept"), (("dissolve", "a.gpkg", "--by", "kept"), "kept")):
        answer = gis(*words, "-o", f"out.{ending}", "--overwrite")
        assert answer.status == 0, answer.err
        held = gdal.OpenEx(f"out.{ending}")
        feature = held.GetLayer(0).GetNextFeature()
        place = feature.GetFieldIndex(name)
        if ending in ("shp", "geojson"):
            assert feature.GetField(place) == "00FF27AB"
        else:
            assert bytes(feature.GetFieldAsBinary(place)) == b"\0\xff\x27\xab"
        feature = None


def in_latin(path):
    """A GeoPackage whose one text is in Latin-1."""
    kept(path.parent, ogr.OFTString, ogr.OFSTNone, "x")
    with closing(sqlite3.connect("a.gpkg")) as held, held:
        for (name,) in held.execute("select name from sqlite_master where type = 'trigger' and tbl_name = 'a'").fetchall():
            held.execute(f"drop trigger {name}")
        held.execute("update a set kept = cast(x'62fc' as text)")


WITH_FIELDS = [
    ("faces", "--keep-a", "kept"),
    ("faces", "--by", "kept"),
    ("dissolve", "--by", "kept"),
    ("run", "union", "b.gpkg", "--keep-b", "kept"),
]


@pytest.mark.parametrize("words", WITH_FIELDS, ids=lambda words: "-".join(word.strip("-") for word in words))
@pytest.mark.parametrize("name", ["a.gpkg", "a.shp"])
def test_texts_in_no_known_encoding_are_told(gis, tmp_path, words, name):
    write(tmp_path / "b.gpkg", [box(5, 5, 6, 6)], None)
    if name == "a.gpkg":
        in_latin(tmp_path / name)
    else:
        write(tmp_path / name, [box(0, 0, 1, 1)], None, {"kept": ["bü"]})  # in ISO-8859-1, as its .dbf says
        (tmp_path / "a.cpg").write_text("UTF-8")
    number = 1 if name == "a.gpkg" else 0
    answer = gis(*words[:-2], name, *words[-2:], "-o", "out.gpkg")
    told = f"overlay-gis: {name}: feature {number}: its field kept has no text in UTF-8: where it is a Shapefile, name its encoding"
    assert answer.status == 3 and answer.err.splitlines()[-1].startswith(told), answer.err
    assert not list(tmp_path.glob("*out*"))


def test_an_encoding_that_is_named_is_taken(gis, tmp_path, monkeypatch):
    write(tmp_path / "a.shp", [box(0, 0, 1, 1)], None, {"kept": ["bü"]})
    (tmp_path / "a.cpg").write_text("UTF-8")
    gdal.SetConfigOption("SHAPE_ENCODING", "ISO-8859-1")
    try:
        answer = gis("dissolve", "a.shp", "--by", "kept", "-o", "out.shp")
    finally:
        gdal.SetConfigOption("SHAPE_ENCODING", None)
    assert answer.status == 0, answer.err
    assert (tmp_path / "out.cpg").read_text() == "UTF-8" and [fields["kept"] for _, fields in read("out.shp")] == ["bü"]


def test_what_sqlite_says_is_told(gis, program, tmp_path, monkeypatch):
    write(tmp_path / "a.gpkg", [box(0, 0, 1, 1)])

    def failing(*_):
        raise sqlite3.OperationalError("database or disk is full")

    monkeypatch.setattr(geopackage, "enter", failing)
    answer = gis("dissolve", "a.gpkg", "-o", "out.gpkg")
    assert answer.status == Fault.status and not list(tmp_path.glob("*out*"))
    assert answer.err.splitlines()[-1] == "overlay-gis: out.gpkg: can't be written: database or disk is full"


def index_of(path, table):
    """For each row of a layer its least x in the index and that of its shape."""
    opened = gdal.OpenEx(str(path))
    with closing(sqlite3.connect(path)) as held:
        (name,) = held.execute("select name from sqlite_master where name like 'rtree_%_geom' and sql like '%virtual%'").fetchone()
        lows = dict(held.execute(f"select id, minx from {geopackage.quoted(name)}").fetchall())
    return [(lows[feature.GetFID()], feature.GetGeometryRef().GetEnvelope()[0]) for feature in opened.GetLayerByName(table)]


@pytest.mark.parametrize("field", ["fid", "FID", "geom", "Geom"])
@pytest.mark.parametrize("ending", ["geojson", "shp"])
def test_a_field_called_as_a_column_of_the_layer_has_another_name(both_ways, tmp_path, field, ending):
    a = write(tmp_path / f"a.{ending}", [box(x, 0, x + 10, 10) for x in (0, 100, 200)], None, {field: [3, 2, 1]})
    for words in (("dissolve", a, "--by", field), ("dissolve", a, "--by", field, "--parts")):
        ours, gdals, count = both_ways("out.gpkg", *words)
        assert ours == gdals and count == 1
        assert [fields[f"{field}_"] for _, fields in read("out.gpkg")] == [3, 2, 1]
        assert index_of("out.gpkg", "out") == [(0, 0), (100, 100), (200, 200)]


def test_kept_fields_never_take_the_place_of_a_rows_number(gis, tmp_path):
    a = write(tmp_path / "a.geojson", [box(x, 0, x + 10, 10) for x in (0, 100, 200)], None, {"fid": [3, 2, 1]})
    for words in (("faces", a, "--keep-a", "fid"), ("faces", a, "--by", "fid"), ("run", "union", a, a, "--keep-a", "fid")):
        assert gis(*words, "-o", "out.gpkg", "--overwrite").status == 0
        assert index_of("out.gpkg", "out") == [(0, 0), (100, 100), (200, 200)]
        assert [fields["a_fid"] for _, fields in read("out.gpkg")] == [3, 2, 1]


@pytest.mark.parametrize(
    "fields, names",
    [
        (["features", "features_"], ["features", "features_", "features__", "area"]),
        (["area", "features", "Area_"], ["area", "features", "Area_", "features_", "area__"]),
        (["Name", "name"], ["Name", "name_", "features", "area"]),
        (["NAME", "name", "name_"], ["NAME", "name__", "name_", "features", "area"]),
    ],
)
@pytest.mark.parametrize("out", ["out.gpkg", "out.sqlite", "out.geojson"])
def test_names_that_differ_by_case_alone_are_told_apart(gis, tmp_path, fields, names, out):
    a = write(tmp_path / "a.geojson", [box(0, 0, 10, 10)], None, {name: [k] for k, name in enumerate(fields)})
    answer = gis("dissolve", a, "--by", ",".join(fields), "-o", out)
    assert answer.status == 0, answer.err
    ((_, found),) = read(out)
    assert list(found) == (list(map(str.lower, names)) if out == "out.sqlite" else names)  # as SQLite's driver has it
