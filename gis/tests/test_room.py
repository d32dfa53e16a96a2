"""Values and names for which a format has no room: none is cut, rounded or left out silently."""

import json
from array import array

import pytest
from osgeo import ogr
from shapely.geometry import box

from conftest import EAST, NORTH, read, write
from overlay_gis import destination, output, read_back
from overlay_gis.layers import Source


def layer(path, *rows, apart=10):
    """A layer of a square for each row of fields, so far from one another."""
    corners = [[0, 0], [1, 0], [1, 1], [0, 1], [0, 0]]
    features = [
        {
            "type": "Feature",
            "properties": fields,
            "geometry": {"type": "Polygon", "coordinates": [[[x + apart * k, y] for x, y in corners]]},
        }
        for k, fields in enumerate(rows)
    ]
    path.write_text(json.dumps({"type": "FeatureCollection", "features": features}))
    return str(path)


def dissolved(gis, path, out, by="kept"):
    return gis("dissolve", path, "--by", by, "-o", out, "--overwrite")


# A corner of each digit that the grid has, in a metric system and in degrees.
PLACES = [("EPSG:25832", "0.001", (412000.123, 5654000.457)), ("EPSG:2056", "0.0001", (2600000.1237, 1200000.4571)), ("EPSG:4258", "0.0000001", (7.1234567, 50.7654321))]


@pytest.mark.parametrize("ending", ["tab", "mif", "gdb", "gml", "shp", "fgb", "geojson", "sqlite"])
@pytest.mark.parametrize("srs, unit, corner", PLACES, ids=[srs for srs, _, _ in PLACES])
def test_corners_come_out_where_they_were(gis, tmp_path, ending, srs, unit, corner):
    """A file of MapInfo has whole numbers between bounds, of which GDAL's own are centimetres."""
    x, y = corner
    a = write(tmp_path / "a.gpkg", [box(x, y, x + 7 * float(unit), y + 3 * float(unit)), box(x + 1, y + 1, x + 2, y + 2)], srs)
    answer = gis("run", "union", a, a, "-o", f"out.{ending}", "--grid", unit)
    assert answer.status == 0, answer.err
    found = min(shape.bounds for shape, _ in read(f"out.{ending}"))
    assert found == pytest.approx((x, y, x + 7 * float(unit), y + 3 * float(unit)), abs=float(unit) / 100, rel=0)


@pytest.mark.parametrize("srs, ending, told", [
    ("EPSG:31467", "tab", "unnamed, and was EPSG:31467"),
    ("EPSG:25832", "xml", "Transverse Mercator Earth, and was EPSG:25832"),
    (None, "geojson", "EPSG:4326, and was no reference system"),
    *[(None, ending, None) for ending in ("xml", "tab", "gpkg", "shp", "fgb")],
    *[(srs, ending, None) for srs in ("EPSG:25832", "EPSG:2056", "EPSG:4326") for ending in ("gpkg", "shp", "geojson", "fgb", "gml", "sqlite")],
])
def test_a_system_that_a_format_has_no_room_for_is_told(gis, tmp_path, srs, ending, told):
    corner = (7, 50) if srs == "EPSG:4326" else (2600000, 1200000)
    a = write(tmp_path / "a.gpkg", [box(*corner, corner[0] + 1, corner[1] + 1)], srs)
    answer = gis("run", "union", a, a, "-o", f"out.{ending}")
    assert answer.status == 0, answer.err
    warning = "warning: its reference system comes out as "
    assert f"out.{ending}: {warning}{told}" in answer.err if told else warning not in answer.err, answer.err


NO_LAYERS = {
    "csv": "a file of this format keeps no shapes",
    "xlsx": "a file of this format keeps no shapes",
    **dict.fromkeys(("dxf", "dgn", "mvt", "sql", "map", "txt", "ili", "xtf", "pix", "pdf"), "a file of this format keeps no polygons with fields, as one of .gpkg does: "),
}


@pytest.mark.parametrize("ending, told", NO_LAYERS.items())
def test_a_format_without_layers_is_refused_before_any_work(gis, tmp_path, monkeypatch, ending, told):
    a = write(tmp_path / "a.gpkg", [box(EAST, NORTH, EAST + 1, NORTH + 1)])
    monkeypatch.setattr(Source, "survey", lambda *_: pytest.fail("a layer is read"))
    answer = gis("run", "union", a, a, "-o", f"out.{ending}")
    assert answer.status == 3 and answer.err.startswith(f"overlay-gis: out.{ending}: {told}"), answer.err
    assert len(answer.err.splitlines()) == 1 and not list(tmp_path.glob("out*"))


def test_shapes_that_come_out_elsewhere_are_told(gis, tmp_path, monkeypatch):
    a = write(tmp_path / "a.gpkg", [box(EAST, NORTH, EAST + 1, NORTH + 1), box(EAST + 2.003, NORTH, EAST + 3, NORTH + 1)])
    monkeypatch.setattr(output, "bounds", lambda *_: ())
    answer = gis("run", "union", a, a, "-o", "out.tab")
    assert answer.status == 3 and "0.01 from its place" in answer.err, answer.err  # as two squares tell before
    monkeypatch.setattr(destination, "refuse_without_layers", lambda *_: None)
    answer = gis("run", "union", a, a, "-o", "out.tab")
    told = "from its place: a GeoPackage, whose name ends in .gpkg, has room for it"
    assert answer.status == 1 and "out.tab: the shape in row number " in answer.err and told in answer.err, answer.err
    assert not list(tmp_path.glob("out*"))


def test_shapes_are_compared_however_a_driver_has_put_the_rows():
    source = ogr.GetDriverByName("Memory").CreateDataSource("")
    layer = source.CreateLayer("a")
    for shape in (box(0, 0, 1, 1), box(5, 5, 6, 6), None):
        feature = ogr.Feature(layer.GetLayerDefn())
        feature.SetGeometry(ogr.CreateGeometryFromWkb(shape.wkb) if shape else None)
        layer.CreateFeature(feature)
    none, first, second = [float("nan")] * 4, [0, 1, 0, 1], [5, 6, 5, 6]

    def told(*rows):
        boxes = array("d", [side for row in rows for side in row])
        return read_back.shape_difference(layer, read_back.Written(len(rows), boxes=boxes), 1.0)

    assert told(first, second, none) is None and told(none, first, second) is None
    assert told(first, [5, 6, 5, 6.009], none) is None
    assert told(first, [5, 6, 5, 6.25], none) == "the shape in row number 2 comes out 0.25 from its place"
    assert told(first, second, first) == "the shape in row number 3 comes out as nothing"


# What a file of each ending has no room for, and how that is told.
TOO_MUCH = [
    ("shp", "x" * 255, "a text of 255 signs comes out as a text of 254 signs"),
    ("shp", "é" * 200, "a text of 200 signs comes out as a text of 127 signs"),
    ("tab", "x" * 255, "a text of 255 signs comes out as a text of 254 signs"),
    ("shp", 2**62 + 1, "4611686018427387905 comes out as 4.611686018427388e+18"),
    ("tab", 2**53 + 1, "9007199254740993 comes out as"),
    ("shp", 3.21e-14, "3.21e-14 comes out as 3.2e-14"),
    ("shp", 1e300, "1e+300 comes out as"),
]


@pytest.mark.parametrize("ending, value, told", TOO_MUCH)
def test_what_does_not_fit_is_told(gis, tmp_path, ending, value, told):
    """And nothing is written."""
    nothing = {str: "", int: 0, float: 0.5}[type(value)]
    a = layer(tmp_path / "a.geojson", {"kept": nothing}, {"kept": value})
    answer = dissolved(gis, a, f"out.{ending}")
    assert answer.status == 1
    last = answer.err.splitlines()[-1]
    assert last.startswith(f"overlay-gis: out.{ending}: field kept in row number 2: {told}"), answer.err
    assert last.endswith(": a GeoPackage, whose name ends in .gpkg, has room for it")
    assert not list(tmp_path.glob("out*"))
    assert dissolved(gis, a, "out.gpkg").status == 0
    assert [fields["kept"] for _, fields in read("out.gpkg")] == [nothing, value]


FITTING = ["", "x" * 254, "Łąka Ж é 中", 2**53 + 1, -(2**40), 0.1, 123456789.12345678, "2026-11-27", "007", "\"'<&,;"]


@pytest.mark.parametrize("value", FITTING, ids=lambda value: str(value)[:12])
@pytest.mark.parametrize("ending", ["shp", "geojson", "fgb", "sqlite"])
def test_what_fits_comes_out_as_it_was(gis, tmp_path, ending, value):
    a = layer(tmp_path / "a.geojson", {"kept": value}, {"kept": None}, {"kept": value})
    answer = dissolved(gis, a, f"out.{ending}")
    assert answer.status == 0 and "warning" not in answer.err, answer.err
    found = {fields["kept"] for _, fields in read(f"out.{ending}")}
    wanted = {value, None} - ({""} if ending == "shp" else set())
    if value == "2026-11-27":  # which GDAL reads as a date
        assert {str(day).replace("-", "/")[:10] for day in found} == {"2026/11/27", "None"}
    else:
        assert found == wanted


def test_features_that_are_many_do_not_end_within_a_number(gis, tmp_path):
    """A Shapefile's texts have 254 bytes at most."""
    for count, status in ((80, 0), (120, 1)):
        corners = [[0, 0], [1, 0], [1, 1], [0, 1], [0, 0]]
        shape = {"type": "Polygon", "coordinates": [corners]}
        features = [{"type": "Feature", "properties": {}, "geometry": shape}] * count
        (tmp_path / "a.geojson").write_text(json.dumps({"type": "FeatureCollection", "features": features}))
        answer = gis("faces", "a.geojson", "-o", f"out{count}.shp")
        assert answer.status == status, answer.err
    assert "out120.shp: field a in row number 1: a text of 369 signs comes out as a text of 254 signs" in answer.err


def test_a_time_is_kept_as_a_text_where_a_format_has_dates_alone(gis, tmp_path):
    a = layer(tmp_path / "a.geojson", {"kept": "2026-11-27T10:11:12+01:00"}, {"kept": None})
    assert dissolved(gis, a, "out.shp").status == 0
    assert [fields["kept"] for _, fields in read("out.shp")] == ["2026/11/27 10:11:12+01", None]
    answer = dissolved(gis, a, "out.tab")
    assert answer.status == 1 and "out.tab: field kept in row number 1: 2026/11/27 10:11:12+01 comes out as" in answer.err


def test_a_name_that_is_shortened_is_told(gis, tmp_path):
    a = layer(tmp_path / "a.geojson", {"measured_height": 1, "measured_height_above": 2, "fid": 3})
    answer = dissolved(gis, a, "out.shp", "measured_height,measured_height_above,fid")
    assert answer.status == 0
    assert "out.shp: warning: the field measured_height is called measured_h there" in answer.err
    assert "out.shp: warning: the field measured_height_above is called measured_1 there" in answer.err
    assert answer.err.count("warning") == 2
    ((_, fields),) = read("out.shp")
    assert fields == {"measured_h": 1, "measured_1": 2, "fid": 3, "features": 1, "area": 1.0}
    assert "out.gpkg: warning: the field fid is called fid_ there" in dissolved(gis, a, "out.gpkg", "fid").err


def test_last_digits_and_blanks_that_go_are_told(gis, tmp_path):
    a = layer(tmp_path / "a.geojson", {"share": 0.5, "name": "a "}, {"share": 1 / 3, "name": "b"})
    answer = dissolved(gis, a, "out.shp", "share,name")
    assert answer.status == 0
    told = [line for line in answer.err.splitlines() if "warning" in line]
    assert told == [
        "overlay-gis: out.shp: warning: field share in row number 2: 0.3333333333333333 comes out as 0.333333333333333",
        "overlay-gis: out.shp: warning: field name in row number 1: a  comes out as a",
    ]


@pytest.mark.parametrize("value", ["2026-11-27", "2026-11-27T10:11:12", "[1,2]", '{"a":1}', "(2:x,y)", "[x]", "{", "true"])
@pytest.mark.parametrize("ending", ["geojson", "shp", "fgb", "sqlite", "gml", "tab"])
def test_a_text_that_looks_like_something_else_is_no_fault(gis, tmp_path, ending, value):
    """As GeoJSON's driver reads dates, and writes JSON as what it says."""
    write(tmp_path / "a.gpkg", [box(0, 0, 1, 1), box(2, 2, 3, 3)], "EPSG:4326", {"kept": [value, "x"]})
    answer = dissolved(gis, "a.gpkg", f"out.{ending}")
    assert answer.status == 0 and "warning" not in answer.err, answer.err


LISTS = {"tags": ["x", "y, z", "é"], "lots": [1, 2**40], "ids": [1, 2], "shares": [0.5, 1.25, 1 / 3]}


@pytest.mark.parametrize("ending", ["geojson", "sqlite", "gpkg", "shp", "fgb"])
@pytest.mark.parametrize("words, mark", [(("faces", "--keep-a"), "a_"), (("dissolve", "--by"), ""), (("run", "union", "--keep-a"), "a_")])
def test_lists_are_kept(gis, tmp_path, ending, words, mark):
    """As texts of JSON where a format has no lists."""
    b = layer(tmp_path / "b.geojson", LISTS, {**LISTS, "tags": []})
    *verb, option = words
    answer = gis(*verb, b, *([b] if verb[0] == "run" else []), option, "tags,lots,ids,shares", "-o", f"out.{ending}")
    assert answer.status == 0, answer.err
    for _, fields in read(f"out.{ending}"):
        for name in ("tags", "lots", "ids", "shares"):
            value = fields[mark + name]
            if ending not in ("geojson", "sqlite") and value is not None:
                value = json.loads(value)
            assert value == LISTS[name] or (name, value or []) == ("tags", [])


def written(kind, *values):
    held = ogr.FieldDefn("kept", kind)
    return read_back.Written(len(values), [held], [(value,) for value in values])


def held(kind, *values):
    """A layer of the memory that has these values."""
    dataset = ogr.GetDriverByName("Memory").CreateDataSource("")
    made = dataset.CreateLayer("a")
    made.CreateField(ogr.FieldDefn("kept", kind))
    for value in values:
        feature = ogr.Feature(made.GetLayerDefn())
        if value is not None:
            feature.SetField(0, value)
        made.CreateFeature(feature)
    return dataset, made


@pytest.mark.parametrize(
    "kinds, wanted, found, row",
    [
        ((ogr.OFTString, ogr.OFTString), ("a", "b", "a"), ("b", "a", "a"), None),
        ((ogr.OFTString, ogr.OFTString), ("a", "b", "a"), ("b", "a", "b"), 1),
        ((ogr.OFTInteger64, ogr.OFTString), (1, None, 3), ("1", "", "3"), None),
        ((ogr.OFTInteger64, ogr.OFTString), (1, None, 3), ("1", "", "4"), 3),
        ((ogr.OFTDateTime, ogr.OFTDateTime), ("2026/11/27 10:11:12+01",), ("2026/11/27 09:11:12+00",), None),
        ((ogr.OFTDateTime, ogr.OFTDateTime), ("2026/11/27 00:11:12+01",), ("2026/11/26 23:11:12+00",), None),
        ((ogr.OFTDateTime, ogr.OFTString), ("2026/11/27 10:11:12.5",), ("2026-11-27T10:11:12.5",), None),
        ((ogr.OFTDateTime, ogr.OFTDate), ("2026/11/27 10:11:12",), ("2026/11/27",), 1),
        ((ogr.OFTDateTime, ogr.OFTDate), ("2026/11/27 00:00:00",), ("2026/11/27",), None),
    ],
)
def test_values_are_compared_as_what_they_are(kinds, wanted, found, row):
    """Also where a driver put rows in another order, as that of FlatGeobuf does."""
    dataset, there = held(kinds[1], *found)
    told = list(read_back.differences(there, written(kinds[0], *wanted)))
    assert [difference.row for difference in told] == ([row] if row else [])
    assert dataset



def narrow(tmp_path):
    """A virtual layer whose fields have less room than their values take: such widths bind nobody."""
    layer(tmp_path / "wide.geojson", {"t": "abcdefgh", "r": 1.25625, "n": 12345, "d": 99.5})
    fields = '<Field name="t" type="String" width="3"/><Field name="r" type="Real" width="6" precision="2"/>'
    fields += '<Field name="n" type="Integer" width="2"/><Field name="d" type="Real" width="6" precision="2"/>'
    source = f"<SrcDataSource>{tmp_path / 'wide.geojson'}</SrcDataSource><SrcLayer>wide</SrcLayer>"
    (tmp_path / "a.vrt").write_text(f'<OGRVRTDataSource><OGRVRTLayer name="a">{source}{fields}</OGRVRTLayer></OGRVRTDataSource>')
    return str(tmp_path / "a.vrt")


@pytest.mark.parametrize("words", [("dissolve", "--by"), ("faces", "--by"), ("faces", "--keep-a")])
@pytest.mark.parametrize("ending", ["gpkg", "shp", "fgb", "tab", "gml"])
def test_a_width_that_is_none_is_not_taken_over(gis, tmp_path, ending, words):
    answer = gis(words[0], narrow(tmp_path), words[1], "t,r,n,d", "-o", f"out.{ending}")
    assert answer.status == 0, answer.err
    ((_, found),) = read(f"out.{ending}")
    mark = "" if words[0] == "dissolve" else "a_"
    assert [found[mark + name] for name in "trnd"] == ["abcdefgh", 1.25625, 12345, 99.5]


@pytest.mark.parametrize("ending, value", [("gpkg", None), ("sqlite", None), ("geojson", None), ("shp", "nan"), ("fgb", "nan"), ("gml", "nan")])
@pytest.mark.parametrize("words", [("faces", "--keep-a", "v"), ("dissolve", "--by", "v"), ("dissolve", "--parts", "--by", "v,day")])
def test_no_number_that_becomes_no_value_is_told(gis, tmp_path, ending, value, words):
    name = "a_v" if words[0] == "faces" else "v"
    shapes = [box(EAST + 20 * k, NORTH, EAST + 20 * k + 10, NORTH + 10) for k in range(3)]
    a = write(tmp_path / "a.fgb", shapes, fields={"v": [1.5, float("nan"), 2.5], "day": ["x", "y", "z"]})
    answer = gis(words[0], a, *words[1:], "-o", f"out.{ending}")
    assert answer.status == 0, answer.err
    shown = {1.5: "1.5", 2.5: "2.5", None: None}
    found = [shown.get(row[name], "nan") for _, row in read(f"out.{ending}")]
    row = found.index(value) + 1
    assert sorted(map(str, found)) == sorted(["1.5", "2.5", str(value)])
    told = f"out.{ending}: warning: field {name} in row number {row}: nan comes out as nothing\n"
    assert (told in answer.err) == (value is None) and ("nothing" in answer.err) == (value is None), answer.err


def test_lists_of_several_features_are_told_as_json(gis, tmp_path):
    a = layer(tmp_path / "a.geojson", {"tags": ["x"]}, {"tags": ["y", "z"]}, apart=0)
    assert gis("faces", a, "-o", "out.gpkg", "--keep-a", "tags").status == 0
    assert [fields["a_tags"] for _, fields in read("out.gpkg")] == ['["x"],["y", "z"]']
