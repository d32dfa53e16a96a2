"""Layers as columns: what is read is what OGR's features have, whatever the format and the form of
their geometries."""

import json
import random
import struct
import subprocess
import sys

import numpy as np
import pytest
from osgeo import gdal, ogr

from conftest import COMMAND, EAST, NORTH, UTM, blobs, parcels, read, system, write
from overlay_gis import wkb
from overlay_gis.arrow import Batch
from overlay_gis.faults import Fault
from overlay_gis.layers import Kind, Source

FORMATS = {
    "gpkg": "GPKG",
    "shp": "ESRI Shapefile",
    "geojson": "GeoJSON",
    "fgb": "FlatGeobuf",
    "sqlite": "SQLite",
    "gml": "GML",
    "csv": "CSV",
}

X, Y = EAST, NORTH
TEXTS = [
    f"POLYGON (({X} {Y}, {X + 4} {Y}, {X + 4.5} {Y + 4}, {X} {Y}))",
    f"POLYGON (({X} {Y}, {X + 9} {Y}, {X + 9} {Y + 9}, {X} {Y}),"
    f" ({X + 5} {Y + 1}, {X + 6} {Y + 2}, {X + 7} {Y + 1}, {X + 5} {Y + 1}))",
    f"MULTIPOLYGON ((({X} {Y}, {X + 1} {Y}, {X} {Y + 1}, {X} {Y})), (({X + 5} {Y}, {X + 6} {Y}, {X + 5} {Y + 1}, {X + 5} {Y})))",
    f"POLYGON Z (({X} {Y} 7, {X + 4} {Y} 8, {X + 4} {Y + 4} 9, {X} {Y} 7))",
    f"MULTIPOLYGON Z ((({X} {Y} 1, {X + 1} {Y} 2, {X} {Y + 1} 3, {X} {Y} 1)))",
    f"MULTIPOLYGON (EMPTY, (({X} {Y}, {X + 1} {Y}, {X} {Y + 1}, {X} {Y})), EMPTY)",
    "POLYGON EMPTY",
    None,
    f"CURVEPOLYGON (CIRCULARSTRING ({X} {Y}, {X + 10} {Y}, {X} {Y}))",
    f"MULTISURFACE (CURVEPOLYGON (CIRCULARSTRING ({X} {Y}, {X + 8} {Y + 1}, {X} {Y})),"
    f" (({X} {Y}, {X + 1} {Y}, {X} {Y + 1}, {X} {Y})))",
]


def polygons_of(geometry):
    """The polygons of a geometry, by OGR's calls, each a list of rings."""
    flat = geometry.GetLinearGeometry()
    parts = [flat] if flat.GetGeometryName() == "POLYGON" else [flat.GetGeometryRef(k) for k in range(flat.GetGeometryCount())]
    rings = [[part.GetGeometryRef(k).GetPoints(2) for k in range(part.GetGeometryCount())] for part in parts]
    return [polygon for polygon in rings if polygon]


def wanted(path):
    """The numbers and polygons of a layer's features that have some, and the numbers of those that
    have none."""
    held, bare = {}, []
    # a layer is there only as long as its dataset is
    dataset = gdal.OpenEx(str(path), gdal.OF_VECTOR)
    for feature in dataset.GetLayer(0):
        geometry = feature.GetGeometryRef()
        if geometry is None or geometry.IsEmpty():
            bare.append(feature.GetFID())
        else:
            held[feature.GetFID()] = polygons_of(geometry)
    return held, bare


@pytest.mark.parametrize("ending", FORMATS)
def test_columns_are_what_the_features_have(tmp_path, ending):
    path = tmp_path / f"a.{ending}"
    kind = ogr.wkbPolygon if ending == "shp" else ogr.wkbUnknown
    options = ["GEOMETRY=AS_WKT"] if ending == "csv" else []
    dataset = gdal.GetDriverByName(FORMATS[ending]).Create(str(path), 0, 0, 0, gdal.GDT_Unknown)
    layer = dataset.CreateLayer("a", system(UTM), kind, options)
    layer.CreateField(ogr.FieldDefn("name", ogr.OFTString))
    for text in TEXTS:
        feature = ogr.Feature(layer.GetLayerDefn())
        feature["name"] = "a name, and more"
        if text and not (ending in ("shp", "geojson") and "CURVE" in text):
            feature.SetGeometry(ogr.CreateGeometryFromWkt(text))
        layer.CreateFeature(feature)
    del feature, layer, dataset
    held, bare = wanted(path)
    seen = Source(str(path)).survey()
    assert dict(zip(seen.sound.ids.tolist(), seen.sound.lists())) == held
    # FlatGeobuf leaves out bare features
    assert seen.of(Kind.BARE) == bare and seen.features == len(held) + len(bare) >= 7
    assert not seen.names and len(held) >= 5


def test_an_old_gdal_is_refused_by_name(gis, tmp_path, monkeypatch):
    path = write(tmp_path / "a.gpkg", parcels(3, 3))
    monkeypatch.delattr(ogr.Layer, "GetArrowStream")
    answer = gis("run", "union", path, path, "-o", "out.gpkg")
    assert answer.status == 1 and answer.err == (
        f"overlay-gis: GDAL {gdal.__version__}: is too old: 3.6 is the first that hands features over in batches\n"
    )


def test_a_read_that_ends_early_is_a_fault(gis, tmp_path, monkeypatch):
    path = write(tmp_path / "a.gpkg", parcels(3, 3))
    monkeypatch.setattr(ogr.Layer, "GetFeatureCount", lambda _: 40)
    answer = gis("run", "union", path, path, "-o", "out.gpkg")
    assert (answer.status, answer.err) == (1, f"overlay-gis: {path}: only 37 of 40 features could be read\n")


@pytest.mark.parametrize("count", [1, 3, 1000])
def test_batches_are_one_layer(tmp_path, monkeypatch, count):
    monkeypatch.setattr("overlay_gis.arrow.BATCH", count)
    path = write(tmp_path / "a.gpkg", parcels(3, 3) + blobs(4, 7))
    seen = Source(path).survey()
    assert dict(zip(seen.sound.ids.tolist(), seen.sound.lists())) == wanted(path)[0]


def test_a_field_of_any_name_is_no_geometry(tmp_path):
    fields = {"OGC_FID": [1, 2], "geometry": ["POINT (1 1)"] * 2, "wkb_geometry": ["x"] * 2}
    path = write(tmp_path / "a.gpkg", parcels(3, 3)[:2], fields=fields)
    seen = Source(path).survey()
    assert seen.sound.lists() == list(wanted(path)[0].values())


TWO_COLUMNS = """<OGRVRTDataSource><OGRVRTLayer name="a"><SrcDataSource>a.csv</SrcDataSource>
<GeometryField name="now" encoding="WKT" field="one"/><GeometryField name="before" encoding="WKT" field="two"/>
</OGRVRTLayer></OGRVRTDataSource>"""


@pytest.mark.parametrize("words, status", [(("dissolve",), 0), (("check",), 4)], ids=lambda words: str(words))
def test_a_second_column_of_geometries_is_told(gis, tmp_path, words, status):
    """The first one is taken: a square and an overlap with it of a half."""
    squares = [f'"POLYGON (({x} 0,{x + 4} 0,{x + 4} 4,{x} 4,{x} 0))"' for x in (0, 2, 100)]
    (tmp_path / "a.csv").write_text(f"one,two\n{squares[0]},{squares[2]}\n{squares[1]},{squares[2]}\n")
    (tmp_path / "a.vrt").write_text(TWO_COLUMNS)
    answer = gis(*words, "a.vrt", "-o", "out.gpkg")
    assert answer.status == status, answer.err
    assert "a.vrt: warning: has several columns of geometries, of which now is taken, and not before\n" in answer.err
    assert [shape.area for shape, _ in read("out.gpkg")] == [24 if words == ("dissolve",) else 8]


def test_geometries_that_a_virtual_layer_makes_of_fields(gis, tmp_path):
    """Beside numbers of 64 bits, bytes and texts, none of which is taken for them."""
    (tmp_path / "a.csv").write_text('number,text,shape\n4611686018427387905,x,"POLYGON ((0 0,4 0,4 4,0 4,0 0))"\n')
    fields = '<Field name="raw" src="text" type="Binary"/><Field name="number" type="Integer64"/><Field name="shape"/>'
    (tmp_path / "a.vrt").write_text(
        '<OGRVRTDataSource><OGRVRTLayer name="a"><SrcDataSource>a.csv</SrcDataSource>'
        f'<GeometryField encoding="WKT" field="shape"/>{fields}</OGRVRTLayer></OGRVRTDataSource>'
    )
    answer = gis("faces", "a.vrt", "-o", "out.gpkg", "--keep-a", "number")
    assert answer.status == 0, answer.err
    assert [(shape.area, row["a"], row["a_number"]) for shape, row in read("out.gpkg")] == [(16, "1", 4611686018427387905)]


def test_a_layer_without_geometries(tmp_path):
    (tmp_path / "a.csv").write_text("name,use\nx,1\ny,2\n")
    seen = Source(str(tmp_path / "a.csv")).survey()
    assert len(seen.of(Kind.BARE)) == 2 and not len(seen.sound.ids)


RING = [(1.0, 2.0), (3.5, -4.0), (5.0, 6.0), (1.0, 2.0)]


def blob(order, kind, dimensions):
    """A polygon of two rings in WKB."""
    points = [(*point, *(9.0 for _ in range(dimensions - 2))) for point in RING]
    ring = struct.pack(order + "I", len(RING)) + b"".join(struct.pack(f"{order}{dimensions}d", *point) for point in points)
    return struct.pack(order + "BII", order == "<", kind, 2) + ring + ring


def batch_of(*blobs):
    ends = np.cumsum([len(held) for held in blobs])
    starts = np.concatenate(([0], ends[:-1]))
    return Batch(np.arange(len(blobs)), np.frombuffer(b"".join(blobs), np.uint8), starts, ends)


def refused(batch, k):
    raise Fault("a", f"feature {k}")


FORMS = [("", 3, 2), (" Z", 1003, 3), (" M", 2003, 3), (" ZM", 3003, 4)]
FORMS += [(" Z by a bit", 0x80000003, 3), (" M by a bit", 0x40000003, 3), (" ZM by bits", 0xC0000003, 4)]


@pytest.mark.parametrize("order", "<>")
@pytest.mark.parametrize("name, kind, dimensions", FORMS)
def test_all_forms_of_a_polygon(order, name, kind, dimensions):
    held = blob(order, kind, dimensions)
    plain = blob("<", 3, 2)
    many = struct.pack(order + "BII", order == "<", kind + 3, 2) + held + plain
    columns = wkb.Decoder(batch_of(held, plain, many, held), refused).columns()
    polygon = [RING, RING]
    assert columns.lists() == [[polygon], [polygon], [polygon, polygon], [polygon]]


def test_what_is_not_whole_is_left_to_gdal():
    whole = blob("<", 3, 2)
    many = struct.pack("<BII", 1, 6, 3) + whole + whole
    rng, asked = random.Random(5), []
    single = whole[:5] + struct.pack("<I", 1) + whole[9 : 9 + (len(whole) - 9) // 2]
    spoiled = [held[:k] for held in (whole, single) for k in range(1, len(held))] + [many]
    spoiled += [single[:9] + struct.pack("<I", count) + single[13:] for count in (5, 0xFFFFFFFF)]
    spoiled += [whole[:5] + struct.pack("<I", count) + whole[9:] for count in (3, 1 << 20, 0xFFFFFFFF)]
    spoiled += [whole[:9] + struct.pack("<I", count) + whole[13:] for count in (1 << 20, 0xFFFFFFFF)]
    spoiled += [bytes([2]) + whole[1:], bytes([0]) + whole[1:], whole[:1] + struct.pack("<I", 9) + whole[5:]]
    rng.shuffle(spoiled)
    decoder = wkb.Decoder(batch_of(*spoiled), lambda _, k: asked.append(k))
    assert asked == decoder.strange == list(range(len(spoiled)))
    assert decoder.columns().lists() == [[]] * len(spoiled)


def spoil(path, bytes_before, at, put):
    """Writes some bytes into a file, so far behind the first place of others."""
    with open(path, "r+b") as file:
        file.seek(file.read().index(bytes_before) + at)
        file.write(put)


@pytest.mark.parametrize("at, put", [(9, struct.pack("<I", 1 << 28)), (1, b"\x63"), (-40, b"XX")])
def test_a_geometry_that_cannot_be_read_is_a_fault(gis, tmp_path, at, put):
    path = write(tmp_path / "a.gpkg", parcels(3, 3))
    spoil(path, struct.pack("<BIII", 1, 3, 1, 5), at, put)
    for words in (("run", "union", path, path, "-o", "out.gpkg"), ("check", path)):
        answer = gis(*words)
        assert answer.status == 1 and answer.out == "" and answer.err.count("\n") == 1
        assert answer.err.startswith(f"overlay-gis: {path}: ")


@pytest.mark.parametrize("ending", ["gpkg", "fgb", "geojson", "shp"])
def test_a_layer_without_features_ends(tmp_path, ending):
    path = write(tmp_path / f"a.{ending}", [])
    done = subprocess.run([sys.executable, COMMAND, "check", path], capture_output=True, text=True, timeout=600, check=False)
    assert done.returncode == 4 and done.stdout.startswith(f"{path}: the layer has no features\n")


def test_polygons_without_points_are_left_out(tmp_path):
    whole, none, empty = blob("<", 3, 2), struct.pack("<BII", 1, 3, 0), struct.pack("<BIII", 1, 3, 1, 0)
    many = struct.pack("<BII", 1, 6, 4) + none + whole + empty + whole
    source = Source(write(tmp_path / "a.gpkg", []))
    seen = source.looked_at(batch_of(many, none, whole, empty, struct.pack("<BII", 1, 6, 0)))
    assert seen.sound.lists() == [[[RING, RING]] * 2, [[RING, RING]]]
    assert seen.sound.ids.tolist() == [0, 2] and seen.of(Kind.BARE) == [1, 3, 4]


def test_columns_come_back_from_wkb():
    geometries = [blob("<", 3, 2) for _ in range(3)]
    columns = wkb.Decoder(batch_of(*geometries), refused).columns()
    for geometry in wkb.encoded(columns):
        assert geometry == geometries[0]
    again = wkb.Decoder(batch_of(wkb.collected(list(wkb.encoded(columns)))), refused)
    assert again.columns().lists() == [[[RING, RING]] * 3]


def test_a_field_that_is_there_twice_is_not_taken_for_one(gis, tmp_path):
    (tmp_path / "a.csv").write_text('WKT,n,n,N\n"POLYGON ((0 0, 1 0, 1 1, 0 1, 0 0))",1,2,3\n')
    answer = gis("dissolve", "a.csv", "--by", "n", "-o", "out.gpkg")
    assert answer.status == 3 and answer.err == "overlay-gis: a.csv: has several fields n, of which none can be named alone\n"
    assert gis("dissolve", "a.csv", "--by", "N", "-o", "out.gpkg").status == 0
    assert [fields["N"] for _, fields in read("out.gpkg")] == ["3"]


# Values of a field in GeoJSON that GDAL takes for others, some that it has as they are, and how the
# refusal tells them; in lines of GeoJSON it has the first three alone.
JSON_OTHERS = [
    (12345678901234567890, 9223372036854775806, "9223372036854775807 or beyond"),
    (-(2**64), -5, "-9223372036854775808 or beyond"),
    ([1, 2**64], [1, 2], "9223372036854775807 or beyond"),
    ({"a": 2**64}, {"a": 1}, "9223372036854775807 or beyond"),
    ("2020-01-02T03:04:05.123456", "2020-01-02T03:04:05.123000", "2020-01-02T03:04:05.123456"),
    ("2020-01-02T03:04:05.0001Z", "2020-01-02T03:04:05.001Z", "2020-01-02T03:04:05.0001Z"),
    ("03:04:05.123456", "03:04:05.5", "03:04:05.123456"),
]


@pytest.mark.parametrize("another, same, told, ending", [*((*case, "geojson") for case in JSON_OTHERS), *((*case, "geojsonl") for case in JSON_OTHERS[:3])])
def test_values_that_gdal_takes_for_others_are_refused_before_any_work(gis, tmp_path, monkeypatch, another, same, told, ending):
    corners = [[0, 0], [1, 0], [1, 1], [0, 1], [0, 0]]
    shape = {"type": "Polygon", "coordinates": [corners]}

    def put(value):
        features = [{"type": "Feature", "properties": {"kept": held, "plain": 1}, "geometry": shape} for held in (same, None, value)]
        whole = json.dumps({"type": "FeatureCollection", "features": features})
        (tmp_path / f"a.{ending}").write_text(whole if ending == "geojson" else "".join(json.dumps(one) + "\n" for one in features))

    put(same)
    assert gis("dissolve", f"a.{ending}", "--by", "kept", "-o", "out.gpkg", "--overwrite").status == 0
    put(another)
    assert gis("dissolve", f"a.{ending}", "--by", "plain", "-o", "out.gpkg", "--overwrite").status == 0
    monkeypatch.setattr(Source, "survey", lambda *_: pytest.fail("a layer is read"))
    answer = gis("faces", f"a.{ending}", "--keep-a", "kept", "-o", "out.gpkg", "--overwrite")
    assert answer.status == 3 and f"a.{ending}: the field kept has values, as {told}, that GDAL takes for others: " in answer.err, answer.err


@pytest.mark.parametrize("ending", ["gpkg", "shp", "geojson"])
def test_a_layer_that_is_changed_between_two_reads_is_told(gis, tmp_path, monkeypatch, ending):
    """Its fields would be those of other shapes."""
    shapes = [ogr.CreateGeometryFromWkt(words) for words in TEXTS[:2]]
    path = tmp_path / f"a.{ending}"
    write(path, shapes, fields={"n": [1, 2]})
    assert gis("faces", path, "-o", "out.gpkg", "--keep-a", "n").status == 0
    values = Source.values

    def between(*held):
        dataset = gdal.OpenEx(str(path), gdal.OF_VECTOR | gdal.OF_UPDATE)
        layer = dataset.GetLayer(0)
        for feature, number in zip(list(layer), (2, 1)):
            feature["n"] = number
            layer.SetFeature(feature)
        del layer, dataset
        return values(*held)

    monkeypatch.setattr(Source, "values", between)
    answer = gis("faces", path, "-o", "other.gpkg", "--keep-a", "n")
    assert answer.status == 1 and answer.err.endswith(f"a.{ending}: was changed while it was read\n"), answer.err
    assert not (tmp_path / "other.gpkg").exists()
