"""faces: Shapely judges which features cover a row, and every area is accounted for."""

import random
from collections import defaultdict
from itertools import combinations

import pytest
from osgeo import gdal, ogr
from shapely.geometry import MultiPolygon, Point, Polygon, box
from shapely.ops import polygonize, unary_union

from conftest import EAST, NORTH, blobs, parcels, read, write


def ids(words):
    return [int(word) for word in words.split(",")] if words else []


def rows_of(gis, tmp_path, layers, unit, *words):
    """The rows of some layers, which are lists of shapes."""
    paths = [write(tmp_path / f"{name}.gpkg", shapes) for name, shapes in zip("abcdefg", layers)]
    answer = gis("faces", *paths, "-o", "faces.gpkg", "--grid", unit, "--overwrite", *words)
    assert answer.status == 0, answer.err
    return read("faces.gpkg")


def faces_of(gis, tmp_path, first, second, unit, *words):
    return rows_of(gis, tmp_path, [first, second], unit, *words)


@pytest.mark.parametrize("digits, unit", [(3, "0.001"), (2, "0.01"), (7, "0.01"), (7, "0.5"), (7, "2")])
def test_areas_are_conserved_and_every_face_has_an_answer(gis, tmp_path, digits, unit):
    first, second, size = parcels(61, digits), blobs(62, digits), float(unit)
    faces = faces_of(gis, tmp_path, first, second, unit)
    sums = {"a": defaultdict(float), "b": defaultdict(float)}
    for shape, fields in faces:
        assert shape.is_valid
        assert fields["area"] == pytest.approx(shape.area, rel=1e-6, abs=1e-9)
        assert fields["a"] or fields["b"]
        for name, total in sums.items():
            for number in ids(fields[name]):
                total[number] += fields["area"]
    for name, layer in (("a", first), ("b", second)):
        for number, shape in enumerate(layer, 1):
            assert abs(sums[name][number] - shape.area) <= 1.42 * size * shape.length
    assert sum(sums["a"].values()) == pytest.approx(sum(fields["area"] for _, fields in faces if fields["a"]))
    covered = unary_union([shape for shape, _ in faces]).area
    assert sum(fields["area"] for _, fields in faces) == pytest.approx(covered)


@pytest.mark.parametrize("digits, unit", [(3, "0.001"), (7, "0.01"), (7, "0.5")])
def test_a_face_lies_in_what_covers_it(gis, tmp_path, digits, unit):
    first, second = parcels(71, digits), blobs(72, digits)
    judged = 0
    for shape, fields in faces_of(gis, tmp_path, first, second, unit):
        inside = shape.representative_point()
        for name, layer in (("a", first), ("b", second)):
            if all(part.boundary.distance(inside) > 1.42 * float(unit) for part in layer):
                assert ids(fields[name]) == [number for number, part in enumerate(layer, 1) if part.contains(inside)]
                judged += 1
    assert judged > 40


def test_intersections_have_the_areas_that_shapely_finds(gis, tmp_path):
    first, second = parcels(81, 3), blobs(82, 3)
    found = defaultdict(float)
    for _, fields in faces_of(gis, tmp_path, first, second, "0.001"):
        for one in ids(fields["a"]):
            for other in ids(fields["b"]):
                found[one, other] += fields["area"]
    for k, one in enumerate(first, 1):
        for n, other in enumerate(second, 1):
            assert found[k, n] == pytest.approx(one.intersection(other).area, abs=0.00071 * (one.length + other.length))


def test_fields_are_kept(gis, tmp_path):
    first = [box(EAST, NORTH, EAST + 10, NORTH + 10), box(EAST + 10, NORTH, EAST + 20, NORTH + 10)]
    second = [box(EAST + 5, NORTH, EAST + 15, NORTH + 5)]
    a = write(
        tmp_path / "a.gpkg", first, fields={"number": [7, 8], "owner": ["Ada", "Grace, née Øst"], "share": [0.25, 1.5]}
    )
    b = write(tmp_path / "b.shp", second, fields={"zone": ["park"]})
    assert gis("faces", a, b, "-o", "faces.gpkg", "--keep-a", "number,owner,share", "--keep-b", "zone").status == 0
    found = sorted(
        (fields["area"], fields["a_number"], fields["a_owner"], fields["a_share"], fields["b_zone"])
        for _, fields in read("faces.gpkg")
    )
    wanted = [
        (25.0, 7, "Ada", 0.25, "park"),
        (25.0, 8, "Grace, née Øst", 1.5, "park"),
        (75.0, 7, "Ada", 0.25, None),
        (75.0, 8, "Grace, née Øst", 1.5, None),
    ]
    assert sorted(found, key=str) == sorted(wanted, key=str)


def test_features_that_overlap_are_all_told(gis, tmp_path):
    first = [box(EAST, NORTH, EAST + 10, NORTH + 10), box(EAST + 5, NORTH, EAST + 15, NORTH + 10)]
    a = write(tmp_path / "a.gpkg", first, fields={"number": [7, 8]})
    answer = gis("faces", a, write(tmp_path / "b.gpkg", []), "-o", "faces.gpkg", "--keep-a", "number")
    assert answer.status == 0
    assert sorted(
        (fields["a"], fields["b"], fields["area"], fields["a_number"]) for _, fields in read("faces.gpkg")
    ) == [
        ("1", None, 50.0, "7"),
        ("1,2", None, 50.0, "7,8"),
        ("2", None, 50.0, "8"),
    ]


def test_a_hole_is_no_face_and_an_island_in_it_is(gis, tmp_path):
    ring = box(EAST, NORTH, EAST + 9, NORTH + 9).difference(box(EAST + 1, NORTH + 1, EAST + 8, NORTH + 8))
    island = box(EAST + 3, NORTH + 3, EAST + 4, NORTH + 4)
    faces = faces_of(gis, tmp_path, [ring], [island], "0.001")
    assert sorted((fields["area"], fields["a"], fields["b"]) for _, fields in faces) == [
        (1.0, None, "1"),
        (32.0, "1", None),
    ]


def test_layers_without_features(gis, tmp_path):
    assert faces_of(gis, tmp_path, [], [], "0.001") == []


def test_an_unknown_field_is_refused(gis, tmp_path):
    a = write(tmp_path / "a.gpkg", [box(EAST, NORTH, EAST + 1, NORTH + 1)], fields={"number": [7]})
    answer = gis("faces", a, a, "-o", "faces.gpkg", "--keep-a", "nummer")
    assert answer.status == 3 and "a.gpkg: has no field nummer, but number" in answer.err


def sets_of(faces, names):
    """The area of each set of features, by the names of their layers and their numbers."""
    found = defaultdict(float)
    for _, fields in faces:
        found[tuple((name, number) for name in names for number in ids(fields[name]))] += fields["area"]
    return dict(found)


def sets_by_shapely(layers, names):
    """The same by the faces of all borders as GEOS finds them, each with a point inside that tells
    its features."""
    features = [(name, number, shape) for name, layer in zip(names, layers) for number, shape in enumerate(layer, 1) if shape]
    found = defaultdict(float)
    for face in polygonize(unary_union([shape.boundary for _, _, shape in features])):
        inside = face.representative_point()
        held = tuple((name, number) for name, number, shape in features if shape.contains(inside))
        if held:
            found[held] += face.area
    return dict(found)


def heap(seed, count, reach=40):
    """Shapes that lie on one another, of whole numbers of meters."""
    rng, made = random.Random(seed), []
    for _ in range(count):
        x, y = EAST + rng.randrange(reach), NORTH + rng.randrange(reach)
        w, h = rng.randint(4, 20), rng.randint(4, 20)
        shape = box(x, y, x + w, y + h)
        if rng.random() < 0.3:
            shape = shape.difference(box(x + 1, y + 1, x + w - 1, y + 3))
        if rng.random() < 0.3:
            shape = MultiPolygon([*getattr(shape, "geoms", [shape]), box(x + 50, y, x + 50 + w, y + h)])
        made.append(shape)
    return made


@pytest.mark.parametrize("layers", [1, 2, 3, 5])
@pytest.mark.parametrize("words", [(), ("--parts",)], ids=["rows", "parts"])
def test_areas_of_rows_are_those_of_the_faces_that_shapely_finds(gis, tmp_path, layers, words):
    made = [heap(10 * layers + k, 12 // layers) for k in range(layers)]
    names = "abcde"[:layers]
    faces = rows_of(gis, tmp_path, made, "0.01", *words)
    found, wanted = sets_of(faces, names), sets_by_shapely(made, names)
    assert found.keys() == wanted.keys() and len(found) > 12
    assert all(found[held] == pytest.approx(wanted[held]) for held in wanted)
    assert len(faces) == len(found) or words


def test_a_row_is_one_feature_and_its_parts_are_several(gis, tmp_path):
    bar = box(EAST, NORTH + 4, EAST + 30, NORTH + 6)
    post = box(EAST + 10, NORTH, EAST + 20, NORTH + 10)
    (rows, parts) = (faces_of(gis, tmp_path, [bar], [post], "0.001", *words) for words in ((), ("--parts",)))
    assert [(fields["a"], fields["b"], fields["area"]) for _, fields in rows] == [
        ("1", None, 40),
        ("1", "1", 20),
        (None, "1", 80),
    ]
    assert [shape.geom_type for shape, _ in rows] == ["MultiPolygon"] * 3
    assert [(fields["a"], fields["b"], fields["area"]) for _, fields in parts] == [
        ("1", None, 20),
        ("1", None, 20),
        ("1", "1", 20),
        (None, "1", 40),
        (None, "1", 40),
    ]
    assert [shape.geom_type for shape, _ in parts] == ["Polygon"] * 5
    for (shape, fields), pieces in zip(rows, ([0, 1], [2], [3, 4])):
        assert shape.equals(unary_union([parts[k][0] for k in pieces]))


def test_numbers_are_those_of_the_layer_also_beside_features_without_geometry(gis, tmp_path):
    """A ring of three points is left out, and leaves its feature without a polygon."""
    short = ogr.CreateGeometryFromWkt(f"POLYGON (({EAST} {NORTH}, {EAST + 1} {NORTH}, {EAST} {NORTH}))")
    first = [None, box(EAST, NORTH, EAST + 4, NORTH + 4), Polygon(), short, box(EAST + 2, NORTH, EAST + 6, NORTH + 4), None]
    a = write(tmp_path / "a.gpkg", first, fields={"number": [10, 20, 30, 40, 50, 60]})
    b = write(tmp_path / "b.gpkg", [None, box(EAST + 3, NORTH + 1, EAST + 5, NORTH + 2)], fields={"zone": ["none", "park"]})
    answer = gis("faces", a, b, "-o", "faces.gpkg", "--keep-a", "number", "--keep-b", "zone")
    assert answer.status == 0 and "no geometry, left out: features 1, 3, 6" in answer.err
    assert [tuple(fields.values()) for _, fields in read("faces.gpkg")] == [
        ("2", None, 8.0, "20", None),
        ("2,5", None, 7.0, "20,50", None),
        ("2,5", "2", 1.0, "20,50", "park"),
        ("5", None, 7.0, "50", None),
        ("5", "2", 1.0, "50", "park"),
    ]


def test_numbers_are_not_places(gis, tmp_path):
    """Features of a GeoPackage may have any numbers."""
    a = write(tmp_path / "a.gpkg", heap(3, 4))
    dataset = gdal.OpenEx(a, gdal.OF_UPDATE | gdal.OF_VECTOR)
    dataset.ExecuteSQL("UPDATE a SET fid = 1000 - 7 * fid")
    dataset = None
    assert gis("faces", a, "-o", "faces.gpkg", "--grid", "0.01").status == 0
    order = [993, 986, 979, 972]
    made = {(("a", number),) for number in order} | {(("a", x), ("a", y)) for x, y in combinations(order, 2)}
    numbers = {number for held in sets_of(read("faces.gpkg"), "a") for _, number in held}
    assert numbers == set(order)
    assert sets_of(read("faces.gpkg"), "a").keys() & made


def test_fields_of_further_layers(gis, tmp_path):
    paths = [
        write(tmp_path / f"{name}.gpkg", [box(EAST + k, NORTH, EAST + k + 2, NORTH + 1)], fields={"name": [name * 2]})
        for k, name in enumerate("abc")
    ]
    assert gis("faces", *paths, "-o", "faces.gpkg", "--keep", "c:name").status == 0
    assert [tuple(fields.values()) for _, fields in read("faces.gpkg")] == [
        ("1", None, None, 1.0, None),
        ("1", "1", None, 1.0, None),
        (None, "1", "1", 1.0, "cc"),
        (None, None, "1", 1.0, "cc"),
    ]
    for words, told in ((("--keep", "d:name"), "d"), (("--keep", ":name"), "without a name")):
        answer = gis("faces", *paths, "-o", "faces2.gpkg", *words)
        assert (answer.status, answer.err) == (3, f"overlay-gis: {' '.join(words)}: there is no layer {told}: they are a, b, c\n")
    answer = gis("faces", paths[0], "-o", "faces2.gpkg", "--keep-b", "name")
    assert answer.status == 3 and "--keep b:name: there is no layer b: they are a" in answer.err
    answer = gis("faces", *[paths[0]] * 27, "-o", "faces2.gpkg")
    assert answer.status == 3 and "takes 26 layers at most, and 27 are named" in answer.err


def test_a_feature_that_crosses_itself_is_read_by_parity(gis, tmp_path):
    tie = Polygon([(EAST, NORTH), (EAST + 4, NORTH + 4), (EAST + 4, NORTH), (EAST, NORTH + 4)])
    twice = ogr.CreateGeometryFromWkt(
        f"MULTIPOLYGON ((({EAST} {NORTH}, {EAST + 9} {NORTH}, {EAST + 9} {NORTH + 9}, {EAST} {NORTH + 9}, {EAST} {NORTH})),"
        f"(({EAST + 1} {NORTH + 5}, {EAST + 2} {NORTH + 5}, {EAST + 2} {NORTH + 7}, {EAST + 1} {NORTH + 7}, {EAST + 1} {NORTH + 5})))"
    )
    found = sets_of(faces_of(gis, tmp_path, [tie], [twice], "0.001"), "ab")
    assert found == {(("a", 1), ("b", 1)): 8.0, (("b", 1),): 81.0 - 8.0 - 2.0}


def test_circles_as_they_were_rounded(gis, tmp_path):
    """The areas of a feature's rows add up, to the last digit, to that of the feature by itself."""
    made = [Point(EAST + 3 * k, NORTH + 2 * (k % 3)).buffer(4, 9) for k in range(9)]
    a = write(tmp_path / "a.gpkg", made)
    assert gis("to-grid", a, "-o", "grid", "--grid", "0.01").status == 0
    found = sets_of(rows_of(gis, tmp_path, [made], "0.01"), "a")
    for number, shape in enumerate(made, 1):
        total = sum(area for held, area in found.items() if ("a", number) in held)
        assert total == pytest.approx(shape.area, abs=0.0142 * shape.length)


@pytest.mark.parametrize(
    "lines, told, words",
    [
        (["2000000\t1\t\tMULTIPOLYGON (((0 0, 1000 0, 1000 1000, 0 1000, 0 0)))"], 1, None),
        (["2000000\t1\t\tMULTIPOLYGON (((0 0, 1000 0, 1000 1000, 0 1000, 0 0)))"], 2, "has 1 rows, and its report 2"),
        (["2000000\t1\t\tMULTIPOLYGON (((0 0, 1000 0, 1000 1000, 0 1000, 0 0)))"], None, "its report none"),
        (["2000000\t2\t\tMULTIPOLYGON (((0 0, 1000 0, 1000 1000, 0 1000, 0 0)))"], 1, "a feature that no layer has"),
        (["2000000\t1\t1\tMULTIPOLYGON (((0 0, 1000 0, 1000 1000, 0 1000, 0 0)))"], 1, "a feature that no layer has"),
        (["2000000\t0\t\tMULTIPOLYGON (((0 0, 1000 0, 1000 1000, 0 1000, 0 0)))"], 1, "a feature that no layer has"),
        (["2000000\t1\tMULTIPOLYGON (((0 0, 1000 0, 1000 1000, 0 1000, 0 0)))"], 1, "no row of faces"),
        (["2000000\t1\t\tMULTIPOLYGON (((0 0, 1000 0, 1000 1000, 0 1000)))", ""], 1, "no row of faces"),
        (["2000000\t1,\t\tMULTIPOLYGON (((0 0, 1000 0, 1000 1000, 0 1000, 0 0)))"], 1, "other numbers than those of features"),
        (["\t1\t\tMULTIPOLYGON (((0 0, 1000 0, 1000 1000, 0 1000, 0 0)))"], 1, "without an area"),
        (["2000000\t1\t\tMULTIPOLYGON (((0 0, 1000 0, 1000 1000, 0 x, 0 0)))"], 1, "two whole numbers"),
        (["2000000\t1\t\tMULTIPOLYGON ((0 0, 1000 0, 1000 1000, 0 1000, 0 0))"], 1, "no text of polygons"),
        (["MULTIPOLYGON EMPTY"], 1, "no row of faces"),
        ([], None, "answered nothing"),
        ([], 0, None),
    ],
)
def test_rows_that_cannot_be_are_not_believed(gis, tmp_path, pretend, lines, told, words):
    a = write(tmp_path / "a.gpkg", [box(EAST, NORTH, EAST + 1, NORTH + 1)])
    b = write(tmp_path / "b.gpkg", [])
    report = "" if told is None else f"echo 'rows {told}' >&2\n"
    answered = "".join(f"printf '%b\\n' '{line}'\n" for line in lines)
    pretend(answered + report)
    answer = gis("faces", a, b, "-o", "faces.gpkg")
    assert answer.status == (1 if words else 0), answer.err
    assert words is None or words in answer.err


def test_too_many_numbers_are_told(gis, tmp_path, pretend):
    a = write(tmp_path / "a.gpkg", [box(EAST, NORTH, EAST + 1, NORTH + 1)])
    pretend("echo 'overlay: 12 too many ids: 268435457' >&2; exit 3\n")
    answer = gis("faces", a, "-o", "faces.gpkg")
    assert answer.status == 3 and "overlay: overlay says: 12 too many ids: 268435457 (so many features" in answer.err
    pretend("echo 'overlay: C: 1 syntax at 3' >&2; exit 3\n")
    b, c = write(tmp_path / "b.gpkg", []), write(tmp_path / "c.gpkg", [])
    assert f"overlay-gis: {c}: overlay says: 1 syntax at 3" in gis("faces", a, b, c, "-o", "faces.gpkg").err


@pytest.mark.parametrize(
    "words, told",
    [
        (("--keep", "owner"), "--keep: names no layer; NAME:FIELD,.. is wanted, as a:owner"),
        (("--keep", ""), "--keep: names no layer; NAME:FIELD,.. is wanted, as a:owner"),
        (("--keep", "c:"), "--keep: names no field; FIELD,.. is wanted"),
        (("--keep-a", ""), "--keep-a: names no field; FIELD,.. is wanted"),
        (("--keep-b", " ,"), "--keep-b: names no field; FIELD,.. is wanted"),
        (("--by", ""), "--by: names no field; FIELD,.. is wanted"),
        (("--by", "b:"), "--by: names no field; FIELD,.. is wanted"),
    ],
)
def test_words_that_name_no_field_are_not_accepted(gis, tmp_path, words, told):
    a = write(tmp_path / "a.gpkg", [box(EAST, NORTH, EAST + 1, NORTH + 1)], fields={"owner": ["Ada"]})
    answer = gis("faces", a, a, "-o", "faces.gpkg", *words)
    assert answer.status == 2 and answer.err.endswith(f"argument {told}\n")
    assert not (tmp_path / "faces.gpkg").exists()
