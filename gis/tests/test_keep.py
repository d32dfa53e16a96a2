"""run --keep-a and --keep-b: the rows of faces that an operation has, as data frames have them."""

import pytest
from shapely.geometry import box
from shapely.ops import unary_union

from conftest import EAST, NORTH, blobs, parcels, read, write
from test_run import JUDGE

# Two strips of 10 by 5 meters that have 5 in common, and one of 20 by 2 across both: owner, rule,
# area.
BOTH = {("Ada", "wet"): 10.0, ("Ada,Grace", "wet"): 10.0, ("Grace", "wet"): 10.0}
FIRST = {("Ada", None): 15.0, ("Ada,Grace", None): 15.0, ("Grace", None): 15.0}
SECOND = {(None, "wet"): 10.0}
WANTED = {
    "union": {**BOTH, **FIRST, **SECOND},
    "intersection": BOTH,
    "difference": FIRST,
    "symdifference": {**FIRST, **SECOND},
}


def layers(tmp_path):
    first = [box(EAST + x, NORTH, EAST + x + 10, NORTH + 5) for x in (0, 5)]
    a = write(tmp_path / "a.gpkg", first, fields={"owner": ["Ada", "Grace"], "floors": [1, 2]})
    return a, write(tmp_path / "b.gpkg", [box(EAST, NORTH, EAST + 20, NORTH + 2)], fields={"rule": ["wet"]})


@pytest.mark.parametrize("operation", WANTED)
def test_rows_have_the_fields_of_both(gis, tmp_path, operation):
    a, b = layers(tmp_path)
    answer = gis("run", operation, a, b, "-o", "out.gpkg", "--keep-a", "owner", "--keep-b", "rule")
    assert answer.status == 0 and f"out.gpkg: {len(WANTED[operation])} rows" in answer.err
    assert "a.gpkg: 0 of 8 vertices moved; area 100 m² in sum, and 75 united" in answer.err
    found = read("out.gpkg")
    assert {(fields["a_owner"], fields["b_rule"]): fields["area"] for _, fields in found} == WANTED[operation]
    assert all(shape.area == pytest.approx(fields["area"]) for shape, fields in found)


def test_fields_of_one_layer_are_enough(gis, tmp_path):
    a, b = layers(tmp_path)
    assert gis("run", "intersection", a, b, "-o", "out.gpkg", "--keep-b", "rule").status == 0
    assert [tuple(fields.values()) for _, fields in read("out.gpkg")] == [
        ("1,2", "1", 10.0, "wet"),
        ("1", "1", 10.0, "wet"),
        ("2", "1", 10.0, "wet"),
    ]
    answer = gis("run", "union", a, b, "-o", "none.gpkg", "--keep-a", "rule")
    assert answer.status == 3 and "a.gpkg: has no field rule, but owner, floors" in answer.err


def test_no_value_of_one_feature_stays_none_beside_rows_of_several(gis, tmp_path):
    """Rows of several features make a text of each, in which no value is a text of no sign."""
    shapes = [box(EAST + x, NORTH, EAST + x + 10, NORTH + 5) for x in (0, 5, 30, 50)]
    a = write(tmp_path / "a.gpkg", shapes, fields={"owner": ["Ada", None, None, ""], "floors": [1, 2, None, 4]})
    for words in (("faces", a), ("run", "union", a, a)):
        assert gis(*words, "-o", "out.gpkg", "--overwrite", "--keep-a", "owner,floors").status == 0
        found = {row["a"]: (row["a_owner"], row["a_floors"]) for _, row in read("out.gpkg")}
        assert found == {"1": ("Ada", "1"), "1,2": ("Ada,", "1,2"), "2": (None, "2"), "3": (None, None), "4": ("", "4")}


@pytest.mark.parametrize("operation", JUDGE)
def test_rows_cover_what_the_operation_does(gis, tmp_path, operation):
    first, second = parcels(11, 3), blobs(12, 3)
    a = write(tmp_path / "a.gpkg", first, fields={"n": list(range(len(first)))})
    b = write(tmp_path / "b.gpkg", second, fields={"n": list(range(len(second)))})
    assert gis("run", operation, a, b, "-o", "rows.gpkg", "--keep-a", "n", "--keep-b", "n").status == 0
    assert gis("run", operation, a, b, "-o", "all.gpkg").status == 0
    rows, whole = read("rows.gpkg"), unary_union([shape for shape, _ in read("all.gpkg")])
    assert unary_union([shape for shape, _ in rows]).symmetric_difference(whole).area < 1e-6
    for shape, fields in rows:
        inside = shape.representative_point()
        assert fields["a_n"] is None or first[fields["a_n"]].distance(inside) < 0.002
        assert fields["b_n"] is None or second[fields["b_n"]].distance(inside) < 0.002


NAMES = ["x,y", "of:whom", 'the "old" one', " spaced ", 'a"b', "plain"]


@pytest.fixture
def strangely_named(tmp_path):
    """A layer of one feature with such fields."""
    return write(tmp_path / "a.gpkg", [box(EAST, NORTH, EAST + 1, NORTH + 1)], fields={name: [len(name)] for name in NAMES})


@pytest.mark.parametrize(
    "text, names",
    [
        ('"x,y"', ["x,y"]),
        ('"x,y", plain ,"of:whom"', ["x,y", "plain", "of:whom"]),
        ('plain,of:whom,"the ""old"" one"', ["plain", "of:whom", 'the "old" one']),
        ('" spaced ",a"b,,', [" spaced ", 'a"b']),
    ],
)
def test_fields_of_any_name(gis, strangely_named, text, names):
    assert gis("run", "union", strangely_named, strangely_named, "-o", "run.gpkg", "--keep-a", text).status == 0
    assert list(read("run.gpkg")[0][1])[3:] == [f"a_{name}" for name in names]
    assert gis("dissolve", strangely_named, "--by", text, "-o", "values.gpkg").status == 0
    assert list(read("values.gpkg")[0][1])[:-2] == names
    for words in (("--keep", f"b:{text}"), ("--keep-b", text), ("--by", f"b:{text}")):
        assert gis("faces", strangely_named, strangely_named, "-o", "faces.gpkg", "--overwrite", *words).status == 0
        assert [name for name in read("faces.gpkg")[0][1] if name.startswith("b_")] == [f"b_{name}" for name in names]
    assert gis("faces", strangely_named, "-o", "faces.gpkg", "--overwrite", "--by", text).status == 0


@pytest.mark.parametrize("text", ['"x,y', '"x"y', '"'])
def test_quotes_that_are_not_closed(gis, strangely_named, text):
    answer = gis("dissolve", strangely_named, "--by", text, "-o", "out.gpkg")
    assert answer.status == 2 and f"--by: {text} is no list of fields as in CSV" in answer.err
