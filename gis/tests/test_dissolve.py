"""dissolve, and faces by values: Shapely judges what is united, and the program's own union of all
is the same to the byte."""

import random
import sys
import time
from pathlib import Path

import numpy as np
import pytest
from osgeo import gdal, ogr
from shapely.geometry import MultiPolygon, Polygon, box
from shapely.ops import unary_union

from conftest import COMMAND, EAST, NORTH, parcels, read, write
from overlay_gis import columns, merging
from overlay_gis.strip_polygons import Polygons
from test_faces import heap

sys.path.append(str(Path(COMMAND).parents[1] / "python"))


def squares(*corners):
    return [box(EAST + x, NORTH + y, EAST + x + 10, NORTH + y + 10) for x, y in corners]


def dissolved(gis, layer, *words):
    answer = gis("dissolve", layer, "-o", "out.gpkg", "--overwrite", *words)
    assert answer.status == 0, answer.err
    return read("out.gpkg")


def test_features_of_each_value_become_one(gis, tmp_path):
    shapes = squares((0, 0), (10, 0), (20, 0), (10, 10), (40, 0))
    a = write(tmp_path / "a.gpkg", shapes, fields={"owner": ["Ada", "Ada", "Grace", "Grace", "Ada"], "floors": [1, 2, 2, 2, 1]})
    found = dissolved(gis, a, "--by", "owner")
    assert [tuple(fields.values()) for _, fields in found] == [("Ada", 3, 300.0), ("Grace", 2, 200.0)]
    assert found[0][0].equals(unary_union([shapes[k] for k in (0, 1, 4)])) and len(found[0][0].geoms) == 2
    # they meet in a point
    assert [len(part.exterior.coords) for part in found[1][0].geoms] == [5, 5]
    both = dissolved(gis, a, "--by", "owner,floors")
    assert [tuple(fields.values())[:3] for _, fields in both] == [("Ada", 1, 2), ("Ada", 2, 1), ("Grace", 2, 2)]
    pieces = dissolved(gis, a, "--by", "owner", "--parts")
    assert [tuple(fields.values()) for _, fields in pieces] == [
        ("Ada", 3, 200.0),
        ("Ada", 3, 100.0),
        ("Grace", 2, 100.0),
        ("Grace", 2, 100.0),
    ]
    assert {shape.geom_type for shape, _ in pieces} == {"Polygon"}


def test_all_features_become_one(gis, tmp_path):
    a = write(tmp_path / "a.gpkg", [*squares((0, 0), (5, 0)), None])
    ((shape, fields),) = dissolved(gis, a)
    assert fields == {"features": 3, "area": 150.0} and shape.area == 150


def test_values_that_overlap_both_have_the_overlap(gis, tmp_path):
    a = write(tmp_path / "a.gpkg", squares((0, 0), (5, 0), (0, 0)), fields={"kind": ["wood", "park", "wood"]})
    found = dissolved(gis, a, "--by", "kind")
    assert [tuple(fields.values()) for _, fields in found] == [("wood", 2, 100.0), ("park", 1, 100.0)]
    assert found[0][0].intersection(found[1][0]).area == 50


def test_no_value_is_a_value_and_a_value_may_cover_nothing(gis, tmp_path):
    dataset = gdal.GetDriverByName("GPKG").Create("a.gpkg", 0, 0, 0, gdal.GDT_Unknown)
    layer = dataset.CreateLayer("a")
    for name, kind in (("area", ogr.OFTString), ("share", ogr.OFTReal)):
        layer.CreateField(ogr.FieldDefn(name, kind))
    for wkt, name, share in (
        ("POLYGON ((0 0, 1 0, 1 1, 0 1, 0 0))", None, 0.5),
        (None, "bare", 0.5),
        ("POLYGON ((1 0, 2 0, 2 1, 1 1, 1 0))", None, 0.5),
        ("POLYGON ((3 0, 4 0, 4 1, 3 1, 3 0))", None, 0.25),
    ):
        feature = ogr.Feature(layer.GetLayerDefn())
        if wkt:
            feature.SetGeometry(ogr.CreateGeometryFromWkt(wkt))
        if name:
            feature["area"] = name
        feature["share"] = share
        layer.CreateFeature(feature)
    dataset = layer = None
    assert gis("dissolve", "a.gpkg", "--by", "area,share", "-o", "out.gpkg").status == 0
    held = gdal.OpenEx("out.gpkg")
    found = [(tuple(feature.items().values()), feature.GetGeometryRef() is None) for feature in held.GetLayer(0)]
    assert found == [((None, 0.5, 2, 2.0), False), (("bare", 0.5, 1, 0.0), True), ((None, 0.25, 1, 1.0), False)]
    assert [held.GetLayer(0).GetLayerDefn().GetFieldDefn(k).GetName() for k in range(4)] == ["area", "share", "features", "area_"]


def test_an_unknown_field_is_refused(gis, tmp_path):
    a = write(tmp_path / "a.gpkg", squares((0, 0)), fields={"owner": ["Ada"]})
    answer = gis("dissolve", a, "--by", "owners", "-o", "out.gpkg")
    assert answer.status == 3 and "a.gpkg: has no field owners, but owner" in answer.err


@pytest.mark.parametrize("digits, unit", [(3, "0.001"), (7, "0.01"), (7, "0.5"), (7, "2")])
def test_one_value_is_what_the_program_unites(gis, tmp_path, digits, unit):
    """Also where borders are bent by rounding: nothing is rounded twice."""
    shapes = parcels(61, digits) + heap(5, 30)
    a = write(tmp_path / "a.gpkg", shapes, fields={"all": [1] * len(shapes)})
    b = write(tmp_path / "b.gpkg", [])
    ((by_value, _),) = dissolved(gis, a, "--by", "all", "--grid", unit)
    ((by_program, _),) = dissolved(gis, a, "--grid", unit)
    assert by_value.wkb == by_program.wkb
    assert gis("run", "union", a, b, "-o", "union.gpkg", "--grid", unit).status == 0
    assert [part.wkb for part in by_value.geoms] == [shape.wkb for shape, _ in read("union.gpkg")]


@pytest.mark.parametrize("seed", range(6))
def test_values_cover_what_shapely_unites(gis, tmp_path, seed):
    shapes = heap(seed, 40)
    kinds = [random.Random(seed).choice(["wood", "park", "road", "lake"]) for _ in shapes]
    a = write(tmp_path / "a.gpkg", shapes, fields={"kind": kinds})
    found = dissolved(gis, a, "--by", "kind", "--grid", "0.01")
    assert {fields["kind"]: fields["features"] for _, fields in found} == {kind: kinds.count(kind) for kind in kinds}
    for shape, fields in found:
        wanted = unary_union([held for held, kind in zip(shapes, kinds) if kind == fields["kind"]])
        assert shape.is_valid and shape.symmetric_difference(wanted).area == 0
        assert fields["area"] == pytest.approx(wanted.area)
        assert len(shape.geoms) == len(getattr(wanted, "geoms", [wanted]))


def test_rows_by_values(gis, tmp_path):
    a = write(tmp_path / "a.gpkg", squares((0, 0), (10, 0), (20, 0)), fields={"owner": ["Ada", "Ada", "Grace"], "lot": [1, 2, 3]})
    b = write(tmp_path / "b.gpkg", squares((5, 0), (15, 5)), fields={"rule": ["wet", "dry"]})
    assert gis("faces", a, b, "--by", "owner", "-o", "out.gpkg", "--keep-b", "rule").status == 0
    assert [tuple(fields.values()) for _, fields in read("out.gpkg")] == [
        (None, 75.0, "Ada", None),
        ("1", 100.0, "Ada", "wet"),
        ("2", 25.0, "Ada", "dry"),
        (None, 75.0, "Grace", None),
        ("2", 25.0, "Grace", "dry"),
        ("2", 50.0, None, "dry"),
    ]
    assert gis("faces", a, b, "--by", "a:owner", "--by", "b:rule", "-o", "both.gpkg").status == 0
    assert {(fields["a_owner"], fields["b_rule"]): fields["area"] for _, fields in read("both.gpkg")} == {
        ("Ada", None): 75.0,
        ("Ada", "wet"): 100.0,
        ("Ada", "dry"): 25.0,
        ("Grace", None): 75.0,
        ("Grace", "dry"): 25.0,
        (None, "dry"): 50.0,
    }


def test_rows_by_values_of_features_that_overlap(gis, tmp_path):
    a = write(tmp_path / "a.gpkg", squares((0, 0), (5, 0), (8, 0)), fields={"kind": ["wood", "park", "wood"]})
    assert gis("faces", a, "--by", "kind", "-o", "out.gpkg").status == 0
    assert {fields["a_kind"]: fields["area"] for _, fields in read("out.gpkg")} == {"wood": 80.0, "wood,park": 100.0}
    for words, told in (
        (("--by", "kind", "--keep-a", "kind"), "--by a:kind: its rows have values and no features"),
        (("--by", "b:kind"), "--by b:kind: there is no layer b"),
        (("--by", "kinds"), "has no field kinds, but kind"),
    ):
        answer = gis("faces", a, *words, "-o", "none.gpkg")
        assert answer.status == 3 and told in answer.err


def cells_in_groups(seed, count=4):
    """Cells of a square, and for each the number of a group, of which the last one has holes."""
    rng = random.Random(seed)
    side = rng.randint(2, 9)
    cells = [(i, j) for i in range(side) for j in range(side)]
    return cells, [min(rng.randrange(3 * count), count - 1) for _ in cells]


def united_cells(cells, chosen, count=4):
    shapes = columns.of_polygons([[[(i, j), (i + 1, j), (i + 1, j + 1), (i, j + 1), (i, j)]] for i, j in cells])
    return merging.merged(shapes, merging.Groups(np.arange(len(cells)), np.array(chosen), count)).lists()


@pytest.mark.parametrize("seed", range(60))
def test_cells_of_groups_are_united_as_shapely_does(seed):
    """Cells that meet in points, holes in holes, and holes that touch one another or their
    shell."""
    cells, chosen = cells_in_groups(seed)
    for number, polygons in enumerate(united_cells(cells, chosen)):
        found = MultiPolygon([Polygon(shell, holes) for shell, *holes in polygons])
        wanted = unary_union([box(i, j, i + 1, j + 1) for (i, j), group in zip(cells, chosen) if group == number])
        assert found.is_valid and found.symmetric_difference(wanted).area == 0
        assert len(polygons) == (len(getattr(wanted, "geoms", [wanted])) if wanted.area else 0)


@pytest.mark.parametrize("seed", range(60))
def test_cells_of_groups_are_united_as_the_proved_call_does(seed):
    """Rings and polygons are the same, in the same order."""
    strips = pytest.importorskip("overlay_grid.strips", reason="no library: python/build")
    cells, chosen = cells_in_groups(seed)
    for number, polygons in enumerate(united_cells(cells, chosen)):
        edges = {
            side
            for (i, j), group in zip(cells, chosen)
            for side in ((i, j, i + 1, j), (i + 1, j, i + 1, j + 1), (i + 1, j + 1, i, j + 1), (i, j + 1, i, j))
            if group == number
        }
        made = strips.polygons(sorted(side for side in edges if (*side[2:], *side[:2]) not in edges))
        assert Polygons(*made).features(0).lists() == [[polygon] for polygon in polygons]


def test_many_petals_at_one_vertex():
    """Petals, and holes of their shapes, are united in seconds, and both together have no border
    between them."""
    count = 10_000
    petals = [[[(0, 0), (1, 2 * k), (1, 2 * k + 1), (0, 0)]] for k in range(count)]
    holes = [petal[::-1] for (petal,) in petals]
    shell = [(-1, -1), (2, -1), (2, 2 * count), (-1, 2 * count), (-1, -1)]
    rows = np.arange(count + 1)
    groups = np.append(np.zeros(count, int), 1)
    both = merging.Groups(np.append(rows, rows), np.append(groups, rows * 0 + 2), 3)
    began = time.process_time()
    found = merging.merged(columns.of_polygons([*petals, [shell, *holes]]), both)
    assert time.process_time() - began < 10
    assert found.lists() == [petals, [[shell, *holes]], [[shell]]]


def test_layers_without_features(gis, tmp_path):
    a = write(tmp_path / "a.gpkg", [], fields={"owner": ["Ada"]})
    assert gis("dissolve", a, "--by", "owner", "-o", "out.gpkg").status == 0 and read("out.gpkg") == []
    assert gis("faces", a, a, "--by", "owner", "-o", "out.gpkg", "--overwrite", "--pairs", "pairs.csv").status == 0
    assert read("out.gpkg") == []
    assert gis("run", "union", a, a, "-o", "out.gpkg", "--overwrite", "--keep-a", "owner").status == 0
    assert gis("dissolve", a, "-o", "out.gpkg", "--overwrite").status == 0


def test_values_of_no_field_are_not_accepted(gis, tmp_path):
    a = write(tmp_path / "a.gpkg", squares((0, 0)))
    answer = gis("dissolve", a, "--by", "", "-o", "out.gpkg")
    assert answer.status == 2 and answer.err.endswith("argument --by: names no field; FIELD,.. is wanted\n")
