"""Overlay and dissolving of data frames, against GeoPandas where its answers are exact."""

import random
import warnings

import overlay_grid
import pytest
from overlay_grid import GeometryError

geopandas = pytest.importorskip("geopandas", reason="no geopandas: apt-get install python3-geopandas")
pandas = pytest.importorskip("pandas")
from pandas.testing import assert_frame_equal  # noqa: E402
from shapely.geometry import LineString, MultiPolygon, Polygon, box  # noqa: E402

HOWS = ["intersection", "union", "identity", "symmetric_difference", "difference"]


def squares(*corners, side=2):
    return geopandas.GeoSeries([box(x, y, x + side, y + side) for x, y in corners])


def worked():
    """The example of geopandas.overlay's page."""
    first = geopandas.GeoDataFrame({"geometry": squares((0, 0), (2, 2)), "df1_data": [1, 2]})
    return first, geopandas.GeoDataFrame({"geometry": squares((1, 1), (3, 3)), "df2_data": [1, 2]})


def theirs(*frames, **plan):
    """GeoPandas' answer, where it has an index to find it by."""
    try:
        with warnings.catch_warnings():
            warnings.simplefilter("ignore")
            return geopandas.overlay(*frames, **plan)
    except ImportError as error:
        pytest.skip(f"geopandas.overlay answers nothing ({error}): apt-get install python3-rtree")


def same(found, want):
    """The same columns, types, names and values, and geometries of the same points."""
    assert type(found) is type(want) and found.geometry.name == want.geometry.name and found.crs == want.crs
    name = want.geometry.name
    assert list(found.columns) == list(want.columns)
    others = [pandas.DataFrame(df.drop(columns=name)) for df in (found, want.reset_index(drop=True))]
    assert_frame_equal(*others, check_column_type=False)
    for ours, theirs in zip(found.geometry, want.geometry):
        assert ours.is_valid and ours.symmetric_difference(theirs).area == 0


@pytest.mark.parametrize("how", HOWS)
def test_page(how):
    df1, df2 = worked()
    same(overlay_grid.overlay(df1, df2, how=how, grid=0.5), theirs(df1, df2, how=how))
    same(overlay_grid.overlay(df1, df2, how, True, grid=0.001), theirs(df1, df2, how))
    same(overlay_grid.overlay(df1=df1, df2=df2, how=how), theirs(df1=df1, df2=df2, how=how))


def test_worked():
    """The rows of the page, by hand."""
    df1, df2 = worked()
    found = overlay_grid.overlay(df1, df2, "union", grid=1)
    assert list(found.columns) == ["df1_data", "df2_data", "geometry"] and list(found.index) == list(range(7))
    data = found[["df1_data", "df2_data"]].fillna(0).astype(int)
    assert list(data.itertuples(index=False, name=None)) == [(1, 1), (2, 1), (2, 2), (1, 0), (2, 0), (0, 1), (0, 2)]
    assert found.geometry.area.tolist() == [1, 1, 1, 3, 2, 2, 3]
    assert found.geometry.iloc[0].equals(box(1, 1, 2, 2))


def drawn(draw, count, names, index=None, overlapping=True):
    step = 7 if overlapping else 12
    geometries = []
    for k in range(count):
        x, y = (draw.randrange(40), draw.randrange(40)) if overlapping else (step * (k % 4), step * (k // 4))
        geometries.append(box(x, y, x + draw.randint(1, 12), y + draw.randint(1, 12)))
    kinds = {"name": lambda k: f"name {k}", "real": lambda k: k * 1.5}
    values = {name: list(map(kinds.get(name, int), range(count))) for name in names}
    return geopandas.GeoDataFrame(values, geometry=geometries, index=index, crs="EPSG:25832")


@pytest.mark.parametrize("how", HOWS)
@pytest.mark.parametrize("seed", range(12))
def test_rectangles(seed, how):
    """Overlapping rectangles with whole corners, columns with the same names, any index."""
    draw = random.Random(seed)
    df1 = drawn(draw, draw.randint(1, 8), ["id", "name", "real"], overlapping=seed % 2 == 0)
    df2 = drawn(draw, draw.randint(1, 8), ["name", "id", "only"], overlapping=seed % 3 > 0)
    df1.index = [f"row {k}" for k in range(len(df1))]
    df2.index = [k % 2 for k in range(len(df2))]
    same(overlay_grid.overlay(df1, df2, how=how, grid=1), theirs(df1, df2, how=how))


@pytest.mark.parametrize("how", HOWS)
def test_types_of_columns(how):
    df1, df2 = worked()
    for df in (df1, df2):
        df["flag"] = [True, False]
        df["day"] = pandas.to_datetime(["2024-02-29", None])
        df["kind"] = pandas.Categorical(["x", "y"])
        df["whole"] = pandas.array([1, None], dtype="Int64")
        df["small"] = pandas.Series([1, 2], dtype="int8")
        df["text"] = pandas.array(["p", None], dtype="string")
    df2 = df2.rename(columns={"day": "date", "whole": "count"})
    same(overlay_grid.overlay(df1, df2, how=how, grid=1), theirs(df1, df2, how=how))


@pytest.mark.parametrize("how", HOWS)
def test_names_of_geometries(how):
    df1, df2 = worked()
    df1, df2 = df1.rename_geometry("shape"), df2.rename_geometry("outline")
    same(overlay_grid.overlay(df1, df2, how=how, grid=1), theirs(df1, df2, how=how))


@pytest.mark.parametrize("how", HOWS)
@pytest.mark.parametrize("more, name", [("id_1", "df1"), ("id_2", "df1"), ("id_1", "df2")])
def test_columns_that_would_have_one_name(how, more, name):
    df1, df2 = (df.assign(id=1) for df in worked())
    (df1 if name == "df1" else df2)[more] = 7
    if how == "difference":
        same(overlay_grid.overlay(df1, df2, how, grid=1), theirs(df1, df2, how=how))
    else:
        with pytest.raises(ValueError, match=f"^df1 and df2 have columns 'id', and one has {more!r}, so that two would be called {more!r}"):
            overlay_grid.overlay(df1, df2, how, grid=1)


@pytest.mark.parametrize("how", HOWS)
def test_columns_of_both_with_suffixes(how):
    df1, df2 = (df.assign(id=1, id_1=2) for df in worked())
    same(overlay_grid.overlay(df1, df2, how, grid=1), theirs(df1, df2, how=how))


@pytest.mark.parametrize("how", HOWS)
@pytest.mark.parametrize("apart", [0, 100])
def test_two_columns_of_one_name(how, apart):
    """They are kept, but where rows of both differences come behind those of the intersection."""
    df1, df2 = worked()
    df2.geometry = df2.geometry.translate(apart, 0)
    twice = geopandas.GeoDataFrame(pandas.concat([df1[["df1_data"]], df1], axis=1))
    if how in ("union", "identity"):
        with pytest.raises(ValueError, match="^df1: two columns are called 'df1_data'"):
            overlay_grid.overlay(twice, df2, how, grid=1)
        with pytest.raises(ValueError, match="^df2: two columns are called 'df1_data'"):
            overlay_grid.overlay(df2, twice, how, grid=1)
    else:
        want = list(overlay_grid.overlay(df1, df2, how, grid=1).columns)
        want.insert(want.index("df1_data"), "df1_data")
        found = overlay_grid.overlay(twice, df2, how, grid=1)
        assert sorted(found.columns) == sorted(want)


@pytest.mark.parametrize("how", HOWS)
def test_another_column_called_geometry(how):
    """It is left out, as GeoPandas does, and that is told."""
    df1, df2 = worked()
    df1 = df1.rename_geometry("shape").assign(geometry=["p", "q"])
    with warnings.catch_warnings(record=True) as told:
        warnings.simplefilter("always")
        found = overlay_grid.overlay(df1, df2, how, grid=1)
    words = ["df1: the column 'geometry' is left out, as the answer's geometries are called so"]
    assert [str(one.message) for one in told] == (words if how != "difference" else [])
    same(found, theirs(df1, df2, how=how))


@pytest.mark.parametrize("how", HOWS)
def test_nothing_in_common(how):
    df1, df2 = worked()
    df2.geometry = df2.geometry.translate(100, 0)
    same(overlay_grid.overlay(df1, df2, how=how, grid=1), theirs(df1, df2, how=how))


@pytest.mark.parametrize("how", HOWS)
def test_indexes_of_levels_where_nothing_is_in_common(how):
    """They have no influence, as where something is in common."""
    df1, df2 = worked()
    df2.geometry = df2.geometry.translate(100, 0)
    want = theirs(df1, df2, how=how)
    levels = pandas.MultiIndex.from_tuples([(1, "x"), (2, "y")])
    same(overlay_grid.overlay(df1.set_index(levels), df2, how, grid=1), want)
    same(overlay_grid.overlay(df1, df2.set_index(levels), how, grid=1), want)


@pytest.mark.parametrize("how, count", [("intersection", 0), ("union", 4), ("identity", 2)])
def test_columns_called_as_geometries_where_nothing_is_in_common(how, count):
    """A column of the second frame stays where it is called as the first one's geometries, but one
    called 'geometry' is left out."""
    df1, df2 = worked()
    df2.geometry = df2.geometry.translate(100, 0)
    shape, more = df1.rename_geometry("shape"), df2.assign(shape=["p", "q"])
    found = overlay_grid.overlay(shape, more, how, grid=1)
    assert list(found.columns) == ["df1_data", "df2_data", "shape", "geometry"]
    assert (found.geometry.name, len(found)) == ("geometry", count)
    more = df2.rename_geometry("shape").assign(geometry=["p", "q"])
    with pytest.warns(UserWarning, match="^df2: the column 'geometry' is left out"):
        found = overlay_grid.overlay(df1, more, how, grid=1)
    assert list(found.columns) == ["df1_data", "df2_data", "geometry"]
    assert (found.geometry.name, len(found)) == ("geometry", count)


def test_common_borders():
    """Triangles with a common border, and lines across it: rows fill the plane, with one area."""
    df1 = geopandas.GeoDataFrame({"a": [1, 2]}, geometry=[Polygon([(0, 0), (9, 0.1), (7, 7.3)]), Polygon([(0, 0), (7, 7.3), (-1, 8)])])
    df2 = geopandas.GeoDataFrame({"b": [1, 2]}, geometry=[Polygon([(-2, 1), (9.3, 2), (9, 3)]), Polygon([(-2, 1), (9, 3), (8, 9)])])
    found = overlay_grid.overlay(df1, df2, "union", grid=0.1)
    assert found.is_valid.all()
    whole = overlay_grid.union(list(df1.geometry), list(df2.geometry), grid=0.1)
    assert found.geometry.area.sum() == pytest.approx(whole.area, rel=1e-12)
    assert overlay_grid.dissolve(found, grid=0.1).geometry.iloc[0].equals(whole)


def test_units():
    df1, df2 = worked()
    fine = geopandas.GeoDataFrame({"a": [1]}, geometry=[box(0, 0, 0.0004, 1)], crs="EPSG:4326")
    other = geopandas.GeoDataFrame({"b": [1]}, geometry=[box(0, 0, 1, 1)], crs="EPSG:4326")
    assert overlay_grid.overlay(fine, other).geometry.iloc[0].equals(box(0, 0, 0.0004, 1))
    fine.crs = other.crs = None
    with pytest.warns(UserWarning, match="df1: the grid leaves nothing of 1 of 1 features: 1"):
        assert len(overlay_grid.overlay(fine, other)) == 0


LAYERS = {
    "frame": lambda df: df,
    "series": lambda df: df.geometry,
    "array": lambda df: df.geometry.values,
    "table": pandas.DataFrame,
    "column": lambda df: pandas.DataFrame(df)["geometry"],
}


@pytest.mark.parametrize("layer", LAYERS.values(), ids=LAYERS)
def test_units_of_degrees(layer):
    """Frames and series in degrees have a finer unit by themselves in all calls, and where only one of two tells its system."""
    fine = geopandas.GeoDataFrame({"a": [1]}, geometry=[box(0, 0, 0.0004, 1)], crs="EPSG:4326")
    plain = geopandas.GeoDataFrame({"b": [1]}, geometry=[box(0, 0, 1, 1)])
    degrees, unknown = layer(fine), layer(plain)
    with warnings.catch_warnings():
        warnings.simplefilter("ignore")
        for a, b in ((degrees, degrees), (unknown, degrees), (degrees, unknown)):
            assert overlay_grid.intersection(a, b).equals(box(0, 0, 0.0004, 1))
            assert ((1,), (1,)) in [face.ids for face in overlay_grid.faces(a, b)]
        assert overlay_grid.faces(degrees)[0].geometry.equals(box(0, 0, 0.0004, 1))
        assert len(overlay_grid.edges(degrees, [])) == 4
        assert overlay_grid.intersection(degrees, unknown, grid=0.001).is_empty


def test_units_of_frames_of_which_one_has_a_system():
    fine = geopandas.GeoDataFrame({"a": [1]}, geometry=[box(0, 0, 0.0004, 1)])
    other = geopandas.GeoDataFrame({"b": [1]}, geometry=[box(0, 0, 1, 1)], crs="EPSG:4326")
    with pytest.warns(UserWarning, match="reference systems"):
        assert len(overlay_grid.overlay(fine, other)) == 1


def test_reference_systems_of_layers():
    """Layers whose systems differ are warned of at the caller's line, and what tells no system isn't."""
    df1, df2 = worked()
    metres, others = df1.set_crs("EPSG:25832"), df2.set_crs("EPSG:25833")
    calls = [overlay_grid.union, overlay_grid.faces, overlay_grid.edges, overlay_grid.overlay]
    for call in [*calls, lambda a, b: overlay_grid.overlay(overlay_grid.Operation.UNION, a, b)]:
        for a, b in ((metres, others), (metres, df2), (df1, others)):
            with pytest.warns(UserWarning, match="reference systems") as told:
                call(a, b)
            assert [warning.filename for warning in told] == [__file__]
    with warnings.catch_warnings():
        warnings.simplefilter("error")
        for call in calls:
            call(metres, metres)
        overlay_grid.union(metres.geometry, list(df2.geometry))
        overlay_grid.faces(df1, [box(0, 0, 1, 1)])


@pytest.mark.parametrize("how", HOWS)
def test_reference_systems(how):
    df1, df2 = worked()
    with pytest.warns(UserWarning, match="reference systems"):
        found = overlay_grid.overlay(df1.set_crs("EPSG:25832"), df2.set_crs("EPSG:25833"), how)
    same(found, theirs(df1, df2, how=how).set_crs("EPSG:25832"))
    with pytest.warns(UserWarning, match="reference systems"):
        found = overlay_grid.overlay(df1.set_crs("EPSG:25832"), df2, how)
    same(found, theirs(df1, df2, how=how).set_crs("EPSG:25832"))


def test_features_that_the_grid_leaves_nothing_of():
    """They are told by their numbers, and features without polygons aren't."""
    small = [box(k, 0, k + 0.001, 1) for k in range(7)]
    df = geopandas.GeoDataFrame({"k": ["a"] * 9}, geometry=[None, *small[:3], box(0, 0, 9, 9), *small[3:]])
    whole = geopandas.GeoDataFrame({"b": [1]}, geometry=[box(0, 0, 5, 5)])
    told = "the grid leaves nothing of 7 of 9 features: 2, 3, 4, 6, 7, .."
    for name, call in (
        ("df1", lambda: overlay_grid.overlay(df, whole, grid=1)),
        ("df2", lambda: overlay_grid.overlay(whole, df, "difference", grid=1)),
        ("df", lambda: overlay_grid.dissolve(df, by="k", grid=1)),
        ("B", lambda: overlay_grid.faces(whole, df, grid=1)),
    ):
        with pytest.warns(UserWarning) as warned:
            call()
        assert [(str(one.message), one.filename) for one in warned] == [(f"{name}: {told}", __file__)]
    with warnings.catch_warnings():
        warnings.simplefilter("error")
        overlay_grid.overlay(df, whole, grid=0.001)


@pytest.mark.parametrize("how", HOWS)
def test_no_rows(how):
    df1, df2 = worked()
    columns = ["geometry", "df1_data"] if how == "difference" else ["df1_data", "df2_data", "geometry"]
    for first, second, count in ((df1.iloc[:0], df2, 0), (df1, df2.iloc[:0], 2), (df1.iloc[:0], df2.iloc[:0], 0)):
        found = overlay_grid.overlay(first, second, how)
        want = {"intersection": 0, "union": max(count, len(second)), "symmetric_difference": max(count, len(second))}.get(how, count)
        assert list(found.columns) == columns and len(found) == want
    assert len(overlay_grid.dissolve(df1.iloc[:0], by="df1_data")) == 0


def test_no_geometries():
    """The answer on frames and series without geometries is a geometry, too."""
    df, _ = worked()
    none = geopandas.GeoSeries([None, None])
    for call in (overlay_grid.union, overlay_grid.intersection, overlay_grid.difference, overlay_grid.symdifference):
        for empty in (df.iloc[:0], df.geometry.iloc[:0], none):
            assert call(empty, none).is_empty and call(empty, []).is_empty and call([], empty).is_empty
    assert overlay_grid.union(df.iloc[:0], df).area == 8


def test_missing_geometries():
    df1, df2 = worked()
    more = geopandas.GeoDataFrame({"geometry": [None, MultiPolygon()], "df1_data": [7, 8]})
    df1 = geopandas.GeoDataFrame(pandas.concat([more, df1], ignore_index=True), geometry="geometry")
    found = overlay_grid.overlay(df1, df2, "difference", grid=1)
    assert found.df1_data.tolist() == [1, 2]
    assert overlay_grid.overlay(df1, df2, grid=1).df1_data.tolist() == [1, 2, 2]


def test_refused():
    df1, df2 = worked()
    with pytest.raises(ValueError, match="`how` was 'with'"):
        overlay_grid.overlay(df1, df2, how="with")
    with pytest.raises(TypeError, match="df2: a GeoSeries is no GeoDataFrame"):
        overlay_grid.overlay(df1, df2.geometry)
    lines = geopandas.GeoDataFrame({"a": [1, 2]}, geometry=[box(0, 0, 1, 1), LineString([(0, 0), (1, 1)])])
    with pytest.raises(GeometryError, match="^df2: feature 2: a LineString is no polygon"):
        overlay_grid.overlay(df1, lines)
    with pytest.raises(GeometryError, match="^df: feature 2: a LineString is no polygon"):
        overlay_grid.dissolve(lines)
    bow = geopandas.GeoDataFrame({"a": [1]}, geometry=[Polygon([(0, 0), (1, 1), (1, 0), (0, 1)])])
    assert len(overlay_grid.overlay(bow, df2, "difference")) == 1
    mixed = geopandas.GeoDataFrame({"a": [1, 2, 3]}, geometry=[None, box(0, 0, 1, 1), bow.geometry[0]], index=[5, 5, 5])
    with pytest.raises(GeometryError, match="^df2: feature 3: isn't valid, and make_valid is False"):
        overlay_grid.overlay(df1, mixed, make_valid=False)
    assert len(overlay_grid.overlay(df1, mixed[:2], make_valid=False)) == 1
    holed = box(0, 0, 9, 9).difference(box(1, 1, 2, 2))
    lost = Polygon(holed.exterior.coords, [[(1, 1), (float("nan"), 1), (2, 2), (1, 1)]])
    with pytest.raises(GeometryError, match="^df2: feature 3, polygon 2: a coordinate is no finite number") as fault:
        overlay_grid.overlay(df1, geopandas.GeoDataFrame({"b": [1, 2, 3]}, geometry=[holed, holed, MultiPolygon([holed, lost])]))
    assert (fault.value.layer, fault.value.feature, fault.value.part) == ("df2", 3, 2)
    far = geopandas.GeoDataFrame({"a": [1]}, geometry=[box(0, 0, 1e12, 1)])
    with pytest.raises(GeometryError, match="^df1: feature 1, polygon 1: reaches 1e\\+12"):
        overlay_grid.overlay(far, df2)


def test_no_frames():
    """What has no geometries is told by its name, by each call."""
    df1, df2 = worked()
    table = pandas.DataFrame({"geometry": df1.geometry})
    bare = geopandas.GeoDataFrame({"a": [1]})
    for wrong, words in ((table, "a DataFrame is no GeoDataFrame"), ([1], "a list is no GeoDataFrame"), (bare, "a GeoDataFrame without a column")):
        with pytest.raises(TypeError, match=f"^df1: {words}"):
            overlay_grid.overlay(wrong, df2)
        with pytest.raises(TypeError, match=f"^df: {words}"):
            overlay_grid.dissolve(wrong)
    for wrong in (bare, pandas.DataFrame({"a": [1]})):
        with pytest.raises(TypeError, match="^B: a .*DataFrame without a column of geometries is no layer"):
            overlay_grid.faces(df1, wrong)
    assert len(overlay_grid.faces(table)) == 2


def test_a_table_with_a_column_of_systems():
    """A table of pandas has no reference system, whatever its columns are called."""
    square, other = box(0, 0, 0.0004, 1), box(0, 0, 1, 1)
    table = pandas.DataFrame({"geometry": [square, other], "crs": ["EPSG:4326", None]})
    with pytest.warns(UserWarning, match="the grid leaves nothing of 1 of 2 features: 1"):
        assert [face.ids for face in overlay_grid.faces(table)] == [((2,),)]
    found = overlay_grid.pairs("intersection", table, other, grid="0.0001")
    assert type(found) is list and [one.area for one in found] == [square.area, 1]
    assert overlay_grid.union(table, table).equals(other)


@pytest.mark.parametrize("how", HOWS)
def test_columns_called_as_those_that_join(how):
    """No column is lost or taken for another one."""
    df1, df2 = worked()
    df1["__idx1"], df2["__idx2"] = 7, 8
    if how == "difference":
        assert overlay_grid.overlay(df1, df2, how)["__idx1"].tolist() == [7, 7]
    else:
        with pytest.raises(ValueError, match="^df1: a column is called '__idx1'"):
            overlay_grid.overlay(df1, df2, how)
        with pytest.raises(ValueError, match="^df2: a column is called '__idx2'"):
            overlay_grid.overlay(df2.rename(columns={"__idx2": "a"}), df2, how)


PLANS = [
    {},
    {"by": "kind"},
    {"by": "kind", "as_index": False},
    {"by": ["kind", "zone"]},
    {"by": "kind", "aggfunc": {"id": "sum", "real": ["min", "max"]}},
    {"by": "kind", "aggfunc": "last", "sort": False},
    {"by": "gap"},
    {"by": "gap", "dropna": False},
    {"level": 0},
    {"by": "group"},
    {"by": "group", "observed": True},
]


def test_dissolve_says_how_geometries_are_united():
    """What later GeoPandas' dissolve is told of its own union has no influence, or is refused."""
    df = geopandas.GeoDataFrame({"k": ["a", "a", "b"]}, geometry=squares((0, 0), (2, 0), (8, 0)))
    for plan in ({"method": "unary"}, {"method": "coverage", "grid_size": None}):
        assert overlay_grid.dissolve(df, by="k", grid=1, **plan).area.tolist() == [8, 4]
    with pytest.raises(TypeError, match="^grid_size: "):
        overlay_grid.dissolve(df, by="k", grid_size=10)


@pytest.mark.parametrize("plan", PLANS, ids=str)
@pytest.mark.parametrize("seed", range(4))
def test_dissolve(plan, seed):
    draw = random.Random(seed)
    df = drawn(draw, 9, ["id", "real", "name"])
    df["kind"] = [draw.choice("cab") for _ in range(9)]
    df["zone"] = [draw.randrange(2) for _ in range(9)]
    df["gap"] = [draw.choice(["x", "y", None]) for _ in range(9)]
    df["group"] = pandas.Categorical([draw.choice("pq") for _ in range(9)], categories=list("qpr"))
    df.index = [k // 2 for k in range(9)]
    want = df.dissolve(**plan)
    found = overlay_grid.dissolve(df, grid=1, **plan)
    assert type(found) is type(want) and list(found.columns) == list(want.columns) and found.crs == want.crs
    assert_frame_equal(*(pandas.DataFrame(one.drop(columns="geometry")) for one in (found, want)))
    for ours, theirs in zip(found.geometry, want.geometry):
        empty = theirs is None or theirs.is_empty
        assert ours.is_empty if empty else ours.is_valid and ours.symmetric_difference(theirs).area == 0
