"""check: what is wrong with a layer, and nothing where nothing is."""

import json
from collections import defaultdict
from html.parser import HTMLParser

import pytest
from osgeo import ogr
from shapely.geometry import LineString, Polygon, box
from shapely.ops import unary_union

from conftest import EAST, NORTH, parcels, read, write
from overlay_gis import report
from test_faces import heap

SQUARE = box(EAST, NORTH, EAST + 10, NORTH + 10)


def checked(gis, path, *words):
    answer = gis("check", path, *words)
    assert "Warning" not in answer.err
    return answer.status, answer.out.splitlines()


def test_a_sound_layer(gis, tmp_path):
    shapes = parcels(5, 3)
    status, lines = checked(gis, write(tmp_path / "a.gpkg", shapes))
    assert status == 0 and len(lines) == 1
    total = f"{sum(shape.area for shape in shapes):,.2f}"
    assert "a.gpkg: 37 features, 0 findings, areas " in lines[0] and lines[0].count(total[:-1]) == 2


def test_overlaps_with_their_features(gis, tmp_path):
    shapes = [SQUARE, box(EAST + 10, NORTH, EAST + 20, NORTH + 10), box(EAST + 8, NORTH + 2, EAST + 12, NORTH + 4)]
    status, lines = checked(gis, write(tmp_path / "a.gpkg", shapes), "-o", "overlaps.gpkg")
    assert status == 4
    assert [line.partition(": ")[2] for line in lines] == [
        "features 1 and 3: overlap by 4 m²",
        "features 2 and 3: overlap by 4 m²",
        "3 features, 2 findings, areas 208 m² in sum, 192 by parity",
    ]
    assert [(shape.area, fields["first"], fields["second"]) for shape, fields in read("overlaps.gpkg")] == [
        (4, 1, 3),
        (4, 2, 3),
    ]


def test_an_overlap_that_rounding_closes_is_none(gis, tmp_path):
    shapes = [SQUARE, box(EAST + 9.9996, NORTH, EAST + 20, NORTH + 10)]
    status, lines = checked(gis, write(tmp_path / "a.gpkg", shapes), "--grid", "0.001")
    assert status == 0 and "2 features, 0 findings, areas 200 m² in sum, 200 by parity" in lines[0]
    assert checked(gis, tmp_path / "a.gpkg", "--grid", "0.0001")[0] == 4


def test_an_overlap_that_is_narrower_than_a_grid_unit_is_only_counted(gis, tmp_path):
    """The lower one has a corner more, which lies a grid unit above the other's border."""
    upper = Polygon([(EAST, NORTH), (EAST + 10, NORTH), (EAST + 10, NORTH + 10), (EAST, NORTH + 10)])
    lower = Polygon([(EAST, NORTH), (EAST, NORTH - 9), (EAST + 10, NORTH - 9), (EAST + 10, NORTH), (EAST + 4, NORTH + 0.001)])
    status, lines = checked(gis, write(tmp_path / "a.gpkg", [upper, lower]), "-o", "overlaps.gpkg", "--grid", "0.001")
    assert status == 0 and "1 overlaps narrower than a grid unit" in lines[0]
    assert [(fields["area"], fields["features"]) for _, fields in read("overlaps.gpkg")] == [(pytest.approx(0.005), "1,2")]


def test_an_overlap_of_several_features(gis, tmp_path):
    shapes = [SQUARE, None, SQUARE, box(EAST + 5, NORTH, EAST + 15, NORTH + 10)]
    status, lines = checked(gis, write(tmp_path / "a.gpkg", shapes), "-o", "overlaps.gpkg")
    assert status == 4
    assert [line.partition(": ")[2] for line in lines] == [
        "feature 2: no geometry",
        "features 1 and 3: overlap by 50 m²",
        "features 1, 3, 4: overlap by 50 m²",
        "4 features, 3 findings, areas 300 m² in sum, 100 by parity",
    ]
    found = [(fields["kind"], fields["first"], fields["second"], fields["features"], shape and shape.area) for shape, fields in read("overlaps.gpkg")]
    assert found == [("no geometry", 2, None, "2", None), ("overlap", 1, 3, "1,3", 50), ("overlap", 1, 3, "1,3,4", 50)]


def test_each_finding_is_a_row(gis, tmp_path):
    """A square that is there twice, one three times, a bow tie, no geometry; in a GeoPackage and as JSON."""
    bow = Polygon([(EAST + 50, NORTH), (EAST + 54, NORTH + 4), (EAST + 54, NORTH), (EAST + 50, NORTH + 4), (EAST + 50, NORTH)])
    third = box(EAST + 30, NORTH, EAST + 33, NORTH + 3)
    a = write(tmp_path / "a.gpkg", [SQUARE, None, SQUARE, third, bow, third, third])
    status, lines = checked(gis, a, "-o", "found.gpkg", "--json", "--grid", "1")
    wanted = [
        ("no geometry", [2], None, None, "feature 2: no geometry"),
        ("crosses itself", [5], None, None, f"feature 5: Self-intersection[{EAST + 52} {NORTH + 2}]"),
        ("double", [1, 3], 100.0, 5.0, "features 1 and 3: the same area of 100 m²"),
        ("double", [4, 6, 7], 9.0, 1.5, "features 4, 6, 7: the same area of 9 m²"),
    ]
    (line,) = lines
    told = json.loads(line)
    assert status == 4 and (told["features"], told["areas"]) == (7, {"sum": 227.0, "parity": 17.0})
    assert [(one["kind"], one["features"], one.get("area"), one["finding"]) for one in told["findings"]] == [(kind, ids, area, words) for kind, ids, area, _, words in wanted]
    rows = [(fields["kind"], fields["features"], fields["area"], fields["width"], fields["finding"]) for _, fields in read("found.gpkg")]
    assert rows == [(kind, ",".join(map(str, ids)), area, width, words) for kind, ids, area, width, words in wanted]
    assert [None if shape is None else shape.bounds[0] - EAST for shape, _ in read("found.gpkg")] == [None, 50, 0, 30]


def test_a_layer_without_polygons_has_rows_without_shapes(gis, tmp_path):
    a = write(tmp_path / "a.gpkg", [None, LineString([(EAST, NORTH), (EAST + 4, NORTH)])])
    assert checked(gis, a, "-o", "found.gpkg")[0] == 4
    assert [(shape, fields["kind"], fields["first"]) for shape, fields in read("found.gpkg")] == [(None, "no geometry", 1), (None, "no polygon", 2)]


def test_overlaps_of_the_features_that_are_sound(gis, tmp_path):
    shapes = [SQUARE, LineString([(EAST, NORTH), (EAST + 4, NORTH)]), SQUARE]
    status, lines = checked(gis, write(tmp_path / "a.gpkg", shapes))
    assert status == 4 and "features 1 and 3: the same area of 100 m²" in lines[1] and lines[2].endswith("3 features, 2 findings")


@pytest.mark.parametrize(
    "shape, words",
    [
        (
            Polygon([(EAST, NORTH), (EAST + 4, NORTH + 4), (EAST + 4, NORTH), (EAST, NORTH + 4), (EAST, NORTH)]),
            "feature 1: Self-intersection[412002 5654002]",
        ),
        (LineString([(EAST, NORTH), (EAST + 4, NORTH)]), "feature 1: LINESTRING is no polygon"),
        (ogr.CreateGeometryFromWkt("POLYGON ((0 0, 1 0, 0 0))"), "feature 1: a ring has less than four points"),
        (ogr.CreateGeometryFromWkt("POLYGON ((0 0, 1 0, 1 1, 0 1))"), "feature 1: a ring is open at 0 1"),
        (None, "feature 1: no geometry"),
    ],
)
def test_features_that_are_wrong(gis, tmp_path, shape, words):
    status, lines = checked(gis, write(tmp_path / "a.gpkg", [shape]))
    assert status == 4 and any(words in line for line in lines)


def test_a_coordinate_that_is_no_number(gis, tmp_path):
    path = write(tmp_path / "a.geojson", [SQUARE])
    text = (tmp_path / "a.geojson").read_text()
    (tmp_path / "a.geojson").write_text(text.replace("412010.0", "1e999", 1))
    status, lines = checked(gis, path)
    assert status == 4 and "no finite number" in lines[0]
    assert "no finite number" in gis("run", "union", path, path, "-o", "out.gpkg").err


def test_a_layer_without_features(gis, tmp_path):
    status, lines = checked(gis, write(tmp_path / "a.gpkg", []))
    assert status == 4 and lines[0].endswith("a.gpkg: the layer has no features")


def test_points_off_the_limits(gis, tmp_path):
    path = write(tmp_path / "a.gpkg", [box(0, 0, 600000, 1)])
    status, lines = checked(gis, path, "--grid", "0.001")
    assert status == 4 and "the finest that fits is --grid 0.002" in lines[0]
    assert checked(gis, path)[0] == 0


def test_a_read_that_fails(gis, tmp_path):
    (tmp_path / "a.gpkg").write_bytes(b"")
    answer = gis("check", "a.gpkg")
    assert answer.status == 1 and answer.err.startswith("overlay-gis: a.gpkg: ")


def boxes(*corners):
    return [box(EAST + x, NORTH + y, EAST + x + w, NORTH + y + h) for x, y, w, h in corners]


# A ring of 10 by 10 meters and 1 thick, of four boxes: its hole is 8 by 8.
RING = boxes((0, 0, 10, 1), (0, 9, 10, 1), (0, 1, 1, 8), (9, 1, 1, 8))


def flaws(path):
    return [(fields["kind"], fields["features"], fields["area"], fields["width"]) for _, fields in read(path)]


@pytest.mark.parametrize(
    "filling, words, told, wanted",
    [
        ([], (), [], []),
        ([], ("--gap-width", "4.5"), ["gap at 412001 5654001: 64 m²"], [("gap", None, 64.0, 4.0)]),
        ([], ("--gap-width", "4"), [], []),
        ([], ("--gap-area", "65", "--gap-width", "0"), ["gap at 412001 5654001: 64 m²"], [("gap", None, 64.0, 4.0)]),
        # What is left beside it is 8 by 0.05 meters.
        (
            boxes((1, 1, 7.95, 8)),
            (),
            ["gap at 412008.95 5654001: 0.4 m², a sliver 0.0497 m wide"],
            [("sliver", None, 0.4, 0.8 / 16.1)],
        ),
        (boxes((1, 1, 7.95, 8)), ("--sliver-width", "0.01"), ["gap at 412008.95 5654001: 0.4 m²"], [("gap", None, 0.4, 0.8 / 16.1)]),
        (boxes((1, 1, 7.95, 8)), ("--gap-width", "0", "--gap-area", "0"), [], []),
        # A moat half a meter wide round an island is one gap.
        (boxes((1.5, 1.5, 7, 7)), (), ["gap at 412001 5654001: 15 m²"], [("gap", None, 15.0, 0.5)]),
        # An overlap of 8 by 0.05 meters.
        (
            boxes((1, 1, 8.05, 8)),
            (),
            ["features 4 and 5: overlap by 0.4 m², a sliver 0.0497 m wide"],
            [("sliver", "4,5", 0.4, 0.8 / 16.1)],
        ),
    ],
)
def test_gaps_and_slivers(gis, tmp_path, filling, words, told, wanted):
    a = write(tmp_path / "a.gpkg", RING + filling)
    status, lines = checked(gis, a, "-o", "flaws.gpkg", *words)
    assert [line.partition(": ")[2] for line in lines[:-1]] == told and status == (4 if told else 0)
    assert flaws("flaws.gpkg") == [(kind, features, pytest.approx(area), pytest.approx(width)) for kind, features, area, width in wanted]
    assert all(shape.area == pytest.approx(fields["area"]) and shape.is_valid for shape, fields in read("flaws.gpkg"))


def test_a_bay_is_no_gap(gis, tmp_path):
    """Open by a meter, or by a grid unit; and closed by it."""
    for opening, found in ((1.0, 0), (0.001, 0), (0.0, 1)):
        shapes = RING[:3] + boxes((9, 1, 1, 8 - opening))
        status, lines = checked(gis, write(tmp_path / f"a{found}{opening}.gpkg", shapes), "--gap-width", "9")
        assert len(lines) == 1 + found and status == 4 * found


def test_a_gap_that_is_narrower_than_a_grid_unit_is_only_counted(gis, tmp_path):
    """Two triangles on one border, whose corners in it lie a grid unit off."""
    upper = Polygon([(EAST, NORTH), (EAST + 10, NORTH), (EAST + 10, NORTH + 10), (EAST, NORTH + 10)])
    lower = Polygon([(EAST, NORTH), (EAST, NORTH - 9), (EAST + 10, NORTH - 9), (EAST + 10, NORTH), (EAST + 4, NORTH - 0.001)])
    status, lines = checked(gis, write(tmp_path / "a.gpkg", [upper, lower]), "-o", "flaws.gpkg", "--grid", "0.001")
    assert status == 0 and "1 gaps narrower than a grid unit" in lines[0]
    assert flaws("flaws.gpkg") == [("sliver", None, pytest.approx(0.005), pytest.approx(0.0005))]


def test_gaps_at_the_limits_of_the_grid(gis, tmp_path):
    """Where the grid has no room beyond the layer, what is open to its limit is no gap."""
    limit = 268435.456
    frame = [box(-limit, -limit, limit, -limit + 1), box(-limit, -limit, -limit + 1, limit), box(limit - 1, -limit, limit, limit)]
    bars = [box(-limit, 0, limit, 1), box(-limit, 2, 5, 3)]
    for shapes, found in ((frame[:2] + bars, 0), (frame + bars, 1)):
        path = write(tmp_path / f"a{found}.gpkg", shapes)
        status, lines = checked(gis, path, "--gap-width", "600000", "--grid", "0.001", "--origin", "0,0")
        assert sum(": gap at" in line for line in lines) == found


def test_sizes_that_are_none(gis, tmp_path):
    a = write(tmp_path / "a.gpkg", RING)
    for words in (("--gap-width", "-1"), ("--gap-area", "much"), ("--sliver-width", "nan"), ("--gap-width", "inf")):
        assert gis("check", a, *words).status == 2


@pytest.mark.parametrize("seed", range(4))
def test_gaps_are_the_holes_that_shapely_finds(gis, tmp_path, seed):
    shapes = heap(seed, 30)
    checked(gis, write(tmp_path / "a.gpkg", shapes), "-o", "flaws.gpkg", "--gap-width", "1000", "--sliver-width", "0")
    union = unary_union(shapes)
    holes = [Polygon(ring) for part in getattr(union, "geoms", [union]) for ring in part.interiors]
    wanted = unary_union(holes).difference(union)
    found = [shape for shape, fields in read("flaws.gpkg") if fields["kind"] == "gap"]
    assert sum(shape.area for shape in found) == pytest.approx(wanted.area)
    assert unary_union(found).symmetric_difference(wanted).area == pytest.approx(0)


def test_sizes_in_degrees(gis, tmp_path):
    """Strips 0.001 degrees long that are open between two boxes: one 0.000005 degrees wide, about
    half a meter, one twice as wide."""
    for width, kinds in ((0.000005, ["gap"]), (0.00002, []), (0.000001, ["sliver"])):
        shapes = [box(8, 50, 8.001, 50.001), box(8.001 + width, 50, 8.002, 50.001)]
        shapes += [box(8, 49.999, 8.002, 50), box(8, 50.001, 8.002, 50.002)]
        a = write(tmp_path / f"a{len(kinds)}{width}.gpkg", shapes, "EPSG:4326")
        status, _ = checked(gis, a, "-o", "flaws.gpkg", "--overwrite", "--grid", "0.0000001")
        assert [kind for kind, *_ in flaws("flaws.gpkg")] == kinds and status == (4 if kinds else 0)


@pytest.mark.parametrize("words", [("--layer", "flaws"), ("--append",), ("--overwrite",), ("--layer", "flaws", "--append")])
def test_what_is_about_an_output_needs_one(gis, tmp_path, words):
    answer = gis("check", write(tmp_path / "a.gpkg", [SQUARE]), *words)
    told = " and ".join(word for word in words if word.startswith("--"))
    assert (answer.status, answer.out, answer.err) == (3, "", f"overlay-gis: {told}: there is no -o that it could be about\n")


class Page(HTMLParser):
    """The texts of a page's elements by their tags, and all attributes."""

    def __init__(self, path):
        super().__init__()
        self.texts, self.attributes, self.open = defaultdict(list), [], []
        self.feed(path.read_text())

    def handle_starttag(self, tag, attributes):
        self.open.append(tag)
        self.attributes += [(tag, name, value) for name, value in attributes]

    def handle_endtag(self, tag):
        while self.open.pop() != tag:
            pass

    def handle_data(self, data):
        if self.open:
            self.texts[self.open[-1]].append(data)


def test_a_page_has_each_finding_with_a_picture(gis, tmp_path):
    bow = Polygon([(EAST + 50, NORTH), (EAST + 54, NORTH + 4), (EAST + 54, NORTH), (EAST + 50, NORTH + 4), (EAST + 50, NORTH)])
    shapes = [SQUARE, box(EAST + 8, NORTH + 2, EAST + 12, NORTH + 4), bow, None]
    status, _ = checked(gis, write(tmp_path / "a<b>.gpkg", shapes), "--report", "page.html", "--grid", "1", "--origin", f"{EAST},{NORTH}")
    page = Page(tmp_path / "page.html")
    assert status == 4 and page.texts["h1"] == [f"Check of {tmp_path}/a<b>.gpkg"]
    assert page.texts["td"][:9] == ["crosses itself", "1", "no geometry", "1", "overlap", "1", "4", "crosses itself", "3"]
    assert page.texts["figcaption"] == [f"feature 3: Self-intersection[{EAST + 52} {NORTH + 2}]", "features 1 and 2: overlap by 4 m²"]
    drawn = [value for tag, name, value in page.attributes if (tag, name) == ("path", "d")]
    assert len(drawn) == 2 * 3
    # The overlap is a square of 2 by 2 units and takes 0.6 of a picture of 260 pixels: from 52 to 208.
    assert drawn[-1] == "M52.0 208.0L208.0 208.0L208.0 52.0L52.0 52.0Z"
    # Nothing comes from elsewhere.
    assert not [name for _, name, _ in page.attributes if name in ("src", "href")] and "http" not in (tmp_path / "page.html").read_text()


def test_a_page_is_whole_or_as_it_was(gis, tmp_path):
    a = write(tmp_path / "a.gpkg", [SQUARE])
    (tmp_path / "page.html").write_text("old")
    assert gis("check", a, "--report", "page.html").status == 3 and (tmp_path / "page.html").read_text() == "old"
    assert gis("check", a, "--report", a, "--overwrite").status == 3
    assert gis("check", a, "--report", "page.html", "--overwrite").status == 0
    assert Page(tmp_path / "page.html").texts["p"][0] == "1 features, 0 findings."


def test_a_page_of_many_findings_draws_the_first(gis, tmp_path, monkeypatch):
    monkeypatch.setattr(report, "PICTURES", 3)
    monkeypatch.setattr(report, "POINTS", 10)
    a = write(tmp_path / "a.gpkg", [box(EAST + 5 * k, NORTH, EAST + 5 * k + 3, NORTH + 3) for k in range(5)] * 2)
    assert checked(gis, a, "--report", "page.html")[0] == 4
    page = Page(tmp_path / "page.html")
    assert len(page.texts["figcaption"]) == 3 and "The first 3 of 5 findings are drawn; the table has all." in page.texts["p"]
    assert page.texts["td"].count("double") == 6


def test_a_page_of_a_layer_without_polygons(gis, tmp_path):
    assert checked(gis, write(tmp_path / "a.gpkg", [None]), "--report", "page.html")[0] == 4
    page = Page(tmp_path / "page.html")
    assert page.texts["td"][-3:] == ["no geometry", "1", "feature 1: no geometry"] and not page.texts["figcaption"]
