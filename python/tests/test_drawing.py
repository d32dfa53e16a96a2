"""Drawings of answers: the points in their SVG, against worked ones."""

import re
import xml.etree.ElementTree as ElementTree

import overlay_grid
import pytest
from overlay_grid import Operation, _drawing
from test_kinds import multi, rings_of, wkb_of
from test_overlay_grid import OTHER, SQUARE

SVG = "{http://www.w3.org/2000/svg}"

# What the first square has beside the other one, and a ring with a hole, by their drawings' points: from the upper left corner to the right and down.
CORNER = [[(0, 4), (4, 4), (4, 2), (2, 2), (2, 0), (0, 0)]]
HOLED = "POLYGON ((10 0, 19 0, 19 9, 10 9, 10 0), (13 3, 16 3, 16 6, 13 6, 13 3))"
RING_AND_HOLE = [[(0, 9), (9, 9), (9, 0), (0, 0)], [(3, 6), (3, 3), (6, 3), (6, 6)]]


def drawn(svg):
    """The rings of a drawing, and its box: left, upper side, width and height."""
    root = ElementTree.fromstring(svg)
    (path,) = root.findall(f"{SVG}path")
    assert root.tag == f"{SVG}svg" and path.get("fill-rule") == "evenodd"
    rings = re.findall(r"M([^MZ]+) Z", path.get("d"))
    points = [[tuple(map(float, point.split())) for point in ring.split(" L")] for ring in rings]
    return points, tuple(map(float, root.get("viewBox").split())), root


def kinds():
    """The layers as texts, as bytes and as WKB, and as what is there of Shapely and numpy."""
    yield str, {}
    yield str.encode, {}
    yield (lambda text: wkb_of(multi(text))), {"grid": 1}


def check(kind, plan):
    (row,) = (face for face in overlay_grid.faces(kind(SQUARE), kind(OTHER), **plan) if face.ids == ((1,), ()))
    points, box, root = drawn(row._repr_svg_())
    assert points == CORNER
    assert box == pytest.approx((-0.16, -0.16, 4.32, 4.32)) and (root.get("width"), root.get("height")) == ("240", "240")
    told = overlay_grid.measured("union", kind(HOLED), kind("POLYGON EMPTY") if kind in (str, str.encode) else [], **plan)
    assert drawn(told._repr_svg_())[0] == RING_AND_HOLE
    return row, told


@pytest.mark.parametrize("kind, plan", kinds(), ids=["str", "bytes", "WKB"])
def test_points(kind, plan):
    row, told = check(kind, plan)
    page = ElementTree.fromstring(row._repr_html_())
    assert (page.tag, page[0].tag, page[1].text) == ("figure", f"{SVG}svg", "area 12.0; A: 1; B: none")
    assert ElementTree.fromstring(told._repr_html_())[1].text == "area 72.0; A: area 72.0; B: area 0.0"


def test_points_of_shapely():
    wkt = pytest.importorskip("shapely.wkt")
    check(wkt.loads, {"grid": 1})


def test_points_of_arrays():
    numpy = pytest.importorskip("numpy")
    check(lambda text: rings_of(numpy, multi(text))[0], {"grid": 1})


def test_polygons_apart():
    """Far from the origin, and as decimals: a wide drawing."""
    a = "POLYGON ((412000.5 5650000, 412001 5650000, 412001 5650000.5, 412000.5 5650000))"
    b = "POLYGON ((412004 5650000, 412005 5650000, 412004 5650001, 412004 5650000))"
    points, box, root = drawn(overlay_grid.measured(Operation.UNION, a, b, grid=0.1)._repr_svg_())
    assert points == [[(0, 1), (0.5, 1), (0.5, 0.5)], [(3.5, 1), (4.5, 1), (3.5, 0)]]
    assert box == pytest.approx((-0.18, -0.18, 4.86, 1.36)) and (root.get("width"), root.get("height")) == ("240", "67")


@pytest.mark.parametrize("empty", ["MULTIPOLYGON EMPTY\n", b"MULTIPOLYGON EMPTY\n", wkb_of("MULTIPOLYGON EMPTY"), []])
def test_nothing(empty):
    points, box, _ = drawn(_drawing.svg_of(empty))
    assert points == [] and box == pytest.approx((-0.04, -0.04, 1.08, 1.08))


def test_features_that_are_several():
    rows = overlay_grid.faces(f"{SQUARE} {SQUARE}", "", OTHER)
    assert [ElementTree.fromstring(row._repr_html_())[1].text for row in rows] == [
        "area 12.0; A: 1, 2; B: none; C: none",
        "area 4.0; A: 1, 2; B: none; C: 1",
        "area 12.0; A: none; B: none; C: 1",
    ]


def test_more_points_than_are_drawn(monkeypatch):
    told = overlay_grid.measured("union", SQUARE, "")
    monkeypatch.setattr(_drawing, "MOST", 5)
    assert drawn(told._repr_svg_())[0] == [[(0, 4), (4, 4), (4, 0), (0, 0)]]
    monkeypatch.setattr(_drawing, "MOST", 4)
    assert told._repr_svg_() is None
    assert told._repr_html_() == "<figure>more than 4 points<figcaption>area 16.0; A: area 16.0; B: area 0.0</figcaption></figure>"
