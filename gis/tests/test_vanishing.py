"""Features of which the grid leaves nothing are told: by every verb that rounds, and just those that
cover no point by parity."""

import random

import pytest
from shapely.geometry import LineString, MultiPolygon, Polygon, box
from shapely.ops import polygonize, unary_union

from conftest import EAST, NORTH, write
from overlay_gis.columns import of_polygons
from overlay_gis.vanishing import borders, cancels, vanished

LAYER = [box(EAST + 100 * k, NORTH, EAST + 100 * k + 10 + k, NORTH + 20) for k in range(7)]
LARGE = box(EAST, NORTH, EAST + 5000, NORTH + 5000)
VERBS = {
    "run": ("union", "a.gpkg", "b.gpkg", "-o", "out.gpkg"),
    "run --keep-a": ("union", "a.gpkg", "b.gpkg", "-o", "out.gpkg", "--keep-a", "n"),
    "faces": ("a.gpkg", "b.gpkg", "-o", "out.gpkg"),
    "dissolve": ("a.gpkg", "-o", "out.gpkg"),
    "check": ("a.gpkg",),
    "to-grid": ("a.gpkg", "b.gpkg", "-o", "out"),
}


@pytest.mark.parametrize("verb", VERBS)
def test_features_that_vanish_are_told(gis, tmp_path, verb):
    write(tmp_path / "a.gpkg", [None, *LAYER, LARGE], fields={"n": list(range(9))})
    write(tmp_path / "b.gpkg", [LARGE])
    answer = gis(verb.split()[0], *VERBS[verb], "--grid", "1000", "--origin", f"{EAST},{NORTH}")
    told = [line for line in answer.err.splitlines() if "cover nothing" in line]
    assert told == ["overlay-gis: a.gpkg: warning: 7 of 9 features cover nothing on this grid: features 2, 3, 4, 5, 6, .."]


def test_what_has_an_area_is_not_told(gis, tmp_path):
    write(tmp_path / "a.gpkg", [*LAYER, Polygon([(EAST, NORTH), (EAST + 4, NORTH + 4), (EAST + 4, NORTH), (EAST, NORTH + 4)])])
    answer = gis("dissolve", "a.gpkg", "-o", "out.gpkg", "--grid", "2")
    assert answer.status == 0 and "cover nothing" not in answer.err


@pytest.mark.parametrize(
    "shape, gone",
    [
        (box(0, 0, 0.2, 3), True),
        (box(0, 0, 3, 3), False),
        (box(-0.4, 0, 3.4, 3).difference(box(0.1, 0.1, 2.9, 2.9)), True),
        (Polygon([(0, 0), (3, 0), (3, 3), (2.9, 3), (2.9, 0.1), (1.4, 0.1), (0, 0.1)]), True),
        (Polygon([(0, 0), (2, 2), (2, 0), (0, 2)]), False),
        (Polygon([(0, 0), (3, 1), (6, 2.4)]), True),
        (MultiPolygon([box(0, 0, 0.1, 0.1), box(5, 5, 7, 7)]), False),
    ],
)
def test_shapes_of_which_nothing_is_left(gis, tmp_path, shape, gone):
    a = write(tmp_path / "a.gpkg", [shape])
    answer = gis("dissolve", a, "-o", "out.gpkg", "--grid", "1", "--origin", "0,0")
    assert ("warning: 1 of 1 features cover nothing on this grid: feature 1" in answer.err) == gone


def crossed(ring, x, y):
    """How many segments of a ring cross the ray to the right of a point."""
    steps = [(a, b) for a, b in zip(ring, ring[1:]) if (a[1] > y) != (b[1] > y)]
    return sum(a[0] + (y - a[1]) * (b[0] - a[0]) / (b[1] - a[1]) > x for a, b in steps)


def covers_nothing(rings):
    """Whether no face of all borders has its inner point in an odd number of rings."""
    lines = [LineString(step) for ring in rings for step in zip(ring, ring[1:]) if step[0] != step[1]]
    noded = unary_union(lines)
    inside = [face.representative_point() for face in polygonize(list(getattr(noded, "geoms", [noded])))]
    return not any(sum(crossed(ring, at.x, at.y) for ring in rings) % 2 for at in inside)


@pytest.mark.parametrize("seed", range(4))
def test_parity_is_judged_as_by_the_faces_of_all_borders(seed):
    rng, found = random.Random(seed), []
    for _ in range(300):
        rings = [[(rng.randrange(4), rng.randrange(2)) for _ in range(rng.randint(3, 7))] for _ in range(rng.randint(1, 2))]
        closed = [[*ring, ring[0]] for ring in rings]
        found.append(cancels(borders([closed])))
        assert found[-1] == covers_nothing(closed), closed
    assert 20 < sum(found) < 280


def test_numbers_of_features_without_polygons_are_passed_over():
    layer = of_polygons([[[(0, 0), (0, 0), (0, 0), (0, 0)]], [[(0, 0), (1, 0), (1, 1), (0, 0)]]])
    assert vanished(layer) == [1] and vanished(of_polygons([])) == []
