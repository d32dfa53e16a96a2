"""What rounding may change of an area, and what it can't."""

import random
from collections import Counter
from math import hypot

import numpy as np
import pytest
from shapely.affinity import translate
from shapely.geometry import Polygon, box

from conftest import EAST, NORTH, blobs, parcels, write
from overlay_gis import rings
from overlay_gis.parsing import polygons_in


def borders_plainly(text):
    """How long each segment is that is there an odd number of times."""
    found = Counter()
    for ring in text.replace("POLYGON ((", "").split("))"):
        points = [tuple(map(int, point.split())) for point in ring.replace("(", "").replace(")", "").split(", ") if point.strip()]
        found.update(frozenset(ends) for ends in zip(points, points[1:]) if ends[0] != ends[1])
    odd = (tuple(ends) for ends, count in found.items() if count % 2)
    return sorted(hypot(a[0] - b[0], a[1] - b[1]) for a, b in odd)


@pytest.mark.parametrize(
    "text",
    [
        "",
        "POLYGON ((0 0, 4 0, 4 4, 0 4, 0 0))",
        "POLYGON ((0 0, 4 0, 4 4, 0 4, 0 0)) POLYGON ((4 0, 9 0, 9 4, 4 4, 4 0))",
        "POLYGON ((0 0, 4 0, 4 4, 0 4, 0 0)) POLYGON ((4 4, 0 4, 0 0, 4 0, 4 4))",
        "POLYGON ((0 0, 4 0, 9 9, 4 0, 0 0))",
        "POLYGON ((0 0, 0 0, 0 0, 0 0)) POLYGON ((0 0, 0 0, 3 0, 0 4, 0 0))",
        "POLYGON ((-268435456 -268435456, 268435456 -268435456, 268435456 268435456, -268435456 -268435456))",
    ],
)
def test_borders(text):
    held = np.hypot(*rings.borders(polygons_in(text.encode(), "t")))
    assert sorted(held.tolist()) == borders_plainly(text)


@pytest.mark.parametrize("seed", range(20))
def test_borders_of_chance(seed):
    rng, made = random.Random(seed), []
    for _ in range(20):
        ring = [(rng.randrange(4), rng.randrange(4)) for _ in range(rng.randint(3, 6))]
        made.append(", ".join(f"{x} {y}" for x, y in (*ring, ring[0])))
    text = " ".join(f"POLYGON (({ring}))" for ring in made)
    held = np.hypot(*rings.borders(polygons_in(text.encode(), "t")))
    assert sorted(held.tolist()) == pytest.approx(borders_plainly(text))


def test_two_bends_may_change_nearly_as_much_as_is_reckoned(gis, tmp_path):
    """Both corners of the other layer lie 0.69 from the long side, near its ends."""
    layers = [
        [[(0, 0), (159, 142), (0, 142)]],
        [[(10, 8), (20, 0), (22, 2)], [(141, 125), (150, 110), (152, 112)]],
        [[(0, 0), (10, 8), (141, 125), (159, 142), (0, 142)]],
    ]
    first, second, bent = ([translate(Polygon(ring), EAST, NORTH) for ring in layer] for layer in layers)
    a, b = write(tmp_path / "a.gpkg", first), write(tmp_path / "b.gpkg", second)
    answer = gis("run", "difference", a, b, "-o", "out.gpkg", "--parity", "--grid", "1", "--origin", f"{EAST},{NORTH}")
    before, after = first[0].area, bent[0].area
    assert f"a.gpkg: 0 of 3 vertices moved; area {before:,g} m² before, and {after:,.10g} after\n" in answer.err
    assert "warning" not in answer.err and 0.6 * hypot(159, 142) < after - before < 0.71 * hypot(159, 142)


def test_an_overlap_is_told_though_the_other_layer_bends_much(gis, tmp_path):
    """All borders within are shared by two parcels, and what bends them changes nothing."""
    a = write(tmp_path / "a.gpkg", [*parcels(5, 7), box(EAST + 40, NORTH + 40, EAST + 41.5, NORTH + 41)])
    clean = write(tmp_path / "clean.gpkg", parcels(5, 7))
    shapes = [translate(shape, k * 0.7, k * 0.9) for shape in blobs(6, 7) for k in range(9)]
    b = write(tmp_path / "b.gpkg", shapes)
    answer = gis("run", "intersection", a, b, "-o", "out.gpkg", "--parity", "--grid", "0.001")
    assert answer.status == 0 and "a.gpkg: warning: its polygons have " in answer.err
    answer = gis("run", "intersection", clean, b, "-o", "out.gpkg", "--parity", "--grid", "0.001", "--overwrite")
    assert answer.status == 0 and "clean.gpkg: warning" not in answer.err
