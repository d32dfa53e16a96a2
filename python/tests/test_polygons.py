"""The polygons of directed edges: two by hand, those of results of chance, and edges that are refused."""

import random

import pytest

numpy = pytest.importorskip("numpy", reason="no numpy: apt-get install python3-numpy")

import overlay_grid  # noqa: E402
from overlay_grid import strips  # noqa: E402

# A square with a hole that touches its lower side at (4, 0).
TOUCHED = [(0, 0, 4, 0), (0, 8, 0, 0), (2, 2, 4, 4), (4, 0, 2, 2), (4, 0, 8, 0), (4, 4, 6, 2), (6, 2, 4, 0), (8, 0, 8, 8), (8, 8, 0, 8)]


def directed(edges):
    return numpy.array(edges, strips.DIRECTED)


def lists_of(found):
    """Polygons as lists of rings of points."""
    points = [tuple(point) for point in found.coordinates.reshape(-1, 2).tolist()]
    rings = [points[at:past] for at, past in zip(found.rings, found.rings[1:])]
    return [rings[at:past] for at, past in zip(found.polygons, found.polygons[1:])]


def text_of(polygons):
    rings = [["(%s)" % ", ".join("%d %d" % point for point in ring) for ring in rings] for rings in polygons]
    return "MULTIPOLYGON (%s)\n" % ", ".join("(%s)" % ", ".join(each) for each in rings) if rings else "MULTIPOLYGON EMPTY\n"


def edges_in(text):
    """The edges of the rings of a result's text, ascending."""
    rings = [ring.split(", ") for ring in text.replace("(", "|").replace(")", "|").split("|") if "," in ring and any(c.isdigit() for c in ring)]
    points = [[tuple(map(int, point.split())) for point in ring] for ring in rings]
    return sorted((*p, *q) for ring in points for p, q in zip(ring, ring[1:]))


def test_a_hole_that_touches_its_shell():
    found = strips.polygons(directed(TOUCHED))
    shell, hole = [(0, 0), (4, 0), (8, 0), (8, 8), (0, 8), (0, 0)], [(2, 2), (4, 4), (6, 2), (4, 0), (2, 2)]
    assert lists_of(found) == [[shell, hole]]
    assert [part.dtype.str for part in found] == ["<i4", "<u4", "<u4"]


def test_no_edges():
    found = strips.polygons(directed([]))
    assert [part.tolist() for part in found] == [[], [0], [0]]


def test_the_edges_of_results_get_their_polygons():
    chance = random.Random(20261129)
    for size in [8, 30, 4000] * 40:
        layers = []
        for _ in range(2):
            rings = [[(chance.randrange(size), chance.randrange(size)) for _ in range(chance.randint(3, 8))] for _ in range(3)]
            layers.append(text_of([[ring + ring[:1]] for ring in rings]))
        text = chance.choice([overlay_grid.union, overlay_grid.difference, overlay_grid.symdifference])(*layers)
        assert text_of(lists_of(strips.polygons(directed(edges_in(text))))) == text


@pytest.mark.parametrize(
    "edges, reason, item",
    [
        ([*TOUCHED[:4], (4, 0, 4, 0)], "bad item", 4),
        ([TOUCHED[1], TOUCHED[0]], "bad item", 1),
        ([(0, 0, 2**28 + 1, 0)], "bad item", 0),
        (TOUCHED[:-1], "edges that don't close", 7),
        ([(0, 0, 1, 0), (1, 0, 0, 0)], "edges that don't close", 0),
    ],
)
def test_edges_that_are_refused(edges, reason, item):
    with pytest.raises(strips.StripError) as told:
        strips.polygons(directed(edges))
    assert (told.value.reason, told.value.array, told.value.item) == (reason, 0, item)
