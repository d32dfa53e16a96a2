"""Areas and steps that a run tells, against worked numbers, Shapely's areas and what other calls answer."""

import pickle
import random
from dataclasses import FrozenInstanceError
from functools import reduce

import overlay_grid
import pairs
import pytest
from overlay_grid import LayerMeasures, Measured, Operation, Refused, _calls, _columns, _rooms
from test_columns import WHOLE, bars, one_of
from test_kinds import multi, rings_of, wkb_of
from test_overlay_grid import OTHER, REFUSED, SQUARE, WORKED

BOW_TIE = "POLYGON ((0 0, 4 4, 4 0, 0 4, 0 0))"
OVERLAPPING = "POLYGON ((0 0, 4 0, 4 4, 0 4, 0 0)) POLYGON ((2 0, 6 0, 6 4, 2 4, 2 0))"
AREAS = {"union": 28.0, "intersection": 4.0, "difference": 12.0, "symdifference": 24.0}


def areas(told):
    return told.area, told.a.area, told.b.area


def steps(told):
    return told.a.steps, told.b.steps


@pytest.mark.parametrize("word", WORKED)
def test_squares_that_overlap(word):
    """Two sides of each square are cut in two by the other's."""
    for plan in ({}, {"side": 16}, {"segments": 8}):
        told = overlay_grid.measured(word, SQUARE, OTHER, **plan)
        assert told == Measured(WORKED[word], LayerMeasures(16.0, 6, 32), LayerMeasures(16.0, 6, 32), AREAS[word], int(2 * AREAS[word]))
    assert overlay_grid.measured(Operation(word), SQUARE.encode(), OTHER).result == WORKED[word].encode()


# Layers, the area that they cover, that by parity, and steps.
ALONE = [
    ("", 0, 0, 0),
    ("POLYGON EMPTY", 0, 0, 0),
    (SQUARE, 16, 16, 4),
    ("POLYGON ((0 0, 0 0, 1 0, 0 1, 0 0))", 0.5, 0.5, 3),
    # both diagonals meet on a grid point, and then halfway between four, which goes to the upper right one
    (BOW_TIE, 8, 8, 6),
    ("POLYGON ((0 0, 3 3, 3 0, 0 3, 0 0))", 4.5, 4.5, 6),
    # a hole, and the same as two rings of which the inner one is a hole by parity alone
    ("POLYGON ((0 0, 9 0, 9 9, 0 9, 0 0), (3 3, 6 3, 6 6, 3 6, 3 3))", 72, 72, 8),
    ("POLYGON ((0 0, 9 0, 9 9, 0 9, 0 0)) POLYGON ((3 3, 6 3, 6 6, 3 6, 3 3))", 81, 72, 8),
    # the overlap of 8 counts once or cancels, and two sides of each have a corner of the other on them
    (OVERLAPPING, 24, 16, 12),
    (f"{SQUARE} {SQUARE}", 16, 0, 8),
    (f"{SQUARE} {SQUARE} {SQUARE}", 16, 16, 12),
    # features beside one another
    (f"{SQUARE} POLYGON ((4 0, 5 0, 5 4, 4 4, 4 0))", 20, 20, 8),
    # a spike of which nothing is left
    ("POLYGON ((0 0, 4 0, 9 9, 4 0, 0 0))", 0, 0, 4),
]


@pytest.mark.parametrize("layer, covered, odd, count", ALONE)
def test_one_layer(layer, covered, odd, count):
    nothing = LayerMeasures(0.0, 0, 0)
    for plan, area in (({}, covered), ({"reading": "covered"}, covered), ({"reading": "parity"}, odd)):
        held = LayerMeasures(area, count, int(2 * area))
        told = overlay_grid.measured("union", layer, "", **plan)
        assert (told.a, told.b, told.area, told.twice_area) == (held, nothing, area, 2 * area)
        told = overlay_grid.measured("difference", "", layer, **plan)
        assert (told.a, told.b, told.area, told.result) == (nothing, held, 0.0, "MULTIPOLYGON EMPTY\n")
        assert overlay_grid.measured("union", layer, "", grid=1, **plan) == overlay_grid.measured("union", layer, "", **plan)


def test_borders_that_the_other_layer_bends():
    """At height 6 a side is at 0.6, in the pixel of (1, 6), which is a corner of the other layer: 1/2 * 0.4 * 10 squares are won."""
    layer, other = "POLYGON ((0 0, 1 10, 0 10, 0 0))", "POLYGON ((1 6, 5 5, 5 7, 1 6))"
    assert overlay_grid.measured("union", layer, "").a == LayerMeasures(5.0, 3, 10)
    told = overlay_grid.measured("union", layer, other)
    assert told == Measured("MULTIPOLYGON (((0 0, 1 6, 1 10, 0 10, 0 0)), ((1 6, 5 5, 5 7, 1 6)))\n", (7.0, 4, 14), (4.0, 3, 8), 11.0, 22)


def test_whole_grid():
    """Twice the area of all of it is 2^59, and a little less is told exactly beside the number next to it."""
    told = overlay_grid.measured("difference", WHOLE, "POLYGON ((0 0, 1 0, 0 1, 0 0))")
    assert (told.a.twice_area, told.twice_area, told.area) == (2**59, 2**59 - 1, float(2**58))


@pytest.mark.parametrize("reading", ["covered", "parity"])
@pytest.mark.parametrize("seed", range(60))
def test_pairs(seed, reading):
    """The counts of all edges are steps, and what both layers have, and one of them alone, are the layers."""
    a, b = pairs.pair(seed)
    told = {word: overlay_grid.measured(word, a, b, reading=reading) for word in WORKED}
    assert all(held.result == getattr(overlay_grid, word)(a, b, reading=reading) for word, held in told.items())
    twice = {word: twice_area_of(held.result) for word, held in told.items()}
    assert {word: held.twice_area for word, held in told.items()} == twice
    counts = [[int(line.split()[column]) for line in overlay_grid.edges(a, b).splitlines()] for column in (4, 5)]
    alone = twice_area_of(overlay_grid.difference(b, a, reading=reading))
    for held in told.values():
        assert steps(held) == (sum(counts[0]), sum(counts[1]))
        assert held.a.twice_area == twice["intersection"] + twice["difference"]
        assert held.b.twice_area == twice["intersection"] + alone


def twice_area_of(text):
    """Twice the area of a result's text, of which shells turn left and holes right."""
    if text == "MULTIPOLYGON EMPTY\n":
        return 0
    points = [tuple(map(int, point.strip("()\n").split())) for point in text[len("MULTIPOLYGON ") :].split(", ")]
    ends = [point.count(")") > 0 for point in text[len("MULTIPOLYGON ") :].split(", ")]
    return sum(x * v - u * y for (x, y), (u, v), end in zip(points, points[1:], ends) if not end)


@pytest.mark.parametrize("seed", range(20))
def test_areas_of_boxes(seed):
    """Sides of boxes cross on grid points, so that Shapely's areas are the same."""
    shapely = pytest.importorskip("shapely.geometry")
    draw = random.Random(seed)
    corners = [[(draw.randint(0, 30), draw.randint(0, 30)) for _ in range(draw.randint(1, 5))] for _ in "ab"]
    boxes = [[shapely.box(x, y, x + draw.randint(1, 12), y + draw.randint(1, 12)) for x, y in layer] for layer in corners]
    texts = [" ".join(one.wkt for one in layer).replace(".0", "") for layer in boxes]
    for reading, together in (("covered", "union"), ("parity", "symmetric_difference")):
        a, b = (reduce(of_two(together), layer) for layer in boxes)
        told = overlay_grid.measured("difference", *texts, reading=reading)
        assert areas(told) == (a.difference(b).area, a.area, b.area)


def of_two(name):
    """A method of the first of two geometries."""
    return lambda one, other: getattr(one, name)(other)


@pytest.mark.parametrize("grid, area", [(1, 1.0), ("0.5", 0.25), (0.1, 0.01), (3, 9.0)])
def test_areas_on_a_grid_are_those_of_the_coordinates(grid, area):
    """The same corners on grids of any unit, as a text and as WKB."""
    wanted = overlay_grid.measured("symdifference", OVERLAPPING, BOW_TIE, reading="parity")
    by_text = overlay_grid.measured("symdifference", scaled(OVERLAPPING, grid), scaled(BOW_TIE, grid), grid=grid, reading="parity")
    by_columns = overlay_grid.measured("symdifference", wkb_of(scaled(one_of(OVERLAPPING.replace(") P", ")\nP")), grid)), scaled(BOW_TIE, grid), grid=grid)
    for told in (by_text, by_columns):
        assert areas(told) == pytest.approx([area * whole for whole in areas(wanted)], rel=1e-15)
        assert steps(told) == steps(wanted) and told.a.twice_area == wanted.a.twice_area == 32


def scaled(text, grid):
    """A text whose numbers are so many times as large."""
    pieces = overlay_grid._texts.WHOLE.split(text)
    pieces[1::2] = [f"{int(number) * float(grid):g}" for number in pieces[1::2]]
    return "".join(pieces)


def test_geometries_of_shapely():
    shapely = pytest.importorskip("shapely.geometry")
    told = overlay_grid.measured("intersection", shapely.box(0, 0, 0.4, 0.4), shapely.box(0.2, 0.2, 0.6, 0.6), grid=0.1)
    assert told.result.equals(shapely.box(0.2, 0.2, 0.4, 0.4))
    assert (told.a, told.b, told.area) == (LayerMeasures(0.16, 6, 32), LayerMeasures(0.16, 6, 32), 0.04)


def test_arrays():
    numpy = pytest.importorskip("numpy")
    a, b = (rings_of(numpy, multi(layer))[0][0] for layer in (SQUARE, OTHER))
    told = overlay_grid.measured("union", a, b, grid=1)
    assert [[ring.tolist() for ring in polygon] for polygon in told.result] == [[ring.tolist() for ring in rings_of(numpy, WORKED["union"])[0]]]
    assert areas(told) == (28.0, 16.0, 16.0) and steps(told) == (6, 6)


def test_lists_cover_what_any_of_their_geometries_covers():
    """So the overlap of 8 doesn't cancel, and the result is that of the operation; the routes are the same."""
    squares = [wkb_of(multi(text)) for text in (SQUARE, "POLYGON ((2 0, 6 0, 6 4, 2 4, 2 0))")]
    for b in (wkb_of(multi(OTHER)), [wkb_of(multi(OTHER))], OTHER):
        for word in WORKED:
            told = overlay_grid.measured(word, squares, b, grid=1)
            assert told.result == getattr(overlay_grid, word)(squares, b, grid=1)
            assert told.a.area == 24.0 and told.b.area == 16.0
            assert steps(told) == steps(overlay_grid.measured(word, OVERLAPPING, OTHER))
    assert [overlay_grid.measured(word, squares, OTHER, grid=1).area for word in WORKED] == [32.0, 8.0, 16.0, 24.0]
    assert areas(overlay_grid.measured("difference", OTHER, squares, grid=1)) == (8.0, 16.0, 24.0)
    assert areas(overlay_grid.measured("union", f"{SQUARE} {SQUARE}", squares, grid=1)) == (24.0, 16.0, 24.0)
    assert areas(overlay_grid.measured("union", f"{SQUARE} {SQUARE}", squares, grid=1, reading="parity")) == (16.0, 0.0, 16.0)


def test_lists_whose_geometries_are_apart():
    apart = [wkb_of(multi(SQUARE)), None, wkb_of("MULTIPOLYGON (((4 0, 8 0, 8 4, 4 4, 4 0)))")]
    told = overlay_grid.measured("intersection", apart, wkb_of(multi(OTHER)), grid=1)
    assert areas(told) == (8.0, 32.0, 16.0)
    assert told.result == overlay_grid.intersection(apart, wkb_of(multi(OTHER)), grid=1)


def test_series():
    geopandas = pytest.importorskip("geopandas")
    shapely = pytest.importorskip("shapely.geometry")
    held = geopandas.GeoSeries([shapely.box(0, 0, 4, 4), shapely.box(2, 0, 6, 4)])
    told = overlay_grid.measured("union", held, shapely.box(0, 4, 1, 5))
    assert areas(told) == (25.0, 24.0, 1.0) and told.result.equals(shapely.box(0, 0, 6, 4).union(shapely.box(0, 4, 1, 5)))


@pytest.mark.parametrize("part, kind", [(_calls, str), (_columns, wkb_of)])
def test_answers_that_are_larger_than_guessed(monkeypatch, part, kind):
    """What is told is that of the last call. The long sides of a bar cross 59 others inside."""
    sizes, taken = [], _rooms.taken
    monkeypatch.setattr(_rooms, "_free", [])
    monkeypatch.setattr(part, "taken", lambda size: sizes.append(size) or taken(size))
    a, b = bars(30, False), bars(30, True)
    told = overlay_grid.measured("intersection", kind(a), kind(b), grid=1)
    assert told.result == overlay_grid.intersection(kind(a), kind(b), grid=1) and len(sizes) >= 2
    assert areas(told) == (900 * 4.0, 30 * 240.0, 30 * 240.0) and steps(told) == (30 * 122, 30 * 122)


def test_wide_layers():
    """Where the usual side gives too many tiles, one is taken that fits."""
    whole, small = wkb_of(one_of(WHOLE)), wkb_of("MULTIPOLYGON (((0 0, 9 0, 9 9, 0 0)))")
    told = overlay_grid.measured("intersection", whole, small, grid=1, origin=(0, 0))
    assert told.result == small and areas(told) == (40.5, float(2**58), 40.5)
    assert overlay_grid.measured("union", WHOLE, " " * 100_000).twice_area == 2**59


@pytest.mark.parametrize("layers, plan, want", REFUSED[:-1], ids=[row[2][0] for row in REFUSED[:-1]])
def test_refused(layers, plan, want):
    with pytest.raises(Refused) as fault:
        overlay_grid.measured("union", *layers, **plan)
    assert (str(fault.value), fault.value.number, fault.value.layer, fault.value.offset, fault.value.count) == want


def test_refused_columns():
    layer = wkb_of(multi(SQUARE))
    with pytest.raises(Refused, match="5 too many segments: 8"):
        overlay_grid.measured("union", layer, layer, segments=7)
    with pytest.raises(overlay_grid.GeometryError, match="^B: feature 2: a LineString is no polygon"):
        overlay_grid.measured("union", layer, [layer, bytes.fromhex("010200000000000000")])


def test_only_operations_have_areas():
    for wrong in ("edges", Operation.EDGES, "faces"):
        with pytest.raises(ValueError):
            overlay_grid.measured(wrong, SQUARE, OTHER)
    with pytest.raises(TypeError):
        overlay_grid.measured("union", SQUARE, None)


def test_what_is_told_stays():
    told = overlay_grid.measured("union", SQUARE, OTHER)
    assert pickle.loads(pickle.dumps(told)) == told
    with pytest.raises(FrozenInstanceError):
        told.area = 7.0
    with pytest.raises(AttributeError):
        told.a.area = 7.0
