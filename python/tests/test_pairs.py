"""Operations on many pairs at once: each answer is that of the two layers alone."""

import random
import struct
import threading
import warnings

import overlay_grid
import pairs
import pytest
from overlay_grid import GeometryError, Operation, OutOfMemory, _columns, _rooms
from test_columns import bars, one_of, told_of
from test_kinds import A, B, WORKED, asked, lists_of, multi, rings_of, wkb_of
from test_overlay_grid import printed

FIRST, SECOND, NOTHING = wkb_of(multi(A)), wkb_of(multi(B)), wkb_of("MULTIPOLYGON EMPTY")
FAR = wkb_of("MULTIPOLYGON (((7 0, 9 0, 9 2, 7 0)))")


def box(left, low, right, high):
    """A rectangle as WKB, in the order of an answer."""
    return struct.pack("<BIII10d", 1, 3, 1, 5, left, low, right, low, right, high, left, high, left, low)


# What is answered on these pairs, by hand; of the first one what WORKED has.
LAYERS = [FIRST, FIRST, FIRST, None, NOTHING, FIRST], [SECOND, FIRST, None, SECOND, None, FAR]
BY_HAND = {
    "union": [FIRST, FIRST, SECOND, NOTHING, wkb_of(f"MULTIPOLYGON ({A[len('POLYGON ') :]}, ((7 0, 9 0, 9 2, 7 0)))")],
    "intersection": [FIRST, NOTHING, NOTHING, NOTHING, NOTHING],
    "difference": [NOTHING, FIRST, NOTHING, NOTHING, FIRST],
    "symdifference": [NOTHING, FIRST, SECOND, NOTHING, wkb_of(f"MULTIPOLYGON ({A[len('POLYGON ') :]}, ((7 0, 9 0, 9 2, 7 0)))")],
}


@pytest.mark.parametrize("word", WORKED)
def test_worked(word):
    want = [wkb_of(WORKED[word]), *BY_HAND[word]]
    assert overlay_grid.pairs(word, *LAYERS, grid=0.1) == want
    assert overlay_grid.pairs(Operation(word), *map(tuple, LAYERS), grid="0.1", origin=(5, -7)) == want
    assert overlay_grid.pairs(word, *(layer[::-1] for layer in LAYERS), grid=0.1) == want[::-1]


@pytest.mark.parametrize("word", WORKED)
def test_one_against_many(word):
    """A layer that is one geometry has it in each pair, and a list of one has it in one."""
    several = [SECOND, None, FIRST]
    for one in (FIRST, bytearray(FIRST), memoryview(FIRST)):
        assert overlay_grid.pairs(word, one, several, grid=0.1) == overlay_grid.pairs(word, [FIRST] * 3, several, grid=0.1)
        assert overlay_grid.pairs(word, several, one, grid=0.1) == overlay_grid.pairs(word, several, [FIRST] * 3, grid=0.1)
    for layers in (([FIRST], SECOND), (FIRST, [SECOND]), ([FIRST], [SECOND])):
        assert overlay_grid.pairs(word, *layers, grid=0.1) == [wkb_of(WORKED[word])]


@pytest.mark.parametrize("word", WORKED)
def test_as_the_program_answers(word, tmp_path):
    """All polygons of a layer as one geometry are read by parity, as the program reads them."""
    layers = [pairs.pair(seed) for seed in range(40)]
    want = []
    for pair in layers:
        names = [str(tmp_path / name) for name in "ab"]
        for name, layer in zip(names, pair):
            with open(name, "w") as file:
                file.write(layer)
        want.append(wkb_of(printed(word, *names).decode()))
    first, second = ([wkb_of(one_of(layer)) for layer in side] for side in zip(*layers))
    assert overlay_grid.pairs(word, first, second, grid=1) == want


@pytest.mark.parametrize("word", WORKED)
@pytest.mark.parametrize("grid", [0.5, 7])
def test_as_single_calls_answer(word, grid):
    first, second = ([wkb_of(one_of(layer)) for layer in side] for side in zip(*map(pairs.pair, range(100, 160))))
    assert overlay_grid.pairs(word, first, second, grid=grid) == [asked(word, a, b, grid=grid) for a, b in zip(first, second)]
    for one in first[:3]:
        assert overlay_grid.pairs(word, one, second, grid=grid) == [asked(word, one, b, grid=grid) for b in second]
        assert overlay_grid.pairs(word, second, one, grid=grid) == [asked(word, b, one, grid=grid) for b in second]


@pytest.mark.parametrize("points", [1, 12, 100, 10**9])
def test_runs(points, monkeypatch):
    """How many pairs go to the library in one call has no influence."""
    first, second = ([wkb_of(one_of(layer)) for layer in side] for side in zip(*map(pairs.pair, range(60))))
    want = overlay_grid.pairs("union", first, second, grid=1), overlay_grid.pairs("difference", FAR, second, grid=1)
    runs = []
    fill = _columns.fill_pairs
    monkeypatch.setattr(_columns, "fill_pairs", lambda *given: runs.append(given) or fill(*given))
    monkeypatch.setattr(_columns, "POINTS", points)
    assert (overlay_grid.pairs("union", first, second, grid=1), overlay_grid.pairs("difference", FAR, second, grid=1)) == want
    assert len(runs) == 2 if points == 10**9 else len(runs) > 20


def test_cuts(monkeypatch):
    monkeypatch.setattr(_columns, "POINTS", 10)
    assert list(_columns.runs_of([0, 4, 10, 10, 11, 30, 30, 34])) == [(0, 3), (3, 4), (4, 5), (5, 7)]
    assert list(_columns.runs_of([0, 0, 0])) == [(0, 2)] and list(_columns.runs_of([0, 11])) == [(0, 1)]
    assert list(_columns.runs_of([0])) == []


def test_ten_thousand():
    """Bars that a box cuts, and neighbours of each other: what is left is known by their numbers."""
    bars = [box(k, 0, k + 4, 4) for k in range(10_000)]
    others = [box(k + k % 4, 1, k + 6, 3) for k in range(10_000)]
    assert overlay_grid.pairs("intersection", bars, others) == [box(k + k % 4, 1, k + 4, 3) for k in range(10_000)]
    tile = box(2_000, 0, 4_000, 2)
    clipped = overlay_grid.pairs("intersection", bars, tile)
    assert clipped[:1_997] == [NOTHING] * 1_997 and clipped[4_000:] == [NOTHING] * 6_000
    assert clipped[1_997:4_000] == [box(max(k, 2_000), 0, min(k + 4, 4_000), 2) for k in range(1_997, 4_000)]


def test_holes_and_parts():
    """A pair whose answer has several polygons, one with a hole, between others."""
    ring = "((0 0, 9 0, 9 9, 0 9, 0 0), (3 3, 3 6, 6 6, 6 3, 3 3))"
    two = wkb_of(f"MULTIPOLYGON ({ring}, ((20 0, 30 0, 30 9, 20 9, 20 0)))")
    taken = wkb_of("MULTIPOLYGON (((3 3, 6 3, 6 6, 3 6, 3 3)), ((9 0, 20 0, 20 9, 9 9, 9 0)))")
    first = [box(0, 0, 1, 1), box(0, 0, 30, 9), box(5, 5, 7, 7)]
    assert overlay_grid.pairs("difference", first, [None, taken, None]) == [first[0], two, first[2]]


def test_nothing():
    assert overlay_grid.pairs("union", [], []) == overlay_grid.pairs("union", FIRST, []) == overlay_grid.pairs("union", [], FIRST) == []
    assert overlay_grid.pairs("union", [None], [FIRST], grid=0.1) == [FIRST]
    assert overlay_grid.pairs("union", [None, None], [None, NOTHING]) == [NOTHING, NOTHING]
    assert overlay_grid.pairs("union", [None, None], [None, None]) == [[], []]


def test_tuples_of_nothing():
    """A tuple is a list of geometries where it isn't of arrays, also where it has none."""
    assert overlay_grid.pairs("union", (), ()) == []
    with pytest.raises(ValueError, match="^A has 0 geometries and B has 1"):
        overlay_grid.pairs("union", (), [FIRST])
    assert overlay_grid.union((), FIRST) == FIRST
    assert overlay_grid.intersection((), FIRST) == NOTHING


def test_what_makes_no_pairs():
    for lengths in ((2, 3), (0, 1), (5, 4)):
        with pytest.raises(ValueError, match="^A has %d geometries and B has %d, " % lengths):
            overlay_grid.pairs("union", *([FIRST] * length for length in lengths))
    with pytest.raises(TypeError, match="^A and B are one geometry each"):
        overlay_grid.pairs("union", FIRST, SECOND)
    for layers, name in (((A, [FIRST]), "A"), (([FIRST], B.encode()), "B"), (([A, B], [FIRST, FIRST]), "A"), (([FIRST], [B]), "B")):
        with pytest.raises(TypeError, match=f"^{name}: pairs are of WKB, .* and not of texts$"):
            overlay_grid.pairs("union", *layers)
    for layers, name in (((None, [FIRST]), "A"), (([FIRST], 5), "B")):
        with pytest.raises(TypeError, match=f"^{name}: a .* is no layer"):
            overlay_grid.pairs("union", *layers)
    for word in ("edges", Operation.EDGES):
        with pytest.raises(ValueError, match="^pairs have no edges"):
            overlay_grid.pairs(word, [FIRST], [SECOND])
    with pytest.raises(ValueError):
        overlay_grid.pairs("union of", [FIRST], [SECOND])


LINE = struct.pack("<BIIdd", 1, 2, 1, 0, 0)
REFUSED = [
    ([FIRST, None, LINE], [SECOND] * 3, {}, "A: feature 3: a LineString is no polygon", ("A", 3, None)),
    ([FIRST, None], [SECOND, FIRST[:-1]], {}, "B: feature 2: is WKB that isn't whole", ("B", 2, None)),
    ([FIRST, FIRST], LINE, {}, "B: feature 1: a LineString is no polygon", ("B", 1, None)),
    (
        [FIRST] * 4,
        [FIRST, None, FIRST, wkb_of("MULTIPOLYGON (((0 0, 1 0, 1 1, 0 0)), ((0 0, 1 0, inf 1, 0 0)))")],
        {},
        "B: feature 4, polygon 2: a coordinate is no finite number: inf",
        ("B", 4, 2),
    ),
    (
        [FIRST, wkb_of("MULTIPOLYGON (((0 0, 1 0, 1 1, 0 0.5)))")],
        FIRST,
        {},
        "A: feature 2, polygon 1: a ring's last point isn't its first",
        ("A", 2, 1),
    ),
    (
        [FIRST, FAR],
        [FIRST] * 2,
        {"grid": "1e-8", "origin": (0, 0)},
        "A: feature 2, polygon 1: the point 7.0 0.0 lies off the grid, which has 2^28 units each way from its origin",
        ("A", 2, 1),
    ),
    (
        [FIRST] * 3,
        [FIRST, FIRST, box(0, 0, 1e12, 1)],
        {},
        "B: feature 3, polygon 1: reaches 1e+12, and the finest grid with room for all layers is 2000",
        ("B", 3, 1),
    ),
]


@pytest.mark.parametrize("a, b, plan, words, place", REFUSED, ids=[row[3] for row in REFUSED])
def test_refused(a, b, plan, words, place):
    with pytest.raises(GeometryError) as fault:
        overlay_grid.pairs("intersection", a, b, **plan)
    assert (str(fault.value), (fault.value.layer, fault.value.feature, fault.value.part)) == (words, place)


def test_plans():
    """Where no unit is said it is 0.001, and one that is no unit is refused."""
    assert overlay_grid.pairs("union", [box(0, 0, 1.0004, 1)], [None]) == [box(0, 0, 1, 1)]
    assert overlay_grid.pairs("union", [box(0, 0, 2, 2)], [None], grid=3) == [box(0, 0, 3, 3)]
    for wrong in ({"grid": 0}, {"grid": "one"}, {"origin": (0, "here")}):
        with pytest.raises(ValueError, match="^(grid|origin): "):
            overlay_grid.pairs("union", [FIRST], [SECOND], **wrong)


def test_answers_that_are_larger_than_guessed(monkeypatch):
    """Of 2 times 30 bars the intersection has 900 squares, with 4,500 points."""
    sizes = []
    taken = _rooms.taken
    monkeypatch.setattr(_rooms, "_free", [])
    monkeypatch.setattr(_columns, "taken", lambda size: sizes.append(size) or taken(size))
    a, b = bars(30, False), bars(30, True)
    found = overlay_grid.pairs("intersection", [None, wkb_of(a), FAR], [None, wkb_of(b), FAR], grid=1)
    assert found == [NOTHING, wkb_of(overlay_grid.intersection(a, b)), FAR] and len(sizes) == 2 and sizes[1] >= 45_000


def test_out_of_memory(monkeypatch):
    monkeypatch.setattr(_columns, "fill_pairs", lambda *_: told_of(1, 10))
    with pytest.raises(OutOfMemory, match="10 out of memory"):
        overlay_grid.pairs("union", [FIRST], [SECOND])


def test_threads():
    first, second = ([wkb_of(one_of(layer)) for layer in side] for side in zip(*map(pairs.pair, range(60))))
    want = {word: overlay_grid.pairs(word, first, second, grid=1) for word in WORKED}
    different = []

    def work(start):
        for turn in range(8):
            word = list(WORKED)[(start + turn) % 4]
            if overlay_grid.pairs(word, first, second, grid=1) != want[word]:
                different.append((start, turn))

    threads = [threading.Thread(target=work, args=(start,)) for start in range(4)]
    for thread in threads:
        thread.start()
    for thread in threads:
        thread.join()
    assert different == []


@pytest.mark.parametrize("seed", range(10))
def test_arrays(seed):
    """Rings of numpy's, and tuples of them."""
    numpy = pytest.importorskip("numpy")
    sides = zip(*map(pairs.pair, range(10 * seed, 10 * seed + 10)))
    first, second = ([tuple(ring for polygon in rings_of(numpy, one_of(layer)) for ring in polygon) for layer in side] for side in sides)
    found = overlay_grid.pairs("symdifference", first, second, grid=1)
    assert list(map(lists_of, found)) == [lists_of(overlay_grid.symdifference(a, b, grid=1)) for a, b in zip(first, second)]
    ring = numpy.array([(-3, -3), (4, -3), (4, 4)])
    found = overlay_grid.pairs("difference", ring, [*second, ring], grid=1)
    assert list(map(lists_of, found)) == [lists_of(overlay_grid.difference(ring, b, grid=1)) for b in second] + [[]]


def test_kinds_of_answers():
    """It is the first layer's, whatever the other is."""
    numpy, wkt = pytest.importorskip("numpy"), pytest.importorskip("shapely.wkt")
    a, b = wkt.loads(A), wkt.loads(B)
    ring = rings_of(numpy, multi(B))[0][0]
    want = wkb_of(WORKED["difference"])
    for other in (b, SECOND, ring):
        assert overlay_grid.pairs("difference", [FIRST], other, grid=0.1) == [want]
        assert [one.wkb for one in overlay_grid.pairs("difference", a, [other, None], grid=0.1)] == [want, FIRST]
    objects = numpy.array([None, a, b], dtype=object)
    found = overlay_grid.pairs("difference", objects, [FIRST, SECOND, SECOND], grid=0.1)
    assert type(found) is list and [one.wkb for one in found] == [NOTHING, want, NOTHING] and found[0].is_empty


@pytest.mark.parametrize("seed", range(20))
def test_shapely_where_it_is_exact(seed):
    """Of rectangles with whole corners, Shapely's answers are exact: the same points."""
    geometry = pytest.importorskip("shapely.geometry")
    draw = random.Random(seed)

    def boxes():
        corners = [(draw.randrange(40), draw.randrange(40)) for _ in range(12)]
        return [geometry.box(x, y, x + draw.randint(1, 25), y + draw.randint(1, 25)) for x, y in corners]

    first, second = boxes(), boxes()
    for word, other in zip(WORKED, ("union", "intersection", "difference", "symmetric_difference")):
        for b in (second, second[0]):
            found = overlay_grid.pairs(word, first, b, grid="0.5")
            for one, ours, theirs in zip(found, first, b if isinstance(b, list) else [b] * 12):
                want = getattr(ours, other)(theirs)
                assert one.is_valid and one.area == want.area and one.symmetric_difference(want).area == 0


def test_series():
    """The answer is a series with the first one's index and reference system, also of a frame, and by order alone."""
    geopandas, geometry = pytest.importorskip("geopandas"), pytest.importorskip("shapely.geometry")
    squares = [geometry.box(k, 0, k + 4, 4) for k in range(3)]
    a = geopandas.GeoSeries([squares[0], None, squares[2]], index=["x", "y", "x"], crs="EPSG:25832")
    b = geopandas.GeoSeries([squares[1]] * 3, index=[7, 8, 9], crs="EPSG:25832")
    with warnings.catch_warnings():
        warnings.simplefilter("error")
        frame = geopandas.GeoDataFrame({"shape": a, "id": 1}).set_geometry("shape")
        found = [overlay_grid.pairs("intersection", one, other) for one in (a, frame) for other in (b, squares[1], [squares[1]] * 3)]
        backwards = overlay_grid.pairs("difference", squares[1], a)
        other = overlay_grid.pairs("intersection", squares, b)
    for answer in found:
        assert type(answer) is geopandas.GeoSeries and answer.crs == a.crs and answer.index.equals(a.index)
        assert answer.area.tolist() == [12, 0, 12] and answer.iloc[0].equals(geometry.box(1, 0, 4, 4)) and answer.iloc[1].is_empty
    assert backwards.index.equals(a.index) and backwards.crs == a.crs and backwards.area.tolist() == [4, 16, 4]
    assert type(other) is list and [one.area for one in other] == [12, 16, 12]
    nothing = overlay_grid.pairs("union", a.iloc[:0], squares[1])
    assert type(nothing) is geopandas.GeoSeries and len(nothing) == 0 and nothing.crs == a.crs
    absent = overlay_grid.pairs("union", a.iloc[1:2], [None])
    assert absent.index.tolist() == ["y"] and absent.crs == a.crs and absent.is_empty.all()


def test_reference_systems():
    """Degrees are on a grid of 0.000001, and systems that differ are warned of, once and where the call stands."""
    geopandas, geometry = pytest.importorskip("geopandas"), pytest.importorskip("shapely.geometry")
    degrees = geopandas.GeoSeries([geometry.box(8, 50, 8.0000014, 50.0000016)], crs="EPSG:4326")
    assert overlay_grid.pairs("union", degrees, [None]).iloc[0].bounds == (8, 50, 8.000001, 50.000002)
    assert overlay_grid.pairs("union", [None], degrees)[0].bounds == (8, 50, 8.000001, 50.000002)
    with pytest.warns(UserWarning, match="the reference systems of the layers differ") as told:
        overlay_grid.pairs("union", degrees, degrees.set_crs("EPSG:25832", allow_override=True))
    assert len(told) == 1 and told[0].filename == __file__
