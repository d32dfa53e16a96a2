"""Faces of layers that go to the library as columns: the rows are those of texts, and so are the refusals."""

import threading
import tracemalloc
from array import array

import overlay_grid
import pairs
import pytest
from overlay_grid import OutOfMemory, Refusal, Refused, _columns, _rooms, _rows
from test_columns import REFUSED, WHOLE, bars, one_of
from test_kinds import A, B, WORKED, multi, rings_of, wkb_of

SQUARE = "MULTIPOLYGON (((0 0, 4 0, 4 4, 0 4, 0 0)))"


def features_of(layer):
    """A text's polygons, each a feature, as WKB."""
    return [wkb_of(multi(line)) for line in layer.splitlines()]


def faces_of(*layers, **plan):
    """Rows on a grid of 1, as of texts."""
    return [(2 * face.area, face.ids, face.geometry) for face in overlay_grid.faces(*layers, grid=1, **plan)]


def wanted(*layers):
    return [(row.twice_area, row.ids, wkb_of(row.wkt)) for row in overlay_grid.faces(*layers)]


@pytest.mark.filterwarnings("ignore:.*the grid leaves nothing")
@pytest.mark.parametrize("seed", range(60))
def test_rows(seed):
    a, b = pairs.pair(seed)
    want = wanted(a, b, a)
    layers = list(map(features_of, (a, b, a)))
    if any(layers):
        assert faces_of(*layers) == faces_of(*layers, origin=(7, -3), side=1000, segments=1000) == want
        assert faces_of(*layers[:2]) == wanted(a, b) and faces_of(layers[0]) == wanted(a)


@pytest.mark.parametrize("seed", range(20))
def test_one_geometry(seed):
    """A layer that is one geometry has one feature, which is read by parity."""
    a, b = pairs.pair(seed)
    texts = [one_of(layer) for layer in (a, b)]
    assert faces_of(*map(wkb_of, texts)) == wanted(*texts)


@pytest.mark.parametrize("seed", range(20))
def test_arrays(seed):
    numpy = pytest.importorskip("numpy")
    texts = [one_of(layer) for layer in pairs.pair(seed)]
    layers = [tuple(ring for polygon in rings_of(numpy, text) for ring in polygon) for text in texts]
    found, want = overlay_grid.faces(*layers, grid=1), overlay_grid.faces(*texts)
    assert [(2 * face.area, face.ids) for face in found] == [row[:2] for row in want]
    for face, row in zip(found, want):
        polygons = rings_of(numpy, row.wkt)
        assert [[ring.tolist() for ring in polygon] for polygon in face.geometry] == [[ring.tolist() for ring in polygon] for polygon in polygons]


@pytest.mark.parametrize("many", [1, 10**9])
def test_with_numpy_and_without(many, monkeypatch):
    monkeypatch.setattr("overlay_grid._optional.MANY", many)
    monkeypatch.setattr("overlay_grid._optional.IMPORTED", 1)
    for seed in range(10):
        a, b = pairs.pair(seed)
        assert faces_of(features_of(a) or [None], features_of(b) or [wkb_of(SQUARE)]) == wanted(a or "POLYGON EMPTY", b or SQUARE)


def test_shapely_and_frames():
    """Frames, series and lists of geometries answer with geometries; layers may be of several kinds."""
    wkt = pytest.importorskip("shapely.wkt")
    layers = [[wkt.loads(A), None, wkt.loads(B)], [wkt.loads(B)]]
    want = [((face.area, face.ids), face.geometry) for face in overlay_grid.faces(f"{A} POLYGON EMPTY {B}", B, grid=0.1)]

    def same(*given):
        found = overlay_grid.faces(*given, grid=0.1)
        return [((face.area, face.ids), face.geometry.wkb) for face in found] == [(told, wkb_of(text)) for told, text in want]

    assert same(*layers) and same(layers[0], wkb_of(multi(B)))
    geopandas = pytest.importorskip("geopandas")
    frames = [geopandas.GeoDataFrame({"name": range(len(layer))}, geometry=layer) for layer in layers]
    assert same(*frames) and same(frames[0].geometry, layers[1])


def test_texts_among_others():
    """Where one layer is a text all go as texts."""
    found = overlay_grid.faces([wkb_of(multi(A))], B, grid=0.1)
    want = overlay_grid.faces([wkb_of(multi(A))], [wkb_of(multi(B))], grid=0.1)
    assert [face[:2] for face in found] == [face[:2] for face in want] and [face.geometry for face in found] == [face.geometry for face in want]


def test_answers_that_are_larger_than_guessed(monkeypatch):
    """Of 2 times 60 bars 3,600 squares are common, and each has a row of its own."""
    sizes = []
    taken = _rooms.taken
    monkeypatch.setattr(_rooms, "_free", [])
    monkeypatch.setattr(_columns, "taken", lambda size: sizes.append(size) or taken(size))
    layers = [bars(60, turned)[len("MULTIPOLYGON (") : -1].replace(")), ((", "))|((").split("|") for turned in (False, True)]
    texts = ["\n".join(f"POLYGON {polygon}" for polygon in layer) for layer in layers]
    assert faces_of(*map(features_of, texts)) == wanted(*texts) and len(sizes) == 2 and sizes[1] > 3600 * 100


def test_lists_of_many_features(monkeypatch):
    """A row's numbers are the same objects in all rows, and an operation makes none of them."""
    offsets = array("I", range(0, 300_001, 300))
    tracemalloc.start()
    try:
        lists = _rows.numbers_in(array("I", [*range(700, 1000)] * 1000), offsets)
        assert tracemalloc.get_traced_memory()[0] < 4 << 20
    finally:
        tracemalloc.stop()
    assert lists == [tuple(range(701, 1001))] * 1000 and _rows.numbers_in(array("I"), array("I", [0, 0])) == [()]
    monkeypatch.setattr(_rows, "numbers_in", None)
    a, b = (wkb_of(multi(text)) for text in (A, B))
    assert overlay_grid.union([a, b, a], [b], grid=0.1) == wkb_of(WORKED["union"])


def test_wide_layers():
    """Where the usual side gives too many tiles, one is taken that fits."""
    found = faces_of([wkb_of(one_of(WHOLE))], [wkb_of(SQUARE)], origin=(0, 0))
    assert found == [(float(twice), *row) for twice, *row in wanted(WHOLE, SQUARE)]


@pytest.mark.parametrize("plan, want", REFUSED, ids=[row[1][0] for row in REFUSED])
def test_refused(plan, want):
    layers = ["MULTIPOLYGON (((0 0, 4096 0, 4096 4095, 0 4095, 0 0)))", "MULTIPOLYGON (((0 0, 1 0, 1 1, 0 0)))"]
    for given in (layers, list(map(wkb_of, layers))):
        with pytest.raises(Refused) as fault:
            overlay_grid.faces(*given, grid=1, **plan)
        told = fault.value
        assert (str(told), told.number, told.count) == want and told.layer is told.offset is None


def test_many_layers_and_ids(monkeypatch):
    layers = [wkb_of(SQUARE)] * 65
    assert faces_of(*layers[:64]) == [(32, ((1,),) * 64, wkb_of(SQUARE))]
    with pytest.raises(ValueError, match="65 layers, and there may be 64"):
        overlay_grid.faces(*layers)
    monkeypatch.setattr(_columns, "IDS", 63)
    with pytest.raises(Refused, match="^12 too many ids: 64$") as fault:
        overlay_grid.faces(*layers[:64])
    assert (fault.value.number, fault.value.count, fault.value.layer) == (Refusal.TOO_MANY_IDS, 64, None)


def test_out_of_memory(monkeypatch):
    room = _rooms.Room(0)
    room.faces_answer.status, room.faces_answer.number, room.faces_answer.part = 1, 10, 1
    monkeypatch.setattr(_columns, "fill_faces", lambda *_: room)
    with pytest.raises(OutOfMemory, match="10 out of memory"):
        overlay_grid.faces([wkb_of(SQUARE)])


def test_threads():
    layers = [[features_of(layer) or [None] for layer in pairs.pair(seed)] for seed in range(8)]
    want = [overlay_grid.faces(*pair, grid=1) for pair in layers]
    different = []

    def work(first):
        for turn in range(40):
            at = (first + turn) % len(layers)
            if overlay_grid.faces(*layers[at], grid=1) != want[at]:
                different.append((first, turn))

    threads = [threading.Thread(target=work, args=(first,)) for first in range(6)]
    for thread in threads:
        thread.start()
    for thread in threads:
        thread.join()
    assert different == []
