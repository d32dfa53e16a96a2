"""Layers that go to the library as columns: the answers are those of texts, and so are the refusals."""

import threading

import overlay_grid
import pairs
import pytest
from overlay_grid import OutOfMemory, Refusal, Refused, _columns, _rooms
from test_kinds import WORKED, asked, rings_of, wkb_of

WHOLE = "POLYGON ((-268435456 -268435456, 268435456 -268435456, 268435456 268435456, -268435456 268435456, -268435456 -268435456))"


def one_of(layer):
    """All polygons of a layer's text as one geometry, which is read as the text by parity."""
    polygons = [line[len("POLYGON ") :] for line in layer.splitlines()]
    return f"MULTIPOLYGON ({', '.join(polygons)})" if polygons else "MULTIPOLYGON EMPTY"


@pytest.mark.parametrize("word", WORKED)
@pytest.mark.parametrize("seed", range(40))
def test_pairs(seed, word):
    a, b = pairs.pair(seed)
    want = asked(word, a, b, reading="parity")
    assert asked(word, wkb_of(one_of(a)), wkb_of(one_of(b)), grid=1) == wkb_of(want)
    assert asked(word, wkb_of(one_of(a)), wkb_of(one_of(b)), grid=1, origin=(5, -3), side=1000, segments=500) == wkb_of(want)


@pytest.mark.parametrize("seed", range(20))
def test_arrays(seed):
    numpy = pytest.importorskip("numpy")
    a, b = pairs.pair(seed)
    word = list(WORKED)[seed % 4]
    layers = [tuple(ring for polygon in rings_of(numpy, one_of(layer)) for ring in polygon) for layer in (a, b)]
    found, want = asked(word, *layers, grid=1), rings_of(numpy, asked(word, a, b, reading="parity"))
    assert [[ring.tolist() for ring in polygon] for polygon in found] == [[ring.tolist() for ring in polygon] for polygon in want]


@pytest.mark.parametrize("many", [1, 10**9])
def test_with_numpy_and_without(many, monkeypatch):
    """Columns are the same, whether numpy makes them or Python."""
    monkeypatch.setattr("overlay_grid._optional.MANY", many)
    monkeypatch.setattr("overlay_grid._optional.IMPORTED", 1)
    for seed in range(10):
        a, b = pairs.pair(seed)
        assert overlay_grid.union(wkb_of(one_of(a)), wkb_of(one_of(b)), grid=1) == wkb_of(overlay_grid.union(a, b, reading="parity"))


def bars(count, turned):
    """So many bars beside one another, across or upright."""
    boxes = [((4 * k, 0), (4 * k + 2, 4 * count)) for k in range(count)]
    corners = [[(x, y), (u, y), (u, v), (x, v), (x, y)] for (x, y), (u, v) in boxes]
    rings = [", ".join(f"{y} {x}" if turned else f"{x} {y}" for x, y in ring) for ring in corners]
    return f"MULTIPOLYGON ({', '.join(f'(({ring}))' for ring in rings)})"


def test_answers_that_are_larger_than_guessed(monkeypatch):
    """Of 2 times 30 bars the intersection has 900 squares, with 4,500 points."""
    sizes = []
    taken = _rooms.taken
    monkeypatch.setattr(_rooms, "_free", [])
    monkeypatch.setattr(_columns, "taken", lambda size: sizes.append(size) or taken(size))
    a, b = bars(30, False), bars(30, True)
    found = overlay_grid.intersection(wkb_of(a), wkb_of(b), grid=1)
    assert found == wkb_of(overlay_grid.intersection(a, b)) and len(sizes) == 2 and sizes[1] >= 45_000


def test_wide_layers():
    """Where the usual side gives too many tiles, one is taken that fits."""
    whole, small = wkb_of(one_of(WHOLE)), wkb_of("MULTIPOLYGON (((0 0, 9 0, 9 9, 0 0)))")
    assert overlay_grid.intersection(whole, small, grid=1, origin=(0, 0)) == small
    assert overlay_grid.union(whole, small, grid=1) == wkb_of(overlay_grid.union(WHOLE, ""))


REFUSED = [
    ({"segments": 6}, ("5 too many segments: 7", 5, 7)),
    ({"side": 15}, ("6 bad tile side", 6, None)),
    ({"side": -1}, ("6 bad tile side", 6, None)),
    ({"side": 2**32 + 16}, ("6 bad tile side", 6, None)),
    ({"side": 16}, ("8 too many tiles: 65792", 8, 65792)),
]


@pytest.mark.parametrize("plan, want", REFUSED, ids=[row[1][0] for row in REFUSED])
def test_refused(plan, want):
    layers = ["MULTIPOLYGON (((0 0, 4096 0, 4096 4095, 0 4095, 0 0)))", "MULTIPOLYGON (((0 0, 1 0, 1 1, 0 0)))"]
    for given in (layers, list(map(wkb_of, layers))):
        with pytest.raises(Refused) as fault:
            overlay_grid.union(*given, grid=1, **plan)
        told = fault.value
        assert (str(told), told.number, told.count) == want and told.layer is told.offset is None
        assert isinstance(told.number, Refusal)


def test_out_of_memory(monkeypatch):
    """The exception of an answer that there was no memory."""
    monkeypatch.setattr(_columns, "fill", lambda *_: told_of(1, 10))
    with pytest.raises(OutOfMemory, match="10 out of memory"):
        overlay_grid.union(wkb_of(WORKED["union"]), wkb_of(WORKED["union"]))


def told_of(status, number):
    """A room with an answer that there is nothing."""
    room = _rooms.Room(0)
    room.columns_answer.status, room.columns_answer.number, room.columns_answer.part = status, number, 2
    return room


def test_wrong_plans():
    layer = wkb_of(WORKED["union"])
    for wrong in ({"side": 16.0}, {"side": True}, {"segments": 8.0}):
        with pytest.raises(TypeError):
            overlay_grid.union(layer, layer, **wrong)
    with pytest.raises(ValueError, match="below 1"):
        overlay_grid.union(layer, layer, segments=0)


def test_threads():
    layers = [[wkb_of(one_of(layer)) for layer in pairs.pair(seed)] for seed in range(8)]
    want = [overlay_grid.union(*pair, grid=1) for pair in layers]
    different = []

    def work(first):
        for turn in range(40):
            at = (first + turn) % len(layers)
            if overlay_grid.union(*layers[at], grid=1) != want[at]:
                different.append((first, turn))

    threads = [threading.Thread(target=work, args=(first,)) for first in range(6)]
    for thread in threads:
        thread.start()
    for thread in threads:
        thread.join()
    assert different == []
