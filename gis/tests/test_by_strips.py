"""`--engine dask`: a map by strips has the answer of the single program, whatever the strips are, and
whatever becomes of workers, files and the run."""

import math
import os
import random
import re
import sqlite3
import sys
import time
import tracemalloc
from contextlib import closing, nullcontext
from pathlib import Path

import numpy as np
import pytest
from osgeo import ogr

from conftest import COMMAND, EAST, NORTH, blobs, parcels, read, write
from overlay_gis import by_strips, destination, geopackage, options, ranges, strip_library, strip_measures, strip_plan, strip_polygons, strip_tasks, workers
from overlay_gis.faults import Fault
from overlay_gis.layers import Source
from overlay_gis.sections import Folder, Spoiled

sys.path.append(str(Path(COMMAND).parents[1] / "python"))
strips = pytest.importorskip("overlay_grid.strips", reason="no library: python/build")

OPERATIONS = ("union", "intersection", "difference", "symdifference")
LIMIT = 1 << 28


class InTurn(workers.Crew):
    """Does all tasks in this process, one after another."""

    def look(self, path):
        assert os.path.isfile(path)
        return 1 << 32

    def outcomes(self, work, wanted, missing):
        InTurn.work = work
        ended = {}
        for step in missing:
            before = [ended[other] for other in strip_tasks.needs(work, step) if other in ended]
            ended[step] = strip_tasks.carried_out(work, step, *before)
            yield ended[step]

    def notes(self, work, phases):
        InTurn.noted = super().notes(work, phases)
        return InTurn.noted

    @staticmethod
    def told(key, phase):
        """What the tasks of a phase have told of something, in their order."""
        return [note[key] for step, note in sorted(InTurn.noted.items()) if step.phase == phase]


@pytest.fixture
def in_turn(monkeypatch):
    """Has no worker, and strips of so many segments and parts of so many bytes as a test says."""
    monkeypatch.setattr(by_strips, "Crew", InTurn)
    monkeypatch.setattr(by_strips, "clients", lambda *_: nullcontext(None))

    def put(segments, size):
        monkeypatch.setattr(by_strips, "most_lines", lambda *_: segments)
        monkeypatch.setattr(by_strips, "PART", size)

    return put


def geometry(rings):
    """A polygon of these rings, whether it is a valid one or not."""
    made = ogr.Geometry(ogr.wkbPolygon)
    for points in rings:
        ring = ogr.Geometry(ogr.wkbLinearRing)
        for x, y in [*points, points[0]]:
            ring.AddPoint_2D(x, y)
        made.AddGeometry(ring)
    return made


def square(x, y, side):
    return [(x, y), (x + side, y), (x + side, y + side), (x, y + side)]


def soup(rng, reach):
    return [[[(rng.randint(-reach, reach), rng.randint(-reach, reach)) for _ in range(rng.randint(3, 9))]] for _ in range(rng.randint(0, 6))]


def board(rng, reach):
    """Squares that share borders and corners, some left out."""
    count, side = rng.randint(2, 7), rng.randint(1, 5)
    return [[square(side * i, side * j, side)] for i in range(count) for j in range(count) if rng.random() < 0.6]


def slivers(rng, reach):
    far = min(max(reach, 20), LIMIT - 9)
    return [[[(rng.randint(-9, 9) - far, rng.randint(-4, 4)), (far + rng.randint(-9, 9), rng.randint(-4, 4)), (rng.randint(-far, far), rng.randint(-4, 4))]] for _ in range(rng.randint(1, 6))]


def star(rng, reach):
    """Needles through one point."""
    far, count, made = min(max(reach, 10), LIMIT - 2), rng.randint(2, 12), []
    for k in range(count):
        x, y = (int(far * way(math.pi * (k + rng.random()) / count)) for way in (math.cos, math.sin))
        made.append([[(x, y), (x + 1, y), (-x, -y), (-x - 1, -y)]])
    return made


def nested(rng, reach):
    return [[[(-3 * k, 0), (0, -3 * k), (3 * k, 0), (0, 3 * k)]] if rng.random() < 0.5 else [square(-3 * k, -3 * k, 6 * k)] for k in range(1, rng.randint(2, 9))]


def copies(rng, reach):
    return soup(rng, reach) * rng.randint(1, 3)


def comb(rng, reach):
    teeth = rng.randint(2, 15)
    ring = [(0, 0)]
    for k in range(teeth):
        ring += [(2 * k, 30 + rng.randint(0, 5)), (2 * k + 1, 2 + rng.randint(0, 3))]
    ring.append((2 * teeth, 0))
    return [[[(y, x) for x, y in ring] if rng.random() < 0.5 else ring]]


def islands(rng, reach):
    """One outline with many holes, and islands in these."""
    at = [(-48 + 16 * i, -48 + 16 * j) for i in range(6) for j in range(6) if rng.random() < 0.7]
    holes = [square(x, y, rng.randint(6, 16)) for x, y in at]
    return [[square(-50, -50, 100), *holes]] + [[square(x + 2, y + 2, rng.randint(1, 4))] for x, y in at]


def walk(rng, reach):
    """A long ring of short steps, which meets itself."""
    x = y = 0
    ring = []
    for _ in range(rng.randint(10, 120)):
        x, y = x + rng.randint(-2, 3), y + rng.randint(-2, 2)
        ring.append((x, y))
    return [[ring]]


def lakes(rng, reach):
    """Frames in frames, wide or high ones, which touch at corners or not, and islands between them."""
    made = []
    for k in range(rng.randint(1, 8)):
        far, wide, high = 8 * k + rng.randint(2, 8), rng.choice([1, 9]), rng.choice([1, 2])
        x, y, right, top = -far * wide, -far * high, far * wide, far * high
        outer, inner = ([(x + d, y + d), (right - d, y + d), (right - d, top - d), (x + d, top - d)] for d in (0, rng.randint(1, 2)))
        made += [[outer, inner], [square(rng.randint(x, right), rng.randint(y, top), rng.randint(1, 3))]]
    return made


def chain(rng, reach):
    """Diamonds whose corners touch, some of them hollow."""
    half, count = rng.randint(2, 6), rng.randint(2, 20)
    diamonds = [[(x - half, 0), (x, -half), (x + half, 0), (x, half)] for x in range(0, 2 * half * count, 2 * half)]
    return [[ring, [(a, b) for a, b in square(ring[1][0], 0, 1)]] if rng.random() < 0.4 else [ring] for ring in diamonds if rng.random() < 0.9]


KINDS = [soup, soup, soup, board, slivers, star, nested, copies, comb, islands, walk, lakes, lakes, chain]
REACHES = [2, 3, 5, 8, 15, 40, 300, 1 << 14, LIMIT]


def layer(path, rng):
    made = rng.choice(KINDS)(rng, rng.choice(REACHES))
    return write(path, [geometry(rings) for rings in made], None)


def rows(path):
    """All that a GeoPackage has of its polygons."""
    with closing(sqlite3.connect(path)) as held:
        return held.execute(f"SELECT fid, geom, id, area FROM {Path(path).stem.partition('.')[0]} ORDER BY fid").fetchall()


def told(answer):
    """What was said of the layers, without what is said of the plan."""
    return [line for line in answer.err.splitlines() if not re.search(" strips of about | segments reach one strip|^overlay-gis: workers ", line)]


def both(gis, tmp_path, operation, a, b, *words):
    """The answers of the single program and by strips, which are the same."""
    single = gis("run", operation, a, b, "-o", "one.gpkg", "--overwrite", "--parity", *words)
    parted = gis("run", operation, a, b, "-o", "many.gpkg", "--overwrite", "--parity", "--engine", "dask", *words)
    assert single.status == parted.status == 0, (single.err, parted.err)
    assert rows("one.gpkg") == rows("many.gpkg")
    assert [line.replace("many.gpkg", "one.gpkg") for line in told(parted)] == told(single)
    return parted


@pytest.mark.parametrize("seed", range(80))
def test_hostile_maps(gis, tmp_path, in_turn, monkeypatch, seed):
    rng = random.Random(seed)
    a, b = layer(tmp_path / "a.gpkg", rng), layer(tmp_path / "b.gpkg", rng)
    in_turn(1, rng.choice([1, 300, 1 << 20]))
    count = rng.choice([1, 2, 3, 8, 30, 149])

    def chosen(begins, ends, weights, most):
        """Strips that begin at columns of points, beside them, or anywhere."""
        low, high = int(min(begins, default=0)), int(max(ends, default=0))
        columns = [*begins.tolist(), *ends.tolist(), 0]
        cuts = [rng.choice([rng.choice(columns) + rng.randint(-1, 1), rng.randint(low, high + 1)]) for _ in range(count)]
        return strip_plan.Strips(tuple(sorted(cuts)), 1)

    monkeypatch.setattr(by_strips, "chosen", chosen)
    for module, name in ((strip_polygons, "BLOCK"), (strip_polygons, "POINTS"), (geopackage, "BLOCK")):
        monkeypatch.setattr(module, name, rng.choice([1, 9, 1 << 15]))
    both(gis, tmp_path, rng.choice(OPERATIONS), a, b, "--grid", "1", "--origin", "0,0")
    assert InTurn.told("open", "join" if count else "close")[-1] == 0


@pytest.fixture
def cut(in_turn, monkeypatch):
    """Strips that begin at these columns."""

    def put(*columns):
        in_turn(1, 1 << 20)
        monkeypatch.setattr(by_strips, "chosen", lambda *_: strip_plan.Strips(columns, 1))

    return put


def test_polygons_are_closed_in_strips_and_where_these_are_joined(gis, tmp_path, cut):
    """Of four strips and a fifth one: joins 0 and 1 have two each, join 2 these four, join 3 all."""
    frame = [[(-5, -5), (60, -5), (60, 99), (-5, 99)], [(-3, -3), (58, -3), (58, 97), (-3, 97)]]
    lake = [square(12, 50, 15), square(14, 52, 11)]  # over the border at 20, with islands in strips 1 and 2 and over the border
    held = [square(1, 1, 3), square(8, 10, 1), square(45, 1, 2), square(15, 54, 2), square(21, 54, 2), square(18, 58, 4), square(33, 70, 4)]
    over = [square(8, 0, 4), square(8, 20, 4), square(28, 60, 4), square(18, 40, 4), square(38, 80, 4), square(25, 30, 19)]
    a = write(tmp_path / "a.gpkg", [geometry(rings) for rings in [frame, lake, *([ring] for ring in held)]], None)
    b = write(tmp_path / "b.gpkg", [geometry([ring]) for ring in over], None)
    cut(10, 20, 30, 40)
    both(gis, tmp_path, "union", a, b, "--grid", "1", "--origin", "0,0")
    assert InTurn.told("polygons", "close") == [2, 1, 1, 1, 1]
    assert InTurn.told("polygons", "join") == [2, 1, 3, 3]
    assert InTurn.told("polygons", "write") == [5, 4, 3, 2, 1]
    assert InTurn.told("open", "join")[-1] == 0


def test_spans_are_joined_two_by_two():
    for count in range(1, 70):
        spans = strip_plan.spans_of(count)
        assert [(span.first, span.past) for span in spans[:count]] == [(strip, strip + 1) for strip in range(count)]
        assert len(spans) == 2 * count - 1 and spans[-1][:2] == (0, count)
        for number, span in enumerate(spans[count:], count):
            one, other = (spans[half] for half in span.halves)
            assert max(span.halves) < number and (span.first, one.past, span.past) == (one.first, other.first, other.past)
        assert sorted(half for span in spans for half in span.halves) == list(range(2 * count - 2))
        for strip in range(count):
            assert sum(span.first <= strip < span.past for span in spans) <= 1 + math.ceil(math.log2(count))


def of_lists(polygons):
    """Polygons that are lists of rings, as tasks have them."""
    rings = [ring for polygon in polygons for ring in polygon]
    offsets = [np.cumsum([0, *map(len, parts)]).astype("<u4") for parts in (rings, polygons)]
    return strip_polygons.Polygons(np.array([number for ring in rings for point in ring for number in point], "<i4"), *offsets)


def lists_of(held):
    points = list(zip(held.coordinates[0::2].tolist(), held.coordinates[1::2].tolist()))
    rings = [points[at:past] for at, past in zip(held.rings, held.rings[1:])]
    return [rings[at:past] for at, past in zip(held.polygons, held.polygons[1:])]


@pytest.mark.parametrize("seed", range(20))
def test_polygons_come_in_one_order(monkeypatch, seed):
    """By their shells' first points, then by the second ones; whatever has made them, and however they are parted."""
    rng = random.Random(seed)
    edges = rng.sample([(x, y, a, b) for x in range(4) for y in range(3) for a in range(3) for b in range(3)], rng.choice([0, 1, 5, 60]))
    polygons = [[[edge[:2], edge[2:]] + [(9, k)] * rng.randint(1, 3)] + [[(k, 0), (0, k)]] * rng.randint(0, 2) for k, edge in enumerate(edges)]
    parts = [[] for _ in range(rng.randint(1, 5))]
    for polygon in polygons:
        rng.choice(parts).append(polygon)
    ordered = sorted(polygons, key=lambda polygon: polygon[0][:2])
    found = strip_polygons.Polygons(*strips.written(list(map(of_lists, parts))))
    assert lists_of(found) == ordered
    cuts = sorted(rng.randint(-1, 4) for _ in range(rng.randint(0, 5)))
    by_strip = [lists_of(part) for part in found.parted(cuts)]
    assert by_strip == [[polygon for polygon in ordered if np.searchsorted(cuts, polygon[0][0][0], "right") == k] for k in range(len(cuts) + 1)]
    monkeypatch.setattr(strip_polygons, "BLOCK", rng.choice([1, 3, 1000]))
    monkeypatch.setattr(strip_polygons, "POINTS", rng.choice([1, 9, 1000]))
    blocks = list(found.blocks())
    assert [polygon for block in blocks for polygon in lists_of(block)] == ordered
    assert all(block.total == 1 or block.total <= strip_polygons.BLOCK and block.rings[-1] <= strip_polygons.POINTS for block in blocks)


def measured(most, key, call):
    """The same call; the most that Python and numpy held at once while it was made is put there."""

    def made(*given):
        tracemalloc.start()
        try:
            return call(*given)
        finally:
            most[key] = max(most.get(key, 0), tracemalloc.get_traced_memory()[1])
            tracemalloc.stop()

    return made


def test_memory_does_not_grow_with_the_answer(gis, tmp_path, in_turn, monkeypatch):
    """Neither that of a task nor that of the run itself."""
    most, phases, write_all = [{}, {}], dict(strip_tasks.PHASES), destination.Destination.write
    for module in (strip_polygons, geopackage):
        monkeypatch.setattr(module, "BLOCK", 200)
    for held, columns in zip(most, (30, 120)):
        squares = [geometry([square(10 * x + y % 7, 10 * y, 5)]) for x in range(columns) for y in range(50)]
        a, b = write(tmp_path / "a.gpkg", squares, None), write(tmp_path / "b.gpkg", squares[:1], None)
        in_turn(1600, 1 << 16)
        for phase in ("reach", "close", "join", "write"):
            monkeypatch.setitem(strip_tasks.PHASES, phase, measured(held, phase, phases[phase]))
        monkeypatch.setattr(destination.Destination, "write", measured(held, "run", write_all))
        answer = gis("run", "union", a, b, "-o", "many.gpkg", "--overwrite", "--parity", "--engine", "dask", "--grid", "1")
        assert answer.status == 0 and f"{50 * columns:,} polygons" in answer.err, answer.err
        for path in (a, b):
            os.remove(path)
    few, many = most
    assert min(many.values()) > 0 and all(many[key] < 1.5 * few[key] + 10_000 for key in few), most


@pytest.mark.parametrize("operation", OPERATIONS)
@pytest.mark.parametrize("segments", [1, 20, 1000])
def test_a_town(gis, tmp_path, in_turn, operation, segments):
    a, b = write(tmp_path / "a.gpkg", parcels(1, 3)), write(tmp_path / "b.gpkg", blobs(2, 3))
    in_turn(segments, 700)
    both(gis, tmp_path, operation, a, b)


def test_parts_have_each_feature_once(tmp_path):
    path = write(tmp_path / "a.gpkg", parcels(1, 3) + [None, ogr.CreateGeometryFromWkt("POLYGON EMPTY")], None)
    with closing(sqlite3.connect(path)) as held:
        for (name,) in held.execute("SELECT name FROM sqlite_master WHERE type = 'trigger' AND tbl_name = 'a'").fetchall():
            held.execute(f"DROP TRIGGER {name}")
        for number, new in ((1, -(2**62)), (2, -5), (3, 2**62), (4, 0)):
            held.execute("UPDATE a SET fid = ? WHERE fid = ?", (new, number))
        held.commit()
        numbers = sorted(number for (number,) in held.execute("SELECT fid FROM a"))
    source = Source(path)
    held = ranges.input_of(source)
    for size in (1, 100, 1000, 1 << 30):
        parts = ranges.ranges(held, "geom", size)
        found = [[n for n in numbers if first <= n <= last] for first, last in parts]
        assert [n for part in found for n in part] == numbers and all(found)
        assert all(one[1] < other[0] for one, other in zip(parts, parts[1:]))
        assert size != 1 or len(parts) == len(numbers)
        assert size != 100 or 1 < len(parts) < len(numbers)
        assert size != 1 << 30 or len(parts) == 1
        read = [held.part(*part).survey().numbers.tolist() for part in parts]
        assert read == found
    assert ranges.ranges(ranges.input_of(Source(write(tmp_path / "b.gpkg", [], None))), "geom", 9) == []


@pytest.mark.parametrize("memory, segments, most", [
    (10**9, 10**6, 100_000),  # ten strips
    (10**9, 4_800_000, 200_000),  # 24 of them
    (10**9, 10**8, 400_000),
    (200_000_000, 10**8, 185_427),  # what 120 * 2^20 bytes leave, at 400 a segment
    (10**6, 10**8, 1),
])
def test_segments_of_a_strip(memory, segments, most):
    assert strip_plan.most_lines(memory, segments) == most


def reached(begins, ends, cuts):
    """How many segments reach each strip."""
    first, last = (np.searchsorted(cuts, at, "right") for at in (begins, ends))
    return [int(((first <= strip) & (strip <= last)).sum()) for strip in range(len(cuts) + 1)]


def test_strips_are_chosen_by_what_reaches_them():
    rng = np.random.default_rng(1)
    begins = rng.integers(-1000, 1000, 5000)
    short = strip_plan.chosen(begins, begins + 3, np.full(5000, 10.0), 1000)
    assert 45 <= len(short.cuts) <= 56 and short.most <= 1100
    assert 5000 <= sum(reached(begins, begins + 3, short.cuts)) <= 5600
    assert list(short.cuts) == sorted(short.cuts)
    # where all segments span the map, strips don't help, and are few
    spanning = strip_plan.chosen(begins - 10_000, begins + 10_000, np.full(5000, 10.0), 1000)
    assert spanning.most >= 25_000 and len(spanning.cuts) <= 16
    assert sum(reached(begins - 10_000, begins + 10_000, spanning.cuts)) <= 12_500
    one = strip_plan.chosen(np.full(9, 4), np.full(9, 7), np.full(9, 1.0), 1)
    assert one == strip_plan.Strips((), 9)
    none = np.zeros(0, np.int64)
    assert strip_plan.chosen(none, none, np.zeros(0), 1000) == strip_plan.Strips((), 0)


def test_what_reaches_a_strip_is_counted_as_it_is():
    """Of a sample that has all segments."""
    rng = np.random.default_rng(2)
    for _ in range(50):
        begins = rng.integers(-30, 30, 200)
        ends = begins + rng.integers(0, rng.choice([2, 10, 50]), 200)
        found = strip_plan.chosen(begins, ends, np.ones(200), int(rng.integers(1, 150)))
        counts = reached(begins, ends, found.cuts)
        assert found.most == max(counts) and sum(counts) <= 3 * 200


def test_lengths_by_class_are_no_less_than_they_are():
    rng = np.random.default_rng(3)
    for _ in range(50):
        lengths = np.exp(rng.uniform(0, 20, 60))
        halves = [strip_measures.by_class(held) for held in (lengths[:30], lengths[30:])]
        for count in (0, 1, 7, 59, 60, 61):
            exact = np.sort(lengths)[::-1][:count].sum()
            assert exact * (1 - 1e-9) <= strip_measures.longest(halves, count) <= exact * 1.02 + 1e-9


ARRAYS = {"lines": np.zeros(5, [("number", "<u4"), ("x", "<i4")]), "none": np.zeros(0, "<i4"), "more": np.arange(1000.0)}


def test_a_file_has_what_was_written(tmp_path):
    folder = Folder(str(tmp_path), "plan")
    folder.put("edges.3", {"edges": 7}, **ARRAYS)
    assert folder.note("edges.3") == {"edges": 7} and [path.name for path in tmp_path.iterdir()] == ["edges.3"]
    for held in (folder.got("edges.3", *ARRAYS), folder.lying("edges.3", *ARRAYS)):
        assert all(found.dtype == wanted.dtype and found.tolist() == wanted.tolist() for found, wanted in zip(held, ARRAYS.values()))


def flipped(path, place):
    text = bytearray(path.read_bytes())
    text[place % len(text)] ^= 4
    path.write_bytes(text)


SPOILS = {
    "missing": lambda path: path.unlink(),
    "empty": lambda path: path.write_bytes(b""),
    "cut": lambda path: os.truncate(path, path.stat().st_size - 1),
    "half": lambda path: os.truncate(path, path.stat().st_size // 2),
    "longer": lambda path: path.write_bytes(path.read_bytes() + b"0"),
    "magic": lambda path: flipped(path, 0),
    "length": lambda path: flipped(path, 15),
    "table": lambda path: flipped(path, 40),
    "data": lambda path: flipped(path, -1),
    "foreign": lambda path: Folder(str(path.parent), "another").put(path.name, {}, **ARRAYS),
    "strange": lambda path: path.write_bytes(b"PK" * 500),
}


@pytest.mark.parametrize("spoil", SPOILS)
def test_a_spoiled_file_is_refused(tmp_path, spoil):
    folder = Folder(str(tmp_path), "plan")
    folder.put("edges.3", {}, **ARRAYS)
    SPOILS[spoil](tmp_path / "edges.3")
    for read in (folder.got, folder.lying):
        with pytest.raises(Spoiled) as error:
            read("edges.3", "more")
        assert error.value.name == "edges.3" and error.value.reason
    assert spoil == "data" or folder.note("edges.3") is None


def test_a_file_under_another_name_is_refused(tmp_path):
    folder = Folder(str(tmp_path), "plan")
    folder.put("edges.3", {}, **ARRAYS)
    os.rename(tmp_path / "edges.3", tmp_path / "edges.4")
    with pytest.raises(Spoiled, match="is edges.3 under another name"):
        folder.got("edges.4", "more")


def test_a_write_that_fails_leaves_nothing(tmp_path, monkeypatch):
    folder = Folder(str(tmp_path), "plan")
    monkeypatch.setattr(os, "replace", lambda *_: (_ for _ in ()).throw(OSError(28, "No space left on device")))
    with pytest.raises(OSError):
        folder.put("edges.3", {}, **ARRAYS)
    assert not list(tmp_path.iterdir())


def test_a_file_has_the_mode_of_others(tmp_path):
    """The mask of whoever runs a task tells who may read it: other workers may be other users."""
    folder = Folder(str(tmp_path), "plan")
    for mask in (0o022, 0o077, 0o002):
        before = os.umask(mask)
        try:
            folder.put("edges.3", {}, **ARRAYS)
        finally:
            os.umask(before)
        assert (tmp_path / "edges.3").stat().st_mode & 0o777 == 0o666 & ~mask


def test_one_array_of_many_is_found_in_no_time(tmp_path):
    """A task of a strip reads the files of all parts, which have an array for each strip."""
    folder, count = Folder(str(tmp_path), "plan"), 20_000
    folder.put("scatter.0", {}, **{str(strip): np.arange(strip % 5) for strip in range(count)})
    began = time.process_time()
    for strip in range(0, count, 20):
        assert folder.got("scatter.0", str(strip))[0].tolist() == list(range(strip % 5))
    assert time.process_time() - began < 5


def test_an_array_that_is_read_where_it_lies_takes_no_memory(tmp_path):
    folder = Folder(str(tmp_path), "plan")
    folder.put("write.0", {}, coordinates=np.arange(4 << 20))
    tracemalloc.start()
    (found,) = folder.lying("write.0", "coordinates")
    _, most = tracemalloc.get_traced_memory()
    tracemalloc.stop()
    assert most < found.nbytes / 4 and found[-1] == (4 << 20) - 1


def test_no_changed_bit_is_believed(tmp_path):
    """What is read is as it was written, or it is refused, wherever a bit of the file has changed."""
    folder, path = Folder(str(tmp_path), "plan"), tmp_path / "edges.3"
    arrays = {"lines": np.arange(5), "none": np.zeros(0, "<i4"), "more": np.arange(7.0)}
    folder.put("edges.3", {}, **arrays)
    refused = 0
    for place in range(path.stat().st_size):
        flipped(path, place)
        for key, wanted in arrays.items():
            for read in (folder.got, folder.lying):
                try:
                    (found,) = read("edges.3", key)
                    assert found.dtype == wanted.dtype and found.tolist() == wanted.tolist()
                except Spoiled:
                    refused += 1
        flipped(path, place)
    assert refused > 1000


@pytest.fixture
def town(tmp_path):
    return write(tmp_path / "a.gpkg", parcels(1, 3)), write(tmp_path / "b.gpkg", blobs(2, 3))


def run(gis, town, *words):
    return gis("run", "union", *town, "-o", "out.gpkg", "--overwrite", "--parity", "--engine", "dask", *words)


def files_of(folder):
    """The files of a run, by its phases in their order."""
    (held,) = Path(folder).iterdir()
    return {phase: sorted(held.glob(f"{phase}.*")) for phase in strip_tasks.PHASES}


@pytest.fixture
def kept(monkeypatch):
    """No run takes away what it has in a folder that was named."""
    monkeypatch.setattr(by_strips.shutil, "rmtree", lambda *_, **__: None)


@pytest.mark.parametrize("phase", strip_tasks.PHASES)
def test_spoiled_files_are_made_again(gis, town, in_turn, kept, phase):
    in_turn(20, 700)
    assert run(gis, town, "--dir", "files").status == 0
    wanted, phases = rows("out.gpkg"), list(strip_tasks.PHASES)
    for spoil, change in SPOILS.items():
        held = files_of("files")
        for later in phases[phases.index(phase) + 1 :]:
            for path in held[later]:
                path.unlink()
        at = len(held[phase]) // 2
        for path in held[phase][:at] + held[phase][at + 1 :] if phase in ("bridge", "come", "reach", "join") else []:
            path.unlink()  # of these each reads the one before
        change(held[phase][at])
        answer = run(gis, town, "--dir", "files")
        assert answer.status == 0 and "goes on from the files there" in answer.err, answer.err
        assert rows("out.gpkg") == wanted
        # what the head of a file doesn't tell is found by who reads it
        assert ("1 files were made again" in answer.err) == (spoil == "data"), answer.err


def test_a_file_that_is_spoiled_while_the_answer_is_written_is_a_fault(gis, town, in_turn, monkeypatch):
    """It was read before, for the boxes of its polygons."""
    in_turn(20, 700)
    made = by_strips.boxes_made

    def spoiling(crew, work, frame):
        boxes = made(crew, work, frame)
        flipped(Path(work.held.place("write.1")), -1)
        return boxes

    monkeypatch.setattr(by_strips, "boxes_made", spoiling)
    answer = run(gis, town, "--dir", "files")
    assert answer.status == 1 and not os.path.exists("out.gpkg")
    assert answer.err.splitlines()[-1].endswith("/write.1: was changed in polygons, while it was read"), answer.err


def test_a_file_that_is_spoiled_each_time_is_a_fault(gis, town, in_turn, monkeypatch):
    in_turn(20, 700)
    put = Folder.put

    def spoiling(folder, name, note, **arrays):
        put(folder, name, note, **arrays)
        if name == "bridge.1":
            flipped(Path(folder.place(name)), -1)

    monkeypatch.setattr(Folder, "put", spoiling)
    answer = run(gis, town, "--dir", "files")
    assert answer.status == 1 and not os.path.exists("out.gpkg")
    assert answer.err.splitlines()[-1].endswith("/bridge.1: was changed in carried, each time that it is made"), answer.err


def test_files_that_contradict_one_another_are_refused(gis, town, in_turn, kept):
    """Whoever made them: their checksums are right."""
    in_turn(20, 700)
    assert run(gis, town, "--dir", "files").status == 0
    for phase in ("bridge", "edges"):
        for path in files_of("files")[phase]:
            path.unlink()
    folder = InTurn.work.held
    lines = folder.got("round.1", "inner", "left", "right")
    folder.put("round.1", {}, inner=lines[0], left=lines[1][1:], right=lines[2])
    answer = run(gis, town, "--dir", "files")
    assert answer.status == 1 and not os.path.exists("out.gpkg.partial")
    assert re.search(r"bridge\.\d: the library refuses its files: array 1, item 0: contradicts another array\n$", answer.err), answer.err


@pytest.mark.parametrize("phase", strip_tasks.PHASES)
def test_a_run_goes_on_where_it_was_stopped(gis, town, in_turn, monkeypatch, phase):
    in_turn(20, 700)
    assert run(gis, town).status == 0
    wanted = rows("out.gpkg")
    made, phases = [], dict(strip_tasks.PHASES)

    def counted(name):
        def make(work, number):
            if name == phase and number == 0 and stopping:
                raise Fault("the machine", "stopped")
            made.append((name, number))
            return phases[name](work, number)

        return make

    monkeypatch.setattr(strip_tasks, "PHASES", {name: counted(name) for name in phases})
    stopping = True
    answer = run(gis, town, "--dir", "files")
    assert answer.status == 1 and answer.err.splitlines()[-1] == "overlay-gis: the machine: stopped"
    before, stopping = len(made), False
    assert run(gis, town, "--dir", "files").status == 0
    assert rows("out.gpkg") == wanted and len(set(made)) == len(made) > before
    assert not list(Path("files").iterdir())


def test_another_operation_has_files_of_its_own(gis, town, in_turn, kept):
    in_turn(20, 700)
    for operation in OPERATIONS:
        words = ("run", operation, *town, "--overwrite", "--parity", "-o")
        assert gis(*words, "one.gpkg").status == gis(*words, "many.gpkg", "--engine", "dask", "--dir", "files").status == 0
        assert rows("one.gpkg") == rows("many.gpkg")
    assert len(list(Path("files").iterdir())) == 4


def test_a_layer_that_is_changed_meanwhile_is_refused(gis, town, in_turn, monkeypatch):
    in_turn(20, 700)
    read = strip_tasks.PHASES["read"]

    def changing(work, number):
        os.utime(town[1], ns=(1, 1))
        return read(work, number)

    monkeypatch.setitem(strip_tasks.PHASES, "read", changing)
    answer = run(gis, town)
    assert answer.status == 1 and answer.err.splitlines()[-1] == f"overlay-gis: {town[1]}: was changed while it was read"


def test_a_full_disk_is_told(gis, town, in_turn, monkeypatch):
    in_turn(20, 700)
    replace = os.replace

    def full(source, place):
        if Path(place).name == "labels.1":
            raise OSError(28, "No space left on device")
        replace(source, place)

    monkeypatch.setattr(os, "replace", full)
    answer = run(gis, town, "--dir", "files")
    assert answer.status == 1 and not os.path.exists("out.gpkg")
    assert answer.err.splitlines()[-1].endswith(": No space left on device")
    assert not [path for path in Path("files").rglob("*") if path.name.endswith(".partial")]
    monkeypatch.setattr(os, "replace", replace)
    assert run(gis, town, "--dir", "files").status == 0


REFUSED = [
    (["--engine", "dask"], "--engine dask: reads layers by parity alone, and goes with --parity"),
    (["--parity", "--engine", "dask", "--keep-a", "x", "--segments", "9"], "--keep-a and --segments: isn't there for --engine dask"),
    (["--dir", "x", "--memory", "2GB"], "--dir and --memory: goes with --engine dask"),
    (["--parity", "--engine", "dask", "--scheduler", "tcp://localhost:1"], "--scheduler: goes with --dir, which names a folder that all its workers see"),
    (["--parity", "--engine", "dask", "--scheduler", "tcp://localhost:1", "--dir", "x", "--workers", "2"], "--workers: is for workers of this machine, and not beside --scheduler"),
]


@pytest.mark.parametrize("words, reason", REFUSED)
def test_options_that_do_not_go_together(gis, town, words, reason):
    answer = gis("run", "union", *town, "-o", "out.gpkg", *words)
    assert answer.status == 3 and answer.err == f"overlay-gis: {reason}\n"


@pytest.mark.parametrize("size, bytes_", [("2GB", 2 * 10**9), ("500mb", 5 * 10**8), ("1.5 TB", 15 * 10**11), ("70000B", 70000)])
def test_sizes_of_memory(size, bytes_):
    assert options.memory(size) == bytes_


@pytest.mark.parametrize("size", ["", "2", "GB", "-1GB", "0MB", "0.1B", "2 PB", "nanGB", "1e9B"])
def test_what_is_no_size_of_memory(gis, town, size):
    answer = run(gis, town, f"--memory={size}")
    assert answer.status == 2 and "is no size of memory, as 2GB or 500MB" in answer.err


@pytest.mark.parametrize("ending", ["shp", "geojson", "fgb"])
def test_other_formats_are_refused(gis, town, tmp_path, ending):
    path = write(tmp_path / f"x.{ending}", parcels(1, 3)[:3])
    answer = run(gis, (town[0], path))
    assert answer.status == 3
    assert answer.err == f"overlay-gis: {path}: --engine dask reads files of GeoPackages alone: ogr2ogr -f GPKG makes a file of it that many can read at once\n"


def test_a_view_is_refused(gis, town):
    with closing(sqlite3.connect(town[1])) as held:
        held.execute("CREATE VIEW seen AS SELECT fid AS OGC_FID, geom FROM b")
        held.execute("INSERT INTO gpkg_contents (table_name, identifier, data_type, srs_id) SELECT 'seen', 'seen', 'features', srs_id FROM gpkg_contents WHERE table_name = 'b'")
        held.execute("INSERT INTO gpkg_geometry_columns SELECT 'seen', 'geom', geometry_type_name, srs_id, 0, 0 FROM gpkg_geometry_columns WHERE table_name = 'b'")
        held.commit()
    answer = run(gis, (town[0], f"{town[1]}|layername=seen"))
    assert answer.status == 3 and "seen is no table whose features have numbers" in answer.err


def test_layers_are_refused_as_ever(gis, tmp_path, in_turn):
    in_turn(20, 700)
    line, b = ogr.CreateGeometryFromWkt("LINESTRING (0 0, 1 1)"), write(tmp_path / "b.gpkg", blobs(2, 3))
    strange = [[geometry([square(EAST, NORTH, 1)]), line, line], [geometry([[(EAST, NORTH), (float("nan"), 1), (EAST, 3)]])]]
    far = [geometry([[(0, 0), (1e9, 0), (1e9, 1e9)]])]
    for shapes, more in ((strange[0], ()), (strange[1], ()), (far, ()), (far, ("--grid", "0.001"))):
        words = ("run", "union", write(tmp_path / "a.gpkg", shapes), b, "-o", "out.gpkg", "--parity", *more)
        single, parted = gis(*words), gis(*words, "--engine", "dask")
        assert single.status == parted.status == 3 and single.err == parted.err
        os.remove(tmp_path / "a.gpkg")


@pytest.mark.parametrize("a, b", [([], []), ([None], []), ([], blobs(2, 3))])
def test_layers_without_polygons(gis, tmp_path, in_turn, a, b):
    in_turn(20, 700)
    both(gis, tmp_path, "union", write(tmp_path / "a.gpkg", a), write(tmp_path / "b.gpkg", b))


def test_losses_and_overlaps_are_told_as_ever(gis, tmp_path, in_turn):
    """Open rings are closed, short ones left out, and what has cancelled is warned of."""
    in_turn(20, 300)
    held = [geometry([square(20 * k, 0, 15)]) for k in range(40)]
    overlapping = held + [geometry([square(20 * k + 5, 5, 15)]) for k in range(8)]
    tiny = [geometry([square(0.1, 0.1, 0.2)])] * 8
    opened = [ogr.CreateGeometryFromWkt("POLYGON ((0 0, 9 0, 9 9, 0 9), (1 1, 2 2, 1 1))")] * 3
    a = write(tmp_path / "a.gpkg", overlapping + tiny, None)
    b = write(tmp_path / "b.gpkg", held + opened + [None], None)
    answer = both(gis, tmp_path, "symdifference", a, b, "--grid", "1")
    for words in ("overlap or cross themselves", "cover nothing on this grid", "rings were open", "left out"):
        assert words in answer.err
