"""Texts by whole arrays: what is written and read is what plain code writes and reads, of sound
texts and of spoiled ones."""

import io
import random
import re
import tracemalloc
from itertools import pairwise

import numpy as np
import pytest

from overlay_gis import digits, parsing, plain_texts, rows, texts
from overlay_gis.columns import Columns, chained, of_polygons, offsets
from overlay_gis.faults import Refusal

LIMIT = 1 << 28
EDGES = [0, 1, -1, 9, 10, -9, -10, 99, 9_999, 10_000, 99_999_999, 100_000_000, LIMIT, -LIMIT]


def features_of(rng, count, reach=LIMIT, rings=3, points=6):
    """Features with up to three polygons, and some without one."""
    made = []
    for _ in range(count):
        polygons = []
        for _ in range(rng.choice([0, 1, 1, 1, 2, 3])):
            sizes = [rng.randint(4, points) for _ in range(rng.randint(1, rings))]
            polygons.append([[(rng.randint(-reach, reach), rng.randint(-reach, reach)) for _ in range(n)] for n in sizes])
        made.append(polygons)
    return made


def columns_of(features):
    held = of_polygons([polygon for polygons in features for polygon in polygons])
    return Columns(
        held.x, held.y, held.rings, held.polygons, offsets(np.array([len(p) for p in features], np.int64)), np.arange(len(features))
    )


def line_of(polygons):
    bodies = [f"({', '.join('(' + ', '.join(f'{x} {y}' for x, y in ring) + ')' for ring in polygon)})" for polygon in polygons]
    if len(bodies) == 1:
        return f"POLYGON {bodies[0]}\n"
    return f"MULTIPOLYGON ({', '.join(bodies)})\n" if bodies else "POLYGON EMPTY\n"


def written(layer):
    out = io.BytesIO()
    texts.write_polygons(out, layer)
    return out.getvalue()


@pytest.mark.parametrize("block", [1, 7, 1 << 16])
@pytest.mark.parametrize("reach", [3, 1000, 10**7 - 1, 10**7, LIMIT])
def test_a_layer_is_written_as_its_lines(monkeypatch, block, reach):
    monkeypatch.setattr(texts, "POINTS", block)
    monkeypatch.setattr(texts, "FEATURES", block)
    features = features_of(random.Random(reach + block), 60, reach)
    assert written(columns_of(features)).decode() == "".join(map(line_of, features))


def test_each_feature_is_a_line():
    assert written(columns_of([])) == b""
    assert written(columns_of([[], []])) == b"POLYGON EMPTY\n" * 2


@pytest.mark.parametrize("top", [3, 10**7 - 1, 10**8, LIMIT])
def test_numbers_of_all_lengths(top):
    rng = random.Random(top)
    held = [number for number in EDGES if abs(number) <= top] + [rng.randint(-top, top) for _ in range(3001)]
    x, y = np.array(held), np.array(held[::-1])
    behind = [rng.choice([b", ", b"rr", b")\n"]) for _ in held]
    text = digits.points_text(x, y, np.array(list(map(digits.word_of, behind)), np.uint32))
    assert text == b"".join(f"{a} {b}".encode() + end for a, b, end in zip(held, held[::-1], behind))


def test_writing_takes_at_most_four_times_the_text():
    count = 200_000
    points = np.random.default_rng(1).integers(-LIMIT, LIMIT, (2, count))
    rings = np.append(np.arange(0, count, 50), count)
    ones = np.arange(len(rings))
    layer = Columns(points[0], points[1], rings, ones, ones, ones[:-1])
    with open("/dev/null", "wb") as out:
        tracemalloc.start()
        texts.write_polygons(out, layer)
        peak = tracemalloc.get_traced_memory()[1]
        tracemalloc.stop()
    assert peak <= 4 * len(written(layer))


@pytest.mark.parametrize("seed", range(4))
def test_what_was_written_is_read(seed):
    features = features_of(random.Random(seed), 80)
    text = written(columns_of(features))
    assert [held for (held,) in parsing.polygons_in(text, "t").lists()] == [p for polygons in features for p in polygons]
    assert parsing.geometries_in(text, "t").lists() == features


# The grammar of layers, read by regular expressions.
BODY = re.compile(r"\(\s*\([^()]*\)(?:\s*,\s*\([^()]*\))*\s*\)")
RING = re.compile(r"\(([^()]*)\)")
GEOMETRY = r"(?:polygon\s*@|polygon\s+empty|multipolygon\s+empty|multipolygon\s*\(\s*@(?:\s*,\s*@)*\s*\))"
LAYER = re.compile(rf"\s*(?:{GEOMETRY}(?:\s+{GEOMETRY})*)?\s*", re.IGNORECASE)
POINT = re.compile(r"\s*(-?\d{1,9})\s+(-?\d{1,9})\s*")


def read_plainly(text):
    if not LAYER.fullmatch(BODY.sub("@", text)):
        return "is no text of polygons"
    polygons = []
    for body in BODY.finditer(text):
        rings = [[POINT.fullmatch(point) for point in ring.split(",")] for ring in RING.findall(body.group())]
        if not all(all(ring) for ring in rings):
            return "has a point that is not two whole numbers"
        polygons.append([[(int(point[1]), int(point[2])) for point in ring] for ring in rings])
    return polygons


def read(text):
    try:
        return [polygon for (polygon,) in parsing.polygons_in(text.encode(), "t").lists()]
    except Refusal as refusal:
        return re.match("is no text of polygons|has a point that is not two whole numbers", refusal.reason)[0]


SOUND = [
    "POLYGON ((0 0, 4 0, 4 4, 0 4, 0 0), (1 1, 2 1, 1 2, 1 1))\nPOLYGON EMPTY\n"
    "MULTIPOLYGON (((0 0, 1 0, 0 1, 0 0)), ((5 5, 6 -5, 5 6, 5 5), (1 2, 3 4)))\n",
    "multipolygon empty\r\n polygon((0 0,1 0,0 1,0 0))",
    "",
    "MULTIPOLYGON EMPTY\n",
    "MultiPolygon\t( ((-0 -999999999,1 0,0 1,0 0)) , ((5 5 , 6 5,5 6,5 5)) )",
]
PLAIN_SIGNS = ["", " ", "  ", ",", ", ", ",  ", "(", ")", "((", "))", "), (", ")), ((", "-", "0", "7", "1 2", "\n", "N", "EMPTY", "1234567890", "é"]
SIGNS = [*"() ,-0123456789.+_xPOLYGNMUTIE\n\t", "EMPTY", "POLYGON", "((", "))", "1 2", "1234567890", "é"]


@pytest.mark.parametrize("seed", range(4))
def test_spoiled_texts_are_read_as_by_the_grammar(seed):
    rng, seen = random.Random(seed), set()
    for _ in range(4000):
        text = rng.choice(SOUND)
        for _ in range(rng.randrange(4)):
            at = rng.randrange(len(text) + 1)
            text = text[:at] + rng.choice(SIGNS) + text[at + rng.choice([0, 0, 1, 1, 2, 5]) :]
        wanted = read_plainly(text)
        assert read(text) == wanted, text
        seen.add(wanted if isinstance(wanted, str) else "polygons")
    assert len(seen) == 3


def edges_plainly(text):
    lines = text.split("\n")
    for number, line in enumerate(lines[: len(lines) - (not lines[-1])], 1):
        if not re.fullmatch(r"\s*(?:-?\d{1,9}\s+){5}-?\d{1,9}\s*", line):
            return f"line {number} is no edge of six whole numbers"
    return [list(map(int, line.split())) for line in lines if line]


@pytest.mark.parametrize("seed", range(3))
def test_edges_are_read_line_by_line(seed):
    rng, seen = random.Random(seed), 0
    for _ in range(1500):
        rows = [[rng.choice([rng.randint(-LIMIT, LIMIT), 0, -7]) for _ in range(6)] for _ in range(rng.randrange(4))]
        text = "".join(" ".join(map(str, row)) + "\n" for row in rows)
        for _ in range(rng.randrange(3)):
            at = rng.randrange(len(text) + 1)
            text = text[:at] + rng.choice([*"-0123 \n,(x", "", "1234567890"]) + text[at + rng.choice([0, 1, 2]) :]
        try:
            found = parsing.edge_rows(text.encode(), "t").tolist()
        except Refusal as refusal:
            found = refusal.reason
        assert found == edges_plainly(text), text
        seen += isinstance(found, str)
    assert 100 < seen < 1400


def rows_plainly(text, layers):
    """Each row of a text of faces: twice its area, the numbers of each layer, and its polygons; or
    why it is none."""
    lines = text.split("\n")
    if lines.pop() or any(line.count("\t") != layers + 1 or line.rpartition("\t")[2][:1] != "M" for line in lines):
        return "has a line that is no row"
    found = []
    for line in lines:
        area, *fields, polygons = line.split("\t")
        if not re.fullmatch(r"\d{1,18}", area) or not all(re.fullmatch(r"(?:\d{1,9}(?:,\d{1,9})*)?", field) for field in fields):
            return "has a row without"
        found.append((int(area), [[int(n) for n in field.split(",") if n] for field in fields], polygons))
    wrong = [read_plainly(polygons) for _, _, polygons in found]
    words = {words for words in wrong if isinstance(words, str)}
    for why in ("is no text of polygons", "has a point"):
        if any(word.startswith(why) for word in words):
            return why
    if any(len(re.findall("multipolygon|polygon", polygons.lower())) != 1 for _, _, polygons in found):
        return "has a line that is no row"
    return [(area, fields, polygons) for (area, fields, _), polygons in zip(found, wrong)]


def rows_read(text, layers):
    try:
        held = rows.rows_in(text.encode(), layers, "t")
    except Refusal as refusal:
        return refusal.reason
    places = [[layer.places[a:b].tolist() for a, b in pairwise(layer.starts.tolist())] for layer in held.members]
    fields = [[[place + 1 for place in of_one] for of_one in of_row] for of_row in zip(*places)]
    assert held.counts.tolist() == [sum(map(len, of_row)) for of_row in fields]
    return list(zip(held.twice.tolist(), fields, held.shapes.lists()))


@pytest.mark.parametrize("seed", range(4))
@pytest.mark.parametrize("layers", [1, 2, 5])
def test_rows_are_read_line_by_line(seed, layers):
    rng, seen = random.Random(10 * seed + layers), set()
    for _ in range(1000):
        text = ""
        for _ in range(rng.randrange(4)):
            ids = [",".join(str(rng.choice([1, 7, 10**9 - 1])) for _ in range(rng.choice([0, 1, 1, 3]))) for _ in range(layers)]
            bodies = features_of(rng, 9)
            polygons = rng.choice([held for held in bodies if held] or [[[[(0, 0)] * 4]]])
            line = line_of(polygons)
            line = line if line.startswith("M") else f"MULTIPOLYGON ({line[8:-1]})\n"
            text += "\t".join([str(rng.choice([0, 5, 2**59])), *ids, line])
        for _ in range(rng.randrange(3)):
            at = rng.randrange(len(text) + 1)
            text = text[:at] + rng.choice(["\t", "\n", ",", "1", "(", "x", "", "", "POLYGON EMPTY", "M"]) + text[at + rng.choice([0, 1, 2]) :]
        wanted, found = rows_plainly(text, layers), rows_read(text, layers)
        assert found.startswith(wanted) if isinstance(wanted, str) else found == wanted, text
        seen.add(wanted if isinstance(wanted, str) else "rows")
    assert len(seen) > 3


def twice_plainly(polygon):
    shell, *holes = (abs(sum(a[0] * b[1] - b[0] * a[1] for a, b in pairwise(ring))) for ring in polygon)
    return shell - sum(holes)


@pytest.mark.parametrize("reach", [5, LIMIT])
def test_areas_are_exact(reach):
    polygons = [p for feature in features_of(random.Random(reach), 100, reach) for p in feature]
    square = [(-LIMIT, -LIMIT), (LIMIT, -LIMIT), (LIMIT, LIMIT), (-LIMIT, LIMIT)]
    # round its square so often that 64 bits don't hold it
    polygons.append([square * 5000 + square[:1]])
    assert of_polygons(polygons).twice_areas() == list(map(twice_plainly, polygons))


@pytest.mark.parametrize("seed", range(3))
def test_columns_are_cut_and_joined_as_lists_are(seed):
    rng = random.Random(seed)
    features = features_of(rng, 30)
    layer = columns_of(features)
    assert layer.lists() == features
    kept = np.array([rng.random() < 0.6 for _ in features])
    assert layer.of_features(kept).lists() == [held for held, keep in zip(features, kept) if keep]
    rings = iter(wanted := [rng.random() < 0.6 for _ in layer.lengths])
    cut = [[[ring for ring in polygon if next(rings)] for polygon in polygons] for polygons in features]
    assert layer.of_rings(np.array(wanted, bool)).lists() == [[p for p in polygons if p] for polygons in cut]
    assert chained([layer, layer.of_features(kept)]).lists() == features + layer.of_features(kept).lists()


@pytest.mark.parametrize("seed", range(4))
def test_plain_texts_are_read_as_all_are(seed):
    """Texts as the program writes them, and such with a few signs changed: they are taken for plain
    only if all of the grammar reads the same from them."""
    rng, plain = random.Random(100 + seed), 0
    for _ in range(4000):
        features = features_of(rng, rng.randrange(1, 3), rng.choice([3, LIMIT]))
        text = "".join(line_of(held) for held in features if held)
        for _ in range(rng.choice([0, 1, 1, 2, 2, 3])):
            at = rng.randrange(len(text) + 1)
            text = text[:at] + rng.choice(PLAIN_SIGNS) + text[at + rng.choice([0, 0, 1, 1, 2, 3]) :]
        found = plain_texts.columns_in(text.encode())
        if found is None:
            continue
        plain += 1
        wanted = parsing.geometries_by_tokens(text.encode(), "t")
        for one, other in zip(vars(found).values(), vars(wanted).values()):
            assert one.tolist() == other.tolist(), text
    assert 500 < plain < 3000


@pytest.mark.parametrize(
    "text",
    [
        "POLYGON ((1 2 3, 4, 5 6))\n",
        "POLYGON ((1 2,3 4 5 6))\n",
        "POLYGON ((,1 2 3 4))\n",
        "POLYGON (( 2, 3 4-5))\n",
        "POLYGON (( 2, 3 4))5\n",
        "5POLYGON (( 2, 3 4))\n",
        "POLY5GON (( 2, 3 4))\n",
        "POLYGON 5(( 2, 3 4))\n",
        "POLYGON (( 2), (3 4), 5(6 7))\n",
        "1 2, POLYGON (( , 3 4))\n",
        "POLYGON ((1 -, 3 45))\n",
        "POLYGON ((1 2, 3 4))\n-",
        "POLYGON ((1 2, 3 4))",
        "POLYGON ((01 2, 3 4))\n",
        "POLYGON ((-0 2, 3 4))\n",
        "POLYGON ((1000000000 2, 3 4))\n",
        "POLYGON EMPTY\n",
        "MULTIPOLYGON ((1 2, 3 4))\n",
        "POLYGON (((1 2, 3 4)))\n",
        "POLYGON ((1 2, 3 4))\n\n",
        "POLYGON ((1 2, 3 4)) POLYGON ((1 2, 3 4))\n",
    ],
)
def test_texts_that_are_not_plain(text):
    assert plain_texts.columns_in(text.encode()) is None
