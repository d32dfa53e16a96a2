"""Layers of every kind on a grid, against worked answers."""

import pickle
import re
import struct
import subprocess
import sys
import time
import tracemalloc
import warnings
from decimal import Decimal

import overlay_grid
import pairs
import pytest
from overlay_grid import GeometryError, Operation, Refusal, Refused, _asking, _grid, _kinds, _shapes, _uniting
from test_overlay_grid import printed

FINEST_IS = "and the finest grid with room for all layers is"
A = "POLYGON ((0 0, 0.4 0, 0.4 0.4, 0 0.4, 0 0))"
B = "POLYGON ((0.2 0.2, 0.6 0.2, 0.6 0.6, 0.2 0.6, 0.2 0.2))"
WORKED = {
    "union": "MULTIPOLYGON (((0 0, 0.4 0, 0.4 0.2, 0.6 0.2, 0.6 0.6, 0.2 0.6, 0.2 0.4, 0 0.4, 0 0)))\n",
    "intersection": "MULTIPOLYGON (((0.2 0.2, 0.4 0.2, 0.4 0.4, 0.2 0.4, 0.2 0.2)))\n",
    "difference": "MULTIPOLYGON (((0 0, 0.4 0, 0.4 0.2, 0.2 0.2, 0.2 0.4, 0 0.4, 0 0)))\n",
    "symdifference": "MULTIPOLYGON (((0 0, 0.4 0, 0.4 0.2, 0.2 0.2, 0.2 0.4, 0 0.4, 0 0)), "
    "((0.2 0.4, 0.4 0.4, 0.4 0.2, 0.6 0.2, 0.6 0.6, 0.2 0.6, 0.2 0.4)))\n",
}


def points_of(text):
    """The rings of a result's text, as lists of points, by polygons."""
    body = text.strip()[len("MULTIPOLYGON ") :]
    if body == "EMPTY":
        return []
    return [
        [[tuple(map(float, point.split())) for point in ring.split(", ")] for ring in polygon.split("), (")]
        for polygon in body[3:-3].split(")), ((")
    ]


def wkb_of(text, order="<", dimensions=2, by_bits=False, system=None):
    """WKB of a result's text, in any of its forms."""
    mark = struct.pack("B", order == "<")
    more = (0, 0, 1000, 3000)[dimensions - 1] if not by_bits else 0
    bits = {2: 0, 3: 1 << 31, 4: 3 << 30}[dimensions] if by_bits else 0

    def head(kind, count, outer=True):
        held = system if outer else None
        number = kind + more | bits | (0 if held is None else 1 << 29)
        numbers = (number, count) if held is None else (number, held, count)
        return mark + struct.pack(f"{order}{len(numbers)}I", *numbers)

    def polygon(rings, outer):
        body = b""
        for ring in rings:
            numbers = [number for point in ring for number in (*point, 7.0, 8.0)[:dimensions]]
            body += struct.pack(order + "I", len(ring)) + struct.pack(f"{order}{len(numbers)}d", *numbers)
        return head(3, len(rings), outer) + body

    polygons = points_of(text)
    if len(polygons) < 2:
        return polygon(polygons[0] if polygons else [], True)
    return head(6, len(polygons)) + b"".join(polygon(rings, False) for rings in polygons)


def multi(text):
    return f"MULTIPOLYGON ({text[len('POLYGON '):]})"


def asked(word, a, b, **plan):
    return getattr(overlay_grid, word)(a, b, **plan)


@pytest.mark.parametrize("grid", [0.1, "0.1", Decimal("0.1"), 0.01, "0.2"])
@pytest.mark.parametrize("word", WORKED)
def test_texts(word, grid):
    assert asked(word, A, B, grid=grid) == WORKED[word]
    assert asked(word, A.encode(), B, grid=grid) == WORKED[word].encode()
    assert asked(word, A, B.encode(), grid=grid, origin=(0.4, -7), side=16) == WORKED[word]
    assert overlay_grid.overlay(Operation(word), A, B, grid=grid) == WORKED[word]


def test_texts_are_rounded():
    """Halves go upward and to the right: 0.25 is 0.5 on a grid of 0.5, and -0.25 is 0."""
    halves = "POLYGON ((0 0, 2.25 0, 2.2 1.74, -.25 1.75, 0 0))"
    assert overlay_grid.union(halves, "", grid=0.5) == "MULTIPOLYGON (((0 0, 2.5 0, 2 1.5, 0 2, 0 0)))\n"
    below = "POLYGON ((0 0, 0.15 0, 0.15 0.25, 0 0.25, 0 0))"  # the number next to 0.15 is less
    want = "MULTIPOLYGON (((0 0, 0.1 0, 0.1 0.3, 0 0.3, 0 0)))\n"
    assert overlay_grid.union(below, "", grid=0.1) == want
    forms = "polygon((+1E1 0,20.  0,2e+1 1e1,10.0 0))"
    assert overlay_grid.union(forms, "", grid=10) == "MULTIPOLYGON (((10 0, 20 0, 20 10, 10 0)))\n"
    small = "POLYGON ((0 0, 1 0, 0 1, 0 0))"
    assert overlay_grid.union(small, "", grid=1, origin=("0.5", 0)) == "MULTIPOLYGON (((0.5 0, 1.5 0, 0.5 1, 0.5 0)))\n"


@pytest.mark.parametrize("seed", range(20))
def test_whole_numbers(seed):
    """On a grid of 1, and of 0.5 with halved coordinates, the answer is that of whole coordinates."""
    a, b = pairs.pair(seed)
    word = list(WORKED)[seed % 4]
    want = asked(word, a, b)
    assert asked(word, a, b, grid=1) == asked(word, a, b, grid="1", origin=(3, -4)) == want
    assert points_of(asked(word, halved(a), halved(b), grid=0.5)) == points_of(halved(want))


def halved(text):
    return re.sub(r"-?\d+", lambda number: str(int(number[0]) / 2), text)


REFUSED = [
    (("POLYGON ((0 0, 1.5 0, 0 1.5.2, 0 0))", ""), {}, ("A: 1 syntax at 25", Refusal.SYNTAX, "A", 25)),
    (("", "POLYGON ((0.125 0.5"), {}, ("B: 1 syntax at 19", Refusal.SYNTAX, "B", 19)),
    (("POLYGON ((0 0, nan 0, 1 1, 0 0))", ""), {}, ("A: 1 syntax at 15", Refusal.SYNTAX, "A", 15)),
    (("", "POLYGON ((0.25 0, 1.25 0, 0.25 0))"), {}, ("B: 3 short ring at 9", Refusal.SHORT_RING, "B", 9)),
    (("POLYGON EMPTY POLYGON ((0.25 0, 1.25 0, 0.25 1, 1 1))", ""), {}, ("A: 4 open ring at 23", Refusal.OPEN_RING, "A", 23)),
    (("", "POLYGON ((0.5 0, 1e999 0, 1 1, 0.5 0))"), {}, ("B: 2 number out of range at 17: is no finite number", Refusal.NUMBER_RANGE, "B", 17)),
    (("", "POLYGON ((-1e999"), {}, ("B: 2 number out of range at 10: is no finite number", Refusal.NUMBER_RANGE, "B", 10)),
    (("POLYGON ((0.5 0, 1 0, 1 268435456.5, 0.5 0))", ""), {"origin": (0, 0)}, (f"A: 2 number out of range at 24: {_grid.OFF_THE_GRID}", 2, "A", 24)),
    (
        ("POLYGON ((0 0, 1 0, 1 1, 0 0))", "POLYGON ((0 0, 1 0, -1e10 1, 0 0))"),
        {},
        (f"B: 2 number out of range at 20: reaches 1e+10, {FINEST_IS} 20", 2, "B", 20),
    ),
    (("POLYGON ((0 0, 1e10 0, 1 1, 0 0)", ""), {}, ("A: 1 syntax at 32", Refusal.SYNTAX, "A", 32)),
]


@pytest.mark.parametrize("layers, plan, want", REFUSED, ids=[row[2][0] for row in REFUSED])
def test_refused_texts(layers, plan, want):
    for call in (overlay_grid.union, overlay_grid.faces):
        with pytest.raises(Refused) as fault:
            call(*layers, grid=1, **plan)
        assert (str(fault.value), fault.value.number, fault.value.layer, fault.value.offset) == want


@pytest.mark.parametrize("order", "<>")
@pytest.mark.parametrize("dimensions, by_bits", [(2, False), (3, False), (3, True), (4, False), (4, True)])
@pytest.mark.parametrize("system", [None, 25832])
def test_wkb(order, dimensions, by_bits, system):
    for word, text in WORKED.items():
        a, b = (wkb_of(multi(layer), order, dimensions, by_bits, system) for layer in (A, B))
        assert asked(word, a, b, grid=0.1) == wkb_of(text)
        both = wkb_of(WORKED["symdifference"], order, dimensions, by_bits, system)
        assert overlay_grid.union(both, wkb_of(WORKED["intersection"])) == wkb_of(WORKED["union"])


def test_wkb_of_nothing():
    empty = struct.pack("<BII", 1, 3, 0)
    assert overlay_grid.union(empty, empty) == overlay_grid.intersection(wkb_of(multi(A)), empty) == empty
    assert overlay_grid.union([], [wkb_of(multi(A)), None]) == wkb_of(multi(A))
    assert overlay_grid.union([], []) == [] and overlay_grid.faces([], [None]) == []
    assert overlay_grid.union(struct.pack("<BII", 1, 6, 1) + empty, wkb_of(multi(A))) == wkb_of(multi(A))
    assert overlay_grid.union(struct.pack("<BII", 1, 7, 0), wkb_of(multi(A))) == wkb_of(multi(A))


def test_lists_cover():
    """Features of a list don't cancel one another, nor do those of a text, where parity isn't said."""
    squares = [wkb_of(multi(A)), wkb_of(multi(B))]
    assert overlay_grid.union(squares, [], grid=0.1) == wkb_of(WORKED["union"])
    assert overlay_grid.union(squares, squares, grid=0.1) == wkb_of(WORKED["union"])
    assert overlay_grid.symdifference(squares, squares, grid=0.1) == wkb_of("MULTIPOLYGON EMPTY")
    assert overlay_grid.difference(squares, [squares[1]], grid=0.1) == wkb_of(WORKED["difference"])
    assert overlay_grid.union([A, B], "", grid=0.1) == overlay_grid.union([A, None, B], [], grid=0.1) == WORKED["union"]
    assert overlay_grid.union(f"{A} {B}", "", grid=0.1) == WORKED["union"]
    assert overlay_grid.intersection(squares, f"{A} {B}", grid=0.1) == wkb_of(WORKED["union"])
    for layer in (squares, [A, B], f"{A} {B}"):
        found = overlay_grid.union(layer, [], grid=0.1, reading="parity")
        assert found == (wkb_of(WORKED["symdifference"]) if layer is squares else WORKED["symdifference"])
    assert overlay_grid.symdifference(squares, f"{A} {B}", grid=0.1, reading="parity") == wkb_of("MULTIPOLYGON EMPTY")
    # where sides of what cancels cross it, the other square has vertices
    crossed = "MULTIPOLYGON (((0.2 0.2, 0.4 0.2, 0.6 0.2, 0.6 0.6, 0.2 0.6, 0.2 0.4, 0.2 0.2)))\n"
    assert overlay_grid.union(f"{A} {A}", [B], grid=0.1, reading="parity") == crossed


def test_lists_of_features_apart():
    """Two squares side by side, and one across both."""
    left, right, across = ([f"POLYGON (({x} 0, {x + 2} 0, {x + 2} 2, {x} 2, {x} 0))"] for x in (0, 2, 1))
    assert overlay_grid.intersection(left + right, across, grid=1) == "MULTIPOLYGON (((1 0, 2 0, 3 0, 3 2, 2 2, 1 2, 1 0)))\n"
    parts = "MULTIPOLYGON (((0 0, 1 0, 1 2, 0 2, 0 0)), ((3 0, 4 0, 4 2, 3 2, 3 0)))\n"
    assert overlay_grid.difference(left + right, across, grid=1) == parts


def test_faces():
    want = [
        (pytest.approx(0.12), ((1,), ()), WORKED["difference"].rstrip()),
        (pytest.approx(0.04), ((1,), (1,)), WORKED["intersection"].rstrip()),
        (pytest.approx(0.12), ((), (1,)), "MULTIPOLYGON (((0.2 0.4, 0.4 0.4, 0.4 0.2, 0.6 0.2, 0.6 0.6, 0.2 0.6, 0.2 0.4)))"),
    ]
    assert overlay_grid.faces(A, B, grid=0.1) == want
    assert overlay_grid.faces(A.encode(), B, grid=0.1) == [(area, ids, text.encode()) for area, ids, text in want]
    found = overlay_grid.faces([wkb_of(multi(A)), None, wkb_of(multi(B))], grid=0.1)
    assert [(face.ids, face.geometry) for face in found] == [
        (((1,),), wkb_of(want[0][2])),
        (((1, 3),), wkb_of(want[1][2])),
        (((3,),), wkb_of(want[2][2])),
    ]
    assert isinstance(found[0], overlay_grid.Face)


def test_edges():
    """Two triangles with a common side, on a grid of a half."""
    a, b = "POLYGON ((0 0, 1.5 0, 1.5 0.5, 0 0))", "POLYGON ((1.5 0, 2 0, 1.5 0.5, 1.5 0))"
    lines = "0 0 1.5 0 1 0\n0 0 1.5 0.5 1 0\n1.5 0 1.5 0.5 1 1\n1.5 0 2 0 0 1\n1.5 0.5 2 0 0 1\n"
    assert overlay_grid.edges(a, b, grid=0.5) == lines
    assert overlay_grid.overlay(Operation.EDGES, a.encode(), [b], grid="0.1", origin=(1, 1)) == lines.encode()
    want = [tuple(map(float, line.split())) for line in lines.splitlines()]
    assert overlay_grid.edges([wkb_of(multi(a))], wkb_of(multi(b)), grid=0.5) == want
    assert overlay_grid.edges([], [wkb_of(multi(a))])[0]._asdict() == {"x1": 0.0, "y1": 0.0, "x2": 1.5, "y2": 0.0, "a": 0, "b": 1}
    assert overlay_grid.edges([], []) == [] and overlay_grid.edges("", "", grid=1) == ""


GEOMETRIES = [
    (wkb_of(multi(A)), struct.pack("<BIIdd", 1, 2, 1, 0, 0), "A: feature 2: a LineString is no polygon", None),
    (wkb_of(multi(A)), struct.pack("<BII", 1, 7, 1) + wkb_of(multi(B)), "A: feature 2: a GeometryCollection is no polygon", None),
    (wkb_of(multi(A)), wkb_of(multi(B))[:-1], "A: feature 2: is WKB that isn't whole", None),
    (wkb_of(multi(A)), wkb_of(multi(B))[:7], "A: feature 2: is WKB that isn't whole", None),
    (wkb_of(multi(A)), wkb_of(multi(A)) + b"\0", "A: feature 2: is WKB that goes on behind its end, by 1 of 94 bytes", None),
    (None, wkb_of("MULTIPOLYGON EMPTY") + wkb_of(multi(A)), "A: feature 2: is WKB that goes on behind its end, by 93 of 102 bytes", None),
    (None, wkb_of(multi(A), ">") + wkb_of(multi(B)), "A: feature 2: is WKB that goes on behind its end, by 93 of 186 bytes", None),
    (None, wkb_of("MULTIPOLYGON (((0 0, nan 0, 1 1, 0 0)))"), "A: feature 2, polygon 1: a coordinate is no finite number: nan", 1),
    (
        wkb_of(multi(A)),
        wkb_of("MULTIPOLYGON (((0 0, 1 0, 1 1, 0 0)), ((0 0, 1 0, 1 -inf, 0 0)))"),
        "A: feature 2, polygon 2: a coordinate is no finite number: -inf",
        2,
    ),
    (
        wkb_of(multi(A)),
        wkb_of("MULTIPOLYGON (((0 0, 1 0, 1 1, 0 0)), ((0 0, 1 0, 1e12 1, 0 0)))"),
        "A: feature 2, polygon 2: reaches 1e+12, and the finest grid with room for all layers is 2000",
        2,
    ),
    (
        wkb_of(multi(A)),
        wkb_of("MULTIPOLYGON (((0 0, 1 0, 1 1, 0 0.1)))"),
        "A: feature 2, polygon 1: a ring's last point isn't its first",
        1,
    ),
    (
        wkb_of(multi(A)),
        wkb_of("MULTIPOLYGON (((0 0, 1 0, 0 0)))"),
        "A: feature 2, polygon 1: a ring has 3 points, the first one again at its end, and at least 4 are wanted",
        1,
    ),
]


@pytest.mark.parametrize("first, second, words, part", GEOMETRIES, ids=[row[2] for row in GEOMETRIES])
def test_refused_geometries(first, second, words, part):
    for call in (overlay_grid.union, overlay_grid.faces):
        with pytest.raises(GeometryError) as fault:
            call([first, second], [])
        told = fault.value
        assert (str(told), told.layer, told.feature, told.part) == (words, "A", 2, part)
        again = pickle.loads(pickle.dumps(told))
        assert (str(again), again.reason, again.layer, again.feature, again.part) == (words, told.reason, "A", 2, part)
    with pytest.raises(GeometryError, match="^B: feature 1"):
        overlay_grid.difference(wkb_of(multi(A)), second)


@pytest.mark.parametrize("number", ["{}x", "{}.{}x", "1.{}x", "1e{}x", "-{}-", "{}e"])
def test_long_words_that_are_no_numbers(number):
    """They are refused in a time that grows as their length does."""
    word = number.format("1" * 200_000, "1" * 200_000)
    with pytest.raises(Refused, match="^A: 1 syntax at"):
        overlay_grid.union(f"POLYGON ((0 0, {word} 0, 1 1, 0 0))", "", grid=1)


LISTS_OF_TEXTS = [
    ([A, "POLYGON ((0 0, 1 0", B], Refused, "A: feature 2: 1 syntax at 18", (2, 18)),
    ([A, " POLYGON ((0 0,\n1 0, 1 1))", B], Refused, "A: feature 2: 3 short ring at 10", (2, 10)),
    ([A, B, "POLYGON ((0 0, 1 0, 1e999 1, 0 0))"], Refused, "A: feature 3: 2 number out of range at 20: is no finite number", (3, 20)),
    (["POLYGON ((0 0, 1 0, 1e12 1, 0 0))", A], Refused, f"A: feature 1: 2 number out of range at 20: reaches 1e+12, {FINEST_IS} 2000", (1, 20)),
    ([A, "POLYGON ((0 0, 1 0, 1 1, ", "0 1, 0 0))"], GeometryError, "A: feature 3: is no text of one polygon or multipolygon", (3, None)),
    ([A, f"{A} {B}"], GeometryError, "A: feature 2: is no text of one polygon or multipolygon", (2, None)),
    ([None, "LINESTRING (0 0, 1 1)"], GeometryError, "A: feature 2: is no text of one polygon or multipolygon", (2, None)),
]


@pytest.mark.parametrize("texts, kind, words, place", LISTS_OF_TEXTS, ids=[row[2] for row in LISTS_OF_TEXTS])
def test_refused_texts_of_a_list(texts, kind, words, place):
    """Each of the texts is a feature, and a refusal tells which one and where in it."""
    for call in (overlay_grid.union, overlay_grid.faces, overlay_grid.edges):
        with pytest.raises(kind) as fault:
            call(texts, [])
        told = fault.value
        assert (str(told), told.feature, getattr(told, "offset", None)) == (words, *place)


def test_numbers_of_texts_in_a_list():
    """A text without geometries is a feature without points, as None is."""
    assert [face.ids for face in overlay_grid.faces(["", A, " \n", None, f"  {B}\n"], grid=0.1)] == [((2,),), ((2, 5),), ((5,),)]


def test_forms_of_large_rings():
    """Of a ring with many points no form is kept, and of a small one the form."""
    tracemalloc.start()
    try:
        assert all(_shapes.ring_form(count).count("%d") == 2 * count for count in range(50_000, 50_020))
        assert tracemalloc.get_traced_memory()[0] < 1 << 20
    finally:
        tracemalloc.stop()
    assert _shapes.ring_form(5) is _shapes.ring_form(5)


def test_off_the_grid():
    far = wkb_of("MULTIPOLYGON (((0 0, 268436 0, 1 1, 0 0)))")
    with pytest.raises(GeometryError, match="^B: feature 1, polygon 1: the point 268436.0 0.0 lies off the grid"):
        overlay_grid.union(wkb_of(multi(A)), far, grid=0.001, origin=(0, 0))
    assert overlay_grid.union(far, b"", grid=0.001) == far


def test_no_layers():
    for wrong in (None, 5, object(), {"type": "Polygon", "coordinates": []}):
        with pytest.raises(TypeError, match="^B: a .* is no layer"):
            overlay_grid.union([], wrong)
    with pytest.raises(GeometryError, match="A: feature 1: a int is no polygon"):
        overlay_grid.union([5], [])
    with pytest.raises(GeometryError, match="A: feature 3: is no text, as the first one is"):
        overlay_grid.union([A, None, wkb_of(multi(A))], [])
    with pytest.raises(GeometryError, match="A: feature 2: a str is no polygon"):
        overlay_grid.union([wkb_of(multi(A)), A], [])
    with pytest.raises(ValueError, match="^grid: "):
        overlay_grid.union(A, B, grid=0)


@pytest.mark.parametrize("kind", ["bool", "complex", "object", "datetime64[s]", "U9"])
def test_arrays_of_no_numbers(kind):
    numpy = pytest.importorskip("numpy")
    with pytest.raises(TypeError, match=r"^A: an array of shape \(4, 2\) and type .* is no layer"):
        overlay_grid.union(numpy.zeros((4, 2), kind), [])


def test_limits_of_segments():
    squares = [wkb_of(multi(A)), wkb_of(multi(B))]
    with pytest.raises(Refused) as fault:
        overlay_grid.union(squares, [], segments=7)
    assert fault.value.number == Refusal.TOO_MANY_SEGMENTS and fault.value.count == 8
    assert overlay_grid.union(squares, [], segments=8, grid=0.1) == wkb_of(WORKED["union"])


@pytest.mark.parametrize("kind, number", [("uint8", 8), ("int32", 2**24), ("int64", 2**62)])
def test_limits_of_segments_of_numpy(kind, number):
    """They are as those of Python, of which no product is too large."""
    numpy = pytest.importorskip("numpy")
    squares = [wkb_of(multi(A)), wkb_of(multi(B))]
    with warnings.catch_warnings():
        warnings.simplefilter("error")
        limit = numpy.dtype(kind).type(number)
        assert overlay_grid.union(squares, [], segments=limit, grid=0.1) == wkb_of(WORKED["union"])


@pytest.mark.parametrize("seed", range(80))
def test_lists_are_read_as_covered(seed, tmp_path):
    """The answer on features has the bytes of the program's answer with --covered, which rounds once, in a list as in one text."""
    layers, word = pairs.pair(seed), list(WORKED)[seed % 4]
    names = [str(tmp_path / name) for name in "ab"]
    for name, layer in zip(names, layers):
        with open(name, "w") as file:
            file.write(layer)
    want = printed(word, *names, reading="covered").decode()
    features = [layer.splitlines() for layer in layers]
    assert asked(word, *layers) == asked(word, *layers, grid=1) == want
    if any(features):
        assert asked(word, *features, grid=1) == want
        assert asked(word, *([wkb_of(multi(feature)) for feature in layer] for layer in features), grid=1) == wkb_of(want)


@pytest.mark.parametrize("name", WORKED)
def test_a_list_of_too_long_a_text(monkeypatch, name):
    """Its answer is the same, by columns."""
    squares = [wkb_of(f"MULTIPOLYGON ((({k} 0, {k + 4} 0, {k + 4} 4, {k} 4, {k} 0)))") for k in (0, 2, 9)]
    others = [wkb_of("MULTIPOLYGON (((3 1, 10 1, 10 3, 3 3, 3 1)))"), wkb_of("MULTIPOLYGON (((5 2, 7 2, 7 6, 5 6, 5 2)))")]
    answer = asked(name, squares, others, grid=1)
    monkeypatch.setattr(_asking, "longest_of", lambda limit: 40)
    assert asked(name, squares, others, grid=1) == answer


def test_a_list_whose_features_overlap_much():
    """Squares on a diagonal, each of which overlaps all others: by faces, they would have half a milliard numbers of features."""
    count = 950
    squares = [f"POLYGON (({k} {k}, {k + count} {k}, {k + count} {k + count}, {k} {k + count}, {k} {k}))" for k in range(count)]
    down = [(count + k - corner, k) for k in range(count) for corner in (1, 0)][1:]
    up = [(k, count + k - corner) for k in reversed(range(count)) for corner in (0, 1)][:-1]
    outline = [(0, 0), *down, (2 * count - 1, 2 * count - 1), *up, (0, 0)]
    assert overlay_grid.union(squares, []) == f"MULTIPOLYGON ((({', '.join('%d %d' % point for point in outline)})))\n"


@pytest.mark.parametrize("seed", range(60))
def test_united_rows(seed):
    """Rows of faces, united, are what an operation answers; and all rows but those of an even number of features are what it answers by
    parity."""
    a, b = pairs.pair(seed)
    rows = overlay_grid.faces(a, b)

    def united(chosen):
        return _shapes.text_of(_uniting.united(row.wkt for row in chosen))

    assert united(rows) == overlay_grid.union(a, b)
    assert united(row for row in rows if row.ids[0] and not row.ids[1]) == overlay_grid.difference(a, b)
    assert united(row for row in rows if len(row.ids[0]) % 2 or len(row.ids[1]) % 2) == overlay_grid.union(a, b, reading="parity")
    assert united(row for row in rows if len(row.ids[0]) % 2 and len(row.ids[1]) % 2) == overlay_grid.intersection(a, b, reading="parity")
    assert united(row for row in rows if len(row.ids[0]) % 2 > len(row.ids[1]) % 2) == overlay_grid.difference(a, b, reading="parity")


def test_rows_with_many_petals_at_one_vertex():
    """Petals, and holes of their shapes, are united in seconds, and both together have no border between them."""
    count = 10_000
    petals = [f"(0 0, 1 {2 * k}, 1 {2 * k + 1}, 0 0)" for k in range(count)]
    holes = [f"(0 0, 1 {2 * k + 1}, 1 {2 * k}, 0 0)" for k in range(count)]
    shell = f"(-1 -1, 2 -1, 2 {2 * count}, -1 {2 * count}, -1 -1)"
    flower = f"MULTIPOLYGON ({', '.join(f'({petal})' for petal in petals)})\n"
    rest = f"MULTIPOLYGON (({', '.join([shell, *holes])}))\n"
    began = time.process_time()
    assert _shapes.text_of(_uniting.united(f"MULTIPOLYGON (({petal}))\n" for petal in petals)) == flower
    assert _shapes.text_of(_uniting.united([rest])) == rest
    assert _shapes.text_of(_uniting.united([flower, rest])) == f"MULTIPOLYGON (({shell}))\n"
    assert time.process_time() - began < 10


def test_no_rows_unite_to_nothing():
    assert _shapes.text_of(_uniting.united([])) == _shapes.text_of(_uniting.united(["MULTIPOLYGON EMPTY\n"])) == "MULTIPOLYGON EMPTY\n"


def test_nothing_else_is_imported():
    """Texts and WKB of few points need neither numpy nor Shapely."""
    code = (
        "import sys, overlay_grid\n"
        f"overlay_grid.union({A!r}, {B!r}, grid=0.1), overlay_grid.union({wkb_of(multi(A))!r}, {wkb_of(multi(B))!r})\n"
        "print([name for name in ('numpy', 'shapely', 'pandas', 'geopandas') if name in sys.modules])"
    )
    assert subprocess.run([sys.executable, "-c", code], capture_output=True, text=True, check=True).stdout == "[]\n"


WHILE_IMPORTED = """
import sys, threading, overlay_grid
squares, want, faults = [{a!r}] * 60, {a!r}, []
ended = threading.Event()

def work():
    while not ended.is_set():
        try:
            assert overlay_grid.union(squares, squares, grid=0.1) == want
        except Exception as fault:
            faults.append(fault)

thread = threading.Thread(target=work)
thread.start()
import {name}
ended.set()
thread.join()
sys.exit(str(faults[0]) if faults else 0)
"""


@pytest.mark.parametrize("name", ["numpy", "shapely.geometry"])
def test_calls_while_another_thread_imports(name):
    """A package that isn't whole yet is waited for, or isn't asked for what it hasn't."""
    pytest.importorskip(name)
    code = WHILE_IMPORTED.format(a=wkb_of(multi(A)), name=name)
    assert subprocess.run([sys.executable, "-c", code], capture_output=True, text=True).stderr == ""


def rings_of(numpy, text):
    return [tuple(numpy.array(ring) for ring in polygon) for polygon in points_of(text)]


def lists_of(polygons):
    return [[ring.tolist() for ring in polygon] for polygon in polygons]


def test_arrays():
    numpy = pytest.importorskip("numpy")
    for word, text in WORKED.items():
        a, b = (rings_of(numpy, multi(layer))[0][0] for layer in (A, B))
        want = lists_of(rings_of(numpy, text))
        assert lists_of(asked(word, a, b, grid=0.1)) == lists_of(asked(word, a[:-1], [b[1:]], grid=0.1)) == want
        assert asked(word, A, b, grid=0.1) == text
    holed = overlay_grid.difference(numpy.array([[0, 0], [9, 0], [9, 9], [0, 9]]), numpy.array([[3, 3], [6, 3], [6, 6], [3, 6]]), grid=1)
    assert [[ring.tolist() for ring in polygon] for polygon in holed] == [
        [[[0, 0], [9, 0], [9, 9], [0, 9], [0, 0]], [[3, 3], [3, 6], [6, 6], [6, 3], [3, 3]]]
    ]
    assert lists_of(overlay_grid.union(holed, [], grid=1)) == lists_of(holed)
    assert lists_of(overlay_grid.union(holed[0], [], grid=1)) == lists_of(holed)
    assert overlay_grid.intersection(holed, []) == []


@pytest.mark.parametrize("kind", ["int64", "uint64"])
def test_arrays_of_large_whole_numbers(kind):
    """None of them is rounded before it comes to the grid."""
    numpy = pytest.importorskip("numpy")
    square = numpy.array([[0, 0], [9, 0], [9, 9], [0, 9]], kind)
    most = square + numpy.array(2**53 - 10, kind)
    assert overlay_grid.faces(most, grid=1)[0].area == 81
    with pytest.raises(GeometryError, match="^A: feature 2, polygon 1: has whole numbers from 2\\^53 on"):
        overlay_grid.faces([most, most + numpy.array(2, kind)], grid=1)


def test_wrong_arrays():
    numpy = pytest.importorskip("numpy")
    square = numpy.array([[0.0, 0], [4, 0], [4, 4]])
    for wrong, told in ((square[:, :1], "an array of shape \\(3, 1\\) is no polygon"), (square[:1], "a ring has 1 points")):
        with pytest.raises(GeometryError, match=f"^A: feature 2(, polygon 1)?: {told}"):
            overlay_grid.union([square, wrong], [])
    square[1, 1] = numpy.nan
    with pytest.raises(GeometryError, match="^B: feature 1, polygon 1: a coordinate is no finite number"):
        overlay_grid.union([], square)


def test_arrays_of_words():
    """What is wrong with an array is told where its shape is right."""
    numpy = pytest.importorskip("numpy")
    square = numpy.array([[0, 0], [4, 0], [4, 4]])
    with pytest.raises(GeometryError, match="^A: feature 2: an array of type <U21 is no polygon: a ring is an array of shape \\(n, 2\\), of numbers$"):
        overlay_grid.union([square, square.astype(str)], [])


@pytest.mark.parametrize("kind", [int, float])
def test_masked_arrays(kind):
    """What is masked has no value, and is not what stands in its place."""
    numpy = pytest.importorskip("numpy")
    square = numpy.array([[0, 0], [4, 0], [4, 4]], kind)
    masked = numpy.ma.array(square, mask=square == 4, fill_value=1)
    with pytest.raises(GeometryError, match="^B: feature 2, polygon 1: an array has masked numbers$"):
        overlay_grid.union([], [square, masked], grid=1)
    assert overlay_grid.union(numpy.ma.array(square), [], grid=1)[0][0].tolist() == [[0, 0], [4, 0], [4, 4], [0, 0]]


def test_bytes_in_arrays():
    """A text as an array of bytes is a text."""
    numpy = pytest.importorskip("numpy")
    text = "POLYGON ((0 0, 4 0, 4 4, 0 4, 0 0))"
    assert overlay_grid.union(numpy.frombuffer(text.encode(), numpy.uint8), "") == overlay_grid.union(text.encode(), "")


def test_shapely():
    geometry = pytest.importorskip("shapely.geometry")
    wkt = pytest.importorskip("shapely.wkt")
    a, b = wkt.loads(A), wkt.loads(B)
    for word, text in WORKED.items():
        made = asked(word, a, b, grid=0.1)
        assert made.wkb == wkb_of(text)
        assert asked(word, [a], geometry.MultiPolygon([b]), grid=0.1).equals_exact(made, 0.0)
        assert asked(word, A, b, grid=0.1) == text
    assert overlay_grid.union([a, None, b], []).wkb == wkb_of(WORKED["union"])
    assert overlay_grid.intersection(a, geometry.box(5, 5, 6, 6)).is_empty
    face = overlay_grid.faces([a, b], grid=0.1)[1]
    assert (face.ids, face.geometry.wkb) == (((1, 2),), wkb_of(WORKED["intersection"]))
    with pytest.raises(GeometryError, match="^A: feature 1: a Point is no polygon"):
        overlay_grid.union(geometry.Point(0, 0), b)
    with pytest.raises(GeometryError, match="^B: feature 2: a GeometryCollection is no polygon"):
        overlay_grid.union(a, [b, geometry.GeometryCollection([b])])
    high = geometry.Polygon([(0, 0, 5), (4, 0, 5), (4, 4, 6)])
    assert overlay_grid.union([high, high], [], grid=1).equals(geometry.Polygon([(0, 0), (4, 0), (4, 4)]))


def test_many_at_once(monkeypatch):
    """Shapely 2 makes WKB of a list at once, in two dimensions."""
    numpy, shapely, wkt = (pytest.importorskip(name) for name in ("numpy", "shapely", "shapely.wkt"))
    asked_for = []

    def to_wkb(geometries, output_dimension, byte_order):
        asked_for.append((len(geometries), output_dimension, byte_order))
        return numpy.array([None if geometry is None else geometry.wkb for geometry in geometries], dtype=object)

    monkeypatch.setattr(shapely, "to_wkb", to_wkb, raising=False)
    assert overlay_grid.union([wkt.loads(A), None, wkt.loads(B)], [], grid=0.1).wkb == wkb_of(WORKED["union"])
    assert asked_for == [(3, 2, 1)]


@pytest.mark.parametrize("seed", range(30))
def test_shapely_where_it_is_exact(seed):
    """Of rectangles with whole corners, Shapely's answers are exact: the same points."""
    geometry = pytest.importorskip("shapely.geometry")
    ops = pytest.importorskip("shapely.ops")
    import random

    draw = random.Random(seed)

    def boxes():
        corners = [(draw.randrange(40), draw.randrange(40)) for _ in range(draw.randint(1, 6))]
        return [geometry.box(x, y, x + draw.randint(1, 15), y + draw.randint(1, 15)) for x, y in corners]

    a, b = boxes(), boxes()
    first, second = ops.unary_union(a), ops.unary_union(b)
    for word, other in zip(WORKED, ("union", "intersection", "difference", "symmetric_difference")):
        want = getattr(first, other)(second)
        for found in (asked(word, a, b, grid=1), asked(word, first, second, grid="0.5")):
            assert found.is_valid and found.area == want.area and found.symmetric_difference(want).area == 0
    assert sum(face.area for face in overlay_grid.faces(a, b, grid=1)) == first.union(second).area


@pytest.mark.parametrize("text", [b"\0", b"\1\0\0", b"\0POLYGON ((0 0, 1 0, 1 1, 0 0))", b"\1" + bytes(8), b"\1POLYGON EMPTY"])
def test_bytes_that_are_no_wkb(text):
    """They are texts that are refused, as whatever else is no geometry."""
    for plan in ({}, {"grid": 1}):
        with pytest.raises(Refused) as fault:
            overlay_grid.union(b"", text, **plan)
        assert (str(fault.value), fault.value.offset) == ("B: 1 syntax at 0", 0)


def test_kinds_are_told():
    assert _kinds.kind_of(A) is _kinds.text_answer and _kinds.kind_of(A.encode()) is _kinds.bytes_answer
    assert _kinds.kind_of(wkb_of(multi(A))) is _kinds.wkb_answer and _kinds.kind_of([A]) is None
