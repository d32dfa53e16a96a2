"""The package against worked texts and against the program's bytes."""

import _ctypes
import doctest
import importlib
import inspect
import os
import pickle
import pkgutil
import pydoc
import shutil
import subprocess
import sys
import threading

import overlay_grid
import pairs
import pytest
from overlay_grid import Operation, Refusal

HERE = os.path.dirname(os.path.abspath(__file__))
ROOT = os.path.dirname(os.path.dirname(HERE))
PROGRAM = os.environ.get("OVERLAY") or os.path.join(ROOT, "crates/overlay/out/overlay")

SQUARE = "POLYGON ((0 0, 4 0, 4 4, 0 4, 0 0))"
OTHER = "POLYGON ((2 2, 6 2, 6 6, 2 6, 2 2))"
CALLS = ["union", "intersection", "difference", "symdifference", "edges"]

# The program's option for each reading.
READINGS = {"covered": ["--covered"], "parity": []}

WORKED = {
    "union": "MULTIPOLYGON (((0 0, 4 0, 4 2, 6 2, 6 6, 2 6, 2 4, 0 4, 0 0)))\n",
    "intersection": "MULTIPOLYGON (((2 2, 4 2, 4 4, 2 4, 2 2)))\n",
    "difference": "MULTIPOLYGON (((0 0, 4 0, 4 2, 2 2, 2 4, 0 4, 0 0)))\n",
    "symdifference": "MULTIPOLYGON (((0 0, 4 0, 4 2, 2 2, 2 4, 0 4, 0 0)), ((2 4, 4 4, 4 2, 6 2, 6 6, 2 6, 2 4)))\n",
}


def asked(word, a, b, **plan):
    return getattr(overlay_grid, word)(a, b, **plan)


def printed(word, *names, reading="parity"):
    return subprocess.run([PROGRAM, word, *names, *READINGS[reading]], capture_output=True, check=True).stdout


def read_so(word, reading):
    """What is said of a reading to a call that has one."""
    return {} if word == "edges" else {"reading": reading}


@pytest.mark.parametrize("word", WORKED)
def test_worked(word):
    assert asked(word, SQUARE, OTHER) == WORKED[word]
    assert asked(word, SQUARE.encode(), OTHER.encode()) == WORKED[word].encode()
    assert asked(word, SQUARE, OTHER, side=16) == WORKED[word]


@pytest.mark.parametrize("operation", Operation)
def test_operations(operation):
    assert overlay_grid.overlay(operation, SQUARE, OTHER) == asked(operation.value, SQUARE, OTHER)
    assert overlay_grid.overlay(Operation(operation.value), SQUARE, OTHER, side=64) == asked(operation.value, SQUARE, OTHER)


def test_an_operation_is_one_of_the_words():
    assert [operation.value for operation in Operation] == CALLS
    with pytest.raises(ValueError):
        overlay_grid.overlay("union of", SQUARE, OTHER)


def test_bytes_of_any_kind():
    a, b = bytearray(SQUARE.encode()), memoryview(OTHER.encode())
    assert overlay_grid.intersection(a, b) == overlay_grid.intersection(memoryview(a), OTHER) == WORKED["intersection"].encode()


def test_examples():
    names = [part.name for part in pkgutil.iter_modules(overlay_grid.__path__) if part.name.startswith("_")]
    parts = [overlay_grid, *(importlib.import_module(f"overlay_grid.{name}") for name in names)]
    told = [doctest.testmod(part) for part in parts]
    assert not any(one.failed for one in told) and sum(one.attempted for one in told) >= 24
    page = doctest.testfile(os.path.join(os.path.dirname(HERE), "README.md"), module_relative=False)
    assert page.failed == 0 and page.attempted == 21


def test_no_library(tmp_path):
    """Without its library, or with another file in its place, the package is none that can be imported."""
    copy = tmp_path / "overlay_grid"
    shutil.copytree(os.path.dirname(overlay_grid.__file__), copy, ignore=shutil.ignore_patterns("*.so", "__pycache__"))

    def told():
        return subprocess.run([sys.executable, "-c", "import overlay_grid"], cwd=tmp_path, env={}, capture_output=True, text=True).stderr

    assert told().splitlines()[-1].startswith("ImportError: ") and "python/build makes the library" in told()
    shutil.copy(_ctypes.__file__, copy / "liboverlay.so")
    assert told().splitlines()[-1].startswith("ImportError: ") and "undefined symbol: overlay_version" in told()


def test_empty_layers():
    assert overlay_grid.union("", "polygon empty") == "MULTIPOLYGON EMPTY\n"
    assert overlay_grid.edges("", "") == ""


def test_layer_with_a_zero_byte():
    with pytest.raises(overlay_grid.Refused) as fault:
        overlay_grid.union(b"POLYGON\0EMPTY", b"")
    assert fault.value.offset == 7


REFUSED = [
    (("POLYGON ((0 0, 1.5 0, 0 1, 0 0))", ""), {}, ("A: 1 syntax at 16", 1, "A", 16, None)),
    (("", "POLYGON ((0 0"), {}, ("B: 1 syntax at 13", 1, "B", 13, None)),
    ((SQUARE + " \ud800", ""), {}, ("A: 1 syntax at 36", 1, "A", 36, None)),
    ((SQUARE + " \ud800", ""), {"grid": 1}, ("A: 1 syntax at 36", 1, "A", 36, None)),
    (("", [None, SQUARE + "\ud800"]), {}, ("B: feature 2: 1 syntax at 35", 1, "B", 35, None)),
    (("POLYGON ((0 0, 268435457 0, 0 1, 0 0))", ""), {}, ("A: 2 number out of range at 15", 2, "A", 15, None)),
    (("", "POLYGON ((0 0, 1 0, 0 1))"), {}, ("B: 3 short ring at 9", 3, "B", 9, None)),
    (("POLYGON ((0 0, 1 0, 1 1, 0 1))", ""), {}, ("A: 4 open ring at 9", 4, "A", 9, None)),
    (((SQUARE + " ") * 262145, ""), {}, ("5 too many segments: 1048580", 5, None, None, 1048580)),
    ((SQUARE, OTHER), {"segments": 7}, ("5 too many segments: 8", 5, None, None, 8)),
    (("", ""), {"side": 15}, ("6 bad tile side", 6, None, None, None)),
    (("", ""), {"side": 2**32 + 16}, ("6 bad tile side", 6, None, None, None)),
    (("", ""), {"side": -16}, ("6 bad tile side", 6, None, None, None)),
    (("POLYGON ((0 0, 4096 0, 4096 4095, 0 4095, 0 0))", ""), {"side": 16}, ("8 too many tiles: 65792", 8, None, None, 65792)),
    ((" " * 268435457, ""), {}, ("A: 0 layer too long", 0, "A", None, None)),
]


@pytest.mark.parametrize("layers, plan, want", REFUSED, ids=[row[2][0] for row in REFUSED])
@pytest.mark.parametrize("word", ["union", "edges"])
def test_refused(word, layers, plan, want):
    with pytest.raises(overlay_grid.Refused) as fault:
        asked(word, *layers, **plan)
    told = fault.value
    assert (str(told), told.number, told.layer, told.offset, told.count) == want
    assert isinstance(told.number, Refusal)
    again = pickle.loads(pickle.dumps(told))
    assert (str(again), again.number, again.layer, again.offset, again.count) == want and again.feature == told.feature


def test_side_that_fits():
    whole = "POLYGON ((-268435456 -268435456, 268435456 -268435456, 268435456 268435456, -268435456 268435456, -268435456 -268435456))"
    assert overlay_grid.union(whole, "").startswith("MULTIPOLYGON (((-268435456 -268435456, 268435456 -268435456, ")
    assert overlay_grid.union(whole, " " * 100_000) == overlay_grid.union(whole, "")
    assert overlay_grid.faces_text(whole, " " * 100_000) == overlay_grid.faces_text(whole, "")
    with pytest.raises(overlay_grid.Refused) as fault:
        overlay_grid.union(whole, "", side=262144)
    assert (fault.value.number, fault.value.layer, fault.value.count) == (8, None, 4198401)


@pytest.mark.parametrize("word", CALLS)
@pytest.mark.parametrize("segments", [8, 9, 2**32 - 1, 2**64])
def test_limit_of_segments(word, segments):
    assert asked(word, SQUARE, OTHER, segments=segments) == asked(word, SQUARE, OTHER)


def test_more_segments():
    """An odd number of squares that are one, for parity."""
    many = (SQUARE + " ") * 262145
    for reading in READINGS:
        assert overlay_grid.union(many, "", segments=1048580, reading=reading) == overlay_grid.union(SQUARE, "")
        assert overlay_grid.union(many, "", grid=1, reading=reading) == overlay_grid.union(SQUARE, "")


def test_longer_texts_where_more_segments_are_said():
    """256 bytes for each of them."""
    blank = b" " * (2**28 + 257)
    with pytest.raises(overlay_grid.Refused) as fault:
        overlay_grid.union("", blank[:-256])
    assert (fault.value.number, fault.value.layer) == (Refusal.LAYER_TOO_LONG, "B")
    with pytest.raises(overlay_grid.Refused):
        overlay_grid.union("", blank, segments=2**20 + 1)
    assert overlay_grid.union("", blank[:-1], segments=2**20 + 1) == "MULTIPOLYGON EMPTY\n"


def test_numbers_of_numpy():
    numpy = pytest.importorskip("numpy")
    for kind in (numpy.int64, numpy.uint16):
        assert overlay_grid.union(SQUARE, OTHER, kind(16), kind(8)) == WORKED["union"]
        assert overlay_grid.faces_text(SQUARE, side=kind(16), segments=kind(4)) == overlay_grid.faces_text(SQUARE)


def test_no_limit_below_one():
    for segments in (0, -1):
        with pytest.raises(ValueError, match="below 1"):
            overlay_grid.union(SQUARE, OTHER, segments=segments)


def test_types():
    with pytest.raises(TypeError):
        overlay_grid.union(SQUARE, OTHER, segments=8.0)
    with pytest.raises(TypeError):
        overlay_grid.union(SQUARE, OTHER, side=16.0)
    with pytest.raises(TypeError):
        overlay_grid.union(SQUARE, None)


@pytest.mark.parametrize("word", CALLS)
def test_samples(word):
    names = [os.path.join(ROOT, "samples", name) for name in ("parcels.wkt", "zones.wkt")]
    layers = [open(name, "rb").read() for name in names]
    for reading in READINGS if word != "edges" else ["parity"]:
        assert asked(word, *layers, **read_so(word, reading)) == printed(word, *names, reading=reading)


OVERLAPPING = f"{SQUARE} {OTHER}"


@pytest.mark.parametrize("word", WORKED)
def test_readings(word):
    """Squares in one layer are their union where they are covered, and by parity their symmetric difference."""
    covers, cancels = WORKED["union"], WORKED["symdifference"]
    for reading, held in (("covered", covers), ("parity", cancels)):
        want = asked(word, held, OTHER)
        assert asked(word, OVERLAPPING, OTHER, reading=reading) == asked(word, OVERLAPPING.encode(), OTHER.encode(), reading=reading).decode() == want
        assert asked(word, OVERLAPPING, OTHER, grid=1, reading=reading) == asked(word, [SQUARE, OTHER], [OTHER], grid=1, reading=reading) == want
        assert overlay_grid.overlay(Operation(word), OVERLAPPING, OTHER, reading=reading) == want
    assert asked(word, OVERLAPPING, OTHER) == overlay_grid.covered_text(Operation(word), OVERLAPPING, OTHER) == asked(word, covers, OTHER)


def test_one_geometry_is_read_by_the_even_odd_rule():
    """In both readings: one that crosses itself, one whose parts overlap, and rings that do."""
    bow_tie = "POLYGON ((0 0, 4 4, 4 0, 0 4, 0 0))"
    parts = "MULTIPOLYGON (((0 0, 4 0, 4 4, 0 4, 0 0)), ((2 2, 6 2, 6 6, 2 6, 2 2)))"
    for reading in READINGS:
        assert overlay_grid.union(bow_tie, "", reading=reading) == "MULTIPOLYGON (((0 0, 2 2, 0 4, 0 0)), ((2 2, 4 0, 4 4, 2 2)))\n"
        assert overlay_grid.union(f"{bow_tie} POLYGON EMPTY", "", reading=reading) == overlay_grid.union(bow_tie, "", reading=reading)
        assert overlay_grid.union(parts, "", reading=reading) == WORKED["symdifference"]
        assert overlay_grid.union(f"{parts} POLYGON EMPTY", "", reading=reading) == WORKED["symdifference"]
        assert overlay_grid.union(parts.lower(), "", reading=reading) == WORKED["symdifference"]


def test_other_readings():
    for call in (overlay_grid.union, overlay_grid.intersection, overlay_grid.difference, overlay_grid.symdifference):
        for layers in ((SQUARE, OTHER), ([SQUARE], [OTHER])):
            with pytest.raises(ValueError, match="^reading: 'even-odd' is neither 'covered' nor 'parity'$"):
                call(*layers, reading="even-odd")
    for call in (overlay_grid.overlay, overlay_grid.measured):
        with pytest.raises(ValueError, match="^reading: None is neither 'covered' nor 'parity'$"):
            call(Operation.UNION, SQUARE, OTHER, reading=None)
    with pytest.raises(ValueError, match="^edges have no reading"):
        overlay_grid.overlay(Operation.EDGES, SQUARE, OTHER, reading="parity")
    with pytest.raises(ValueError, match="^edges have no reading"):
        overlay_grid.covered_text(Operation.EDGES, SQUARE, OTHER)
    with pytest.raises(TypeError):
        overlay_grid.edges(SQUARE, OTHER, reading="covered")


@pytest.mark.parametrize("word", WORKED)
def test_operations_are_told(word):
    """They are functions of the package as any other, with the same words."""
    call = getattr(overlay_grid, word)
    assert (call.__name__, call.__qualname__, call.__module__) == (word, word, "overlay_grid")
    assert call.__doc__.startswith("The points of ") and pickle.loads(pickle.dumps(call)) is call
    told = inspect.signature(call)
    assert list(told.parameters) == ["a", "b", "side", "segments", "grid", "origin", "reading"]
    assert told.parameters["reading"].default == "covered" and str(told.parameters["reading"].kind) == "KEYWORD_ONLY"
    assert word in pydoc.render_doc(call, renderer=pydoc.plaintext).splitlines()[2]


@pytest.mark.parametrize("seed", range(100))
def test_pairs(seed, tmp_path):
    layers = pairs.pair(seed)
    names = [str(tmp_path / name) for name in "ab"]
    for name, layer in zip(names, layers):
        with open(name, "w") as file:
            file.write(layer)
    word = CALLS[seed % len(CALLS)]
    for reading in READINGS if word != "edges" else ["parity"]:
        assert asked(word, *layers, side=(None, 300, 1000)[seed % 3], **read_so(word, reading)).encode() == printed(word, *names, reading=reading)


def test_threads():
    names = [os.path.join(ROOT, "samples", name) for name in ("parcels.wkt", "zones.wkt")]
    layers = [open(name).read() for name in names]
    want = {word: asked(word, *layers) for word in CALLS}
    different = []

    def work(first):
        for turn in range(10):
            word = CALLS[(first + turn) % len(CALLS)]
            if asked(word, *layers, side=(64, 1000, 262144)[turn % 3]) != want[word]:
                different.append((first, turn))

    threads = [threading.Thread(target=work, args=(first,)) for first in range(8)]
    for thread in threads:
        thread.start()
    for thread in threads:
        thread.join()
    assert different == []


THIRD = "POLYGON EMPTY\nPOLYGON ((3 3, 9 3, 9 9, 3 9, 3 3))"
ROWS = [
    (24, ((1,), (), ()), "MULTIPOLYGON (((0 0, 4 0, 4 2, 2 2, 2 4, 0 4, 0 0)))"),
    (6, ((1,), (1,), ()), "MULTIPOLYGON (((2 2, 4 2, 4 3, 3 3, 3 4, 2 4, 2 2)))"),
    (2, ((1,), (1,), (2,)), "MULTIPOLYGON (((3 3, 4 3, 4 4, 3 4, 3 3)))"),
    (8, ((), (1,), ()), "MULTIPOLYGON (((2 4, 3 4, 3 6, 2 6, 2 4)), ((4 2, 6 2, 6 3, 4 3, 4 2)))"),
    (16, ((), (1,), (2,)), "MULTIPOLYGON (((3 4, 4 4, 4 3, 6 3, 6 6, 3 6, 3 4)))"),
    (54, ((), (), (2,)), "MULTIPOLYGON (((3 6, 6 6, 6 3, 9 3, 9 9, 3 9, 3 6)))"),
]


def line_of(row):
    twice, ids, wkt = row
    return "\t".join([str(twice), *(",".join(map(str, layer)) for layer in ids), wkt]) + "\n"


def test_faces_worked():
    layers = (SQUARE, OTHER, THIRD)
    assert overlay_grid.faces(*layers) == ROWS
    assert overlay_grid.faces(*(layer.encode() for layer in layers), side=16) == ROWS
    assert overlay_grid.faces_text(*layers) == "".join(map(line_of, ROWS))
    assert overlay_grid.faces_text(SQUARE.encode(), bytearray(OTHER.encode()), THIRD) == "".join(map(line_of, ROWS)).encode()
    assert all(isinstance(row, overlay_grid.Row) for row in overlay_grid.faces(*layers))
    assert sum(row.twice_area for row in overlay_grid.faces(*layers)) == 110


def test_faces_of_one_layer():
    assert overlay_grid.faces(SQUARE + " " + OTHER.lower()) == [
        (24, ((1,),), "MULTIPOLYGON (((0 0, 4 0, 4 2, 2 2, 2 4, 0 4, 0 0)))"),
        (8, ((1, 2),), WORKED["intersection"].rstrip()),
        (24, ((2,),), "MULTIPOLYGON (((2 4, 4 4, 4 2, 6 2, 6 6, 2 6, 2 4)))"),
    ]
    assert overlay_grid.faces("") == overlay_grid.faces("polygon empty", "") == []
    assert overlay_grid.faces_text("") == "" and overlay_grid.faces_text(b"", "") == b""


def test_faces_of_many_features():
    """The text is longer than what is guessed: 40 squares in one another."""
    many = " ".join(f"POLYGON (({k} {k}, {99 - k} {k}, {99 - k} {99 - k}, {k} {99 - k}, {k} {k}))" for k in range(40))
    rows = overlay_grid.faces(many)
    assert [row.ids for row in rows] == [(tuple(range(1, k + 1)),) for k in range(1, 41)]
    small = "POLYGON ((0 0, 1 0, 0 1, 0 0))"
    assert overlay_grid.faces(*[small] * 64) == [(1, ((1,),) * 64, "MULTIPOLYGON (((0 0, 1 0, 0 1, 0 0)))")]


REFUSED_FACES = [
    (("", "POLYGON ((0 0", ""), {}, ("B: 1 syntax at 13", 1, "B", 13, None)),
    (("POLYGON ((0 0",), {}, ("A: 1 syntax at 13", 1, "A", 13, None)),
    (("", "", "POLYGON ((0 0, 1 0, 0 1))"), {}, ("C: 3 short ring at 9", 3, "C", 9, None)),
    ((*[""] * 26, "POLYGON ((0 0, 1 0, 1 1, 0 1))"), {}, ("27: 4 open ring at 9", 4, "27", 9, None)),
    ((SQUARE, OTHER, THIRD), {"segments": 11}, ("5 too many segments: 12", 5, None, None, 12)),
    ((SQUARE,), {"segments": 3}, ("5 too many segments: 4", 5, None, None, 4)),
    (("",), {"side": 15}, ("6 bad tile side", 6, None, None, None)),
    (("", "", ""), {"side": -1}, ("6 bad tile side", 6, None, None, None)),
]


@pytest.mark.parametrize("call", [overlay_grid.faces, overlay_grid.faces_text])
@pytest.mark.parametrize("layers, plan, want", REFUSED_FACES, ids=[row[2][0] for row in REFUSED_FACES])
def test_faces_refused(call, layers, plan, want):
    with pytest.raises(overlay_grid.Refused) as fault:
        call(*layers, **plan)
    told = fault.value
    assert (str(told), told.number, told.layer, told.offset, told.count) == want


def test_too_many_ids():
    """23,171 squares in one another have 23,171 * 23,172 / 2 numbers in their rows."""
    many = " ".join(f"POLYGON (({k} {k}, {99999 - k} {k}, {99999 - k} {99999 - k}, {k} {99999 - k}, {k} {k}))" for k in range(23_171))
    with pytest.raises(overlay_grid.Refused) as fault:
        overlay_grid.faces_text(many)
    told = fault.value
    assert (str(told), told.number, told.layer, told.count) == ("12 too many ids: 268459206", Refusal.TOO_MANY_IDS, None, 268459206)


def test_no_more_layers_than_there_may_be():
    with pytest.raises(ValueError, match="65 layers, and there may be 64"):
        overlay_grid.faces(*[""] * 65)
    with pytest.raises(TypeError):
        overlay_grid.faces(SQUARE, None)


@pytest.mark.parametrize("seed", range(60))
def test_faces_of_pairs(seed, tmp_path):
    layers = pairs.pair(seed)[: 1 + seed % 3 % 2] + pairs.pair(seed + 1000)[: 1 + seed % 2]
    names = [str(tmp_path / f"{number}.wkt") for number in range(len(layers))]
    for name, layer in zip(names, layers):
        with open(name, "w") as file:
            file.write(layer)
    text = overlay_grid.faces_text(*layers, side=(None, 300, 1000)[seed % 3])
    assert text.encode() == printed("faces", *names)
    assert "".join(map(line_of, overlay_grid.faces(*layers))) == text
