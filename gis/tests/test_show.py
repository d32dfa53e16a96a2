"""show: the pictures are drawings of what the files hold."""

import io
import os
import subprocess
import sys
import xml.etree.ElementTree as tree
from pathlib import Path

import pytest

SVG = "{http://www.w3.org/2000/svg}"
SAMPLES = Path(__file__).resolve().parents[2] / "samples"
PICTURE = Path(__file__).with_name("fields-and-flood.svg")


def drawn(text):
    """The paths of a picture as attributes, and its words."""
    root = tree.fromstring(text)
    return [path.attrib for path in root.findall(f"{SVG}path")], [words.text for words in root.iter(f"{SVG}text")]


def edges_of(program, *files):
    return subprocess.run([program, "edges", *files], stdout=subprocess.PIPE, check=True).stdout.decode()


def test_originals_are_dashed_and_edges_solid_over_hot_pixels(gis, program):
    Path("a.wkt").write_text("POLYGON ((0 0, 4 0, 4 4, 0 4, 0 0))")
    Path("b.wkt").write_text("POLYGON ((2 2, 6 2, 6 6, 2 6, 2 2))")
    Path("edges.txt").write_text(edges_of(program, "a.wkt", "b.wkt"))
    answer = gis("show", "a.wkt", "b.wkt", "edges.txt", "--title", "Two <squares>")
    paths, words = drawn(answer.out)
    dashed = [path for path in paths if "stroke-dasharray" in path]
    assert [path["d"].count("M") for path in dashed] == [4, 4]
    solid = [path for path in paths if path.get("stroke-linecap") == "round"]
    assert sorted(path["d"].count("M") for path in solid) == [6, 6]
    hot = [path for path in paths if path.get("fill") == "#ffdf80"]
    assert [path["d"].count("M") for path in hot] == [10]
    assert {
        "Two <squares>",
        "a.wkt: layer, 1 polygon",
        "edges.txt: 12 rounded edges",
        "hot pixel",
        "edges of A",
        "2 grid units",
    } <= set(words)


def test_results_are_solid(gis):
    Path("r.wkt").write_text("MULTIPOLYGON (((2 2, 4 2, 4 4, 2 4, 2 2)))\n")
    paths, words = drawn(gis("show", "r.wkt").out)
    assert not any("stroke-dasharray" in path for path in paths)
    assert "r.wkt: result, 1 polygon" in words


def test_large_layers_show_no_pixels(gis, program):
    answer = gis("show", SAMPLES / "parcels.wkt", SAMPLES / "zones.wkt", "-o", "out.svg")
    assert answer.status == 0
    paths, words = drawn(Path("out.svg").read_text())
    assert not any(path.get("fill") == "#ffdf80" for path in paths) and "2,000 grid units" in words


def test_empty_files_are_drawn_as_such(gis):
    Path("a.wkt").write_text("")
    Path("r.wkt").write_text("MULTIPOLYGON EMPTY\n")
    _, words = drawn(gis("show", "a.wkt", "r.wkt").out)
    assert {"a.wkt: layer, nothing in it", "r.wkt: result, nothing in it"} <= set(words)


def test_names_that_xml_has_no_signs_for(gis):
    name = os.fsdecode(b"\xff\x01.wkt")
    Path(name).write_text("")
    assert gis("show", name, "-o", "out.svg", "--title", "\x02").status == 0
    assert {"\\udcff\\x01.wkt: layer, nothing in it", "\\x02"} <= set(drawn(Path("out.svg").read_text())[1])


@pytest.mark.parametrize("data", [b"POLYGON ((0 0, 1", b"\xff\xfe\x00", b"1 2 3 4\n", b"SQLite format 3\x00"])
def test_unreadable_files_are_refused(gis, data):
    Path("a.wkt").write_bytes(data)
    answer = gis("show", "a.wkt", "-o", "out.svg")
    assert answer.status == 3 and answer.err.startswith("overlay-gis: a.wkt: ") and not Path("out.svg").exists()


def test_no_file(gis):
    assert gis("show", "none.wkt").err == "overlay-gis: none.wkt: No such file or directory\n"


def test_the_picture_of_a_sample_is_drawn_by_it(gis, program, monkeypatch):
    monkeypatch.chdir(SAMPLES)
    monkeypatch.setattr(sys, "stdin", io.StringIO(edges_of(program, "fields.wkt", "flood.wkt")))
    assert gis("show", "fields.wkt", "flood.wkt", "-").out == PICTURE.read_text()


def test_standard_input_is_not_drawn_twice(gis):
    """Its second part would be nothing."""
    answer = gis("show", "-", "-", "-o", "out.svg")
    assert answer.status == 3 and answer.err == "overlay-gis: -: is standard input, which is read once\n"
    assert not Path("out.svg").exists()
