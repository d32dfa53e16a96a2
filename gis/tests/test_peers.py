"""bench/run peers and what is made of its table: the maps, the answers' areas and forms, the
server, README's table and the drawing."""

from __future__ import annotations

import os
import random
import socket
import subprocess
import sys
from pathlib import Path
from xml.etree import ElementTree

import pytest
from conftest import write
from shapely.geometry import LineString, MultiPolygon, Polygon
from shapely.ops import unary_union

TOP = Path(__file__).resolve().parents[2]
sys.path.insert(0, str(TOP / "bench"))

from overlay_bench import compared, documents, noding, peer_tools, peers, plot, postgres, results, shapes, town  # noqa: E402

HOLED = [[(0, 0), (9, 0), (9, 9), (0, 9)], [(1, 1), (1, 3), (3, 3), (3, 1)]]
SMALL = [[(20, 0), (24, 0), (22, 3)]]


def polygons(layer):
    return [Polygon(rings[0], rings[1:]) for rings in layer]


def test_a_clean_town_is_valid_and_nothing_overlaps():
    for layer in map(polygons, town.town(3000, False)):
        assert all(polygon.is_valid for polygon in layer)
        assert sum(polygon.area for polygon in layer) == pytest.approx(unary_union(layer).area, rel=1e-12)


def test_a_raw_town_has_crossings_and_overlaps():
    layer = polygons(town.town(20_000, True)[0])
    assert not all(polygon.is_valid for polygon in layer)
    sound = [polygon.buffer(0) for polygon in layer]
    assert sum(polygon.area for polygon in sound) > unary_union(sound).area + 1


def test_the_same_words_give_the_same_town():
    assert town.town(2000, True) == town.town(2000, True) != town.town(2000, True, seed=2)


def test_the_forms_of_one_answer_are_read_alike(tmp_path):
    wkt = "POLYGON ((0 0, 9 0, 9 9, 0 9, 0 0), (1 1, 1 3, 3 3, 3 1, 1 1))\nPOLYGON ((20 0, 24 0, 22 3, 20 0))\n"
    together = MultiPolygon(polygons([HOLED, SMALL]))
    package = Path(write(tmp_path / "both.gpkg", polygons([HOLED, SMALL])))
    of_package = "\n".join(blob.hex() for blob in shapes.geometries_of_geopackage(str(package)))
    for text in (wkt, together.wkt, together.wkb_hex, of_package):
        found = shapes.of_lines(text)
        assert shapes.normal(found) == shapes.normal([HOLED, SMALL]) and shapes.area(found) == 81 - 4 + 6


def test_points_and_lines_have_no_part_in_an_answer():
    from shapely import wkt

    mixed = wkt.loads("GEOMETRYCOLLECTION (POINT (1 1), LINESTRING (0 0, 5 5), POLYGON ((0 0, 1 0, 0 1, 0 0)))")
    assert shapes.of_lines(mixed.wkb_hex) == [[[(0, 0), (1, 0), (0, 1)]]]


def test_one_form_whatever_the_order_is():
    turned = [[ring[1:] + ring[:1] for ring in HOLED], [SMALL[0][::-1]]]
    assert shapes.normal(turned[::-1]) == shapes.normal([HOLED, SMALL])
    text = [" ".join("%s" % (polygon,) for polygon in polygons(layer)) for layer in ([HOLED, SMALL], turned[::-1])]
    assert peers.same(text[0], text[0]) == "same bytes" and peers.same(*text) == "same polygons"
    assert peers.same(text[0], text[0].replace("24 0", "25 0")) == "other points"


@pytest.mark.parametrize(
    "added, points",
    [
        ([], "noded"),
        ([[[(9, 2), (12, 2), (12, 4)]]], "crossings: 2"),  # two sides from a point of one of HOLED
        ([[[(5, 5), (30, 5), (30, 6)]]], "crossings: 2"),  # two sides through one of HOLED
        ([[[(9, 0), (9, 5), (15, 5)]]], "crossings: 2"),  # a side along a part of one, and its corner
        ([[[(9, 0), (9, 9), (15, 5)]]], "noded"),  # the whole side, and so once
        ([[[(40, 0), (42, 0), (40.5, 1)]]], "decimals"),
    ],
)
def test_points_of_an_answer(added, points):
    assert noding.told([HOLED, SMALL, *added]) == points


@pytest.mark.parametrize("seed", range(8))
def test_crossings_are_those_of_all_pairs(seed):
    """The plain way beside the cells: all pairs, and Shapely's word on each."""
    rng = random.Random(seed)
    edges = {tuple(sorted((rng.randrange(12), rng.randrange(12)) for _ in range(2))) for _ in range(40)}
    edges = sorted(edge for edge in edges if edge[0] != edge[1])
    found = 0
    for k, first in enumerate(edges):
        for second in edges[k + 1 :]:
            common = LineString(first).intersection(LineString(second))
            ends = {end for end in first if end in second}
            found += not common.is_empty and not (common.geom_type == "Point" and (common.x, common.y) in ends)
    assert noding.crossings(edges) == found


@pytest.mark.parametrize("job, some, odd", [("dissolve", 10 + 4 + 1, 10 + 4), ("common", 4 + 1, 4)])
def test_areas_of_faces(job, some, odd):
    """One face of A alone, one of B alone, one of both, and one that two features of A share in
    B."""
    assert peers.exact("1\tNone\t10\nNone\t7\t2\n1\t7\t4\n1,2\t7\t1\n", job) == peers.Exact(some, odd)


def test_a_server_is_there_and_gone():
    if not postgres.folder():
        pytest.skip("no PostgreSQL: apt-get install postgresql")
    with postgres.Server() as server:
        assert server.said("select 1") == "1\n" and os.stat(f"/proc/{server.process.pid}").st_uid != 0
        before = server.processor()
        server.said("select count(*) from generate_series(1, 500000)")
        assert server.processor() > before
    assert server.process.returncode == 0 and not os.path.exists(server.place)


def test_a_port_that_another_program_took_meanwhile(monkeypatch):
    if not postgres.folder():
        pytest.skip("no PostgreSQL: apt-get install postgresql")
    with socket.socket() as door:
        door.bind(("127.0.0.1", 0))
        taken = door.getsockname()[1]
        ports = iter([taken, postgres.free_port()])
        monkeypatch.setattr(postgres, "free_port", lambda: next(ports))
        with postgres.Server() as server:
            assert server.port != taken and server.said("select 1") == "1\n"


def test_a_run_with_one_peer(program):
    words = ["peers", "--program", program, "--sizes", "800", "--rounds", "2", "--only", "Shapely", "mapshaper"]
    done = subprocess.run([TOP / "bench/run", *words], capture_output=True, text=True, check=False)
    assert done.returncode == 0, done.stdout + done.stderr
    rows = [dict(zip(peers.HEAD, results.cells(line))) for line in done.stdout.splitlines()[2:]]
    assert rows[0]["tool"] == "mapshaper" and rows[0]["answers"].startswith("not run")
    ours = [row for row in rows if row["tool"] == "overlay"]
    assert len(ours) == 4 and {row["area off"] for row in ours} == {"+0.000"}
    assert {row[what] for row in ours for what in ("again", "other order")} == {"same bytes"}
    assert {row["points"] for row in ours} == {"noded"}
    assert [row["answers"] for row in rows if (row["tool"], row["map"]) == ("Shapely", "clean")] == ["yes", "yes"]


def row(tool, **cells):
    known = {"date": "2026-11-27", "version": tool + " 1, of 2", "map": "clean", "segments": "100", "job": "common", "answers": "yes"}
    return {"tool": tool, **known, **{name.replace("_", " "): text for name, text in cells.items()}}


def record(folder, name, head, rows):
    with open(folder / f"{name}.tsv", "w") as file:
        for line in [head, *([row.get(column, "") for column in head] for row in rows)]:
            file.write("\t".join(line) + "\n")


HEAD = (*results.HEAD, *peers.HEAD)
ALONE = {"timed": "operation alone", "threads": "1"}
OURS = {"timed": "text to text", "area off": "+0.000", "again": "same bytes", "other order": "same bytes", "points": "noded"}
PEERS = [
    row("Peer", segments="10", area_off="+9.9", processor_s="77"),
    row("Peer", area_off="-0.25", processor_s="1.8", text_to_text_s="2.4", **ALONE),
    row("Peer", map="raw", answers="status 1: TopologyException: side location conflict", **ALONE),
    row("Peer, grid 1", area_off="+0.001", processor_s="3.6", **ALONE),
    row("Peer, made valid", map="raw", area_off="+0.001", **ALONE),
    row("overlay", processor_s="0.5", start_s="0.1", threads="4", **OURS, **{"1 and N threads": "same bytes"}),
    row("overlay", map="raw", threads="3", **OURS),
    row("Loser", map="raw", area_off="-361594.1", **ALONE),
    row("Loser, made valid", map="raw", area_off="+0.1", **ALONE),
    row("Stops", map="raw", answers="status 1: a ring isn't simple", **ALONE),
    row("Stops", area_off="+0.000", processor_s="0.8", **ALONE),
    row("Starts", area_off="+0.000", processor_s="5.2", start_s="4.8", timed="file to file", threads="2"),
    row("Gone", segments="", job="", map="", answers="not run: no Debian package, for this"),
    row("Away", segments="", job="", map="", answers="not run: no Debian package: but another"),
    row("Gone, grid 1", segments="", job="", map="", answers="not run: no Debian package, for this"),
]


def test_readmes_table_is_made_of_the_largest_maps(tmp_path, monkeypatch):
    monkeypatch.setattr(results, "FOLDER", str(tmp_path))
    assert len(compared.table()) == 2
    record(tmp_path, "peers", HEAD, [row("Peer", area_off="+5"), *PEERS])
    assert compared.table()[2:] == [
        "|**overlay 1**|right area|same bytes|text to text|1.0|1.0|",
        "|Peer 1|error; right if made valid|1 thread|operation alone|4.5|6.0|",
        "|Peer, grid 1|–|1 thread|operation alone|9.0|–|",
        "|Loser 1|loses 36% of the area; right if made valid|–|–|–|–|",
        "|Stops 1|error|1 thread|operation alone|2.0|–|",
        "|Starts 1|–|–|file to file|1.0|–|",
        "|Gone, Away|not run: no Debian package|–|–|–|–|",
    ]


def test_readmes_table_is_of_one_run(tmp_path, monkeypatch):
    monkeypatch.setattr(results, "FOLDER", str(tmp_path))
    record(tmp_path, "peers", HEAD, [{**row("Former"), "date": "2026-11-26"}, *PEERS])
    assert "Former" not in "".join(compared.table()) and "Loser" in "".join(compared.table())


def test_what_is_kept_names_no_folder(tmp_path, monkeypatch):
    monkeypatch.setattr(results, "FOLDER", str(tmp_path))
    results.keep("some", ["some", "--program", "/a/b/overlay"], ["| kind |", "|---|", "| a |"])
    assert (tmp_path / "some.tsv").read_text().splitlines()[1].split("\t")[3:] == ["some --program overlay", "a"]


def test_the_last_row_counts_and_the_first_of_two_columns(tmp_path, monkeypatch):
    monkeypatch.setattr(results, "FOLDER", str(tmp_path))
    (tmp_path / "some.tsv").write_text("kind\tratio\tratio\na\t1\t2\nb\t3\t4\na\t5\t6\n")
    assert results.latest("some", ("kind",)) == [{"kind": "b", "ratio": "3"}, {"kind": "a", "ratio": "5"}]
    assert results.latest("none", ("kind",)) == []


def test_a_note_behind_a_row_shifts_nothing(tmp_path, monkeypatch):
    monkeypatch.setattr(results, "FOLDER", str(tmp_path))
    results.append("some", ["kind", "ratio"], [[*"abcd", "flower", "2", "more than expected"], [*"abcd", "coast"]])
    assert [(row["kind"], row["ratio"]) for row in results.latest("some", ("kind",))] == [("flower", "2"), ("coast", "")]


def test_the_drawing_is_the_same_and_has_each_series(tmp_path, monkeypatch):
    monkeypatch.setattr(results, "FOLDER", str(tmp_path))
    assert plot.picture().count("not recorded") == 2
    speed = [
        {"kind": kind, "segments": size, "command": "union", "1 worker: processor s": "%.2f" % random.Random(kind + size).uniform(0.1, 3)}
        for kind in ("parcels", "combs")
        for size in ("10,000", "100,000")
    ]
    record(tmp_path, "speed", ("kind", "segments", "command", "1 worker: processor s", "ratio", "ratio"), speed)
    record(tmp_path, "peers", HEAD, [{**row, "processor s": "0.5", "start s": ""} for row in PEERS])
    drawn = plot.picture()
    names = [text.text for text in ElementTree.fromstring(drawn).iter("{http://www.w3.org/2000/svg}text")]
    assert {"parcels", "combs", "Peer", "overlay"} <= set(names) and "Peer, made valid" not in names
    assert drawn == plot.picture() and "not recorded" not in drawn and len(drawn) < 8000


def test_what_is_made_of_the_results_is_what_stands_here(monkeypatch):
    monkeypatch.chdir(TOP)
    for path, wanted in documents.made():
        assert Path(path).read_text() == wanted


def test_a_fault_is_told_in_a_few_words():
    said = "NOTICE: x\nERROR:  lwgeom_unaryunion_prec: GEOS Error: TopologyException: side location conflict at 1 2. This can\n"
    assert peer_tools.words_of(said) == "TopologyException: side location conflict"
    assert peer_tools.words_of("a ring isn't simple\n") == "a ring isn't simple" and peer_tools.words_of("") == ""
