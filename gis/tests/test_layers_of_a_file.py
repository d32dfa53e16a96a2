"""Layers put into a GeoPackage that is there: its others stay as they are, whatever ends the
command."""

import os
import signal
import sqlite3
from pathlib import Path

import pytest
from osgeo import gdal
from shapely.geometry import box

from conftest import EAST, NORTH, read, write
from overlay_gis import package
from overlay_gis.layers import Source
from test_kills import BEGUN, CLOSED, FILLED, ON_DISK, stopped  # noqa: F401 a fixture

SQUARE, OTHER = box(EAST, NORTH, EAST + 10, NORTH + 10), box(EAST + 5, NORTH, EAST + 15, NORTH + 10)


@pytest.fixture
def plan(tmp_path, monkeypatch):
    """A GeoPackage of two layers, a and b, with a table of SQLite's own beside them."""
    monkeypatch.chdir(tmp_path)
    write(tmp_path / "plan.gpkg", [SQUARE], fields={"name": ["mine"]})
    gdal.VectorTranslate("plan.gpkg", gdal.OpenEx(write(tmp_path / "b.gpkg", [OTHER])), accessMode="append", layerName="b")
    with sqlite3.connect("plan.gpkg") as held:
        held.execute("create table notes (words text)")
        held.execute("insert into notes values ('keep me')")
    held.close()
    return "plan.gpkg"


def contents(path):
    """All rows of all tables that a new layer doesn't change by itself."""
    with sqlite3.connect(path) as held:
        names = ("notes", "plan", "b", "rtree_plan_geom", "rtree_b_geom")
        found = {name: held.execute(f"select * from {name}").fetchall() for name in names}
    held.close()
    return found


def layers_of(path):
    dataset = gdal.OpenEx(path)
    names = (dataset.GetLayer(k).GetName() for k in range(dataset.GetLayerCount()))
    return sorted(name for name in names if name != "notes")


def areas(path, name):
    dataset = gdal.OpenEx(path)
    return [feature["area"] for feature in dataset.GetLayerByName(name)]


WORDS = ("run", "intersection", "plan.gpkg|layername=plan", "plan.gpkg|layername=b", "-o", "plan.gpkg")


def test_a_layer_is_added_and_replaced(gis, plan):
    before = contents(plan)
    os.chmod(plan, 0o640)
    answer = gis(*WORDS, "--layer", "both", "--append")
    assert answer.status == 0 and layers_of(plan) == ["b", "both", "plan"] and areas(plan, "both") == [50.0]
    assert contents(plan) == before and os.stat(plan).st_mode & 0o777 == 0o640
    answer = gis(*WORDS, "--layer", "Both", "--append")
    assert answer.status == 3 and "plan.gpkg: has a layer Both already; --overwrite replaces it" in answer.err
    assert gis("run", "union", *WORDS[2:], "--layer", "both", "--overwrite").status == 0
    assert layers_of(plan) == ["b", "both", "plan"] and areas(plan, "both") == [150.0]
    assert contents(plan) == before and not list(Path().glob(".overlay-gis*"))
    with sqlite3.connect(plan) as held:
        assert held.execute("pragma integrity_check").fetchone() == ("ok",)
        assert held.execute("select count(*) from gpkg_contents where table_name = 'both'").fetchone() == (1,)
    held.close()


def test_what_is_refused(gis, plan, tmp_path):
    before = Path(plan).read_bytes()
    for words, told in (
        (("--layer", "both"), "plan.gpkg: is there already; --append puts the layer into it"),
        ((), "plan.gpkg: is an input"),
        (("--overwrite",), "plan.gpkg: is an input"),
        (("--layer", "b", "--overwrite"), "plan.gpkg|layername=b: is an input"),
        (("--append",), "plan.gpkg: has a layer plan already"),
        (("--append", "--overwrite"), "plan.gpkg|layername=plan: is an input"),
    ):
        answer = gis(*WORDS, *words)
        assert answer.status == 3 and told in answer.err, answer.err
    assert Path(plan).read_bytes() == before
    (tmp_path / "text.gpkg").write_text("mine")
    answer = gis(*WORDS[:-1], "text.gpkg", "--append")
    assert answer.status == 3 and "text.gpkg: is no GeoPackage" in answer.err and Path("text.gpkg").read_text() == "mine"
    answer = gis(*WORDS[:-1], "out.shp", "--layer", "both")
    assert answer.status == 3 and "out.shp: only a GeoPackage takes several layers" in answer.err


VIRTUAL = '<OGRVRTDataSource><OGRVRTLayer name="plan"><SrcDataSource relativeToVRT="1">plan.gpkg</SrcDataSource></OGRVRTLayer></OGRVRTDataSource>'


@pytest.mark.parametrize("source", ["GPKG:plan.gpkg:plan|layername=plan", "GPKG:{folder}/plan.gpkg:plan|layername=plan", "plan.vrt"])
def test_a_layer_that_is_read_by_another_name_is_not_replaced(gis, plan, tmp_path, source):
    """Another layer may be put beside it."""
    (tmp_path / "plan.vrt").write_text(VIRTUAL)
    before, source = Path(plan).read_bytes(), source.format(folder=tmp_path)
    answer = gis("dissolve", source, "-o", plan, "--layer", "plan", "--overwrite")
    assert answer.status == 3 and answer.err == "overlay-gis: plan.gpkg|layername=plan: is an input, or a part of one\n", answer.err
    assert Path(plan).read_bytes() == before
    assert gis("dissolve", source, "-o", plan, "--layer", "c", "--append").status == 0


def test_a_layer_that_a_view_reads_is_not_replaced(gis, plan):
    with sqlite3.connect(plan) as held:
        held.execute("create view seen as select fid as OGC_FID, geom from plan where fid > 0")
        held.execute(
            "insert into gpkg_contents select 'seen', data_type, 'seen', description, last_change, min_x, min_y, max_x, max_y, srs_id"
            " from gpkg_contents where table_name = 'plan'"
        )
        held.execute(
            "insert into gpkg_geometry_columns select 'seen', column_name, geometry_type_name, srs_id, z, m"
            " from gpkg_geometry_columns where table_name = 'plan'"
        )
    held.close()
    before = Path(plan).read_bytes()
    answer = gis("dissolve", f"{plan}|layername=seen", "-o", plan, "--layer", "plan", "--overwrite")
    assert answer.status == 3 and answer.err == "overlay-gis: plan.gpkg|layername=plan: is an input, or a part of one\n", answer.err
    assert Path(plan).read_bytes() == before
    assert gis("dissolve", f"{plan}|layername=seen", "-o", plan, "--layer", "c", "--append").status == 0


@pytest.mark.parametrize("name", ["ortho", "Ortho", "gpkg_contents", "rtree_plan_geom"])
def test_what_is_no_layer_is_not_replaced(gis, plan, name):
    """As a raster."""
    raster = gdal.GetDriverByName("MEM").Create("", 4, 4, 1, gdal.GDT_Byte)
    raster.SetGeoTransform([0, 1, 0, 4, 0, -1])
    gdal.Translate(plan, raster, format="GPKG", creationOptions=["APPEND_SUBDATASET=YES", "RASTER_TABLE=ortho"])
    before = Path(plan).read_bytes()
    for words in ((), ("--overwrite",)):
        answer = gis(*WORDS, "--layer", name, "--append", *words)
        assert answer.status == 3 and f"plan.gpkg: has {name} already, which is no layer" in answer.err, answer.err
    assert Path(plan).read_bytes() == before


@pytest.mark.parametrize("name", ["sqlite_master", "gpkg_layers", "GPKGx", "SQLite_x"])
@pytest.mark.parametrize("out", ["plan.gpkg", "new.gpkg"])
def test_a_name_that_no_layer_may_have_is_refused_before_any_work(gis, plan, monkeypatch, name, out):
    """GDAL and SQLite refuse it when all has been computed."""
    monkeypatch.setattr(Source, "survey", lambda *_: pytest.fail("a layer is read"))
    before = Path(plan).read_bytes()
    answer = gis(*WORDS[:-1], out, "--layer", name, "--append")
    assert answer.status == 3 and answer.err.splitlines()[-1].startswith(f"overlay-gis: {out}: "), answer.err
    assert f"{name} already, which is no layer" in answer.err or f"no layer of a GeoPackage may be called {name}: " in answer.err
    assert Path(plan).read_bytes() == before and not Path("new.gpkg").exists()
    answer = gis(*WORDS[:-1], f"{name}.gpkg")
    assert answer.status == 3 and f"no layer of a GeoPackage may be called {name}: --layer names another one" in answer.err


def test_a_file_may_be_called_as_no_layer_may(gis, plan):
    assert gis(*WORDS[:-1], "gpkg_x.gpkg", "--layer", "x").status == 0
    assert [shape.area for shape, _ in read("gpkg_x.gpkg")] == [50]


def test_a_new_file_has_the_layer_that_was_named(gis, plan):
    assert gis(*WORDS[:-1], "new.gpkg", "--layer", "both").status == 0
    assert layers_of("new.gpkg") == ["both"]
    assert gis(*WORDS[:-1], "more.gpkg", "--append").status == 0
    assert layers_of("more.gpkg") == ["more"]


def test_every_verb_that_writes_layers_can(gis, plan):
    a, b = "plan.gpkg|layername=plan", "plan.gpkg|layername=b"
    for words in (
        ("faces", a, b, "--layer", "rows", "--pairs", "plan.gpkg"),
        ("dissolve", a, "--by", "name", "--layer", "names"),
        ("check", a, "--layer", "flaws"),
        ("run", "union", a, b, "--keep-a", "name", "--layer", "kept"),
    ):
        answer = gis(*words, "-o", plan, "--append")
        assert answer.status == 0, answer.err
    assert layers_of(plan) == ["b", "flaws", "kept", "names", "plan", "rows", "rows_pairs"]
    assert areas(plan, "rows_pairs") == [50.0] and areas(plan, "names") == [100.0]


def test_what_another_program_has_committed_is_kept(gis, plan):
    """It has the file open, and its changes in a journal beside it."""
    other = sqlite3.connect(plan)
    other.execute("pragma journal_mode = wal")
    other.execute("insert into notes values ('and me')")
    other.commit()
    assert Path("plan.gpkg-wal").stat().st_size
    assert gis(*WORDS, "--layer", "both", "--append").status == 0
    assert contents(plan)["notes"] == [("keep me",), ("and me",)] and not Path("plan.gpkg-wal").exists()
    other.close()


def test_a_change_meanwhile_is_not_lost(gis, plan, monkeypatch):
    copy, done = package.Enlarged.copy, []

    def copied(self):
        copy(self)
        other = sqlite3.connect(plan)
        with other:
            other.execute("insert into notes values ('later')")
        other.close()
        done.append(self)

    monkeypatch.setattr(package.Enlarged, "copy", copied)
    answer = gis(*WORDS, "--layer", "both", "--append")
    assert answer.status == 1 and "plan.gpkg: was changed meanwhile by another program: nothing was written" in answer.err
    assert done and ("later",) in contents(plan)["notes"] and layers_of(plan) == ["b", "plan"]


@pytest.mark.parametrize("number", [signal.SIGKILL, signal.SIGTERM], ids=lambda number: number.name)
@pytest.mark.parametrize("place", [BEGUN, FILLED, CLOSED, ON_DISK], ids=lambda place: place[1])
def test_a_kill_leaves_the_file_as_it_was(stopped, plan, place, number):  # noqa: F811
    before = Path(plan).read_bytes()
    answer = stopped(place, number, *WORDS, "--layer", "both", "--append")
    assert answer.status == (1 if number == signal.SIGTERM else -signal.SIGKILL)
    assert Path(plan).read_bytes() == before and layers_of(plan) == ["b", "plan"]
    assert read("b.gpkg")
