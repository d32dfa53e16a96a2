"""Kills: whatever ends the command, an output is there whole, or as it was; and nothing half made
looks whole."""

import os
import signal
from pathlib import Path

import pytest
from osgeo import gdal
from shapely.geometry import box

from conftest import EAST, NORTH, Answer, numbers_in, read, running, said_when_stopped, write
from overlay_gis import cli, gdal_state, geopackage, output, whole

FORMATS = ["gpkg", "shp", "geojson", "fgb"]
SIGNALS = [signal.SIGKILL, signal.SIGTERM, signal.SIGINT]
OLD = box(EAST + 50, NORTH, EAST + 51, NORTH + 1)

# Where a command is stopped while it writes, each a call and whether that is before it: before the
# first feature; behind it, or in a GeoPackage behind all of them, before their index is made; once
# the file is closed, and when all is on disk.
BEGUN, ADDED, FILLED, CLOSED, ON_DISK = (
    (output.Output, "begin", False),
    (output.Output, "add", False),
    (geopackage, "enter", True),
    (output.Output, "close", False),
    (whole, "go_on", True),
)


@pytest.fixture
def stopped(capfd, monkeypatch, tmp_path):
    """Runs a command in a process of its own, which sends itself a signal where it leaves a
    call."""
    monkeypatch.chdir(tmp_path)

    def run(place, number: signal.Signals, *words: str) -> Answer:
        capfd.readouterr()
        child = os.fork()
        if not child:
            signal.signal(signal.SIGTERM, signal.SIG_DFL)
            # a shell may have it ignored, in the background
            signal.signal(signal.SIGINT, signal.default_int_handler)
            interrupt(*place, number)
            os._exit(cli.main(list(words)))
        status = os.waitstatus_to_exitcode(os.waitpid(child, 0)[1])
        said = capfd.readouterr()
        return Answer(status, said.out, said.err)

    return run


def interrupt(owner, name, before, number):
    """Has a call of a module or a class send a signal to this process, before or behind what it
    does."""
    call = getattr(owner, name)

    def interrupted(*words, **named):
        if before:
            os.kill(os.getpid(), number)
        answer = call(*words, **named)
        if not before:
            os.kill(os.getpid(), number)
        return answer

    setattr(owner, name, interrupted)


def layers(tmp_path):
    """Two layers whose difference has several polygons."""
    first = [box(EAST + 3 * k, NORTH, EAST + 3 * k + 2, NORTH + 2) for k in range(9)]
    return write(tmp_path / "a.gpkg", first), write(tmp_path / "b.gpkg", [box(EAST, NORTH, EAST + 1, NORTH + 1)])


def parts(name):
    """The bytes of everything that a file consists of, and of what is left beside it."""
    return {path.name: path.read_bytes() for path in sorted(Path().glob(f"{Path(name).stem}.*"))}


@pytest.mark.parametrize("number", SIGNALS, ids=lambda number: number.name)
@pytest.mark.parametrize("place", [BEGUN, ADDED, CLOSED, ON_DISK], ids=lambda place: place[1])
@pytest.mark.parametrize("ending", FORMATS)
def test_a_kill_while_it_writes(stopped, tmp_path, ending, place, number):
    a, b = layers(tmp_path)
    out = f"out.{ending}"
    place = FILLED if (place, ending) == (ADDED, "gpkg") else place
    answer = stopped(place, number, "run", "difference", a, b, "-o", out)
    assert not list(tmp_path.glob("out*")), answer.err
    write(tmp_path / out, [OLD])
    old = parts(out)
    answer = stopped(place, number, "run", "difference", a, b, "-o", out, "--overwrite")
    assert parts(out) == old
    assert [shape.area for shape, _ in read(out)] == [1.0]
    if number == signal.SIGKILL:
        assert answer.status == -signal.SIGKILL
        return
    name = "Ctrl-C" if number == signal.SIGINT else number.name
    assert answer.status == 1
    assert answer.err.splitlines()[-1] == f"overlay-gis: stopped by {name}: no output was written or changed"
    assert not list(tmp_path.glob(".*"))


@pytest.mark.parametrize("number", SIGNALS, ids=lambda number: number.name)
def test_a_kill_while_the_parts_of_a_shapefile_change_places(stopped, tmp_path, number):
    a, b = layers(tmp_path)
    write(tmp_path / "out.shp", [OLD])
    old = parts("out.shp")
    answer = stopped((os, "replace", False), number, "run", "difference", a, b, "-o", "out.shp", "--overwrite")
    if number != signal.SIGKILL:  # from the first of these steps on, the command goes on to its end
        assert answer.status == 0 and len(read("out.shp")) == 9
        assert not list(tmp_path.glob(".*"))
        return
    with gdal_state.raising(), pytest.raises(RuntimeError):
        gdal.OpenEx("out.shp", gdal.OF_VECTOR)
    kept = {path.name: path.read_bytes() for path in tmp_path.glob(".overlay-gis-*.partial/replaced/*")}
    assert {**parts("out.shp"), **kept} == old


def test_a_step_that_fails_puts_all_parts_back(gis, tmp_path, monkeypatch):
    a, b = layers(tmp_path)
    write(tmp_path / "out.shp", [OLD])
    old, replace = parts("out.shp"), os.replace

    def failing(source, place):
        if Path(source).parent.suffix == ".partial" and Path(place).name == "out.prj":
            raise OSError(5, "Input/output error")
        replace(source, place)

    monkeypatch.setattr(os, "replace", failing)
    answer = gis("run", "difference", a, b, "-o", "out.shp", "--overwrite")
    assert answer.status == 1 and answer.err.splitlines()[-1] == "overlay-gis: out.shp: Input/output error"
    monkeypatch.undo()
    assert {path.name: path.read_bytes() for path in tmp_path.glob("out.*")} == old


@pytest.mark.parametrize("place", [FILLED, ON_DISK], ids=lambda place: place[1])
@pytest.mark.parametrize("words", [("check", "a.gpkg"), ("faces", "a.gpkg", "b.gpkg")], ids=lambda words: words[0])
def test_a_kill_of_other_verbs(stopped, tmp_path, words, place):
    layers(tmp_path)
    write(tmp_path / "a.gpkg", [box(EAST + k, NORTH, EAST + k + 2, NORTH + 2) for k in range(4)])
    write(tmp_path / "out.gpkg", [OLD])
    old = parts("out.gpkg")
    for number in (signal.SIGKILL, signal.SIGTERM):
        stopped(place, number, *words, "-o", "out.gpkg", "--overwrite")
        assert parts("out.gpkg") == old


@pytest.mark.parametrize("number", SIGNALS, ids=lambda number: number.name)
@pytest.mark.parametrize("place", [FILLED, ADDED, CLOSED, ON_DISK], ids=lambda place: place[1])
def test_a_kill_while_two_files_are_written(stopped, tmp_path, place, number):
    """The rows by SQLite, the pairs row by row: neither is there, or both are as they were."""
    a, b = layers(tmp_path)
    write(tmp_path / "b.gpkg", [box(EAST, NORTH, EAST + 4, NORTH + 1)])
    words = ("faces", a, b, "-o", "out.gpkg", "--pairs", "pairs.csv")
    stopped(place, number, *words)
    assert not list(tmp_path.glob("out*")) and not list(tmp_path.glob("pairs*"))
    write(tmp_path / "out.gpkg", [OLD])
    Path("pairs.csv").write_text("old")
    old = parts("out.gpkg")
    answer = stopped(place, number, *words, "--overwrite")
    assert parts("out.gpkg") == old and Path("pairs.csv").read_text() == "old"
    if number != signal.SIGKILL:
        assert answer.status == 1 and "no output was written or changed" in answer.err
        assert not list(tmp_path.glob(".*"))


def test_a_kill_while_two_files_change_places(stopped, tmp_path):
    """From the first of these steps on, the command goes on to its end."""
    a, b = layers(tmp_path)
    answer = stopped((os, "replace", False), signal.SIGTERM, "faces", a, b, "-o", "out.gpkg", "--pairs", "pairs.csv")
    assert answer.status == 0 and len(read("out.gpkg")) and Path("pairs.csv").exists()


def test_a_kill_of_texts(stopped, tmp_path):
    layers(tmp_path)
    folder = tmp_path / "grid"
    folder.mkdir()
    for path in (folder / "a.wkt", folder / "frame.json", tmp_path / "out.svg"):
        path.write_text("POLYGON EMPTY")
    for words in (("to-grid", "a.gpkg", "-o", "grid"), ("show", "grid/a.wkt", "-o", "out.svg")):
        stopped(ON_DISK, signal.SIGKILL, *words)
        answer = stopped(ON_DISK, signal.SIGTERM, *words)
        assert "stopped by SIGTERM" in answer.err
        assert (folder / "a.wkt").read_text() == (tmp_path / "out.svg").read_text() == "POLYGON EMPTY"
    assert (folder / "frame.json").read_text() == "POLYGON EMPTY"


def test_signals_that_are_ignored_stay_so(stopped, monkeypatch, tmp_path):
    a, b = layers(tmp_path)
    monkeypatch.setattr(signal, "default_int_handler", signal.SIG_IGN)
    assert stopped(FILLED, signal.SIGINT, "run", "difference", a, b, "-o", "out.gpkg").status == 0
    assert len(read("out.gpkg")) == 9


@pytest.mark.parametrize("ending", ["gpkg", "shp"])
def test_all_parts_are_on_disk_before_they_are_in_place(gis, unsynced, tmp_path, ending):
    a, b = layers(tmp_path)
    assert gis("run", "difference", a, b, "-o", f"out.{ending}").status == 0
    *files, folder = map(Path, unsynced)
    assert all(file.parent.name.endswith(".partial") for file in files) and folder == tmp_path
    assert sorted(file.name for file in files) == sorted(part.name for part in tmp_path.glob("out.*"))


def test_journals_of_an_old_file_are_not_taken_for_the_new_ones(gis, tmp_path):
    a, b = layers(tmp_path)
    write(tmp_path / "out.gpkg", [OLD])
    (tmp_path / "out.gpkg-journal").write_bytes(b"of the old file")
    assert gis("run", "difference", a, b, "-o", "out.gpkg").status == 3
    assert gis("run", "difference", a, b, "-o", "out.gpkg", "--overwrite").status == 0
    assert len(read("out.gpkg")) == 9 and not (tmp_path / "out.gpkg-journal").exists()


@pytest.mark.parametrize("number, name", [(signal.SIGINT, "Ctrl-C"), (signal.SIGTERM, "SIGTERM")])
def test_a_signal_ends_the_program_too(tmp_path, begun, number, name):
    """It comes when all three runs of the program have begun, each of which would take ten
    minutes."""
    layers(tmp_path)
    program, temporary = tmp_path / "slow", tmp_path / "temporary"
    temporary.mkdir()
    program.write_text(f'#!/bin/sh\ntouch "{begun}/$$"\nexec sleep 600\n')
    program.chmod(0o755)
    environment = {**os.environ, "OVERLAY": str(program), "TMPDIR": str(temporary)}
    said = said_when_stopped(tmp_path, [], environment, number, lambda: len(numbers_in(begun)) == 3)
    assert said.splitlines()[-1] == f"overlay-gis: stopped by {name}: no output was written or changed"
    assert "Traceback" not in said and not list(temporary.iterdir()) and not (tmp_path / "out.gpkg").exists()
    assert not any(map(running, numbers_in(begun)))
