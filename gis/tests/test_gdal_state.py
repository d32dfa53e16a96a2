"""What a verb sets in GDAL is there within the verb alone, and what isn't GDAL's is never told as
GDAL's."""

import subprocess
import sys
import threading
from pathlib import Path

import numpy as np
import pytest
from osgeo import gdal, ogr, osr
from shapely.geometry import box

from conftest import EAST, NORTH, write
from overlay_gis import calls, cli, database, faults, gdal_errors, gdal_state, layers, output, run, texts
from overlay_gis.systems import system_from

TOP = Path(__file__).resolve().parents[1]
MODULES = (gdal, ogr, osr)
WORDS = ("run", "union", "a.gpkg", "b.gpkg", "-o", "out.gpkg")


@pytest.fixture
def maps(gis, tmp_path):
    square = box(EAST, NORTH, EAST + 10, NORTH + 10)
    for name in ("a.gpkg", "b.gpkg"):
        write(tmp_path / name, [square], fields={"owner": ["Ada"]})


def state():
    """What a verb may set: in GDAL, and in NumPy."""
    options = [(gdal.GetConfigOption(name), gdal.GetThreadLocalConfigOption(name)) for name in gdal_state.OPTIONS]
    return [module.GetUseExceptions() for module in MODULES], options, np.geterr()


def test_an_import_sets_nothing():
    """All modules; and what fails is told by GDAL itself, as it is without the package."""
    script = f"""
import importlib, os, pkgutil, sys
import numpy
from osgeo import gdal, ogr, osr
sys.path.insert(0, {str(TOP)!r})

def state():
    names = {list(gdal_state.OPTIONS)!r}
    return [module.GetUseExceptions() for module in (gdal, ogr, osr)], [gdal.GetConfigOption(name) for name in names], numpy.geterr()

before = state()
import overlay_gis
for module in pkgutil.iter_modules(overlay_gis.__path__):
    importlib.import_module(f"overlay_gis.{{module.name}}")
assert state() == before, state()
assert gdal.OpenEx("none.gpkg", gdal.OF_VECTOR | gdal.OF_VERBOSE_ERROR) is None
"""
    done = subprocess.run([sys.executable, "-c", script], capture_output=True, text=True, check=False)
    assert done.returncode == 0, done.stderr
    assert done.stderr.startswith("ERROR 4: none.gpkg: No such file or directory")


@pytest.mark.parametrize("words, status", [(WORDS, 0), (("check", "none.gpkg"), 1), (("run", "xor"), 2)])
def test_a_verb_leaves_the_state_as_it_was(gis, maps, program, words, status):
    before = state()
    assert gis(*words).status == status
    assert state() == before


def test_what_raises_already_goes_on_to_raise(gis, maps, program):
    ogr.UseExceptions()
    try:
        before = state()
        assert gis(*WORDS).status == 0 and state() == before
    finally:
        ogr.DontUseExceptions()


def test_all_is_set_within_a_verb(maps, program):
    seen = []
    calls.call(WORDS, progress=lambda work, share: seen.append(state()) or True)
    exceptions, options, numbers = zip(*seen)
    assert all(map(all, exceptions))
    assert {tuple(option for option, _ in held) for held in options} == {tuple(gdal_state.OPTIONS.values())}
    assert {held["over"] for held in numbers} == {"ignore"}


def test_the_last_verb_that_ends_puts_it_back():
    """Of two in two threads, whichever of them begins first."""
    begun, ended = threading.Event(), threading.Event()

    def other():
        with gdal_state.of_a_verb():
            begun.set()
            ended.wait(300)

    before = state()
    thread = threading.Thread(target=other)
    with gdal_state.of_a_verb():
        thread.start()
        assert begun.wait(300)
    assert all(module.GetUseExceptions() for module in MODULES)
    ended.set()
    thread.join()
    assert state() == before


def failing(error):
    def fail(*_, **__):
        raise error

    return fail


# Where something that isn't GDAL's fails while GDAL is at work: in the verb, on features that are
# read, and on those that are written.
PLACES = [
    (run, "by_cover"),
    (texts, "points_text"),
    (layers.wkb, "Decoder"),
    (output, "add"),
    (output, "filled"),
    (output.Output, "opened"),
]


def words_for(name):
    """The command that comes to a place: only what is no GeoPackage is written row by row."""
    return (*WORDS[:-1], "out.shp" if name == "add" else "out.gpkg")


@pytest.mark.parametrize("owner, name", PLACES, ids=lambda value: value if isinstance(value, str) else None)
@pytest.mark.parametrize("kind", [RuntimeError, RecursionError, NotImplementedError, KeyError, ValueError])
def test_an_error_of_another_is_not_told_as_one_of_gdal(maps, program, monkeypatch, owner, name, kind):
    error = kind("not of GDAL")
    monkeypatch.setattr(owner, name, failing(error))
    with pytest.raises(kind) as raised:
        calls.call(words_for(name))
    assert raised.value is error and not list(Path().glob("out.*"))


@pytest.mark.parametrize("owner, name", PLACES, ids=lambda value: value if isinstance(value, str) else None)
def test_memory_that_is_not_there_is_told_as_such(gis, maps, program, monkeypatch, owner, name):
    monkeypatch.setattr(owner, name, failing(MemoryError))
    answer = gis(*words_for(name))
    assert (answer.status, answer.err.splitlines()[-1]) == (1, "overlay-gis: out of memory")
    assert all(line.startswith("overlay-gis: ") for line in answer.err.splitlines())


@pytest.mark.parametrize("ending", ["gpkg", "shp", "geojson", "fgb"])
def test_a_file_is_closed_before_its_folder_goes(gis, maps, program, monkeypatch, ending):
    """Also where a layer is half made: GDAL says nothing of it."""
    monkeypatch.setattr(output.Column, "defined", failing(MemoryError))
    answer = gis(*WORDS[:-1], f"out.{ending}")
    assert answer.status == 1 and all(line.startswith("overlay-gis: ") for line in answer.err.splitlines()), answer.err


@pytest.mark.parametrize("work", ["looking through", "reading", "writing", "overlay"])
def test_an_error_of_a_listener_is_its_own(maps, program, monkeypatch, work):
    """As that of a window that was closed meanwhile."""
    monkeypatch.setattr(calls.cli.messages, "PATIENCE", -1)
    error = RuntimeError("wrapped C/C++ object has been deleted")

    def progress(label, share):
        if label.startswith(work):
            raise error
        return True

    with pytest.raises(RuntimeError) as raised:
        calls.call(("faces", "a.gpkg", "b.gpkg", "-o", "out.gpkg", "--keep-a", "owner"), progress=progress)
    assert raised.value is error and not Path("out.gpkg").exists()


def test_an_error_in_a_transaction_is_its_own():
    """It is rolled back."""

    class Held:
        said = []

        def StartTransaction(self):
            self.said.append("start")

        def RollbackTransaction(self):
            self.said.append("rollback")

    error = RuntimeError("not of GDAL")
    with pytest.raises(RuntimeError) as raised, gdal_errors.blamed_on("town", "PG:town"), database.transaction(Held()):
        raise error
    assert raised.value is error and Held.said == ["start", "rollback"]


def test_an_error_of_gdal_is_told_in_its_words():
    with gdal_state.of_a_verb():
        for call in (lambda: ogr.CreateGeometryFromWkb(b"\1"), lambda: gdal.OpenEx("none.gpkg")):
            with pytest.raises(RuntimeError) as raised:
                call()
            assert gdal_errors.is_gdals(raised.value)
            with pytest.raises(faults.Refusal, match=f"^a: {raised.value}$"):
                with gdal_errors.told_as(lambda words: faults.Refusal("a", words)):
                    call()
        with pytest.raises(faults.Fault, match="^none: No such file or directory$"):
            with gdal_errors.blamed_on("none", "none.gpkg"):
                gdal.OpenEx("none.gpkg")
        with pytest.raises(faults.Refusal, match="^fly: is no reference system: "):
            system_from("fly")


def test_what_no_file_is_blamed_for_is_told_as_gdals(gis, maps, monkeypatch):
    monkeypatch.setattr(run, "brought_together", lambda *_: ogr.CreateGeometryFromWkb(b"\1"))
    answer = gis(*WORDS)
    assert answer.status == 1 and answer.err.startswith("overlay-gis: GDAL: ") and answer.err.count("\n") == 1
