"""run and faces by the package for Python, where it is there: the same files as by the program."""

import os
import signal
import subprocess
import sys
import threading
from pathlib import Path
from types import ModuleType, SimpleNamespace

import pytest
from shapely.affinity import translate
from shapely.geometry import box

from conftest import EAST, NORTH, blobs, parcels, read, said_when_stopped, write
from overlay_gis import calls, program


class Refused(ValueError):
    """As `overlay_grid` raises it."""

    def __init__(self, words, layer):
        super().__init__(words)
        self.layer = layer


class OutOfMemory(MemoryError):
    """As `overlay_grid` raises it."""


def stand_in(executable, folder):
    """A package with the calls of `overlay_grid`, by the program."""
    asked = []

    def done(command, *more):
        def answer(*texts, segments=1 << 20):
            asked.append((command, *more))
            files = [Path(folder, f"layer{k}") for k in range(len(texts))]
            for file, text in zip(files, texts):
                file.write_bytes(text)
            ended = subprocess.run([executable, command, *files, *more], capture_output=True, check=False)
            if ended.returncode:
                words = ended.stderr.decode().strip().removeprefix("overlay: ")
                raise Refused(words, words[0] if words[1] == ":" else None)
            return ended

        return answer

    def measured(command, *texts, reading, **named):
        assert reading == "parity"
        ended = done(command, "--areas")(*texts, **named)
        areas, steps = (list(map(int, line.split()[1:])) for line in ended.stderr.decode().splitlines())
        a, b = (SimpleNamespace(twice_area=twice, steps=count) for twice, count in zip(areas, steps))
        return SimpleNamespace(result=ended.stdout, a=a, b=b, twice_area=areas[2])

    package = ModuleType("overlay_grid")
    package.measured = measured
    package.faces_text = lambda *texts, **named: done("faces")(*texts, **named).stdout
    package.covered_text = lambda command, *texts, **named: done(command, "--covered")(*texts, **named).stdout
    package.Refused, package.OutOfMemory = Refused, OutOfMemory
    return package, asked


@pytest.fixture
def package(monkeypatch, tmp_path):
    executable = os.environ["OVERLAY"]
    made, asked = stand_in(executable, tmp_path)
    monkeypatch.setitem(sys.modules, "overlay_grid", made)
    return made, asked


def shapes(path):
    return [(shape.wkb, fields) for shape, fields in read(path)]


@pytest.mark.parametrize(
    "words, more",
    [
        (("run", "intersection"), ()),
        (("run", "union"), ()),
        (("run", "union"), ("--parity",)),
        (("faces",), ()),
        (("faces",), ("--parts",)),
    ],
)
def test_the_same_as_by_the_program(gis, package, monkeypatch, tmp_path, words, more):
    a, b = write(tmp_path / "a.gpkg", parcels(5, 3)), write(tmp_path / "b.gpkg", blobs(6, 3))
    by_program, by_package = tmp_path / "program.gpkg", tmp_path / "package.gpkg"
    assert gis(*words, a, b, "-o", by_program, *more).status == 0
    assert not package[1]
    monkeypatch.delenv("OVERLAY")
    assert gis(*words, a, b, "-o", by_package, *more).status == 0
    assert package[1]
    assert shapes(by_package) == shapes(by_program)


@pytest.fixture
def beside(package, monkeypatch, tmp_path):
    """The program on the path, where the package is too."""
    (tmp_path / "overlay").symlink_to(os.environ["OVERLAY"])
    monkeypatch.setenv("PATH", f"{tmp_path}:{os.environ['PATH']}")
    monkeypatch.delenv("OVERLAY")


@pytest.mark.parametrize("has_call", [True, False])
def test_layers_that_are_read_as_covered(gis, package, beside, tmp_path, has_call):
    """By the package where it has the call, else by the program."""
    if not has_call:
        del package[0].covered_text
    a, b = write(tmp_path / "a.gpkg", OVERLAPPING[1]), write(tmp_path / "b.gpkg", [])
    assert gis("run", "union", a, b, "-o", "out.gpkg").status == 0
    assert [fields["area"] for _, fields in read("out.gpkg")] == [150.0] and bool(package[1]) == has_call


def test_a_package_without_faces_leaves_them_to_the_program(gis, package, beside, tmp_path):
    a = write(tmp_path / "a.gpkg", parcels(5, 3))
    del package[0].faces_text
    assert gis("faces", a, "-o", "faces.gpkg").status == 0 and len(read("faces.gpkg")) == len(parcels(5, 3))
    assert not package[1]


OVERLAPPING = [
    [box(EAST + 30 * k, NORTH, EAST + 30 * k + 30, NORTH + 30) for k in range(200)]
    + [box(EAST + 10, NORTH + 10, EAST + 10.5, NORTH + 10.5)],
    [box(EAST, NORTH, EAST + 10, NORTH + 10), box(EAST + 5, NORTH, EAST + 15, NORTH + 10)],
    [translate(shape, 1 / 3, 1 / 7) for shape in parcels(5, 7)] + [box(EAST + 20, NORTH + 20, EAST + 29, NORTH + 29)],
]


@pytest.mark.parametrize("unit, up", [("0.001", 0), ("0.25", 0), ("0.25", 900)])
@pytest.mark.parametrize("shapes_of_a", [*OVERLAPPING, parcels(5, 3), parcels(5, 7)])
def test_the_same_is_said_as_by_the_program(gis, package, monkeypatch, tmp_path, shapes_of_a, unit, up):
    """On a coarse grid another layer may bend so much that small overlaps can't be told from
    that, where it isn't apart."""
    a = write(tmp_path / "a.gpkg", shapes_of_a)
    b = write(tmp_path / "b.gpkg", [translate(shape, 0, up) for shape in blobs(6, 7)])
    by_program = gis("run", "union", a, b, "-o", "out.gpkg", "--overwrite", "--parity", "--grid", unit)
    monkeypatch.delenv("OVERLAY")
    by_package = gis("run", "union", a, b, "-o", "out.gpkg", "--overwrite", "--parity", "--grid", unit)
    assert package[1] == [("union", "--areas")] and by_package == by_program
    warned, overlaps = " by parity, " in by_package.err, shapes_of_a in OVERLAPPING
    assert warned == overlaps or (overlaps and (unit, up) == ("0.25", 0))


def test_a_package_that_measures_nothing_leaves_it_to_the_program(gis, package, beside, tmp_path):
    a, b = write(tmp_path / "a.gpkg", OVERLAPPING[1]), write(tmp_path / "b.gpkg", [])
    del package[0].measured
    answer = gis("run", "union", a, b, "-o", "out.gpkg", "--parity")
    assert "a.gpkg: warning: its polygons have 200 m² in sum, and 100 by parity, " in answer.err
    assert answer.status == 0 and not package[1]


def test_a_refusal_of_the_package_names_the_layer(gis, package, monkeypatch, tmp_path):
    monkeypatch.delenv("OVERLAY")

    def refuse(operation, a, b, reading):
        raise Refused("B: 1 syntax at 5", "B")

    package[0].measured = refuse
    a, b = write(tmp_path / "a.gpkg", parcels(5, 3)), write(tmp_path / "b.gpkg", blobs(6, 3))
    answer = gis("run", "union", a, b, "-o", tmp_path / "out.gpkg", "--parity")
    assert answer.status == 3
    assert "syntax at 5" in answer.err


# A package whose call takes a minute, in which its thread heeds no signal, as in one of ctypes.
SLOW = """
import signal, time
from pathlib import Path

class Refused(ValueError): pass
class OutOfMemory(MemoryError): pass

def measured(operation, a, b, reading):
    signal.pthread_sigmask(signal.SIG_BLOCK, [signal.SIGINT, signal.SIGTERM])
    Path("begun").touch()
    time.sleep(60)
"""


@pytest.mark.parametrize("number, name", [(signal.SIGINT, "Ctrl-C"), (signal.SIGTERM, "SIGTERM")])
def test_a_signal_does_not_wait_for_the_package(tmp_path, number, name):
    write(tmp_path / "a.gpkg", parcels(5, 3))
    write(tmp_path / "b.gpkg", blobs(6, 3))
    (tmp_path / "overlay_grid.py").write_text(SLOW)
    environment = {**os.environ, "PYTHONPATH": str(tmp_path)}
    del environment["OVERLAY"]
    said = said_when_stopped(tmp_path, ["--parity"], environment, number, lambda: (tmp_path / "begun").exists())
    assert said.splitlines()[-1] == f"overlay-gis: stopped by {name}: no output was written or changed"
    assert "Traceback" not in said and not (tmp_path / "out.gpkg").exists()


def test_a_call_is_cancelled_while_the_package_works(package, monkeypatch, tmp_path):
    monkeypatch.delenv("OVERLAY")
    monkeypatch.chdir(tmp_path)
    begun, cancelled = threading.Event(), threading.Event()

    def measured(operation, a, b, reading):
        begun.set()
        assert cancelled.wait(60), "nobody is heard while it works"

    package[0].measured = measured
    a, b = write(tmp_path / "a.gpkg", parcels(5, 3)), write(tmp_path / "b.gpkg", blobs(6, 3))
    with pytest.raises(calls.Cancelled):
        calls.call(["run", "union", a, b, "-o", "out.gpkg", "--parity"], progress=lambda work, share: not begun.is_set())
    cancelled.set()
    assert not list(tmp_path.glob("out*")) and not list(tmp_path.glob(".overlay*"))


def test_a_package_is_asked_where_no_thread_may_begin(gis, package, monkeypatch, tmp_path):
    monkeypatch.delenv("OVERLAY")

    def start(thread):
        raise RuntimeError("can't start new thread")

    monkeypatch.setattr(program.Thread, "start", start)
    a, b = write(tmp_path / "a.gpkg", parcels(5, 3)), write(tmp_path / "b.gpkg", blobs(6, 3))
    assert gis("run", "union", a, b, "-o", "out.gpkg", "--parity").status == 0
    assert package[1] == [("union", "--areas")] and read("out.gpkg")
