"""The verbs as another program calls them, from any thread."""

import signal
import threading
import time
from pathlib import Path

import pytest
from shapely.geometry import box

from conftest import EAST, NORTH, numbers_in, read, running, write
from overlay_gis import calls, faults

SQUARE = box(EAST, NORTH, EAST + 10, NORTH + 10)


@pytest.fixture
def layers(tmp_path, monkeypatch):
    monkeypatch.chdir(tmp_path)
    return write(tmp_path / "a.gpkg", [SQUARE]), write(tmp_path / "b.gpkg", [SQUARE, SQUARE])


def in_a_thread(call):
    found = []
    thread = threading.Thread(target=lambda: found.append(call()))
    thread.start()
    thread.join()
    return found[0]


def test_lines_progress_and_status(layers, capfd, program):
    a, b = layers
    lines, works = [], []

    def heard(work, share):
        works.append(work)
        return True

    handlers = [signal.getsignal(number) for number in (signal.SIGINT, signal.SIGTERM)]
    assert calls.call(["run", "union", a, b, "-o", "out.gpkg"], lines.append, heard) == 0
    assert lines[-1] == "out.gpkg: 1 polygons" and "overlay union" in works and len(read("out.gpkg")) == 1
    assert in_a_thread(lambda: calls.call(["check", b], lines.append)) == 4
    assert lines[-2].endswith("b.gpkg: features 1 and 2: the same area of 100 m²")
    assert [signal.getsignal(number) for number in (signal.SIGINT, signal.SIGTERM)] == handlers
    assert capfd.readouterr() == ("", "")


def test_faults_are_raised(layers, program):
    a, b = layers
    for words, status, told in (
        (["run", "union", a, "none.gpkg", "-o", "out.gpkg"], 1, "none.gpkg: No such file or directory"),
        (["run", "union", a, b, "-o", "a.gpkg"], 3, "a.gpkg: is an input"),
    ):
        with pytest.raises(faults.Fault) as raised:
            calls.call(words)
        assert (raised.value.status, str(raised.value)) == (status, told)
    with pytest.raises(SystemExit):
        calls.call(["fly"])


def test_a_call_is_cancelled_while_the_program_works(layers, begun, pretend):
    """It is cancelled when all its three runs have begun, each of which would take ten minutes."""
    a, b = layers
    pretend(f'touch "{begun}/$$"\nexec sleep 600\n')
    asked = time.monotonic()

    def call():
        try:
            return calls.call(
                ["run", "union", a, b, "-o", "out.gpkg"],
                progress=lambda work, share: len(numbers_in(begun)) < 3,
            )
        except calls.Cancelled:
            return "cancelled"

    assert in_a_thread(call) == "cancelled" and time.monotonic() - asked < 300
    assert not list(Path().glob("out*")) and not list(Path().glob(".overlay*"))
    assert not any(map(running, numbers_in(begun)))
