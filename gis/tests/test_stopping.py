"""Signals that come where Python drops exceptions, or before the command can tidy up; and what killed
runs left."""

import fcntl
import os
import signal
import subprocess
import sys
import time
from contextlib import contextmanager

import pytest
from shapely.geometry import box

from conftest import COMMAND, EAST, NORTH, read, write
from overlay_gis import messages
from overlay_gis.stopping import Stopped, go_on, look, stoppable, unbroken


class Signalling:
    """Sends a signal to its own process while it is let go."""

    def __del__(self):
        os.kill(os.getpid(), signal.SIGTERM)
        for _ in range(1000):
            pass


def looked_by_loop():
    for _ in messages.followed(range(2), "counting"):
        pass


def looked_by_work():
    with messages.during("working"):
        pass


@pytest.mark.parametrize("looks", [look, go_on, looked_by_loop, looked_by_work])
def test_a_signal_that_python_drops_is_raised_by_the_next_look(capfd, looks):
    reached = []
    with pytest.raises(Stopped, match="SIGTERM"), stoppable():
        Signalling()
        reached.append("behind the signal")
        looks()
        reached.append("behind the look")
    assert reached == ["behind the signal"] and capfd.readouterr() == ("", "")


def test_a_signal_that_python_drops_ends_the_command_at_last(capfd):
    with pytest.raises(Stopped, match="SIGTERM"), stoppable():
        Signalling()
    with stoppable():  # the next command knows nothing of it
        look()
    assert capfd.readouterr() == ("", "")


def test_what_is_unbroken_ends_first():
    reached = []
    with pytest.raises(Stopped, match="Ctrl-C"), stoppable():
        with unbroken():
            os.kill(os.getpid(), signal.SIGINT)
            reached.append("the end")
        reached.append("behind it")
    assert reached == ["the end"]


def test_a_second_signal_disturbs_no_tidying():
    tidied = []
    with pytest.raises(Stopped, match="SIGTERM"), stoppable():
        try:
            os.kill(os.getpid(), signal.SIGTERM)
        finally:
            os.kill(os.getpid(), signal.SIGINT)
            tidied.append(True)
    assert tidied == [True]


def test_ctrl_c_while_packages_are_loaded(tmp_path):
    """A stand-in for numpy, which is loaded first, sends the signal."""
    (tmp_path / "numpy.py").write_text("import os, signal, time\nos.kill(os.getpid(), signal.SIGINT)\ntime.sleep(60)\n")
    done = subprocess.run(
        [sys.executable, COMMAND, "--help"],
        env={**os.environ, "PYTHONPATH": str(tmp_path)},
        stdout=subprocess.PIPE,
        stderr=subprocess.PIPE,
        preexec_fn=lambda: signal.signal(signal.SIGINT, signal.SIG_DFL),
    )
    assert (done.returncode, done.stderr) == (-signal.SIGINT, b"")


def test_a_fault_of_a_binding_is_told(gis, monkeypatch, tmp_path):
    from overlay_gis import check

    def fails(arguments):
        raise SystemError("returned a result with an exception set") from UnicodeDecodeError("utf-8", b"\xff", 0, 1, "invalid start byte")

    monkeypatch.setattr(check, "main", fails)
    answer = gis("check", write(tmp_path / "a.gpkg", []))
    assert answer.status == 1 and answer.err.count("\n") == 1
    assert answer.err.startswith("overlay-gis: GDAL: can't say what it read: 'utf-8' codec can't decode")


@contextmanager
def held(folder):
    number = os.open(folder, os.O_RDONLY)
    fcntl.flock(number, fcntl.LOCK_EX)
    try:
        yield
    finally:
        os.close(number)


def test_what_killed_runs_left_goes(gis, tmp_path):
    """But no folder of a run that goes on, which has its lock, none that is new, and none with parts of
    an old output."""
    a = write(tmp_path / "a.gpkg", [box(EAST, NORTH, EAST + 1, NORTH + 1)])
    left, going_on, new, old, other = (tmp_path / f".{name}.partial" for name in ("overlay-gis-x", "overlay-gis-y", "overlay-gis-z", "overlay-gis-o", "other"))
    for folder in (left, going_on, new, old, other):
        (folder / "replaced").mkdir(parents=True)
        (folder / "out.gpkg").write_bytes(b"half")
    (old / "replaced" / "out.shp").write_bytes(b"old")
    for folder in (left, going_on, old, other):
        os.utime(folder, (time.time() - 3600,) * 2)
    with held(going_on):
        assert gis("dissolve", a, "-o", "out.gpkg").status == 0
    assert len(read("out.gpkg")) == 1
    assert sorted(path.name for path in tmp_path.glob(".*")) == sorted(folder.name for folder in (going_on, new, old, other))
    assert (going_on / "out.gpkg").read_bytes() == b"half"
