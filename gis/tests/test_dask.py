"""`--engine dask` by processes of Dask: workers that are killed in every phase, a run that is killed,
and a scheduler that others started. What is killed dies where the test says, however busy the
machine is: see `marking_worker`."""

import os
import signal
import subprocess
import sys
import time
from contextlib import contextmanager
from pathlib import Path
from types import SimpleNamespace

import pytest

from conftest import COMMAND, blobs, parcels, write
from overlay_gis import by_strips, messages, strip_library, strip_tasks, workers
from overlay_gis.faults import Fault
from test_by_strips import rows, told

sys.path.append(str(Path(COMMAND).parents[1] / "python"))
pytest.importorskip("overlay_grid.strips", reason="no library: python/build")
distributed = pytest.importorskip("distributed", reason="no Dask: apt-get install python3-distributed")
psutil = pytest.importorskip("psutil", reason="no psutil: apt-get install python3-psutil")
import marking_worker  # noqa: E402


MOST, PART = 80, 4000


@pytest.fixture
def town(tmp_path, monkeypatch):
    """Two layers, of which there are some parts and strips."""
    monkeypatch.setattr(by_strips, "most_lines", lambda *_: MOST)
    monkeypatch.setattr(by_strips, "PART", PART)
    return write(tmp_path / "a.gpkg", parcels(1, 3)), write(tmp_path / "b.gpkg", blobs(2, 3))


@pytest.fixture
def of_workers(tmp_path, monkeypatch):
    """Has workers do what a test wants in these phases, and answers the folder with their marks."""

    def put(what, *phases):
        marks = tmp_path / "marks"
        marks.mkdir()
        for name, value in zip(marking_worker.NAMES, (what, " ".join(phases), str(marks))):
            monkeypatch.setenv(name, value)
        return marks

    return put


def words(town, out, *more):
    return ["run", "symdifference", *town, "-o", out, "--overwrite", "--parity", *more]


def begun(folder, phase):
    return any(Path(folder).glob(f"*/{phase}.*"))


def until(there, seconds=300):
    """Whether it is there before far more time has passed than it takes."""
    end = time.monotonic() + seconds
    while not there() and time.monotonic() < end:
        time.sleep(0.01)
    return there()


def workers_of(process):
    return [child for child in process.children(recursive=True) if "spawn_main" in " ".join(child.cmdline())]


def test_workers_of_this_machine(gis, town):
    single = gis(*words(town, "one.gpkg"))
    parted = gis(*words(town, "many.gpkg", "--engine", "dask", "--workers", "2"))
    assert parted.status == 0, parted.err
    assert rows("one.gpkg") == rows("many.gpkg")
    assert told(parted) == [line.replace("one.gpkg", "many.gpkg") for line in told(single)]
    assert not list(Path().glob(".overlay-gis-*")) and not Path("dask-worker-space").exists()


def test_a_worker_is_killed_in_every_phase(gis, town, of_workers, monkeypatch):
    """By SIGKILL: as it begins a task, while it writes, or when it has written."""
    marks = of_workers("dying", *strip_tasks.PHASES)
    monkeypatch.setattr(workers, "START", marking_worker.__file__)
    answer = gis(*words(town, "many.gpkg", "--engine", "dask", "--workers", "3"))
    assert answer.status == 0, answer.err
    assert sorted(path.name for path in marks.iterdir()) == sorted(strip_tasks.PHASES)
    assert not [line for line in answer.err.splitlines() if not line.startswith("overlay-gis: ")], answer.err
    assert gis(*words(town, "one.gpkg")).status == 0
    assert rows("one.gpkg") == rows("many.gpkg")


SMALL = f"""
import sys
sys.path.insert(0, {str(Path(COMMAND).parent)!r})
from overlay_gis import by_strips, cli, workers
by_strips.most_lines, by_strips.PART = lambda *_: {MOST}, {PART}
workers.START = {marking_worker.__file__!r}
if __name__ == "__main__":  # which its workers aren't
    sys.exit(cli.main(sys.argv[1:]))
"""


STOPPED = [("read", signal.SIGKILL), ("round", signal.SIGKILL), ("labels", signal.SIGKILL), ("round", signal.SIGTERM), ("labels", signal.SIGINT), ("close", signal.SIGKILL), ("join", signal.SIGTERM), ("write", signal.SIGKILL)]


@contextmanager
def begun_elsewhere(folder, *words):
    """A run in a process of its own, which doesn't outlive the test."""
    script = folder / "small.py"
    script.write_text(SMALL)
    surroundings = {**os.environ, "TMPDIR": str(folder)}
    process = subprocess.Popen([sys.executable, str(script), *words], stderr=subprocess.PIPE, text=True, env=surroundings)
    try:
        yield process
    finally:
        process.kill()
        process.communicate()


def files():
    """What tasks have made, by name, each with what tells it from one that was made again."""
    return {path.name: path.stat().st_ino for phase in strip_tasks.PHASES for path in Path("files").glob(f"*/{phase}.*")}


def ended(process):
    return not process.is_running() or process.status() == psutil.STATUS_ZOMBIE


@pytest.mark.parametrize("phase, number", STOPPED, ids=lambda held: str(getattr(held, "name", held)))
def test_a_run_that_is_killed_goes_on(gis, town, tmp_path, of_workers, monkeypatch, phase, number):
    """With one task of the phase done, and others waiting, so that none is done before its signal."""
    marks = of_workers("waiting", phase)
    parted = words(town, "many.gpkg", "--engine", "dask", "--dir", "files")
    with begun_elsewhere(tmp_path, *parted, "--workers", "2") as process:
        assert until(lambda: begun("files", phase) and (marks / "waits").exists() or process.poll() is not None)
        assert process.poll() is None, process.communicate()
        children = workers_of(psutil.Process(process.pid))
        process.send_signal(number)
        said = process.communicate(timeout=300)[1]
    assert children and until(lambda: all(map(ended, children)))
    if number == signal.SIGKILL:
        assert process.returncode == -number
    else:
        assert "stopped by" in said.splitlines()[-1] and process.returncode == 1
    left = files()
    assert len([name for name in left if name.startswith(f"{phase}.")]) == 1
    monkeypatch.setattr(by_strips, "shutil", SimpleNamespace(rmtree=lambda *_, **__: None))
    answer = gis(*parted, "--workers", "1")
    assert answer.status == 0 and "goes on from the files there" in answer.err, answer.err
    assert left.items() <= files().items()
    assert gis(*words(town, "one.gpkg")).status == 0
    assert rows("one.gpkg") == rows("many.gpkg")


@pytest.fixture
def scheduler(tmp_path):
    """A scheduler and two workers that were started as Dask's users do."""
    TOP = Path(COMMAND).parents[1]
    path = os.pathsep.join([str(TOP / "gis"), str(TOP / "python")])
    surroundings = {**os.environ, "PYTHONPATH": path, "DASK_DISTRIBUTED__SCHEDULER__WORK_STEALING": "False"}
    place = tmp_path / "scheduler.json"
    begun = [subprocess.Popen(["dask-scheduler", "--host", "127.0.0.1", "--port", "0", "--dashboard-address", "127.0.0.1:0", "--scheduler-file", str(place)], env=surroundings, cwd=tmp_path, stderr=subprocess.DEVNULL)]
    try:
        assert until(place.exists)
        worker = ["dask-worker", "--scheduler-file", str(place), "--nthreads", "1", "--dashboard-address", "127.0.0.1:0", "--local-directory", str(tmp_path)]
        begun += [subprocess.Popen(worker, env=surroundings, cwd=tmp_path, stderr=subprocess.DEVNULL) for _ in range(2)]
        with distributed.Client(scheduler_file=str(place), timeout=300, set_as_default=False) as client:
            client.wait_for_workers(2, 300)
            yield client.scheduler.address
    finally:
        for process in begun:
            process.kill()
        for process in begun:
            process.wait()


def test_workers_that_others_started(gis, town, scheduler):
    answer = gis(*words(town, "many.gpkg", "--engine", "dask", "--scheduler", scheduler, "--dir", "files"))
    assert answer.status == 0, answer.err
    assert gis(*words(town, "one.gpkg")).status == 0
    assert rows("one.gpkg") == rows("many.gpkg")


def test_no_scheduler(gis, town, monkeypatch):
    monkeypatch.setattr(workers, "PATIENCE", 1)
    answer = gis(*words(town, "many.gpkg", "--engine", "dask", "--scheduler", "tcp://127.0.0.1:9", "--dir", "files"))
    assert answer.status == 1 and "tcp://127.0.0.1:9: no scheduler of Dask answers: " in answer.err, answer.err


def test_no_dask(gis, town, monkeypatch):
    monkeypatch.setitem(sys.modules, "distributed", None)
    answer = gis(*words(town, "many.gpkg", "--engine", "dask"))
    assert answer.status == 1
    assert answer.err.endswith(": apt-get install python3-distributed, or pip install distributed\n"), answer.err


@pytest.mark.parametrize("seen, reason", [
    (workers.Seen("0.9", "", True, 1, 1), "has version 0.9 of overlay-gis"),
    (workers.Seen(workers.__version__, "overlay_grid: no", True, 1, 1), "overlay_grid: no"),
    (workers.Seen(workers.__version__, "", False, 1, 1), "doesn't see /x: --dir names a folder that all workers see"),
])
def test_workers_that_can_not_help(seen, reason):
    class Client:
        def run(self, *_):
            return {"tcp://a:1": seen._replace(version=workers.__version__, lacks="", sees=True), "tcp://b:2": seen}

    with pytest.raises(Fault) as error:
        workers.Crew(Client()).look("/x")
    assert str(error.value).startswith(f"worker tcp://b:2: {reason}")


def test_a_library_without_the_calls_of_strips_is_told(monkeypatch, tmp_path):
    worker = SimpleNamespace(state=SimpleNamespace(nthreads=1))
    assert workers.looked(str(tmp_path), worker).lacks == ""
    for call in ("labels", "going_on", "closed", "polygons", "written"):
        with monkeypatch.context() as changed:
            changed.delattr(strip_library.strips(), call)
            assert workers.looked(str(tmp_path), worker).lacks == "overlay_grid is too old: it has no polygons of strips"


def test_a_terminal_has_a_bar_a_phase(gis, town, monkeypatch):
    told = []
    monkeypatch.setattr(messages, "bar", lambda *words: told.append(words))
    monkeypatch.setattr(workers, "bar", lambda *words: told.append(words))
    assert gis(*words(town, "many.gpkg", "--engine", "dask", "--workers", "1")).status == 0
    phases = list(dict.fromkeys(work for work, _, _ in told if work))
    assert set(phases) <= set(workers.TOLD.values()) and len(phases) >= 4
    assert all(0 <= done < total for work, done, total in told if work)
