"""The program at work: on what it is asked at once, on texts in the memory, and ended with the
command."""

import os
import signal
import sqlite3
from contextlib import suppress
from pathlib import Path

import pytest
from shapely.geometry import box

from conftest import EAST, NORTH, numbers_in, running, waiting, write
from overlay_gis import program, stopping
from overlay_gis.questions import questions
from overlay_gis.stopping import Stopped

SQUARE = box(EAST, NORTH, EAST + 10, NORTH + 10)


def text(words):
    file = program.memory("layer")
    file.write(words)
    file.flush()
    return program.Text("a", file)


def test_an_answer_and_what_is_united_are_computed_at_once(gis, tmp_path, begun, pretend):
    """Each run of the program waits until three have begun."""
    a, b = write(tmp_path / "a.gpkg", [SQUARE]), write(tmp_path / "b.gpkg", [SQUARE])
    pretend(
        f'touch "{begun}/$$"\n'
        f"{waiting(begun, 3)}"
        "echo 'MULTIPOLYGON (((0 0, 10000 0, 10000 10000, 0 10000, 0 0)))'\n"
    )
    assert gis("run", "union", a, b, "-o", "out.gpkg").status == 0
    assert len(numbers_in(begun)) == 3


def test_an_answer_and_both_areas_are_one_run(gis, tmp_path, pretend):
    """What the program tells of the layers is told on."""
    a, b = write(tmp_path / "a.gpkg", [SQUARE]), write(tmp_path / "b.gpkg", [SQUARE, SQUARE])
    pretend(
        f'echo "$1" "$4" "$5" "$6" "$#" >>"{tmp_path}/asked"\n'
        "echo 'MULTIPOLYGON (((0 0, 10000 0, 10000 10000, 0 10000, 0 0)))'\n"
        "printf 'segments 4 8\\nrecords 24\\ntile 0 4 24\\narea2 199999998 0 200000000\\nsteps 5 8\\n' >&2\n"
    )
    answer = gis("run", "union", a, b, "-o", "out.gpkg", "--parity", "--segments", "2000000")
    assert Path("asked").read_text() == "union --report --areas  5\n"
    told = answer.err.splitlines()[1:-1]
    assert told[0] == f"overlay-gis: {a}: 0 of 4 vertices moved; area 100 m² before, and 99.999999 after"
    assert told[1].startswith(f"overlay-gis: {b}: warning: its polygons have 200 m² in sum, and 0 by parity, ")
    assert told[2:] == [f"overlay-gis: {b}: 0 of 8 vertices moved; area 200 m² before, and 0 after"]
    assert answer.status == 0 and answer.err.endswith("out.gpkg: 1 polygons\n")


@pytest.mark.parametrize(
    "report",
    ["", "records 8", "area2 1 2", "area2 1 2 3", "steps 4 4", "area2 1 2 3\\nsteps 4", "area2 1 2 3\\nsteps 4 4 4", "area2 1 2 -3\\nsteps 4 4"],
)
def test_a_report_without_areas_is_not_believed(gis, tmp_path, pretend, report):
    a = write(tmp_path / "a.gpkg", [SQUARE])
    pretend(f"echo 'MULTIPOLYGON EMPTY'\nprintf '{report}\\n' >&2\n")
    answer = gis("run", "difference", a, a, "-o", "out.gpkg", "--parity")
    assert answer.status == 1 and not Path("out.gpkg").exists()
    assert "overlay: its report doesn't tell the areas of two layers: is it the program" in answer.err


def test_a_program_that_knows_no_areas(gis, tmp_path, pretend):
    a = write(tmp_path / "a.gpkg", [SQUARE])
    pretend("echo 'overlay: unexpected --areas' >&2\nexit 2\n")
    answer = gis("run", "difference", a, a, "-o", "out.gpkg", "--parity")
    assert answer.status == 1 and answer.err.endswith("overlay says: unexpected --areas\n")


def test_texts_are_no_files_of_a_folder(gis, tmp_path, pretend, monkeypatch):
    a, b = write(tmp_path / "a.gpkg", [SQUARE]), write(tmp_path / "b.gpkg", [])
    monkeypatch.setenv("TMPDIR", str(tmp_path / "none"))
    script = f'readlink "$2" "$3" >>"{tmp_path}/names"\ncat "$2" "$2" >>"{tmp_path}/texts"\n'
    pretend(script + 'echo "MULTIPOLYGON EMPTY"\nprintf "area2 0 0 0\\nsteps 4 0\\n" >&2\n')
    assert gis("run", "union", a, b, "-o", "out.gpkg", "--parity", "--origin", f"{EAST},{NORTH}").status == 0
    assert all(name.startswith("/memfd:") for name in Path("names").read_text().splitlines())
    line = "POLYGON ((10000 0, 10000 10000, 0 10000, 0 0, 10000 0))\n"
    assert Path("texts").read_text() == line * 2


def test_an_answer_is_what_the_program_wrote(pretend):
    told = "records 7 of 9\\ntile 0 8\\nsteps 4 12\\narea2 0 8 9\\nother words\\nhot many\\n"
    pretend(f"cat $2 $3; printf '{told}' >&2\n")
    with program.Asked("union", text(b"one\n"), text(b"other\n")) as asked:
        assert asked.answer() == (b"one\nother\n", {"records": (7,), "steps": (4, 12), "area2": (0, 8, 9)})


def test_a_long_answer_and_a_long_report(pretend):
    pretend("head -c 3000000 /dev/zero; head -c 3000000 /dev/zero >&2\n")
    with program.Asked("union", text(b""), text(b"")) as asked:
        assert asked.answer()[0] == bytes(3_000_000)


def test_a_text_comes_whole_where_reads_give_little(monkeypatch):
    """As Linux does, which gives less than 2 GiB at a time."""
    words, pread = bytes(range(256)) * 5, os.pread
    held = text(words)
    monkeypatch.setattr(os, "pread", lambda number, size, at: pread(number, min(size, 7), at))
    assert program.held(held.file) == words and program.held(text(b"").file) == b""


def test_the_program_ends_with_the_context(pretend):
    pretend("exec sleep 600\n")
    with pytest.raises(KeyError), program.Asked("union", text(b""), text(b"")) as asked:
        raise KeyError
    assert not running(asked.process.pid)


def test_a_refusal_ends_the_runs_that_go_on(gis, tmp_path, begun, pretend):
    """What is united is refused, once the run for the answer has begun, which would take minutes."""
    a = write(tmp_path / "a.gpkg", [SQUARE])
    refusing = f'{waiting(begun, 1)}echo "overlay: A: 1 syntax at 3" >&2\nexit 3\n'
    pretend(f'if [ "$1" = union ]; then\n{refusing}fi\ntouch "{begun}/$$"\nexec sleep 600\n')
    assert gis("run", "difference", a, a, "-o", "out.gpkg").status == 3
    (number,) = numbers_in(begun)
    assert not running(number)


@pytest.fixture
def handled():
    """Signals as a command has them, also where who began the tests had some ignored, as nohup
    does. One that came in the test is raised once more at its end, as at a command's."""
    held = {number: signal.signal(number, signal.SIG_DFL) for number in stopping.SIGNALS}
    with suppress(Stopped), stopping.stoppable():
        yield
    for number, handler in held.items():
        signal.signal(number, handler)


@pytest.mark.parametrize("number", [signal.SIGTERM, signal.SIGHUP])
def test_a_signal_waits_for_what_must_not_be_broken(handled, number):
    done = []
    with pytest.raises(Stopped, match=number.name):
        with stopping.unbroken():
            os.kill(os.getpid(), number)
            done.append("all")
        done.append("more")
    assert done == ["all"]


def test_a_signal_behind_it_waits_for_nothing(handled):
    with stopping.unbroken():
        pass
    with pytest.raises(Stopped):
        os.kill(os.getpid(), signal.SIGTERM)
        pytest.fail("it went on")


def test_a_program_that_a_signal_found_beginning_is_ended(handled, monkeypatch, pretend):
    """The signal comes when the process is there, and nothing knows of it yet."""
    begun = []
    popen = program.Popen

    def interrupted(*words, **named):
        begun.append(popen(*words, **named))
        os.kill(os.getpid(), signal.SIGTERM)
        return begun[0]

    monkeypatch.setattr(program, "Popen", interrupted)
    pretend("exec sleep 600\n")
    with pytest.raises(Stopped), questions() as asked:
        asked.ask("union", [])
    assert begun and not running(begun[0].pid)


def test_a_geopackage_has_a_whole_index(gis, tmp_path):
    a = write(tmp_path / "a.gpkg", [box(EAST + 3 * k, NORTH, EAST + 3 * k + 2, NORTH + 2) for k in range(300)])
    assert gis("run", "union", a, write(tmp_path / "b.gpkg", []), "-o", "out.gpkg").status == 0
    held = sqlite3.connect("out.gpkg")
    assert held.execute("select count(*) from out").fetchone() == (300,)
    assert held.execute("select count(*) from rtree_out_geom where minx >= 412299.9 and maxx < 412600").fetchone() == (100,)
    assert held.execute("select count(*) from gpkg_extensions where extension_name = 'gpkg_rtree_index'").fetchone() == (1,)
    assert held.execute("pragma integrity_check").fetchone() == ("ok",)
