"""The command itself: help, versions, statuses, and the pages and completions beside it."""

import argparse
import os
import pty
import re
import shlex
import subprocess
import sys
from contextlib import suppress
from pathlib import Path

import pytest
from shapely.geometry import box

from conftest import COMMAND, EAST, NORTH, write
from overlay_gis import __version__, cli, messages, program

TOP = Path(__file__).resolve().parents[2]
PAGE = (TOP / "docs" / "overlay.1").read_text().replace("\\-", "-")


def options_of(verb):
    told = cli.parser()._subparsers._group_actions[0].choices[verb]
    told.learn(cli.verb_of(verb))
    offered = (action for action in told._actions if action.help != argparse.SUPPRESS)
    return {word for action in offered for word in action.option_strings if word.startswith("--")}


@pytest.mark.parametrize("verb", cli.VERBS)
def test_help_has_an_example_that_is_accepted(gis, verb):
    answer = gis(verb, "--help")
    example = answer.out.partition("example:\n")[2].strip()
    assert answer.status == 0 and f"overlay-gis {verb}" in example
    words = shlex.split(example.rpartition("overlay-gis ")[2], comments=True)
    assert cli.parser().parse_args(words).verb == verb


def test_versions(gis):
    answer = gis("--version")
    assert answer.status == 0 and re.fullmatch(
        rf"overlay-gis {re.escape(__version__)} \(GDAL [\d.]+, Shapely [\d.]+, GEOS [\d.]+\)\n", answer.out
    )


@pytest.mark.parametrize(
    "words", [[], ["fly"], ["run", "xor", "a", "b", "-o", "c.gpkg"], ["run", "union", "a", "b"], ["explain", "a", "x"]]
)
def test_command_lines_that_are_not_accepted(gis, words):
    answer = gis(*words)
    assert answer.status == 2 and answer.err.startswith("usage: ")


def test_the_script_as_a_user_calls_it(tmp_path, program):
    a, b = write(tmp_path / "a.gpkg", [box(EAST, NORTH, EAST + 2, NORTH + 2)]), write(
        tmp_path / "b.gpkg", [box(EAST + 1, NORTH, EAST + 3, NORTH + 2)]
    )
    done = subprocess.run(
        [COMMAND, "run", "union", a, b, "-o", "out.gpkg"], cwd=tmp_path, stderr=subprocess.PIPE, check=False
    )
    assert done.returncode == 0 and done.stderr.decode().splitlines()[-1] == "overlay-gis: out.gpkg: 1 polygons"


def test_a_reader_that_goes_away(tmp_path):
    (tmp_path / "a.wkt").write_text("\n".join(f"POLYGON (({k} 0, {k + 1} 0, {k} 1, {k} 0))" for k in range(50_000)))
    done = subprocess.run(
        f"{sys.executable} {COMMAND} show a.wkt | head -c 10",
        shell=True,
        cwd=tmp_path,
        capture_output=True,
        check=False,
    )
    assert done.stderr == b"" and done.stdout == b"<svg xmlns"


HALF = os.fsdecode(b"\xff")


@pytest.mark.parametrize(
    "words, option",
    [
        (("show", "t.wkt", "--title", HALF), "--title"),
        (("run", "union", "a.gpkg", "a.gpkg", "-o", "o.gpkg", "--layer", f"l{HALF}"), "--layer"),
        (("run", "union", "a.gpkg", "a.gpkg", "-o", "o.gpkg", "--system", HALF), "--system"),
        (("dissolve", "a.gpkg", "-o", f"{HALF}.gpkg"), "-o/--out"),
        (("faces", "a.gpkg", f"{HALF}.gpkg", "-o", "o.gpkg"), "LAYER"),
    ],
)
def test_words_that_are_no_text_are_not_accepted(gis, words, option):
    answer = gis(*words)
    assert answer.status == 2 and f"argument {option}: " in answer.err and answer.err.endswith("is no text of UTF-8\n")


@pytest.mark.parametrize(
    "words, option",
    [
        (("run", "union", "a.gpkg", "a.gpkg", "-o", "o.gpkg", "--grid", ""), "--grid"),
        (("run", "union", "a.gpkg", "a.gpkg", "-o", "o.gpkg", "--origin="), "--origin"),
        (("run", "union", "a.gpkg", "a.gpkg", "-o", "o.gpkg", "--system", ""), "--system"),
        (("run", "union", "a.gpkg", "a.gpkg", "-o", ""), "-o/--out"),
        (("dissolve", "a.gpkg", "-o", "o.gpkg", "--layer", ""), "--layer"),
        (("to-grid", "a.gpkg", "-o", "o", "--frame", ""), "--frame"),
        (("from-grid", "", "-o", "o.gpkg"), "TEXT"),
        (("show", "t.wkt", "-o", ""), "-o/--out"),
        (("check", ""), "A"),
    ],
)
def test_empty_words_are_not_passed_over(gis, words, option):
    answer = gis(*words)
    assert answer.status == 2 and answer.err.endswith(f"argument {option}: nothing is given\n")


CLOSED = {
    "check a.gpkg >&-": (1, "overlay-gis: standard output: is closed\n"),
    "show t.wkt >&-": (1, "overlay-gis: standard output: is closed\n"),
    "explain t.wkt 3 >&-": (1, "overlay-gis: standard output: is closed\n"),
    "show - <&-": (1, "overlay-gis: standard input: is closed\n"),
    "check a.gpkg 2>&-": (0, ""),
    "check a.gpkg >&- 2>&-": (1, ""),
    "check a.gpkg <&-": (0, ""),
    "check a.gpkg >/dev/full": (1, "overlay-gis: standard output: No space left on device\n"),
    "show t.wkt >/dev/full": (1, "overlay-gis: standard output: No space left on device\n"),
    "check --help >/dev/full": (1, "overlay-gis: standard output: No space left on device\n"),
}

# As it is where nobody asks for other: what is written is held until there is much of it.
USUAL = {name: value for name, value in os.environ.items() if name != "PYTHONUNBUFFERED"}


@pytest.mark.parametrize("words", CLOSED)
def test_standard_streams_that_are_closed(tmp_path, program, words):
    write(tmp_path / "a.gpkg", [box(EAST, NORTH, EAST + 2, NORTH + 2)])
    (tmp_path / "t.wkt").write_text("POLYGON ((0 0, 1 0, 0 1, 0 0))")
    done = subprocess.run(f"{COMMAND} {words}", shell=True, cwd=tmp_path, env=USUAL, capture_output=True, text=True, check=False)
    assert (done.returncode, done.stderr) == CLOSED[words]


@pytest.mark.parametrize("words", [("check", "a.gpkg"), ("--help",)])
def test_a_pipe_that_nobody_reads(tmp_path, words):
    write(tmp_path / "a.gpkg", [box(EAST, NORTH, EAST + 2, NORTH + 2)])
    ours, theirs = os.pipe()
    os.close(ours)
    done = subprocess.run([COMMAND, *words], cwd=tmp_path, env=USUAL, stdout=theirs, stderr=subprocess.PIPE, check=False)
    os.close(theirs)
    assert (done.returncode, done.stderr) == (1, b"")


def test_the_manual_page_tells_what_the_program_knows(program):
    told = subprocess.run([program, "--help"], stdout=subprocess.PIPE, check=True).stdout.decode()
    for word in re.findall(r"--[a-z]+", told):
        assert word in PAGE
    for word in ("union", "intersection", "difference", "symdifference", "edges", "faces", "268435456", "/dev/stdin", "parity"):
        assert word in PAGE


@pytest.mark.parametrize("command", ["union", "faces"])
def test_the_manual_page_tells_what_a_report_has(program, tmp_path, command):
    layer = tmp_path / "a.wkt"
    layer.write_text("POLYGON ((0 0, 1 0, 0 1, 0 0))")
    told = subprocess.run([program, command, layer, layer, "--report"], stderr=subprocess.PIPE, stdout=subprocess.DEVNULL, check=True).stderr.decode()
    names = [line.split()[0] for line in told.splitlines()]
    assert "remade" in names
    for name in names:
        assert f"\\fB{name}\\fR" in PAGE


@pytest.mark.parametrize("words", [["--tile", "15"], ["--workers", "65"]])
def test_the_manual_page_tells_the_status_of_numbers(program, words):
    assert subprocess.run([program, "union", "/dev/null", "/dev/null", *words], stderr=subprocess.DEVNULL, check=False).returncode == 3
    assert words[0] in PAGE.partition("\n.SH EXIT STATUS\n")[2].partition("\n.B 3\n")[2].partition("\n.SH ")[0]


OPERATIONS = {"union", "intersection", "difference", "symdifference"}


def completed(name, *words):
    """What bash offers for the last word."""
    line = " ".join(map(shlex.quote, words))
    script = f"compopt() {{ :; }}; source {TOP}/completions/{name}.bash; COMP_WORDS=({name} {line}); COMP_CWORD={len(words)}; _{name.replace('-', '_')}; echo ${{COMPREPLY[@]}}"
    return set(subprocess.run(["bash", "-c", script], stdout=subprocess.PIPE, check=True).stdout.decode().split())


def test_bash_completes_verbs_options_and_commands():
    assert completed("overlay", "") == {"union", "intersection", "difference", "symdifference", "edges", "faces", "noded"}
    assert completed("overlay", "--") == {"--tile", "--workers", "--segments", "--report", "--covered", "--areas", "--help"}
    assert completed("overlay-gis", "") == set(cli.VERBS)
    for verb in cli.VERBS:
        assert completed("overlay-gis", verb, "--") == options_of(verb)


@pytest.mark.parametrize("written", [["65"], ["=", "65"]])
def test_bash_completes_values_behind_a_sign_too(written):
    """Bash cuts `--tile=65` at its sign."""
    assert completed("overlay", "union", "--tile", *written) == {"65536"}
    assert completed("overlay", "--workers", *written[:-1], "6") == {"64"}
    assert completed("overlay-gis", "check", "--grid", *written[:-1], "0.0") == {"0.0001", "0.001", "0.01"}
    assert completed("overlay-gis", "run", "union", "--origin", *written) == set()


def test_bash_completes_a_sign_alone():
    assert completed("overlay", "--workers", "=") == {"1", "2", "4", "8", "16", "32", "64"}
    assert completed("overlay-gis", "check", "--grid", "=") == {"0.0001", "0.001", "0.01", "0.1", "1"}


def test_bash_offers_words_where_they_stand():
    """The program takes `faces` before all other words alone, and overlay-gis an operation behind options."""
    assert completed("overlay", "--tile", "16", "") == OPERATIONS | {"edges"}
    assert completed("overlay", "faces", "") == completed("overlay", "--report", "union", "") == set()
    assert completed("overlay-gis", "run", "--parity", "") == completed("overlay-gis", "run", "-o", "x.gpkg", "") == OPERATIONS
    for words in (["-o", ""], ["--out", "=", "u"], ["union", ""], ["--parity", "union", "u"]):
        assert completed("overlay-gis", "run", *words) == set()


@pytest.mark.parametrize("verb", cli.VERBS)
def test_zsh_completes_all_options(verb):
    text = (TOP / "completions" / "_overlay-gis").read_text()
    line = next(line for line in text.splitlines() if line.strip().startswith(f"{verb})"))
    for name in ("help", "out", "grid"):
        line = line.replace(
            f"${name}", next(whole for whole in text.splitlines() if whole.strip().startswith(f"{name}="))
        )
    assert options_of(verb) == set(re.findall(r"--[a-z-]+", line))


def takes_a_value(verb):
    told = cli.parser()._subparsers._group_actions[0].choices[verb]
    told.learn(cli.verb_of(verb))
    return {word for action in told._actions if action.nargs != 0 for word in action.option_strings if word.startswith("--")}


def test_zsh_completes_values_behind_a_sign_too():
    """`--tile=4096` is taken as `--tile 4096` is."""
    program, bridge = ((TOP / "completions" / name).read_text() for name in ("_overlay", "_overlay-gis"))
    assert set(re.findall(r"(--[a-z-]+)=", program)) == {"--tile", "--workers", "--segments"}
    assert set(re.findall(r"(--[a-z-]+)=", bridge)) == set().union(*map(takes_a_value, cli.VERBS))


@pytest.mark.parametrize("terminal", [True, False])
def test_progress_is_said_on_a_terminal_alone(capsys, monkeypatch, terminal):
    monkeypatch.setattr(messages, "PATIENCE", 0)
    monkeypatch.setattr(messages, "PAUSE", 0)
    monkeypatch.setattr(sys.stderr, "isatty", lambda: terminal)
    assert list(messages.followed(range(4), "reading a.gpkg", 4)) == [0, 1, 2, 3]
    with messages.during("overlay union"):
        pass
    told = capsys.readouterr().err
    assert ("reading a.gpkg: 50%" in told and "overlay union" in told) if terminal else told == ""


def all_of(number):
    """What is written to a terminal or a pipe until nobody does any more; a read answers but a part
    of it."""
    parts = []
    with suppress(OSError):  # by which Linux says so of a terminal
        while part := os.read(number, 1 << 16):
            parts.append(part)
    return b"".join(parts)


@pytest.mark.parametrize("terminal", [True, False])
def test_a_user_at_a_terminal_hears_what_is_done(tmp_path, program, terminal):
    a = write(tmp_path / "a.gpkg", [box(EAST, NORTH, EAST + 2, NORTH + 2)], fields={"owner": ["Ada"]})
    ours, theirs = pty.openpty() if terminal else os.pipe()
    words = [COMMAND, "dissolve", a, "--by", "owner", "-o", "out.gpkg"]
    with subprocess.Popen(words, cwd=tmp_path, stderr=theirs) as command:
        os.close(theirs)
        told = all_of(ours).decode()
        os.close(ours)
    assert command.returncode == 0 and ("\x1b[K" in told) == terminal
    for work in (f"rounding {a}", "overlay faces", "uniting features"):
        assert (work in told) == terminal


def test_numbers_of_segments_that_are_none(gis):
    for words in ("0", "-1", "8.0", "4294967296", "²"):
        assert gis("faces", "a.gpkg", "-o", "out.gpkg", "--segments", words).status == 2


def test_more_segments_are_asked_for(gis, tmp_path, monkeypatch):
    """The program is told of more than it takes by itself."""
    a = write(tmp_path / "a.gpkg", [box(EAST, NORTH, EAST + 2, NORTH + 2)])
    monkeypatch.setattr(program, "SEGMENTS", 7)
    asked, begin = [], program.Popen
    monkeypatch.setattr(program, "Popen", lambda words, **more: asked.append(words) or begin(words, **more))
    assert gis("faces", a, a, "-o", "out.gpkg").status == 0
    assert asked[0][-2:] == ["--segments", "8"]


def test_a_package_that_is_not_there_is_told(tmp_path, program):
    """Shapely is asked for by the verb alone that needs it."""
    a = write(tmp_path / "a.gpkg", [box(EAST, NORTH, EAST + 2, NORTH + 2)])
    (tmp_path / "shapely.py").write_text("raise ModuleNotFoundError('none', name='shapely')\n")
    runs = (["run", "union", a, a, "-o", "out.gpkg"], ["run", "union", a, a, "-o", "all.gpkg", "--parity"], ["faces", a, a, "-o", "f.gpkg"])
    for words, status in (*((words, 0) for words in runs), (["check", a], 1)):
        done = subprocess.run(
            [sys.executable, COMMAND, *words],
            cwd=tmp_path,
            env={**os.environ, "PYTHONPATH": str(tmp_path)},
            capture_output=True,
            text=True,
            check=False,
        )
        assert done.returncode == status, done.stderr
        assert status == 0 or done.stderr.splitlines()[-1].startswith("overlay-gis: shapely: can't be imported; Debian and")
