"""release/make, on a clone with a gate's log of our own, and with the program and the libraries that the gate left here."""

import os
import re
import shutil
import subprocess
import sys
import zipfile
from pathlib import Path

import pytest

TOP = Path(__file__).resolve().parents[2]
VERDICT = "rt: ok; handles allowed: Threads, Wait\n345 passed, 0 failed\n"
# The tests behind the verdict speak, too, and then it is told once more.
PASSED = VERDICT + "31 passed in 5.60s\n" + VERDICT
BUILT = {
    "crates/overlay/out/overlay": Path(os.environ.get("OVERLAY") or TOP / "crates/overlay/out/overlay"),
    "crates/overlay_c/out/liboverlay_c.a": TOP / "crates/overlay_c/out/liboverlay_c.a",
    "python/overlay_grid/liboverlay.so": TOP / "python/overlay_grid/liboverlay.so",
}
LACKING = [tool for tool in ("ar", "cc", "dpkg-deb", "hatchling") if not shutil.which(tool)]
VERSION = (TOP / "VERSION").read_text().strip()
SQUARES = ("POLYGON ((0 0, 4 0, 4 4, 0 4, 0 0))", "POLYGON ((2 2, 6 2, 6 6, 2 6, 2 2))")
COMMON = "MULTIPOLYGON (((2 2, 4 2, 4 4, 2 4, 2 2)))\n"

pytestmark = pytest.mark.skipif(bool(LACKING), reason=f"not there: {', '.join(LACKING)}")


def printed(*words, **how):
    return subprocess.run(words, stdout=subprocess.PIPE, text=True, check=True, **how).stdout


@pytest.fixture
def clone(tmp_path):
    """A clone as a gate leaves it, and a call of its release/make."""
    tree, kit = tmp_path / "a clone", tmp_path / "kit"
    subprocess.run(["git", "clone", "-q", TOP, tree], check=True)
    for place, file in BUILT.items():
        (tree / place).parent.mkdir(parents=True, exist_ok=True)
        shutil.copy(file, tree / place)
    (kit / "bin").mkdir(parents=True)
    (kit / "bin/rt").write_text("#!/bin/sh\necho kit of $1\n")
    (kit / "bin/rt").chmod(0o755)
    (kit / "c").symlink_to(Path(os.path.realpath(shutil.which("rt"))).parents[1] / "c")
    commit = printed("git", "rev-parse", "HEAD", cwd=tree)

    def make(log, made="made", umask=0o022, begun=f"commit {commit}", **more):
        (tmp_path / "gate.log").write_text(begun + log)
        words = [tree / "release/make", "--log", tmp_path / "gate.log", tmp_path / made]
        # As in a shell: what the tests' own environment says of Python's bytecode isn't said there.
        own = {name: value for name, value in os.environ.items() if name != "PYTHONDONTWRITEBYTECODE"}
        path = f"{kit / 'bin'}:{os.environ['PATH']}"
        return subprocess.run(words, env={**own, "PATH": path, **more}, capture_output=True, text=True, check=False, umask=umask)

    make.tree = tree
    return make


def test_a_release(clone, tmp_path):
    done = clone(PASSED)
    assert done.returncode == 0, done.stderr
    made = tmp_path / "made"
    subprocess.run(["sha256sum", "--check", "--quiet", "SHA256SUMS"], cwd=made, check=True)
    assert len((made / "SHA256SUMS").read_text().splitlines()) == len(list(made.iterdir())) - 1 == 5
    commit = printed("git", "rev-parse", "HEAD", cwd=clone.tree).strip()
    wanted = [f"commit {commit}", "kit of version", "the gate's last lines:", *PASSED.splitlines()]
    assert (made / "GATE").read_text().splitlines() == wanted
    names = packed(made)
    assert not [name for name in names if "__pycache__" in name]
    for page in ("README.md", "SECURITY.md", "docs/PLANNERS.md", "docs/town.svg", "docs/MAP.md", "docs/RULES.md", "docs/picture.svg", "python/README.md"):
        assert {f"{top}/{page}" for top in (f"overlay-{VERSION}-x86_64-linux", "./usr/share/doc/overlay")} <= set(names)
    is_an_archive(made, tmp_path)
    is_a_package(made)
    is_a_wheel(made, tmp_path)
    is_a_plugin(made)


def in_memory():
    """Temporary files on another file system, where there is one on which programs may run."""
    there = os.access("/dev/shm", os.W_OK) and not os.statvfs("/dev/shm").f_flag & os.ST_NOEXEC
    return {"TMPDIR": "/dev/shm"} if there else {}


def test_for_everybody(clone, tmp_path):
    """Whoever makes a release, on whatever file system, and keeps files private: its bytes are the same, and all may read it."""
    names = {"made": (0o022, {}), "private": (0o077, in_memory())}
    for name, (umask, more) in names.items():
        done = clone(PASSED, name, umask, **more)
        assert done.returncode == 0, done.stderr
    sums, private = ((tmp_path / name / "SHA256SUMS").read_text() for name in names)
    assert sums == private
    assert {file.stat().st_mode & 0o777 for file in (tmp_path / "private").iterdir()} == {0o644}


def packed(made):
    """The names in the archive and in the package."""
    (archive,), (deb,) = made.glob("*.tar.gz"), made.glob("*.deb")
    return printed("tar", "-tzf", archive).splitlines() + [line.split()[5] for line in printed("dpkg-deb", "-c", deb).splitlines()]


def is_an_archive(made, tmp_path):
    """It runs from any folder."""
    files = [tmp_path / name for name in ("a.wkt", "b.wkt")]
    for file, text in zip(files, SQUARES):
        file.write_text(text)
    anywhere = tmp_path / "any where"
    anywhere.mkdir()
    name = f"overlay-{VERSION}-x86_64-linux"
    printed("tar", "-xzf", made / f"{name}.tar.gz", "-C", anywhere)
    printed("sha256sum", "--check", "--quiet", "SHA256SUMS", cwd=anywhere / name)
    assert printed(anywhere / name / "bin/overlay", "intersection", *files, env={}) == COMMON
    assert "usage: overlay-gis" in printed(anywhere / name / "bin/overlay-gis", "--help", env={"PATH": "/usr/bin:/bin"})


def is_a_package(made):
    """Its fields and its files are Debian's; lintian was asked by release/make, where it is there."""
    deb = made / f"overlay_{VERSION}_amd64.deb"
    assert printed("dpkg-deb", "-f", deb, "Version").strip() == VERSION
    assert "python3-gdal, python3-shapely" in printed("dpkg-deb", "-f", deb, "Depends")
    assert "which features" in printed("dpkg-deb", "-f", deb, "Description")
    names = {line.split()[5] for line in printed("dpkg-deb", "-c", deb).splitlines()}
    for name in ("bin/overlay", "bin/overlay-gis", "include/overlay.h", "lib/x86_64-linux-gnu/liboverlay.a", "share/man/man1/overlay.1.gz"):
        assert f"./usr/{name}" in names
    for name in ("lib/x86_64-linux-gnu/pkgconfig/overlay.pc", "lib/python3/dist-packages/overlay_grid/liboverlay.so", "share/doc/overlay/copyright"):
        assert f"./usr/{name}" in names


def is_a_wheel(made, tmp_path):
    """Unpacked, it is a package that answers, and it says that it is typed."""
    (wheel,) = made.glob(f"overlay_grid-{VERSION}-py3-none-manylinux_2_*_x86_64.whl")
    place = tmp_path / "site"
    printed(sys.executable, "-m", "zipfile", "-e", wheel, place)
    told = "import overlay_grid as o, importlib.metadata as m, sys; print(m.version('overlay_grid'), o.intersection(*sys.argv[1:]), end='')"
    got = printed(sys.executable, "-c", told, *SQUARES, env={"PYTHONPATH": str(place)}, cwd=tmp_path)
    assert got == f"{VERSION} {COMMON}"
    assert (place / "overlay_grid/py.typed").exists()


def is_a_plugin(made):
    """A folder of the plugin's name, with what QGIS asks for in a ZIP file."""
    held = zipfile.ZipFile(made / f"overlay_exact-{VERSION}.zip")
    assert all(name.startswith("overlay_exact/") and "__pycache__" not in name for name in held.namelist())
    assert {"overlay_exact/__init__.py", "overlay_exact/icon.svg", "overlay_exact/LICENSE"} <= set(held.namelist())
    assert f"\nversion={VERSION}\n" in held.read("overlay_exact/metadata.txt").decode()


def blocks(heading):
    """The indented blocks of README under a heading."""
    section = (TOP / "README.md").read_text().partition(f"\n## {heading}\n")[2].partition("\n## ")[0]
    return re.findall(r"(?:^    .*\n(?:\n(?=    ))?)+", section, re.M)


def test_the_lines_that_are_tried():
    """release/try runs README's lines as they stand there, so these have to be there."""
    begun = [line.split()[0] for line in blocks("Install")[0].splitlines()]
    assert begun == ["apt-get", "tar", "python3"]
    planner, python, *_ = blocks("Try it")
    assert all(line.startswith("    overlay-gis ") for line in planner.splitlines())
    assert python.startswith("    import overlay_grid\n")
    assert "`cc example.c $(pkg-config --cflags --libs overlay)`" in (TOP / "README.md").read_text()


@pytest.mark.parametrize(
    "log, words",
    [
        ("", "doesn't say that the gate passed"),
        ("344 passed, 1 failed\n", "doesn't say"),
        ("1 failed, 145 passed in 5.60s\n" + PASSED, "failed"),
        ("gis/tests: NOT RUN: ..\n" + PASSED, "didn't run"),
        (VERDICT + "31 passed in 5.60s\n", "ends before the gate does"),
    ],
)
def test_a_gate_that_did_not_pass(clone, tmp_path, log, words):
    done = clone(log)
    assert done.returncode == 1 and words in done.stderr and not (tmp_path / "made").exists()


@pytest.mark.parametrize("begun", ["", f"commit {'0' * 40}\n", "commit \n"])
def test_a_log_of_another_commit(clone, tmp_path, begun):
    done = clone(PASSED, begun=begun)
    assert done.returncode == 1 and "isn't of commit" in done.stderr and not (tmp_path / "made").exists()


def test_a_clone_with_changes(clone, tmp_path):
    (clone.tree / "README.md").write_text("changed")
    assert "aren't committed" in clone(PASSED).stderr and not (tmp_path / "made").exists()


@pytest.mark.parametrize("built", BUILT)
def test_what_is_older_than_the_commit(clone, tmp_path, built):
    os.utime(clone.tree / built, (0, 0))
    assert "older than the commit" in clone(PASSED).stderr and not (tmp_path / "made").exists()


def test_a_library_that_lacks_a_call(clone, tmp_path):
    """What the package has is linked with include/example.c before it is packed."""
    archive = clone.tree / "crates/overlay_c/out/liboverlay_c.a"
    archive.unlink()
    subprocess.run(["ar", "rcs", archive], check=True)
    assert "doesn't link" in clone(PASSED).stderr and not (tmp_path / "made").exists()


@pytest.mark.parametrize("built", BUILT)
def test_what_is_not_there(clone, tmp_path, built):
    (clone.tree / built).unlink()
    assert "there is no" in clone(PASSED).stderr and not (tmp_path / "made").exists()


def test_two_versions(clone, tmp_path):
    (clone.tree / "VERSION").write_text("9.9.9\n")
    subprocess.run(["git", "-c", "user.name=a", "-c", "user.email=a@b", "commit", "-qam", "another"], cwd=clone.tree, check=True)
    assert "told differently" in clone(PASSED).stderr and not (tmp_path / "made").exists()


def test_another_version(clone):
    """It is written to all places that tell it, and the changelog's heading is missed."""
    done = subprocess.run([clone.tree / "release/version", "2.3.4"], capture_output=True, text=True, check=False)
    assert (done.returncode, done.stdout) == (1, "2.3.4\n")
    assert done.stderr == "release/version: CHANGELOG.md has no heading of 2.3.4\n"
    changed = printed("git", "diff", "--numstat", cwd=clone.tree).splitlines()
    assert len(changed) == 9
    # The tests of what help prints have it twice.
    assert all(line.startswith(("1\t1\t", "2\t2\tcrates/program_tests/")) for line in changed)
