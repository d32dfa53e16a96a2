"""The wheel with nothing proved: that it answers, and that it says so."""

import doctest
import importlib.util
import os
import shutil
import subprocess
import sys
import zipfile

import overlay_grid
import pytest
from test_overlay_grid import OTHER, ROOT, SQUARE, WORKED

BUILD = os.path.join(ROOT, "python", "build")
SCRIPT = os.path.join(ROOT, "python", "unproved.py")
LIBRARY = os.path.join(os.path.dirname(overlay_grid.__file__), "liboverlay.so")

TOLD = f"""
import overlay_grid
print(overlay_grid.__version__, overlay_grid.__proved__)
print(overlay_grid.intersection({SQUARE!r}, {OTHER!r}), end="")
print([row.twice_area for row in overlay_grid.faces({SQUARE!r}, {OTHER!r})])
print([area.b.area for area in [overlay_grid.measured("union", {SQUARE!r}, {OTHER!r}, grid=1)]])
"""


@pytest.fixture(scope="module")
def wheel(tmp_path_factory):
    if not shutil.which("rustc"):
        pytest.skip("no rustc")
    if not shutil.which("hatchling"):
        pytest.skip("no hatchling: apt-get install python3-hatchling")
    folder, before = tmp_path_factory.mktemp("made"), os.stat(LIBRARY)
    made = subprocess.run([BUILD, "--unproved", folder], capture_output=True, text=True)
    assert made.returncode == 0, made.stderr
    assert made.stdout.splitlines()[-1].endswith("with NOTHING PROVED")
    after = os.stat(LIBRARY)
    assert (after.st_ino, after.st_mtime_ns) == (before.st_ino, before.st_mtime_ns)
    (found,) = folder.iterdir()
    return found


def test_it_says_so(wheel):
    version = f"{overlay_grid.__version__}+unproved"
    assert wheel.name.startswith(f"overlay_grid-{version}-py3-none-manylinux_2_") and wheel.stat().st_mode & 0o777 == 0o644
    held = zipfile.ZipFile(wheel)
    said = held.read(f"overlay_grid-{version}.dist-info/METADATA").decode().splitlines()
    assert f"Version: {version}" in said
    assert "Summary: Overlay of polygon layers on the integer grid, exactly, by a library of which NOTHING IS PROVED" in said
    assert not [name for name in held.namelist() if "test" in name or name.endswith("unproved.py")]


def test_it_answers(wheel, tmp_path):
    zipfile.ZipFile(wheel).extractall(tmp_path)
    told = subprocess.run([sys.executable, "-c", TOLD], cwd=tmp_path, env={}, capture_output=True, text=True)
    assert told.stderr == ""
    assert told.stdout == f"{overlay_grid.__version__}+unproved False\n{WORKED['intersection']}[24, 8, 24]\n[16.0]\n"


def test_what_is_wanted():
    ended = subprocess.run([sys.executable, SCRIPT], capture_output=True, text=True)
    assert (ended.returncode, ended.stdout) == (2, "") and ended.stderr.rstrip().endswith("unproved.py FOLDER")
    ended = subprocess.run([sys.executable, SCRIPT, "folder"], env={"PATH": ""}, capture_output=True, text=True)
    assert (ended.returncode, ended.stdout) == (1, "") and ended.stderr.startswith("python/build: there is no rustc")


def test_calls_of_c():
    spec = importlib.util.spec_from_file_location("python_unproved", SCRIPT)
    module = importlib.util.module_from_spec(spec)
    spec.loader.exec_module(module)
    assert doctest.testmod(module) == (0, 1)
    begun = 'pub extern "C" fn f(a: &mut [u32], b: u32) {'
    assert module.CALL.sub(module.c_call, begun) == (
        'pub extern "C" fn f(a: *mut u32, a_length: usize, b: u32) { let a = unsafe { crate::slices::unique(a, a_length) };'
    )
