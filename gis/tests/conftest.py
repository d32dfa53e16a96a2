"""What the tests have in common: layers that they make, and the command in this process."""

from __future__ import annotations

import os
import random
import signal
import subprocess
import sys
import time
from dataclasses import dataclass
from pathlib import Path
from typing import Callable

import pytest
from osgeo import gdal, ogr, osr
from shapely import wkb
from shapely.geometry import MultiPolygon, Polygon, box
from shapely.geometry.base import BaseGeometry

sys.path.insert(0, str(Path(__file__).resolve().parents[1]))

from overlay_gis import cli, passwords  # noqa: E402

COMMAND = str(Path(__file__).resolve().parents[1] / "overlay-gis")
UTM = "EPSG:25832"
EAST, NORTH = 412000, 5654000


@dataclass
class Answer:
    status: int
    out: str
    err: str


def system(name: str) -> osr.SpatialReference:
    found = osr.SpatialReference()
    found.SetFromUserInput(name)
    found.SetAxisMappingStrategy(osr.OAMS_TRADITIONAL_GIS_ORDER)
    return found


def write(
    path: Path,
    shapes: list[BaseGeometry | ogr.Geometry | None],
    srs: str | None = UTM,
    fields: dict[str, list] | None = None,
    kind: int = ogr.wkbUnknown,
) -> str:
    """A layer file of these shapes; `fields` has a value for each."""
    driver = {".gpkg": "GPKG", ".shp": "ESRI Shapefile", ".geojson": "GeoJSON", ".fgb": "FlatGeobuf"}[path.suffix]
    dataset = gdal.GetDriverByName(driver).Create(str(path), 0, 0, 0, gdal.GDT_Unknown)
    layer = dataset.CreateLayer(path.stem, system(srs) if srs else None, kind)
    types = {int: ogr.OFTInteger64, float: ogr.OFTReal, str: ogr.OFTString}
    for name, values in (fields or {}).items():
        layer.CreateField(ogr.FieldDefn(name, types[type(values[0])]))
    for number, shape in enumerate(shapes):
        feature = ogr.Feature(layer.GetLayerDefn())
        if shape is not None:
            feature.SetGeometry(
                shape if isinstance(shape, ogr.Geometry) else ogr.CreateGeometryFromWkb(wkb.dumps(shape))
            )
        for name, values in (fields or {}).items():
            feature[name] = values[number]
        layer.CreateFeature(feature)
    return str(path)


def read(path: str | Path) -> list[tuple[BaseGeometry | None, dict]]:
    """The shapes, where there are such, and the fields of a layer file's features."""
    dataset = gdal.OpenEx(str(path), gdal.OF_VECTOR)
    return [(shape_of(feature), feature.items()) for feature in dataset.GetLayer(0)]


def shape_of(feature: ogr.Feature) -> BaseGeometry | None:
    geometry = feature.GetGeometryRef()
    return None if geometry is None else wkb.loads(bytes(geometry.ExportToWkb()))


def corner(rng: random.Random, x: float, y: float, by: float, digits: int) -> tuple[float, float]:
    return round(EAST + x + rng.uniform(-by, by), digits), round(NORTH + y + rng.uniform(-by, by), digits)


def parcels(seed: int, digits: int, side: int = 6, step: float = 31.7) -> list[BaseGeometry]:
    """Parcels that share their borders, some with a pond, some of two parts."""
    rng = random.Random(seed)
    at = [[corner(rng, i * step, j * step, step / 4, digits) for j in range(side + 1)] for i in range(side + 1)]
    made: list[BaseGeometry] = []
    for i in range(side):
        for j in range(side):
            shell = [at[i][j], at[i + 1][j], at[i + 1][j + 1], at[i][j + 1]]
            x, y = (i + 0.5) * step, (j + 0.5) * step
            pond = [corner(rng, x + dx, y + dy, 1, digits) for dx, dy in ((-3, -3), (4, -2), (0, 4))]
            made.append(Polygon(shell, [pond] if (i + j) % 4 == 0 else []))
    far = MultiPolygon([box(EAST - 60, NORTH + k * 20, EAST - 45.5, NORTH + k * 20 + 12.25) for k in (0, 1)])
    return made + [far]


def blobs(seed: int, digits: int, count: int = 5) -> list[BaseGeometry]:
    """Zones with bent borders, apart from one another."""
    rng, made = random.Random(seed), []
    for k in range(count):
        x, y = 40.0 * k, rng.uniform(0, 150)
        circle = Polygon([(EAST + x, NORTH + y + 1)] + [(EAST + x + 1, NORTH + y)] * 2).centroid.buffer(19, 12)
        made.append(
            Polygon(
                [
                    (round(a + rng.uniform(-1, 1), digits), round(b + rng.uniform(-1, 1), digits))
                    for a, b in circle.exterior.coords[:-1]
                ]
            )
        )
    assert all(shape.is_valid for shape in made)
    return made


@pytest.fixture(autouse=True)
def unsynced(monkeypatch):
    """No test of this process waits for the disk, which others may keep busy; `synced` are the
    files that would be waited for."""
    synced = []
    monkeypatch.setattr(os, "fsync", lambda number: synced.append(os.readlink(f"/proc/self/fd/{number}")))
    return synced


@pytest.fixture(autouse=True)
def no_passwords(monkeypatch):
    """No test hides words that others had as passwords."""
    monkeypatch.setattr(passwords, "_known", set())


@pytest.fixture
def gis(capfd, monkeypatch, tmp_path):
    """Runs the command in a folder of its own and answers its status and what it said."""
    monkeypatch.chdir(tmp_path)

    def call(*words: str) -> Answer:
        capfd.readouterr()
        try:
            status = cli.main([str(word) for word in words])
        except SystemExit as end:
            status = end.code if isinstance(end.code, int) else 1
        said = capfd.readouterr()
        return Answer(status, said.out, said.err)

    return call


@pytest.fixture(scope="session")
def program() -> str:
    named = os.environ.get("OVERLAY")
    assert named, "OVERLAY names no program; use gis/tests/run"
    return named


def waiting(folder: Path, count: int) -> str:
    """Lines of the shell that wait until a folder has so many files, for some minutes at most,
    which a busy machine may take."""
    there = f'[ "$(ls "{folder}" | wc -l)" -ge {count} ]'
    return f"for k in $(seq 3000); do {there} && break; sleep 0.1; done\n{there} || exit 1\n"


def running(number: int) -> bool:
    """Whether there is a process of this number."""
    try:
        os.kill(number, 0)
    except ProcessLookupError:
        return False
    return True


@pytest.fixture
def begun(tmp_path):
    """A folder in which a run of the program puts an empty file whose name is its number, by
    `touch`: no number is half there."""
    folder = tmp_path / "begun"
    folder.mkdir()
    return folder


def numbers_in(folder: Path) -> list[int]:
    return [int(path.name) for path in folder.iterdir()]


def said_when_stopped(folder: Path, more: list[str], environment: dict[str, str], number: int, is_at_work: Callable[[], bool]) -> str:
    """What a union of a.gpkg and b.gpkg says where a signal comes while it is at work."""
    command = subprocess.Popen(
        [sys.executable, COMMAND, "run", "union", "a.gpkg", "b.gpkg", "-o", "out.gpkg", *more],
        cwd=folder,
        env=environment,
        stderr=subprocess.PIPE,
        text=True,
        preexec_fn=lambda: signal.signal(number, signal.SIG_DFL),
    )
    try:
        while not is_at_work():
            assert command.poll() is None
            time.sleep(0.01)
        command.send_signal(number)
        said = command.communicate(timeout=300)[1]
    finally:
        command.kill()
    assert command.returncode == 1
    return said


@pytest.fixture
def pretend(monkeypatch, tmp_path):
    """Puts a script of the shell in the program's place."""

    def put(script: str) -> None:
        path = tmp_path / "pretended"
        path.write_text("#!/bin/sh\n" + script)
        path.chmod(0o755)
        monkeypatch.setenv("OVERLAY", str(path))

    return put
