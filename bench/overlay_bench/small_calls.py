"""Small calls beside other libraries: pairs of polygons of 10 to 50 corners, by C and by Python; a part of `bench/run bridge`."""
from __future__ import annotations

import math
import os
import random
import shutil
import subprocess
import tempfile
from dataclasses import dataclass

from . import layers, programs
from .peer_tools import DEBIAN_PYTHON, PEERS

RADIUS = 20_000
LIBRARY = os.path.join(programs.ROOT, "python", "overlay_grid", "liboverlay.so")
OURS = "overlay, by C, text to text"


@dataclass(frozen=True)
class Row:
    """What so many calls took by one library, their area together, and how many had no answer."""

    name: str
    seconds: float
    area: float
    failed: int


def blob(rng: random.Random, x: int, y: int) -> list[tuple[int, int]]:
    corners = rng.randint(10, 50)
    turned = [(2 * math.pi * (k + rng.random() / 2) / corners, RADIUS * rng.uniform(0.55, 1)) for k in range(corners)]
    return [(round(x + radius * math.cos(angle)), round(y + radius * math.sin(angle))) for angle, radius in turned]


def write(folder: str, count: int) -> list[str]:
    """So many pairs, a polygon a line in either file."""
    rng, paths = random.Random(7), [os.path.join(folder, "small-%s.wkt" % layer) for layer in "ab"]
    for path, (x, y) in zip(paths, ((0, 0), (8_000, 6_000))):
        with open(path, "w", encoding="ascii") as file:
            file.write(layers.text_of([[blob(rng, x, y)] for _ in range(count)]))
    return paths


def compiled() -> str:
    """The program of Clipper, GEOS and the library for C; nothing where it can't be made."""
    if not (shutil.which("g++") and os.path.exists("/usr/include/polyclipping/clipper.hpp")):
        return ""
    built, source = os.path.join(programs.OUT, "peer-small"), os.path.join(PEERS, "small.cpp")
    if not programs.newer(built, [source, os.path.join(PEERS, "layers.h")]):
        os.makedirs(programs.OUT, exist_ok=True)
        with tempfile.TemporaryDirectory(dir=programs.OUT) as own:
            made, geos = os.path.join(own, "made"), ["-lgeos_c"] if os.path.exists("/usr/include/geos_c.h") else []
            subprocess.run(["g++", "-O2", "-std=c++17", "-DNDEBUG", "-o", made, source, "-lpolyclipping", *geos, "-ldl"], check=True)
            os.replace(made, built)
    return built


def commands(files: list[str]) -> list[list[str]]:
    """What makes all calls, by each library that is there."""
    has_library = os.path.exists(LIBRARY)
    found = [[compiled(), *files, *[LIBRARY] * has_library]] if compiled() else []
    if has_library:
        found.append([DEBIAN_PYTHON, os.path.join(PEERS, "small.py"), "overlay", *files, os.path.dirname(os.path.dirname(LIBRARY))])
    return [*found, [DEBIAN_PYTHON, os.path.join(PEERS, "small.py"), "shapely", *files]]


def rows(folder: str, count: int, rounds: int) -> list[Row]:
    """A row for each library, of the round that took the least; that of overlay by C first where it is there."""
    files = write(folder, count)
    found: dict[str, Row] = {}
    for words in commands(files) * rounds:
        for line in subprocess.run(words, capture_output=True, text=True, check=True).stdout.splitlines():
            name, microseconds, area, failed = line.split("\t")
            row = Row(name, float(microseconds) * count / 1e6, float(area), int(failed))
            found[name] = min(row, found.get(name, row), key=lambda one: one.seconds)
    return sorted(found.values(), key=lambda row: row.name != OURS)


def tell_missing() -> None:
    has_library = os.path.exists(LIBRARY)
    if not has_library:
        print("overlay by C and Python is left out: python/build")
    if not (compiled() and os.path.exists("/usr/include/geos_c.h")):
        print("Clipper or GEOS by C is left out: g++ libpolyclipping-dev libgeos-dev")
