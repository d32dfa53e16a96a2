"""asks overlay-gis, Shapely, GeoPandas, PostGIS and QGIS for what the town of samples/ has in common, its files as they come

Two jobs, with nothing repaired before: `pairs` is which parcel lies in which zone, and how much of it, `cover` the area that all parcels
cover. For each tool it prints the status with which it ended, the number of pairs, the area in square metres, and what it said. A tool
that isn't there is named and left out (see `peers` for the packages, and python3-geopandas). README's first table has these rows.
The exit status is 1 where overlay-gis has no answer.
"""
from __future__ import annotations

import argparse
import csv
import os
import re
import subprocess
import tempfile
from collections.abc import Callable
from dataclasses import dataclass

from . import peer_tools, postgres, programs, shapes
from .peer_tools import DEBIAN_PYTHON, PEERS, words_of

PARCELS, ZONES = (os.path.join(programs.ROOT, "samples", "town-%s.geojson" % name) for name in ("parcels", "zones"))
JOBS = ("pairs", "cover")
HEAD = ("tool", "version", "job", "status", "pairs", "area", "said")
GIS = os.path.join(programs.ROOT, "gis", "overlay-gis")
SCRIPT = os.path.join(PEERS, "unrepaired.py")
SECONDS = 600
STATEMENTS = {
    "pairs": "select count(*), round(sum(x)::numeric, 3) from (select st_area(st_intersection(a.geom, b.geom)) x from a, b) t where x > 0",
    "cover": "select 1, round(st_area(st_union(geom))::numeric, 3) from a",
}


@dataclass(frozen=True)
class Found:
    """The exit status of a tool, how many rows its answer has, their area, and what it said."""

    status: int
    rows: int | None = None
    area: float | None = None
    said: str = ""


# Answers a job; in a folder of its own.
Answers = Callable[[str, str], Found]


@dataclass(frozen=True)
class Asked:
    name: str
    version: Callable[[], str]
    answers: Answers


def add_arguments(parser: argparse.ArgumentParser) -> None:
    parser.add_argument("--only", nargs="+", default=[], metavar="TOOL", help="tools whose names begin so")


def run(words: list[str], folder: str, **environment: str) -> subprocess.CompletedProcess[str]:
    return subprocess.run(words, capture_output=True, text=True, cwd=folder, timeout=SECONDS, env={**os.environ, **environment}, check=False)


def by_overlay(program: str) -> Asked:
    about = {"OVERLAY": os.path.abspath(program), "PYTHONDONTWRITEBYTECODE": "1"}

    def answers(job: str, folder: str) -> Found:
        table, output = os.path.join(folder, "pairs.csv"), os.path.join(folder, "out.gpkg")
        words = ["faces", PARCELS, ZONES, "-o", output, "--pairs", table] if job == "pairs" else ["dissolve", PARCELS, "-o", output]
        done = run([GIS, *words], folder, **about)
        if done.returncode:
            return Found(done.returncode, said=words_of(done.stderr))
        if job == "cover":
            rows = [float(row[0]) for row in shapes.rows_of_geopackage(output, ("area",))]
        else:
            with open(table, encoding="utf-8") as file:
                rows = [float(row["area"]) for row in csv.DictReader(file)]
        return Found(0, len(rows), sum(rows))

    return Asked("overlay-gis", lambda: run([GIS, "--version"], programs.ROOT).stdout.strip(), answers)


def by_python(tool: str) -> Asked:
    def version() -> str:
        done = run([DEBIAN_PYTHON, SCRIPT, tool, "--version"], programs.ROOT)
        if done.returncode:
            raise OSError(words_of(done.stderr))
        return done.stdout.strip()

    def answers(job: str, folder: str) -> Found:
        done = run([DEBIAN_PYTHON, SCRIPT, tool, job, PARCELS, ZONES], folder)
        if done.returncode:
            return Found(done.returncode, said=words_of(done.stderr))
        rows, area = done.stdout.split()[-2:]
        return Found(0, int(rows), float(area), words_of(done.stderr))

    return Asked(tool, version, answers)


def by_postgis() -> Asked:
    tool = peer_tools.PostGis("PostGIS", "", "")

    def version() -> str:
        if tool.missing():
            raise OSError(tool.missing())
        return tool.version()

    def answers(job: str, folder: str) -> Found:
        server = tool.started()
        for table, path in (("a", PARCELS), ("b", ZONES)):
            with open(path, encoding="utf-8") as file:
                text = file.read().replace("'", "''")
            rows = "select st_geomfromgeojson(f -> 'geometry') geom from json_array_elements('%s'::json -> 'features') f" % text
            done = server.psql("drop table if exists %s" % table, "create table %s as %s" % (table, rows))
            if done.returncode:
                return Found(done.returncode, said=words_of(done.stderr))
        done = server.psql(STATEMENTS[job])
        if done.returncode:
            return Found(done.returncode, said=words_of(done.stderr))
        count, area = re.split(r"[|\s]+", done.stdout.strip())[-2:]
        return Found(0, int(count), float(area))

    return Asked(tool.name, version, answers)


def by_qgis() -> Asked:
    tool = peer_tools.Qgis("QGIS")

    def version() -> str:
        if tool.missing():
            raise OSError(tool.missing())
        return tool.version()

    def answers(job: str, folder: str) -> Found:
        output = os.path.join(folder, "out.gpkg")
        words = {"INPUT": PARCELS, "OVERLAY": ZONES} if job == "pairs" else {"INPUT": PARCELS}
        name = "native:intersection" if job == "pairs" else "native:dissolve"
        call = ["qgis_process.bin", "run", name, "--", *("%s=%s" % pair for pair in words.items()), "OUTPUT=" + output]
        done = subprocess.run(call, capture_output=True, text=True, timeout=SECONDS, env=tool.environment(folder), check=False)
        areas = [shapes.area(shapes.of_lines(blob.hex() + "\n")) for blob in shapes.geometries_of_geopackage(output)] if os.path.exists(output) else []
        return Found(done.returncode, len(areas), sum(areas), words_of(done.stderr) if done.returncode else "")

    return Asked(tool.name, version, answers)


def shown(found: Found) -> list[str]:
    return [str(found.status), "" if found.rows is None else str(found.rows), "" if found.area is None else "%.3f" % found.area, found.said]


def main(arguments: argparse.Namespace) -> int:
    print("| %s |\n%s|" % (" | ".join(HEAD), "|---" * len(HEAD)))
    wrong = False
    tools = [by_overlay(arguments.program), by_python("shapely"), by_python("geopandas"), by_postgis(), by_qgis()]
    for tool in tools:
        if arguments.only and not any(tool.name.startswith(word) for word in arguments.only):
            continue
        try:
            version = tool.version()
        except (OSError, subprocess.SubprocessError) as error:
            print("| %s | | | | | | not run: %s |" % (tool.name, words_of(str(error))))
            continue
        for job in JOBS:
            with tempfile.TemporaryDirectory() as folder:
                found = tool.answers(job, folder)
            print("| %s |" % " | ".join([tool.name, version, job, *shown(found)]), flush=True)
            wrong |= tool.name == "overlay-gis" and found.status != 0
    if peer_tools.PostGis.server is not None:
        peer_tools.PostGis.server.__exit__()
    return int(wrong)
