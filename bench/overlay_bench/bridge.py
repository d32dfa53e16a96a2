"""measures overlay-gis beside Shapely, geopandas and PostGIS, from GeoPackage to GeoPackage, and small calls beside GEOS and Clipper

The maps are those of `peers`, a town's parcels and zones: `raw` with the usual dirt, `valid` the same with each feature made valid.

  dissolve  what some parcel covers                     overlay-gis dissolve
  common    what some parcel and some zone both cover   overlay-gis run intersection
  faces     which parcel lies on which zone             overlay-gis faces, beside an intersection pair by pair
  check     which parcels overlap                       overlay-gis check, beside an intersection of neighbours, made valid
  run       what an odd number of parcels and of zones  overlay-gis run intersection, beside the program on the layers' texts and a
            cover                                       plain copy of both files by ogr2ogr; of the raw map alone

Each tool reads the layers from files and writes its answer to one, but PostGIS, whose tables are loaded before (`load`) and whose
answer is a table. Areas of pairs are sums over all pairs; `off` is how far an area is from that of overlay-gis, in millionths of the
greatest one that overlay-gis tells of the map. Seconds are of the round that took the least of processors, with all that was started;
ratios are to overlay-gis; MB are the most that one process held. The small calls, of 10,000 pairs of polygons of 10 to 50 corners, are
measured by overlay's by C.

Needs what `peers` needs, python3-geopandas, libgeos-dev for GEOS by C, and python/build; what isn't there is told. The exit status is 1
where overlay doesn't answer, where another area of the valid map, or of the small calls, is off by more than --off, or where `run` on
100,000 segments or more takes more than twice what the program and the copy take together, or holds more than four times both texts
beyond what it holds for a map of 100 segments.
"""
from __future__ import annotations

import argparse
import os
import re
import shutil
import signal
import subprocess
import sys
import tempfile
import time
from collections.abc import Callable
from dataclasses import dataclass

from . import peer_tools, postgres, programs, shapes, small_calls, town, watching
from .peer_tools import DEBIAN_PYTHON, PEERS, fault_of

JOBS = ("dissolve", "common", "faces", "check", "run")
MAPS = ("raw", "valid")
SCRIPT = os.path.join(PEERS, "bridge.py")
GIS = os.path.join(programs.ROOT, "gis", "overlay-gis")
# From how many segments on what `run` takes is judged: below, what starts take is most of it.
LARGE = 100_000
ON_GRID = ("--grid", "1", "--origin", "0,0", "--overwrite")
HEAD = ("tool", "map", "segments", "job", "answers", "area", "off", "processor s", "clock s", "ratio", "MB")
PAIRS = "select st_intersection(p.geom, q.geom) geom from {0} p join {1} q on {2}st_intersects(p.geom, q.geom)"
STATEMENTS = {
    "dissolve": "select (st_dump(st_union(geom))).geom from a",
    "common": "select (st_dump(st_intersection((select st_union(geom) from a), (select st_union(geom) from b)))).geom",
    "faces": PAIRS.format("a", "b", ""),
    "check": PAIRS.format("v", "v", "p.id < q.id and "),
}
# The parcels made valid, with an index, for their check.
VALID = ("drop table if exists v", "create table v as select id, st_makevalid(geom) geom from a", "create index on v using gist (geom)", "analyze v")


def add_arguments(parser: argparse.ArgumentParser) -> None:
    parser.add_argument("--sizes", nargs="+", type=int, default=(10_000, 100_000, 500_000), metavar="SEGMENTS", help="of either layer")
    parser.add_argument("--maps", nargs="+", default=MAPS, choices=MAPS)
    parser.add_argument("--jobs", nargs="+", default=JOBS, choices=JOBS)
    parser.add_argument("--rounds", type=int, default=3, help="runs of each job, of which the least counts")
    parser.add_argument("--seconds", type=float, default=1_800, help="after which a run is over")
    parser.add_argument("--off", type=float, default=1.0, help="the most millionths that an area of the valid map may be off")
    parser.add_argument("--calls", type=int, default=10_000, help="how many small calls; 0 for none")


@dataclass(frozen=True)
class Done:
    """Why there is no answer (nothing where there is one), its area, seconds of processors and on the clock, and the most that one process
    held (MB; 0 where it isn't measured)."""

    fault: str
    area: float
    processor: float
    clock: float
    memory: float = 0.0


@dataclass(frozen=True)
class Map:
    """Two layers as GeoPackages in a folder, and where an answer goes."""

    folder: str

    def path(self, name: str) -> str:
        return os.path.join(self.folder, name + ".gpkg")

    def compiled(self) -> str:
        """Where Python keeps what it compiled, as it does of a package that is installed."""
        return os.path.join(os.path.dirname(self.folder), "compiled")

    def texts(self) -> list[str]:
        """The layers as texts, which the raw map has."""
        return [os.path.join(self.folder, name + ".wkt") for name in "ab"]


Tool = Callable[[str, Map, argparse.Namespace], Done]


def count(ids: str | None) -> int:
    return 0 if ids is None else len(str(ids).split(","))


def own_area(job: str, path: str) -> float:
    """The area of an answer of overlay-gis; of faces and overlaps each pair of features counts."""
    if job == "faces":
        return float(sum(area * count(a) * count(b) for a, b, area in shapes.rows_of_geopackage(path, ("a", "b", "area"))))
    if job == "check":
        rows = shapes.rows_of_geopackage(path, ("first", "area", "features"))
        return float(sum(area * count(ids) * (count(ids) - 1) / 2 for first, area, ids in rows if first is not None))
    return float(sum(area for area, in shapes.rows_of_geopackage(path, ("area",))))


def by_overlay(job: str, place: Map, arguments: argparse.Namespace) -> Done:
    a, b, out = (place.path(name) for name in ("a", "b", "out"))
    common = ["run", "intersection", a, b]
    asked = {"dissolve": ["dissolve", a], "common": common, "run": [*common, "--parity"], "faces": ["faces", a, b], "check": ["check", a]}
    environment = {**os.environ, "OVERLAY": os.path.abspath(arguments.program), "PYTHONPYCACHEPREFIX": place.compiled()}
    environment.pop("PYTHONDONTWRITEBYTECODE", None)
    words = [GIS, *asked[job], "-o", out, *ON_GRID, "--segments", "4000000"]
    run = watching.watched(words, os.path.join(place.folder, "said"), arguments.seconds, env=environment)
    answers = run.status == 0 or job == "check" and run.status == 4  # 4: it found something
    return Done("" if answers else fault_of(run), own_area(job, out) if answers else 0.0, run.processor, run.clock, run.memory)


def by_program(job: str, place: Map, arguments: argparse.Namespace) -> Done:
    """The program on the texts of both layers."""
    words = [os.path.abspath(arguments.program), "intersection", *place.texts(), "--segments", "4000000"]
    run = watching.watched(words, os.path.join(place.folder, "said"), arguments.seconds)
    return Done(fault_of(run), 0.0, run.processor, run.clock, run.memory)


def by_copy(job: str, place: Map, arguments: argparse.Namespace) -> Done:
    """A plain copy of both files."""
    runs = []
    for layer in "ab":
        if os.path.exists(place.path("out")):
            os.remove(place.path("out"))
        words = ["ogr2ogr", place.path("out"), place.path(layer)]
        runs.append(watching.watched(words, os.path.join(place.folder, "said"), arguments.seconds))
    fault = "".join(filter(None, map(fault_of, runs)))
    return Done(fault, 0.0, sum(run.processor for run in runs), sum(run.clock for run in runs), max(run.memory for run in runs))


def by_script(tool: str) -> Tool:
    def run(job: str, place: Map, arguments: argparse.Namespace) -> Done:
        said, out = os.path.join(place.folder, "said"), place.path("out")
        if os.path.exists(out):
            os.remove(out)
        done = watching.watched([DEBIAN_PYTHON, SCRIPT, tool, job, place.path("a"), place.path("b"), out], said, arguments.seconds)
        with open(said, encoding="ascii") as file:
            area = re.findall(r"^area (\S+)$", file.read(), re.M)
        return Done(fault_of(done), float(area[0]) if area else 0.0, done.processor, done.clock, done.memory)

    return run


class Tables:
    """Both layers in a PostgreSQL server of its own."""

    def __init__(self, server: postgres.Server):
        self.server = server
        server.said("create extension if not exists postgis")

    def timed(self, call: Callable[[], subprocess.CompletedProcess[str]]) -> Done:
        before, start = self.server.processor(), time.monotonic()
        done = call()
        clock, processor = time.monotonic() - start, self.server.processor() - before
        fault = peer_tools.over(processor) if "statement timeout" in done.stderr else peer_tools.words_of(done.stderr) if done.returncode else ""
        return Done(fault, 0.0, processor, clock)

    def load(self, place: Map, arguments: argparse.Namespace) -> Done:
        """Both tables and their indexes."""
        paths = [os.path.join(place.folder, table + ".hex") for table in "ab"]
        for table, path in zip("ab", paths):
            with open(path, "wb") as file:
                subprocess.run([DEBIAN_PYTHON, SCRIPT, "lines", place.path(table)], stdout=file, check=True)

        def copied() -> subprocess.CompletedProcess[str]:
            for table, path in zip("ab", paths):
                self.server.said("drop table if exists %s; create table %s (id serial, geom geometry)" % (table, table))
                statements = [text % table for text in ("copy %s (geom) from stdin", "create index on %s using gist (geom)", "analyze %s")]
                with open(path, encoding="ascii") as source:
                    done = self.server.psql(*statements, source=source)
            return done

        return self.timed(copied)

    def run(self, job: str, place: Map, arguments: argparse.Namespace) -> Done:
        limit = "set statement_timeout = %d" % (1000 * arguments.seconds)
        before = VALID if job == "check" else ()
        asked = (limit, "set max_parallel_workers_per_gather = 0", *before, "drop table if exists r", "create table r as " + STATEMENTS[job])
        done = self.timed(lambda: self.server.psql(*asked, seconds=2 * arguments.seconds))
        area = 0.0 if done.fault else float(self.server.said("select coalesce(sum(st_area(geom)), 0) from r"))
        return Done(done.fault, area, done.processor, done.clock)


class Table:
    """Prints the rows; overlay-gis, which comes first, is the measure of the others."""

    def __init__(self, arguments: argparse.Namespace):
        self.arguments, self.wrong = arguments, False
        self.ours: dict[tuple[str, int, str], Done] = {}
        self.greatest: dict[tuple[str, int], float] = {}
        print("| %s |\n%s|" % (" | ".join(HEAD), "|---" * len(HEAD)), flush=True)

    def show(self, tool: str, name: str, size: int, job: str, done: Done) -> None:
        is_ours = tool in ("overlay-gis", small_calls.OURS)
        if is_ours and not done.fault:
            self.ours[name, size, job] = done
            self.greatest[name, size] = max(done.area, self.greatest.get((name, size), 0.0))
        ours, off = self.ours.get((name, size, job)), None
        told = ["", "", "", "", "", ""]
        if not done.fault:
            if ours and ours.area and done.area:
                off = 1e6 * (done.area - ours.area) / self.greatest[name, size]
            ratio = "%.2f" % (done.processor / ours.processor) if ours else ""
            shown = "%.1f" % done.area if done.area else ""
            clock, memory = ("%.*f" % (digits, taken) if taken else "" for digits, taken in ((2, done.clock), (0, done.memory)))
            told = [shown, "" if off is None else "%+.3f" % off, "%.2f" % done.processor, clock, ratio, memory]
        self.wrong |= is_ours and bool(done.fault) or name != "raw" and off is not None and abs(off) > self.arguments.off
        cells = [tool, name, str(size), job, done.fault or "yes", *told]
        print("| %s |" % " | ".join(cell.replace("|", "/") for cell in cells), flush=True)


def maps(folder: str, size: int, names: list[str]) -> dict[str, Map]:
    """The maps of a size as GeoPackages."""
    found = {name: Map(os.path.join(folder, "%d-%s" % (size, name))) for name in dict.fromkeys(["raw", *names])}
    for place in found.values():
        os.mkdir(place.folder)
    raw = found["raw"]
    programs.apart(lambda: peer_tools.Layers(raw.folder, town.town(size, True)).packages())
    if "valid" in names:
        for layer in "ab":
            subprocess.run([DEBIAN_PYTHON, SCRIPT, "valid", raw.path(layer), found["valid"].path(layer)], check=True)
    return {name: found[name] for name in names}


def least(tool: Tool, job: str, place: Map, arguments: argparse.Namespace) -> Done:
    """The round that took the least; one that has no answer isn't tried again."""
    best = tool(job, place, arguments)
    for _ in range(arguments.rounds - 1):
        if best.fault:
            break
        best = min(best, tool(job, place, arguments), key=lambda done: done.processor)
    return best


def run_is_dear(table: Table, size: int, place: Map, start: float, arguments: argparse.Namespace) -> bool:
    """Whether `run` on the raw map takes more than it may beside the program and a copy; each has its row. Start is what it holds (MB)
    for a map of next to nothing."""
    tools: dict[str, Tool] = {"overlay-gis": by_overlay, "overlay, texts": by_program, "ogr2ogr, both files": by_copy}
    done = {tool: least(run, "run", place, arguments) for tool, run in tools.items()}
    for tool, found in done.items():
        table.show(tool, "raw", size, "run", found)
    ours, program, copy = done.values()
    texts = sum(os.path.getsize(path) for path in place.texts()) / 1e6
    return size >= LARGE and (ours.processor > 2 * (program.processor + copy.processor) or ours.memory > start + 4 * texts)


def on_map(table: Table, name: str, size: int, place: Map, tables: Tables | None, arguments: argparse.Namespace) -> None:
    tools: dict[str, Tool] = {"overlay-gis": by_overlay, "Shapely": by_script("shapely"), "geopandas": by_script("geopandas")}
    if tables:
        table.show("PostGIS", name, size, "load", tables.load(place, arguments))
        tools["PostGIS"] = tables.run
    for job in (job for job in arguments.jobs if job != "run"):
        for tool, run in tools.items():
            if (tool, job) != ("geopandas", "check"):  # it has no such call of its own
                table.show(tool, name, size, job, least(run, job, place, arguments))


def missing() -> str:
    """What isn't there of what all but PostGIS need."""
    there = subprocess.run([DEBIAN_PYTHON, SCRIPT, "--version"], capture_output=True, text=True, check=False)
    return "" if there.returncode == 0 and shutil.which("ogr2ogr") else "python3-shapely python3-geopandas python3-gdal gdal-bin"


def main(arguments: argparse.Namespace) -> int:
    signal.signal(signal.SIGTERM, lambda *_: sys.exit("ended by SIGTERM"))  # so that the server is ended too
    if missing():
        print("not run: it needs " + missing())
        return 1
    table = Table(arguments)
    with tempfile.TemporaryDirectory() as folder:
        has_postgis = not peer_tools.PostGis("", "", "").missing()
        server = postgres.Server() if has_postgis else None
        try:
            tables = Tables(server.__enter__()) if server else None
            start = by_overlay("run", maps(folder, 100, ["raw"])["raw"], arguments).memory
            for size in arguments.sizes:
                for name, place in maps(folder, size, arguments.maps).items():
                    if name == "raw" and "run" in arguments.jobs:  # first, while this process is small
                        table.wrong |= run_is_dear(table, size, place, start, arguments)
                    on_map(table, name, size, place, tables, arguments)
        finally:
            if server:
                server.__exit__()
        if not has_postgis:
            print("PostGIS is left out: " + peer_tools.PostGis.needs)
        for row in small_calls.rows(folder, arguments.calls, arguments.rounds) if arguments.calls else []:
            fault = "%d have no answer" % row.failed if row.failed else ""
            table.show(row.name, "small calls", arguments.calls, "common", Done(fault, row.area, row.seconds, 0.0))
        small_calls.tell_missing()
        return int(table.wrong)
