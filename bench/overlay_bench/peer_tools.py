"""The tools that `bench/run peers` runs, each by a class: whether it is there, its version, and a job of it on two layers."""
from __future__ import annotations

import json
import os
import random
import re
import shutil
import subprocess
import tempfile
import time
from dataclasses import dataclass, replace

from . import postgres, programs, shapes, watching
from .town import Feature

PEERS = os.path.join(programs.BENCH, "peers")
DEBIAN_PYTHON = "/usr/bin/python3"
OVER = "no answer"
# What a tool's processor seconds are of.
OPERATION, TEXTS, FILES = "operation alone", "text to text", "file to file"
ONE_WORKER = "overlay, 1 worker"


class Layers:
    """Two layers as files, a polygon a line, and as GeoPackages where a tool asks for these."""

    def __init__(self, folder: str, features: tuple[list[Feature], list[Feature]]):
        self.folder, self.features = folder, features
        self.files = [os.path.join(folder, name) for name in ("a.wkt", "b.wkt")]
        for path, layer in zip(self.files, features):
            with open(path, "w", encoding="ascii") as file:
                file.writelines("POLYGON (%s)\n" % ", ".join("(%s)" % ", ".join("%d %d" % p for p in ring + ring[:1]) for ring in rings) for rings in layer)
        self.nothing = os.path.join(folder, "nothing.wkt")
        with open(self.nothing, "w", encoding="ascii"):
            pass

    def shuffled(self, folder: str) -> "Layers":
        """The same features in another order."""
        first, second = (list(layer) for layer in self.features)
        for layer in (first, second):
            random.Random(9).shuffle(layer)
        return Layers(folder, (first, second))

    def packages(self) -> list[str]:
        """GeoPackages of both, and one without a feature: in metres as far as a tool can know, one unit of the grid is one unit there."""
        found = [path[:-4] + ".gpkg" for path in (*self.files, self.nothing)]
        layers: list[list[Feature]] = [*self.features, []]
        for path, layer in zip(found, layers):
            if os.path.exists(path):
                continue
            shown = [{"type": "Feature", "properties": {}, "geometry": {"type": "Polygon", "coordinates": [ring + ring[:1] for ring in rings]}} for rings in layer]
            with open(path + ".json", "w", encoding="ascii") as file:
                json.dump({"type": "FeatureCollection", "features": shown}, file)
            subprocess.run(["ogr2ogr", "-q", "-f", "GPKG", "-nlt", "POLYGON", "-a_srs", "EPSG:25832", path, path + ".json"], check=True)
        return found


@dataclass(frozen=True)
class Run:
    """Why there is no answer (nothing where there is one), seconds of processors and on the clock, threads at work, the answer's lines, and
    the processor seconds from text to text, where a tool reports these beside those of the operation."""

    fault: str
    processor: float = 0.0
    clock: float = 0.0
    threads: int = 0
    text: str = ""
    whole: float | None = None


def words_of(said: str) -> str:
    """The line of a fault among others, without its place and what stands before an exception's name."""
    lines = [line.strip() for line in said.splitlines() if line.strip()]
    told = ([line for line in lines if "Exception" in line or "rror" in line] or lines[-1:] or [""])[0]
    return re.sub(r"^.*?(\w+Exception: [a-zA-Z ]+?) at .*$", r"\1", told)[:80]


def over(processor: float) -> str:
    return OVER + " within %.0f processor s" % processor


def fault_of(run: watching.Watched) -> str:
    """Why a run has no answer, in a few words."""
    if run.status is None:
        return over(run.processor)
    return "status %d: %s" % (run.status, words_of(run.said)) if run.status else ""


class Tool:
    name, needs, timed = "", "", OPERATION
    words: tuple[str, ...] = ()

    def missing(self) -> str:
        """What isn't there; nothing where all is."""
        return ""

    def version(self) -> str:
        raise NotImplementedError

    def run(self, job: str, layers: Layers, seconds: float) -> Run:
        raise NotImplementedError

    def end(self) -> None:
        pass

    def of_program(self, words: list[str], layers: Layers, seconds: float) -> Run:
        """A program that prints its answer, and tells the processor seconds of the operation alone, or else all of it counts."""
        output = os.path.join(layers.folder, "out")
        run = watching.watched(words, output, seconds)
        told, whole = (re.findall(r"^%s ([0-9.]+)$" % word, run.said, re.M) for word in ("processor", "whole"))
        with open(output, encoding="ascii") as file:
            taken = float(told[-1]) if told else run.processor
            return Run(fault_of(run), taken, run.clock, run.threads, file.read(), float(whole[-1]) if whole else None)


class Overlay(Tool):
    name, needs, timed = "overlay", "the built program", TEXTS

    def __init__(self, program: str, workers: int = 4):
        self.program, self.words = program, ("--workers=%d" % workers,)
        if workers == 1:
            self.name = ONE_WORKER

    def version(self) -> str:
        with open(os.path.join(programs.ROOT, "VERSION"), encoding="ascii") as file:
            return "overlay " + file.read().strip()

    def run(self, job: str, layers: Layers, seconds: float) -> Run:
        first, second = layers.files
        words = ["intersection", first, second] if job == "common" else ["union", first, layers.nothing]
        return self.of_program([self.program, *words, *self.words], layers, seconds)


class Faces(Tool):
    """The faces of both layers with what covers each, or of the first one alone; of these the exact areas."""

    name, needs, timed = "overlay-gis faces", "python3-gdal python3-shapely gdal-bin", FILES

    def __init__(self, program: str):
        self.program = program

    def missing(self) -> str:
        there = subprocess.run([DEBIAN_PYTHON, "-c", "import osgeo.ogr, numpy"], capture_output=True, check=False).returncode == 0
        return "" if there and shutil.which("ogr2ogr") else self.needs

    def version(self) -> str:
        done = subprocess.run([os.path.join(programs.ROOT, "gis", "overlay-gis"), "--version"], capture_output=True, text=True, check=False)
        return done.stdout.strip()

    def run(self, job: str, layers: Layers, seconds: float) -> Run:
        found, output = os.path.join(layers.folder, "faces.gpkg"), os.path.join(layers.folder, "out")
        first, second, nothing = layers.packages()
        if os.path.exists(found):
            os.remove(found)
        environment = {**os.environ, "OVERLAY": os.path.abspath(self.program), "PYTHONDONTWRITEBYTECODE": "1"}
        words = [os.path.join(programs.ROOT, "gis", "overlay-gis"), "faces", first, second if job == "common" else nothing, "-o", found, "--grid", "1", "--origin", "0,0"]
        run = watching.watched(words, output, seconds, env=environment)
        lines = "".join("%s\t%s\t%s\n" % row for row in shapes.rows_of_geopackage(found, ("a", "b", "area"))) if run.status == 0 else ""
        return Run(fault_of(run), run.processor, run.clock, run.threads, lines)


class Geos(Tool):
    needs = "python3-shapely"

    def __init__(self, name: str, *words: str):
        self.name, self.words = name, words

    def missing(self) -> str:
        return "" if subprocess.run([DEBIAN_PYTHON, "-c", "import shapely"], capture_output=True, check=False).returncode == 0 else self.needs

    def version(self) -> str:
        return subprocess.run([DEBIAN_PYTHON, os.path.join(PEERS, "geos.py"), "--version"], capture_output=True, text=True, check=True).stdout.strip()

    def run(self, job: str, layers: Layers, seconds: float) -> Run:
        return self.of_program([DEBIAN_PYTHON, os.path.join(PEERS, "geos.py"), job, *layers.files, *self.words], layers, seconds)


class Compiled(Tool):
    """A program of bench/peers, compiled here."""

    def __init__(self, name: str, source: str, header: str, needs: str, *words: str):
        self.name, self.source, self.header, self.needs, self.words = name, source, header, needs, words
        self.built = os.path.join(programs.OUT, "peer-" + source)

    def missing(self) -> str:
        return "" if shutil.which("g++") and os.path.exists(os.path.join("/usr/include", self.header)) else "g++ " + self.needs

    def version(self) -> str:
        sources = [os.path.join(PEERS, name) for name in (self.source + ".cpp", "layers.h")]
        if not programs.newer(self.built, sources):
            os.makedirs(programs.OUT, exist_ok=True)
            with tempfile.TemporaryDirectory(dir=programs.OUT) as own:
                made = os.path.join(own, "made")
                subprocess.run(["g++", "-O2", "-std=c++17", "-DNDEBUG", "-o", made, sources[0], *self.words], check=True)
                os.replace(made, self.built)
        return subprocess.run([self.built, "--version"], capture_output=True, text=True, check=True).stdout.strip()

    def run(self, job: str, layers: Layers, seconds: float) -> Run:
        return self.of_program([self.built, job, *layers.files], layers, seconds)


class PostGis(Tool):
    """Statements in a server of its own; those of one kind of union share it."""

    needs = "postgresql postgis postgresql-NN-postgis-3"
    server: postgres.Server | None = None
    loaded: Layers | None = None

    def __init__(self, name: str, union: str, common: str):
        self.name, self.union, self.common = name, union, common

    def missing(self) -> str:
        there = postgres.folder() and shutil.which("psql")
        control = there and os.path.join(postgres.folder().replace("/usr/lib", "/usr/share").replace("/bin", ""), "extension", "postgis.control")
        return "" if control and os.path.exists(control) else self.needs

    def started(self) -> postgres.Server:
        if PostGis.server is None:
            PostGis.server = postgres.Server().__enter__()
            PostGis.server.said("create extension postgis")
        return PostGis.server

    def end(self) -> None:
        server, PostGis.server, PostGis.loaded = PostGis.server, None, None
        if server is not None:
            server.__exit__()

    def version(self) -> str:
        told = self.started().said("select split_part(postgis_lib_version(), ' ', 1), split_part(postgis_geos_version(), '-', 1), split_part(version(), ' ', 2)").strip().split("|")
        return "PostGIS %s, GEOS %s, PostgreSQL %s" % tuple(told)

    def load(self, layers: Layers) -> None:
        if PostGis.loaded is layers:
            return
        for table, path in zip("ab", layers.files):
            self.started().said("drop table if exists %s; create table %s (id serial, geom geometry)" % (table, table))
            with open(path, encoding="ascii") as source:
                done = self.started().psql("copy %s (geom) from stdin" % table, "analyze %s" % table, source=source)
            if done.returncode:
                raise OSError(done.stderr)
        PostGis.loaded = layers

    def run(self, job: str, layers: Layers, seconds: float) -> Run:
        server = self.started()
        self.load(layers)
        parts = {table: "(select %s from %s)" % (self.union, table) for table in "ab"}
        asked = self.common.format(**parts) if job == "common" else parts["a"]
        threads, before, start = watching.Threads(server.number()), server.processor(), time.monotonic()
        limit = "set statement_timeout = %d" % (1000 * seconds)
        done = server.psql(limit, "drop table if exists r", "create table r as select (d.dump).geom from (select st_dump(%s) dump) d" % asked, seconds=2 * seconds)
        clock, processor = time.monotonic() - start, server.processor() - before
        fault = over(processor) if "statement timeout" in done.stderr else words_of(done.stderr) if done.returncode else ""
        text = "" if fault else server.said("select encode(st_asbinary(geom), 'hex') from r")
        return Run(fault, processor, clock, threads.stop(), text)


class Qgis(Tool):
    """Algorithms by qgis_process, from file to file, one start each."""

    needs, timed = "qgis gdal-bin", FILES

    def __init__(self, name: str, makes_valid: bool = False):
        self.name, self.makes_valid = name, makes_valid

    def missing(self) -> str:
        return "" if shutil.which("qgis_process.bin") and shutil.which("ogr2ogr") else self.needs

    def environment(self, home: str) -> dict[str, str]:
        """Debian's Python has to be the one that it finds."""
        return {"PATH": "/usr/bin:/bin", "LC_ALL": "C.UTF-8", "QT_QPA_PLATFORM": "offscreen", "XDG_RUNTIME_DIR": home, "HOME": home}

    def version(self) -> str:
        with tempfile.TemporaryDirectory() as home:
            told = subprocess.run(["qgis_process.bin", "--version"], capture_output=True, text=True, env=self.environment(home), check=False)
        return "QGIS " + next(iter(re.findall(r"QGIS ([0-9.]+)", told.stdout + told.stderr)), "?")

    def algorithm(self, name: str, folder: str, output: str, seconds: float, **words: str) -> watching.Watched:
        if os.path.exists(output):
            os.remove(output)
        call = ["qgis_process.bin", "run", name, "--", *("%s=%s" % pair for pair in words.items()), "OUTPUT=" + output]
        run = watching.watched(call, os.path.join(folder, "out"), seconds, env=self.environment(folder))
        return run if run.status != 0 or os.path.exists(output) else replace(run, status=1)

    def asked(self, job: str, layers: Layers) -> list[tuple[str, str, dict[str, str]]]:
        """The algorithms of a job, each with the file that it writes and its other words."""
        names = ("a", "b") if job == "common" else ("a",)
        inputs = dict(zip(names, layers.packages()))

        def made(name: str) -> str:
            return os.path.join(layers.folder, name + ".gpkg")

        asked = []
        if self.makes_valid:
            asked = [("native:fixgeometries", made("v" + name), {"INPUT": inputs[name]}) for name in names]
            inputs = {name: made("v" + name) for name in names}
        asked += [("native:dissolve", made("d" + name), {"INPUT": inputs[name]}) for name in names]
        if job == "common":
            asked.append(("native:intersection", made("c"), {"INPUT": made("da"), "OVERLAY": made("db")}))
        return asked

    def run(self, job: str, layers: Layers, seconds: float) -> Run:
        processor = clock = 0.0
        threads, output = 1, ""
        for name, output, words in self.asked(job, layers):
            run = self.algorithm(name, layers.folder, output, seconds, **words)
            processor, clock, threads = processor + run.processor, clock + run.clock, max(threads, run.threads)
            if fault_of(run):
                return Run(fault_of(run), processor, clock, threads)
        return Run("", processor, clock, threads, "".join("%s\n" % blob.hex() for blob in shapes.geometries_of_geopackage(output)))


class Absent(Tool):
    """A tool that Debian has no package of."""

    def __init__(self, name: str, why: str):
        self.name, self.needs = name, why

    def missing(self) -> str:
        return self.needs


def peers() -> list[Tool]:
    return [
        Geos("Shapely"),
        Geos("Shapely, grid 1", "1"),
        Geos("Shapely, made valid", "0", "made-valid"),
        Geos("Shapely, coverage", "0", "coverage"),
        PostGis("PostGIS", "st_union(geom)", "st_intersection({a}, {b})"),
        PostGis("PostGIS, grid 1", "st_union(geom, 1)", "st_intersection({a}, {b}, 1)"),
        PostGis("PostGIS, made valid", "st_union(st_makevalid(geom))", "st_intersection({a}, {b})"),
        Qgis("QGIS"),
        Qgis("QGIS, made valid", True),
        Compiled("CGAL", "cgal", "CGAL/Polygon_set_2.h", "libcgal-dev", "-lgmp", "-lmpfr"),
        Compiled("Clipper 6", "clipper", "polyclipping/clipper.hpp", "libpolyclipping-dev", "-lpolyclipping"),
        Absent("mapshaper", "no package in Debian: it comes by npm alone"),
        Absent("Clipper2", "no package in Debian, which has Clipper 6"),
    ]
