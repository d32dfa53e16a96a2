"""asks the tools that `peers` runs for faces with their features, files, decimals, lines, a grid, a program, a library

Each question is a command of a shell, told as it was run, in a folder with three squares (a, b and c, of which each lies on the one
before), a triangle t that crosses a between points of the grid, a square `half` with decimals, and a line: as WKT, as CSV with a column of
WKT, as GeoJSON, Shapefile and GeoPackage. What the output has says `yes`, how, or `no`; `seen` is its line that says so. PostGIS runs in a
server of its own, as for `peers`, whose help tells what has to be installed; a tool that isn't there is told and left out. `cgal_asked` and
`clipper_asked` are programs of bench/peers, compiled here (CGAL's in three minutes). The exit status is 1 where an output says neither.
A run that is recorded (`--record`) should be one of all tools.
"""
from __future__ import annotations

import argparse
import contextlib
import os
import re
import subprocess
import tempfile
from collections.abc import Iterator
from dataclasses import dataclass

from . import peer_tools, programs
from .peer_tools import Absent, Compiled, Geos, Overlay, PostGis, Qgis, Tool

HEAD = ("tool", "version", "asked", "has", "command", "seen")
FACES = ("faces of two layers", "faces of three layers")
FILES = ("WKT", "GeoJSON", "Shapefile", "GeoPackage")
GRID = "grid"
OTHERS = ("decimals", "lines", GRID, "program", "library")
YES, NO, NEITHER = "yes", "no", "?"
GEOMETRIES = {
    "a": "POLYGON ((0 0, 4 0, 4 4, 0 4, 0 0))",
    "b": "POLYGON ((2 2, 6 2, 6 6, 2 6, 2 2))",
    "c": "POLYGON ((3 3, 7 3, 7 7, 3 7, 3 3))",
    "t": "POLYGON ((0 0, 7 2, 7 3, 0 0))",
    "half": "POLYGON ((0.5 0.5, 4 0.5, 4 4, 0.5 4, 0.5 0.5))",
    "line": "LINESTRING (1 1, 7 1)",
}
ENDINGS = ("json", "shp", "gpkg")
# What a and b have in common, whatever corner a tool writes first; whole corners; corners of `half`; and what no output has.
COMMON = r"(?i)polygon ?\(+(?:[24](?:\.0)? [24](?:\.0)?(?:, ?)?){5}\)"
WHOLE = r"(?i)polygon ?\(+[\d ,]+\)"
HALVES = r"(?i)polygon ?\(+[\d ,.]*0\.5"
NEVER = r"(?!)"
SECONDS, MOST_SEEN = 300, 120


@dataclass(frozen=True)
class Question:
    """A command, and what its output has where the tool has what is asked for (and what the table says then), and where it hasn't."""

    asked: str
    command: str
    yes: str
    no: str = NEVER
    has: str = YES

    def told(self, output: str) -> tuple[str, str]:
        """What the output tells, and the line that tells it."""
        for pattern, has in ((self.yes, self.has), (self.no, NO)):
            if found := re.search(pattern, output, re.M):
                start = output.rfind("\n", 0, found.start() + 1) + 1
                return has, output[start:].partition("\n")[0]
        return NEITHER, peer_tools.words_of(output)


def as_text(path: str) -> str:
    """The command that prints the features of a file."""
    return "ogr2ogr -f CSV /vsistdout/ %s -lco GEOMETRY=AS_WKT" % path


def of_overlay() -> Iterator[Question]:
    yield Question(FACES[0], "overlay faces a.wkt b.wkt", r"^8\t1\t1\t")
    yield Question(FACES[1], "overlay faces a.wkt b.wkt c.wkt", r"^2\t1\t1\t1\t")
    yield Question("WKT", "overlay intersection a.wkt b.wkt", COMMON)
    for name, ending in zip(FILES[1:], ENDINGS):
        yield Question(name, "overlay-gis run intersection a.%s b.%s -o of.%s.gpkg; %s" % (ending, ending, ending, as_text("of.%s.gpkg" % ending)), COMMON)
    yield Question("decimals", "overlay intersection half.wkt a.wkt", HALVES, r"overlay: A: 1 syntax at")
    yield Question("lines", "overlay intersection line.wkt a.wkt", "LINESTRING", r"overlay: A: 1 syntax at")
    yield Question("grid", "overlay intersection a.wkt t.wkt", WHOLE, r"\.\d")
    yield Question("program", "overlay union a.wkt b.wkt", "^MULTIPOLYGON")
    yield Question("library", "grep -n overlay_fill overlay.h", r"^\d+:.*overlay_fill\(", NEVER)


def installed(package: str, *patterns: str) -> str:
    """The command that tells which files of a package of Debian have such paths."""
    return "grep -h %s /var/lib/dpkg/info/%s.list" % (" ".join("-e '%s'" % pattern for pattern in patterns), package)


def of_shapely() -> Iterator[Question]:
    def python(code: str) -> str:
        return '/usr/bin/python3 -c "%s"' % code

    def squares(second: str, call: str) -> str:
        return python("from shapely import ops, wkt; a, b = (wkt.load(open(name)) for name in ('a.wkt', '%s.wkt')); %s" % (second, call))

    faces = squares("b", "print(*ops.polygonize(ops.unary_union([a.boundary, b.boundary])), sep='; ')")
    yield Question(FACES[0], faces, NEVER, r"^(POLYGON \(\([\d ,]+\)\)(; |$)){3}$")
    yield Question("WKT", squares("b", "print(a.intersection(b))"), COMMON)
    read = "import json; from shapely.geometry import shape; a, b = (shape(json.load(open(name))['features'][0]['geometry']) for name in ('a.json', 'b.json'))"
    yield Question("GeoJSON", python(read + "; print(a.intersection(b))"), COMMON)
    for name in FILES[2:]:
        modules = python("import pkgutil, shapely; print(*(module.name for module in pkgutil.iter_modules(shapely.__path__)))")
        yield Question(name, modules, "(?i)shapefile|geopackage|ogr", r"\bwkb wkt\b")
    yield Question("decimals", squares("half", "print(a.intersection(b))"), HALVES)
    yield Question("lines", squares("b", "print(wkt.load(open('line.wkt')).intersection(a))"), r"^LINESTRING \(1 1, 4 1\)")
    yield Question("grid", squares("half", "print(a.intersection(b, grid_size=1))"), WHOLE, "unexpected keyword argument 'grid_size'")
    yield Question("program", installed("python3-shapely", "/bin/.", "shapely/ops.py"), "/bin/", "shapely/ops.py")
    yield Question("library", squares("b", "print(a.union(b))"), "^POLYGON")


def of_postgis() -> Iterator[Question]:
    def statement(text: str) -> str:
        return 'psql -qAtX -F " " -c "%s"' % text

    def common(first: str, second: str, grid: str = "") -> str:
        return statement("select st_astext(st_intersection('$(cat %s.wkt)', '$(cat %s.wkt)'%s))" % (first, second, grid))

    for asked, names, wanted in zip(FACES, ("ab", "abc"), (r"^\d+ in \{1,2\}$", r"^\d+ in \{1,2,3\}$")):
        features = ", ".join("(%d, topology.totopogeom('$(cat %s.wkt)', '%s', 1))" % (number, name, names) for number, name in enumerate(names, 1))
        made = "select topology.createtopology('{0}'); create table of_{0} (id int); select topology.addtopogeometrycolumn('{0}', 'public', 'of_{0}', 'covers', 'polygon')"
        faces = "select element_id, 'in', array_agg(id order by id) from of_{0} join {0}.relation on topogeo_id = (covers).id and element_type = 3 group by element_id"
        yield Question(asked, statement(("%s; insert into of_{0} values %s; %s" % (made, features, faces)).format(names)), wanted, has="by `topology`")
    yield Question("WKT", common("a", "b"), COMMON)
    geometry = "st_geomfromgeojson('$(cat %s.json)'::json->'features'->0->'geometry')"
    yield Question("GeoJSON", statement("select st_astext(st_intersection(%s, %s))" % (geometry % "a", geometry % "b")), COMMON)
    yield Question("Shapefile", "shp2pgsql a > a.sql; shp2pgsql b > b.sql; psql -qX -f a.sql -f b.sql; " + statement("select st_astext(st_intersection(a.geom, b.geom)) from a, b"), COMMON)
    yield Question("GeoPackage", installed("postgresql-*-postgis-3*", "[.]control$"), "(?i)ogr|gdal|geopackage", "/extension/postgis")
    yield Question("decimals", common("half", "a"), HALVES)
    yield Question("lines", common("line", "a"), r"^LINESTRING\(1 1,4 1\)")
    yield Question("grid", common("half", "a", ", 1"), WHOLE, "does not exist")
    yield Question("program", common("a", "b"), COMMON)
    yield Question("library", installed("postgresql-*-postgis-3*", "[.]h$", "[.]pc$", "[.]control$"), r"\.(h|pc)$", "/extension/postgis")


def of_qgis() -> Iterator[Question]:
    def algorithm(name: str, output: str, words: str) -> str:
        return "qgis_process.bin run native:%s -- %s OUTPUT=%s; %s" % (name, words, output, as_text(output))

    yield Question(FACES[0], algorithm("union", "u.gpkg", "INPUT=a.gpkg OVERLAY=b.gpkg"), r'^"[^"]*",a,.*,b$')
    yield Question(FACES[1], algorithm("multiunion", "m.gpkg", "INPUT=a.gpkg OVERLAYS=b.gpkg OVERLAYS=c.gpkg"), r'^"[^"]*",a,.*,b,.*,c$', "native:multiunion not found")
    for name, ending in zip(FILES, ("csv", *ENDINGS)):
        yield Question(name, algorithm("intersection", "of.%s.gpkg" % ending, "INPUT=a.%s OVERLAY=b.%s" % (ending, ending)), COMMON)
    yield Question("decimals", algorithm("intersection", "half-a.gpkg", "INPUT=half.gpkg OVERLAY=a.gpkg"), HALVES)
    yield Question("lines", algorithm("intersection", "line-a.gpkg", "INPUT=line.gpkg OVERLAY=a.gpkg"), r"LINESTRING \(+(1 1, ?4 1|4 1, ?1 1)\)")
    yield Question("grid", "qgis_process.bin help native:intersection", "^GRID_SIZE:", "^OVERLAY_FIELDS_PREFIX:")
    yield Question("program", algorithm("dissolve", "d.gpkg", "INPUT=a.gpkg"), "POLYGON")
    call = "from qgis.core import QgsGeometry; a, b = (QgsGeometry.fromWkt(open(name).read()) for name in ('a.wkt', 'b.wkt')); print(a.intersection(b).asWkt())"
    yield Question("library", '/usr/bin/python3 -c "%s"' % call, COMMON)


def of_cgal() -> Iterator[Question]:
    for asked, names in zip(FACES, ("ab", "abc")):
        yield Question(asked, "cgal_asked faces %s" % " ".join(name + ".wkt" for name in names), "^a face of %s$" % names, has="by `Arr_overlay_2`")
    yield Question("WKT", "cgal_asked read a.wkt", r"^POLYGON\(\(0 0,4 0,4 4,0 4,0 0\)\)")
    for name in FILES[1:]:
        yield Question(name, installed("libcgal-dev*", "/include/CGAL/IO/"), "(?i)/IO/.*(json|shp|shape|gpkg|package|gdal)", "/IO/WKT.h$")
    yield Question("decimals", "cgal_asked common half.wkt a.wkt", HALVES)
    yield Question("lines", "cgal_asked line a.wkt line.wkt", "^in the polygon: 1 1 4 1$")
    yield Question("grid", "cgal_asked grid a.wkt t.wkt", r"^LINESTRING \(.*, 4 1, .*\)$")
    yield Question("program", installed("libcgal-dev*", "/bin/.", "/Polygon_set_2.h"), "/bin/(?!cgal_create)", "/Polygon_set_2.h$")
    yield Question("library", "cgal_asked common a.wkt b.wkt", COMMON)


def of_clipper() -> Iterator[Question]:
    yield Question(FACES[0], "clipper_asked faces a.wkt b.wkt", NEVER, r"^polygon( \d,\d){8}; 0 in it$")
    for name in FILES:
        yield Question(name, "nm -D --defined-only -C /usr/lib/x86_64-linux-gnu/libpolyclipping.so", "istream|FILE|filebuf", r"operator<<\(std::ostream&")
    yield Question("decimals", "clipper_asked decimals", r" has 0\.5,0\.5$", " has 0,0$")
    yield Question("lines", "clipper_asked line a.wkt", "^line (1,1 4,1|4,1 1,1);")
    yield Question("grid", "clipper_asked common a.wkt t.wkt", r"^polygon( \d,\d){3};")
    yield Question("program", installed("libpolyclipping*", "/bin/.", "clipper.hpp$"), "/bin/", "clipper.hpp$")
    yield Question("library", "clipper_asked common a.wkt b.wkt", r"^polygon( [24],[24]){4};")


def of_debian(name: str) -> Iterator[Question]:
    """A tool that peers doesn't run, since no package of Debian has it (libclipper2 is of crystals)."""
    yield Question("package", "apt-cache search --names-only '%s'; . /etc/os-release; echo $NAME $VERSION_ID" % name, "(?i)^[^ ]*%s[^ ]* - .*(polygon|shape)" % name, r"^Debian GNU/Linux \d+$")


def asked_of(program: str) -> list[tuple[Tool, list[Question]]]:
    return [
        (Overlay(program), [*of_overlay()]),
        (Geos("Shapely"), [*of_shapely()]),
        (PostGis("PostGIS", "", ""), [*of_postgis()]),
        (Qgis("QGIS"), [*of_qgis()]),
        (Compiled("CGAL", "cgal_asked", "CGAL/Polygon_set_2.h", "libcgal-dev", "-lgmp", "-lmpfr"), [*of_cgal()]),
        (Compiled("Clipper 6", "clipper_asked", "polyclipping/clipper.hpp", "libpolyclipping-dev", "-lpolyclipping"), [*of_clipper()]),
        *((tool, [*of_debian(tool.name.lower())]) for tool in peer_tools.peers() if isinstance(tool, Absent)),
    ]


def write_layers(folder: str) -> None:
    for name, text in GEOMETRIES.items():
        path = os.path.join(folder, name)
        with open(path + ".wkt", "w", encoding="ascii") as file:
            file.write(text + "\n")
        with open(path + ".csv", "w", encoding="ascii") as file:
            file.write('name,WKT\n%s,"%s"\n' % (name, text))
        for ending in ENDINGS:
            subprocess.run(["ogr2ogr", "-q", "-a_srs", "EPSG:25832", "-select", "name", "%s.%s" % (path, ending), path + ".csv"], check=True)


class Shell:
    """A folder with the layers in which commands run, with the tools and nothing else of this machine's environment."""

    def __init__(self, folder: str, links: dict[str, str]) -> None:
        self.folder = folder
        self.environment = {
            "PATH": os.path.join(folder, "bin") + ":/usr/bin:/bin", "LC_ALL": "C.UTF-8", "HOME": folder, "XDG_RUNTIME_DIR": folder,
            "QT_QPA_PLATFORM": "offscreen", "PYTHONDONTWRITEBYTECODE": "1",
        }
        os.mkdir(os.path.join(folder, "bin"))
        for name, path in links.items():
            os.symlink(os.path.abspath(path), os.path.join(folder, name))
        write_layers(folder)

    def said(self, command: str) -> str:
        """What a command prints, on both of its outputs."""
        answer = programs.answer(["sh", "-c", "exec 2>&1; " + command], SECONDS, cwd=self.folder, env=self.environment)
        return answer.out.decode("utf-8", "replace")


def row(*cells: str) -> None:
    print("| %s |" % " | ".join(cell.replace("\t", " ").replace("|", "/") for cell in cells), flush=True)


def add_arguments(parser: argparse.ArgumentParser) -> None:
    parser.add_argument("--only", nargs="+", default=[], metavar="TOOL", help="tools whose names begin so")


def main(arguments: argparse.Namespace) -> int:
    is_clear = True
    links = {"bin/overlay": arguments.program, "bin/overlay-gis": os.path.join(programs.ROOT, "gis", "overlay-gis"), "overlay.h": os.path.join(programs.ROOT, "include", "overlay.h")}
    tools = [pair for pair in asked_of(arguments.program) if not arguments.only or any(pair[0].name.startswith(word) for word in arguments.only)]
    links.update({"bin/" + tool.source: tool.built for tool, _ in tools if isinstance(tool, Compiled)})
    row(*HEAD)
    print("|---" * len(HEAD) + "|")
    with tempfile.TemporaryDirectory() as folder, contextlib.ExitStack() as ends:
        shell = Shell(folder, links)
        for tool, questions in tools:
            if tool.missing() and not isinstance(tool, Absent):
                row(tool.name, "", "", "not run: " + tool.missing(), "", "")
                continue
            ends.callback(tool.end)
            version = "" if isinstance(tool, Absent) else tool.version()
            if isinstance(tool, PostGis):
                tool.started().said("create extension postgis_topology")
                shell.environment.update(tool.started().session())
            for question in questions:
                has, seen = question.told(shell.said(question.command))
                is_clear &= has != NEITHER
                row(tool.name, version, question.asked, has, question.command, seen[:MOST_SEEN])
    return int(not is_clear)
