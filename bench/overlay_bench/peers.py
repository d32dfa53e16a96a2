"""runs GEOS/Shapely, PostGIS, QGIS, CGAL, Clipper and overlay on the same two maps in one run

A town's parcels and zones in whole millimetres (overlay_bench/town.py), once clean and once with the usual dirt (one parcel in a hundred
with a corner measured again, so that it overlaps one neighbour and leaves a sliver to the other; one in three hundred that crosses
itself). Two jobs: `dissolve` is the area that some parcel covers, `common` what some parcel and some zone both cover. For each tool:

  answers      yes, or what it says instead
  area off     its area against the exact one, in millionths. That is the sum of the faces by `overlay-gis faces`, which tells what covers
               each. overlay reads a layer by parity, so it is held against the faces that an odd number of features covers
  again        a second run on the same files: the same bytes, the same polygons otherwise written, or other points
  other order  the same with the features of both layers in another order
  processor s  by the least of the rounds, of what `timed` says; PostGIS: of the session
  clock s      of the whole run, as processor seconds are
  ratio        processor seconds, less those of the start, to overlay's in this run
  threads      at work at once, in a tenth of the run at least
  points       of the answer: decimals; or whole, and noded (edges share ends alone), or with how many crossings
  timed        the operation alone, without reading and writing; or from text to text (overlay), or from file to file (overlay-gis, QGIS)
  start s      the least processor seconds of the same job on layers without a feature, where the whole run is timed
  text to text s  of tools whose operation alone is timed: with reading and writing texts, without the interpreter's start
  1 and N threads  whether one worker writes the bytes of several; nothing where a tool has one thread

The rounds of all tools are run in turns, so that other work on the machine meets all of them. PostgreSQL is started for this by a user that isn't root, on a free port of this machine, in a temporary folder, and ended. What isn't
there is told and left out: apt-get install python3-shapely python3-gdal gdal-bin postgresql postgis postgresql-15-postgis-3 qgis g++
libcgal-dev libpolyclipping-dev. The exit status is 1 where overlay doesn't answer, or has another area or other bytes than it may, or
edges that cross. README's table is of the last run that was recorded (`--record`), so that should be one of all tools.
"""
from __future__ import annotations

import argparse
import contextlib
import itertools
import os
import signal
import subprocess
import sys
import tempfile
from dataclasses import dataclass

from . import noding, shapes, town
from .peer_tools import ONE_WORKER, OPERATION, OVER, Faces, Layers, Overlay, Run, Tool, peers, words_of

JOBS = ("dissolve", "common")
# A job that takes so many seconds is run twice at most on the same files.
SLOW = 30
MAPS = {"clean": False, "raw": True}
HEAD = (
    "tool", "version", "map", "segments", "job", "answers", "area off", "again", "other order", "processor s", "clock s", "ratio", "threads", "points",
    "timed", "start s", "text to text s", "1 and N threads",
)


def add_arguments(parser: argparse.ArgumentParser) -> None:
    parser.add_argument("--sizes", nargs="+", type=int, default=(10_000, 100_000), metavar="SEGMENTS", help="of either layer")
    parser.add_argument("--maps", nargs="+", default=list(MAPS), choices=MAPS)
    parser.add_argument("--rounds", type=int, default=3, help="runs of each job on the same files (slow ones: two)")
    parser.add_argument("--seconds", type=float, default=600, help="on the clock, after which a run is over; `common` begins as `dissolve`, and isn't tried where that was over")
    parser.add_argument("--only", nargs="+", default=[], metavar="TOOL", help="tools whose names begin so")
    parser.add_argument("--without-times", action="store_true", help="tells no times: for a machine with other work")


def same(first: str, second: str) -> str:
    if first == second:
        return "same bytes"
    return "same polygons" if shapes.normal(shapes.of_lines(first)) == shapes.normal(shapes.of_lines(second)) else "other points"


@dataclass
class Exact:
    """The area of a job: of what some feature covers, and of what an odd number of them does."""

    some: float
    odd: float


def exact(faces: str, job: str) -> Exact:
    found = Exact(0.0, 0.0)
    for line in faces.splitlines():
        *ids, area = line.split("\t")
        counts = [0 if of_layer == "None" else len(of_layer.split(",")) for of_layer in ids][:1 + (job == "common")]
        found.some += float(area) * all(counts)
        found.odd += float(area) * all(count % 2 for count in counts)
    return found


@dataclass
class Row:
    """One job of one tool on one map."""

    tool: Tool
    version: str
    map: str
    size: int
    job: str
    runs: list[Run]
    other: Run | None
    start: float = 0.0
    by_threads: str = ""

    def off(self, known: Exact | None) -> float | None:
        """The area against the exact one, in millionths."""
        if known is None or self.runs[0].fault:
            return None
        whole = known.odd if isinstance(self.tool, Overlay) else known.some
        return 1e6 * (shapes.area(shapes.of_lines(self.runs[0].text)) / whole - 1)

    def points(self) -> str:
        return "" if self.runs[0].fault else noding.told(shapes.of_lines(self.runs[0].text))

    def is_over(self) -> bool:
        return self.runs[0].fault.startswith(OVER)

    def again(self) -> str:
        return same(self.runs[0].text, self.runs[1].text) if len(self.runs) > 1 else ""

    def in_other_order(self) -> str:
        if self.other is None:
            return ""
        return self.other.fault or same(self.runs[0].text, self.other.text)

    def least(self, what: str) -> float:
        taken: list[float] = [getattr(run, what) for run in self.runs]
        return min(taken)

    def processor(self) -> float:
        """Processor seconds without those of the start."""
        return max(self.least("processor") - self.start, 0.0)

    def from_text_to_text(self) -> str:
        taken = [run.whole for run in self.runs if run.whole is not None]
        return "%.3f" % min(taken) if taken else ""


def start_of(tool: Tool, job: str, layers: Layers, arguments: argparse.Namespace) -> float:
    """The least processor seconds of a job on layers without a feature; nothing of a tool whose operation alone is timed."""
    if tool.timed == OPERATION:
        return 0.0
    runs = [tool.run(job, layers, arguments.seconds) for _ in range(arguments.rounds)]
    return min((run.processor for run in runs if not run.fault), default=0.0)


class Rows:
    """The rows of one map, a row a tool and job, whose rounds are run in turns."""

    def __init__(self, name: str, size: int, versions: dict[str, str], arguments: argparse.Namespace):
        self.name, self.size, self.versions, self.arguments = name, size, versions, arguments
        self.found: dict[tuple[str, str], Row] = {}

    def first(self, tool: Tool, job: str, layers: Layers, other: Layers, nothing: Layers) -> Row:
        """The first run of a job, and that on the other order; a job isn't tried where the one before took too long."""
        about = (tool, self.versions[tool.name], self.name, self.size, job)
        before = [row for (of_tool, _), row in self.found.items() if of_tool == tool.name and row.is_over()]
        if before:
            return Row(*about, before[0].runs, None)
        run = tool.run(job, layers, self.arguments.seconds)
        if run.fault:
            return Row(*about, [run], None)
        return Row(*about, [run], tool.run(job, other, self.arguments.seconds), start_of(tool, job, nothing, self.arguments))

    def once_more(self, tool: Tool, job: str, layers: Layers) -> None:
        """One more run of a job that has an answer; a slow one has two at most."""
        row = self.found[tool.name, job]
        if not row.runs[0].fault and (len(row.runs) < 2 or row.runs[0].clock <= SLOW):
            row.runs.append(tool.run(job, layers, self.arguments.seconds))

    def run(self, tools: list[Tool], layers: Layers, other: Layers, nothing: Layers) -> list[Row]:
        each = [(tool, job) for tool in tools for job in JOBS]
        for tool, job in each:
            self.found[tool.name, job] = self.first(tool, job, layers, other, nothing)
        for tool, job in (self.arguments.rounds - 1) * each:
            self.once_more(tool, job, layers)
        for job in JOBS:
            one, several = (self.found[name, job] for name in (ONE_WORKER, Overlay.name))
            several.by_threads = same(one.runs[0].text, several.runs[0].text)
        return list(self.found.values())


class Table:
    """Prints the rows; what overlay took is the measure of the others."""

    def __init__(self, times: bool):
        self.times, self.wrong = times, False
        self.ours: dict[tuple[str, int, str], float] = {}
        print("| %s |\n%s|" % (" | ".join(HEAD), "|---" * len(HEAD)), flush=True)

    def show(self, row: Row, known: Exact | None) -> None:
        fault, off = row.runs[0].fault, row.off(known)
        times = ["", "", ""]
        if self.times and not fault:
            if row.tool.name == Overlay.name:
                self.ours[row.map, row.size, row.job] = row.processor()
            ours = self.ours.get((row.map, row.size, row.job))
            times = ["%.3f" % row.least("processor"), "%.3f" % row.least("clock"), "%.2f" % (row.processor() / ours) if ours else ""]
        threads = "" if fault else str(max(run.threads for run in row.runs))
        told = [fault or "yes", "" if off is None else "%+.3f" % off, row.again(), row.in_other_order(), *times, threads, row.points()]
        start = "%.3f" % row.start if self.times and row.start else ""
        told += [row.tool.timed, start, row.from_text_to_text() if self.times else "", row.by_threads]
        cells = [row.tool.name, row.version, row.map, str(row.size), row.job, *told]
        print("| %s |" % " | ".join(cell.replace("|", "/") for cell in cells), flush=True)
        if isinstance(row.tool, Overlay):
            self.wrong |= bool(fault) or off not in (None, 0.0) or {row.again(), row.in_other_order()} != {"same bytes"} or row.points() != noding.NODED

    def skip(self, tool: Tool, why: str) -> None:
        print("| %s |" % " | ".join([tool.name, "", "", "", "", "not run: " + why, *[""] * 12]), flush=True)

    def versions(self, tools: list[Tool]) -> dict[str, str]:
        """The versions of those that start; the others are told."""
        found = {}
        for tool in tools:
            try:
                found[tool.name] = tool.version()
            except (OSError, subprocess.SubprocessError) as error:
                self.skip(tool, words_of(str(error)))
        return found


def faces_row(tool: Faces, version: str, name: str, size: int, job: str, layers: Layers, arguments: argparse.Namespace, table: Table) -> Exact | None:
    """The row of the faces that a job is about, and its exact area."""
    runs = [tool.run(job, layers, arguments.seconds) for _ in range(min(2, arguments.rounds))]
    again = "" if len(runs) < 2 or runs[0].fault else "same bytes" if runs[0].text == runs[1].text else "other faces"
    times = ["", ""]
    if table.times and not runs[0].fault:
        times = ["%.3f" % min(getattr(run, what) for run in runs) for what in ("processor", "clock")]
    told = [runs[0].fault or "yes", "", again, "", *times, "", str(max(run.threads for run in runs)), "", tool.timed, "", "", ""]
    print("| %s |" % " | ".join([tool.name, version, name, str(size), job, *told]), flush=True)
    return None if runs[0].fault else exact(runs[0].text, job)


def place_in(folder: str, name: str) -> str:
    """A new folder in another one."""
    place = os.path.join(folder, name)
    os.mkdir(place)
    return place


def main(arguments: argparse.Namespace) -> int:
    signal.signal(signal.SIGTERM, lambda *_: sys.exit("ended by SIGTERM"))  # so that the server is ended too
    tools = [tool for tool in peers() if not arguments.only or any(tool.name.startswith(word) for word in arguments.only)]
    table = Table(not arguments.without_times)
    for tool in [tool for tool in tools if tool.missing()]:
        table.skip(tool, tool.missing())
    with tempfile.TemporaryDirectory() as folder, contextlib.ExitStack() as ends:
        faces, ours = Faces(arguments.program), [Overlay(arguments.program), Overlay(arguments.program, 1)]
        there = [tool for tool in tools if not tool.missing()]
        for tool in there:
            ends.callback(tool.end)
        versions = table.versions([*ours, *there])
        there = [*ours, *(tool for tool in there if tool.name in versions)]
        if faces.missing():
            table.skip(faces, faces.missing())
        nothing = Layers(place_in(folder, "nothing"), ([], []))
        for size, name in itertools.product(arguments.sizes, arguments.maps):
            given, other = (place_in(folder, "%s-%d-%s" % (name, size, order)) for order in ("given", "other"))
            layers = Layers(given, town.town(size, MAPS[name]))
            known = {job: None if faces.missing() else faces_row(faces, faces.version(), name, size, job, layers, arguments, table) for job in JOBS}
            for row in Rows(name, size, versions, arguments).run(there, layers, layers.shuffled(other), nothing):
                table.show(row, known[row.job])
    return int(table.wrong)
