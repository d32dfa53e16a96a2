"""An operation on two layers that no process can hold, strip by strip of the map, by workers of
Dask."""

from __future__ import annotations

import os
import shutil
from argparse import Namespace
from contextlib import contextmanager
from dataclasses import dataclass
from functools import reduce
from pathlib import Path
from tempfile import TemporaryFile, gettempdir
from typing import Any, Iterator, Mapping, Sequence

import numpy as np
from osgeo import ogr, osr

from . import frame as frames
from . import options
from .changes import explains, longest_of, moves_told, warn_of_parity
from .columns import Columns, Floats, Numbers
from .common_grid import Losses, tell_losses
from .database import is_database
from .destination import Destination
from .faults import Fault, Refusal
from .frame import Frame
from .layers import Box, Kind, Source, common_system
from .messages import during, say, warn
from .output import NO_BOXES, POLYGONS, Table
from .ranges import input_of, ranges
from .rings import Moves
from .scratch import scratch
from .sections import Spoiled
from .strip_measures import longest
from .strip_plan import BASE, EDGE, LINE, PART, Part, Plan, Reading, Strips, Work, chosen, grid_of, most_lines
from .strip_polygons import Polygons
from .strip_tasks import READ, Step, steps
from .surveys import Found, names_of, tell_found
from .systems import area_name
from .wkb import encoded
from .workers import Crew, clients

# The phases behind which segments are known; those behind which all edges of the answer are; and
# those behind which its polygons are.
SCATTERED = (READ, "scatter")
LABELLED = (*SCATTERED, "round", "bridge", "edges", "come", "labels")
ALL = (*LABELLED, "reach", "close", "join", "write")

# One segment more than can be numbered.
MOST = 1 << 32

MEGABYTE = 1_000_000


@dataclass(frozen=True)
class Wanted:
    """What was asked for: the operation, the layers, the grid; a scheduler, or how many workers of this
    machine; how many bytes each may take, if that was said; the folder for files, if it was named, or
    else that beside which one is made."""

    operation: str
    sources: Sequence[Source]
    unit: str | None
    origin: str | None
    system: str | None
    scheduler: str | None
    workers: int
    memory: int | None
    folder: str | None
    beside: str


def wanted(arguments: Namespace, sources: Sequence[Source]) -> Wanted:
    """What the arguments of `run` ask for."""
    if not arguments.parity:
        raise Refusal("--engine dask", "reads layers by parity alone, and goes with --parity")
    options.refuse_beside(arguments, ("keep_a", "keep_b", "polygons_only", "segments"), "isn't there for --engine dask")
    if arguments.scheduler and not arguments.dir:
        raise Refusal("--scheduler", "goes with --dir, which names a folder that all its workers see")
    if arguments.scheduler and arguments.workers:
        raise Refusal("--workers", "is for workers of this machine, and not beside --scheduler")
    out = arguments.out
    return Wanted(
        arguments.operation,
        sources,
        arguments.grid,
        arguments.origin,
        arguments.system,
        arguments.scheduler,
        arguments.workers or len(os.sched_getaffinity(0)),
        arguments.memory,
        arguments.dir,
        gettempdir() if is_database(out) else os.path.dirname(os.path.realpath(out)),
    )


@contextmanager
def folder_for(asked: Wanted, reading: Reading) -> Iterator[str]:
    """A folder for the files of this run: one of its own in the folder that was named, which stays if
    the run doesn't end well, so that the next one goes on from there; or one beside the output."""
    if asked.folder is None:
        with scratch(Path(asked.beside)) as made:
            yield str(made)
        return
    folder = os.path.join(os.path.abspath(asked.folder), f"overlay-gis-{reading.number[:16]}")
    os.makedirs(folder, exist_ok=True)
    if any(Path(folder).iterdir()):
        say(f"{folder}: goes on from the files there")
    yield folder
    shutil.rmtree(folder, ignore_errors=True)


def reading_of(asked: Wanted) -> Reading:
    """The ranges of features in which both layers are read."""
    first, second = inputs = [input_of(source) for source in asked.sources]
    parts = []
    for layer, (source, held) in enumerate(zip(asked.sources, inputs)):
        with during(f"parting {source.name}"):
            found = ranges(held, str(source.layer.GetGeometryColumn()), PART)
        parts += [Part(layer, *ends) for ends in found]
    grid = tuple(str(word or "") for word in (asked.unit, asked.origin, asked.system))
    return Reading((first, second), tuple(parts), (asked.operation, *grid))


def found_in(notes: Sequence[Any]) -> Found:
    """What a layer's parts tell of it together."""
    kinds = {kind: [number for note in notes for number in note["kinds"][kind.name]] for kind in Kind if kind != Kind.SOUND}
    return Found(
        sum(note["features"] for note in notes),
        kinds[Kind.UNBOUND],
        kinds[Kind.STRANGE],
        kinds[Kind.BARE],
        [name for note in notes for name in note["names"]],
        any(note["deep"] for note in notes),
    )


def box_of(notes: Sequence[Any]) -> Box | None:
    """The box of all parts."""
    told = [note["box"] for note in notes if note["box"]]
    boxes = [Box(left, low, right, high, (name, number)) for left, low, right, high, (name, number) in told]
    return reduce(Box.joined, boxes) if boxes else None


@dataclass(frozen=True)
class Survey:
    """What the parts of both layers tell, and the frame that they are brought to."""

    notes: Sequence[Any]
    frame: Frame

    def firsts(self, name: str) -> tuple[int, ...]:
        """The number of each part's first segment. A part has no more segments than points and rings,
        each of which may have to be closed."""
        room = np.cumsum([0] + [note["points"] + note["rings"] for note in self.notes]).tolist()
        if room[-1] >= MOST:
            raise Refusal(name, f"have {room[-1]:,} points, and segments are numbered up to {MOST - 1:,}")
        return tuple(room[:-1])

    def strips(self, most: int) -> Strips:
        """Strips of so many segments, as a sample tells."""
        columns, weights = [np.zeros((0, 2), np.int64)], [np.zeros(0)]
        across = self.frame.axes[0]
        for note in self.notes:
            sample = np.array(note["sample"]).reshape(-1, 2)
            columns.append(across.rounded(np.sort(sample, axis=1).ravel()).reshape(-1, 2))
            weights.append(np.full(len(sample), (note["points"] - note["rings"]) / max(1, len(sample))))
        begins, ends = np.concatenate(columns).T
        return chosen(begins, ends, np.concatenate(weights), most)


def surveyed(crew: Crew, asked: Wanted, work: Work) -> tuple[Survey, osr.SpatialReference | None]:
    """A pass over both layers, with what it refuses and warns of."""
    common = common_system(asked.sources, asked.system)
    grid = frames.asked_for(asked.unit, asked.origin)
    notes = list(crew.notes(work, [READ]).values())
    for layer, source in enumerate(asked.sources):
        found = found_in(of_layer(work, notes, layer))
        told = source.layer.GetFeatureCount()
        if found.features < told:
            raise Fault(source.name, f"only {found.features} of {told} features could be read")
        tell_found(source, found)
    frame = frames.chosen(names_of(asked.sources), box_of(notes), common, *grid)
    say(frame.told(common))
    return Survey(notes, frame), common


def of_layer(work: Work, notes: Sequence[Any], layer: int) -> list[Any]:
    """The notes of a layer's parts."""
    return [note for note, part in zip(notes, work.reading.parts) if part.layer == layer]


def planned(asked: Wanted, work: Work, survey: Survey, memory: int) -> Work:
    """Work by strips that fit into so many bytes, which is told."""
    segments = sum(note["points"] - note["rings"] for note in survey.notes)
    most = most_lines(memory, segments)
    strips = survey.strips(most)
    task, ring = BASE + LINE * strips.most, BASE + EDGE * segments
    joins = (
        "; joins of strips have edges of rings over borders alone, and would take"
        f" {ring // MEGABYTE:,} if one ring had as many as there are segments"
    )
    say(
        f"{len(work.reading.parts):,} parts, {len(strips.cuts) + 1:,} strips of about {strips.most:,} segments at most;"
        f" {memory // MEGABYTE:,} MB for a task, of which strips take about {task // MEGABYTE:,}{joins if strips.cuts else ''}"
    )
    names = names_of(asked.sources)
    if strips.most > 2 * most:
        warn(names, f"about {strips.most:,} of {segments:,} segments reach one strip: they span the map, and narrower strips don't help")
    if task > memory:
        warn(names, f"a strip may take more than --memory, about {task // MEGABYTE:,} MB")
    plan = Plan(work.reading, asked.operation, grid_of(survey.frame), strips.cuts, survey.firsts(names))
    return Work(work.folder, work.reading, plan)


def warn_of_losses(asked: Wanted, work: Work, survey: Survey, notes: Sequence[Any]) -> None:
    """Tells what bringing the layers to the grid has cost them."""
    for layer, source in enumerate(asked.sources):
        held = of_layer(work, notes, layer)
        closed, dropped, gone = ([number for note in held for number in note[key]] for key in ("closed", "dropped", "gone"))
        features = sum(note["features"] for note in of_layer(work, survey.notes, layer))
        tell_losses(source.name, Losses(closed, dropped, gone, sum(note["gone_count"] for note in held), features))


def tell_changes(
    asked: Wanted, work: Work, survey: Survey, notes: Mapping[Step, Any], system: osr.SpatialReference | None
) -> None:
    """Tells what rounding has changed of each layer that has polygons, as `changes` does of layers
    that are there whole."""
    scattered, rounded, edges, labels = (of_phase(notes, phase) for phase in ("scatter", "round", "edges", "labels"))
    area, square = survey.frame.area, area_name(system)
    for layer, source in enumerate(asked.sources):
        held = of_layer(work, scattered, layer)
        if not any(note["polygons"] for note in held):
            continue
        before, after = sum(note["twice"] for note in held), sum(note["twice"][layer] for note in labels)
        bends = sum(note["steps"][layer] for note in edges) - sum(note["segments"] for note in held)
        lengths = (longest([note[key][layer] for note in rounded], longest_of(bends)) for key in ("lengths", "borders"))
        if before != after and not all(explains(length, abs(before - after)) for length in lengths):
            warn_of_parity(survey.frame, system, source.name, before, after)
        came = sum(note["area"] for note in of_layer(work, survey.notes, layer))
        areas = f"area {came:,.10g} {square} before, and {area(after):,.10g} after"
        say(f"{source.name}: {moves_told(moves_of(held), system)}; {areas}")


def of_phase(notes: Mapping[Step, Any], phase: str) -> list[Any]:
    return [note for step, note in notes.items() if step.phase == phase]


def moves_of(notes: Sequence[Any]) -> Moves:
    vertices, moved, ways, greatest = zip(*(note["moves"] for note in notes))
    return Moves(sum(vertices), sum(moved), sum(ways) / max(1, sum(moved)), max(greatest))


def blocks(work: Work) -> Iterator[Columns[Numbers]]:
    """The polygons of the answer in order, each a feature with its number, some at a time."""
    before = 0
    for step in steps(work, "write"):
        made = Polygons(*work.held.lying(step.file, *Polygons._fields))
        for block in made.blocks():
            yield block.features(before)
            before += block.total


def boxes_made(crew: Crew, work: Work, frame: Frame) -> Floats:
    """The boxes of the answer's polygons, which are all made then. They lie in a file without a name, for
    as long as they are looked at."""
    while True:
        crew.notes(work, ALL)
        with TemporaryFile(dir=work.folder) as file:
            try:
                file.writelines(frame.boxes(block).data for block in blocks(work))
            except Spoiled as spoiled:
                crew.remove(work, {spoiled.name: spoiled.reason})
                continue
            size = file.tell()
            file.flush()
            return np.memmap(file, np.float64, "r").reshape(-1, 4) if size else NO_BOXES


def table_of(work: Work, boxes: Floats, frame: Frame) -> Table:
    """The polygons of the answer, each with its number and its area."""

    def rows() -> Iterator[tuple[bytes, tuple[int, float]]]:
        for block in blocks(work):
            for polygon, number, twice in zip(encoded(frame.off_grid(block)), block.ids.tolist(), block.twice_areas()):
                yield polygon, (number, frame.area(twice))

    return Table(POLYGONS, rows(), ogr.wkbPolygon, boxes, frame=frame)


def answered(crew: Crew, asked: Wanted, work: Work, place: Destination) -> int:
    """Has all done, and writes the polygons of the answer, of which it tells the number."""
    work.read.put("layers.0", {"parts": len(work.reading.parts)})
    free = crew.look(work.read.place("layers.0"))
    survey, common = surveyed(crew, asked, work)
    work = planned(asked, work, survey, asked.memory or free)
    warn_of_losses(asked, work, survey, of_phase(crew.notes(work, SCATTERED), "scatter"))
    tell_changes(asked, work, survey, crew.notes(work, LABELLED), common)
    boxes = boxes_made(crew, work, survey.frame)
    again = f"; {crew.made_again:,} files were made again" if crew.made_again else ""
    say(f"workers took up to {crew.most // MEGABYTE:,} MB, and all {crew.seconds:,.1f} s of processors{again}")
    try:
        (count,) = place.write(common, table_of(work, boxes, survey.frame))
    except Spoiled as spoiled:
        raise Fault(work.held.place(spoiled.name), f"{spoiled.reason}, while it was read") from spoiled
    return count


def answer(asked: Wanted, place: Destination) -> int:
    """The operation that was asked for, whose polygons go to a place; answers how many they are."""
    reading = reading_of(asked)
    with folder_for(asked, reading) as folder, clients(asked.scheduler, asked.workers) as client:
        count = answered(Crew(client), asked, Work(folder, reading), place)
    return count
