"""check: what is wrong with a layer, before anything is computed with it."""

from __future__ import annotations

from argparse import ArgumentParser, Namespace
from collections import defaultdict
from dataclasses import dataclass, field
from typing import Iterator, Sequence

from osgeo import osr

from . import frame as frames
from . import options
from .columns import Columns, Floats, GridPolygon
from .common_grid import alone, on_grid, warn_of_losses
from .destination import destination
from .faults import FOUND, Refusal
from .findings import BARE, CROSSES, INVALID, LAYER, OPEN, SHORT, STRANGE, UNBOUND, Finding, Units, as_json, table_of, table_without_shapes
from .flaws import Flaws, Sizes, found_in, usual_sizes
from .frame import Frame
from .layers import Kind, Source, Survey, common_system, files_of
from .messages import followed, tell
from .output import Table
from .rings import LEAST_RING, Gridded, opened
from .report import Report
from .rows import Rows
from .surveys import look_at_columns
from .systems import area_name, unit_name
from .whole import Target, draft, target_of

EXAMPLE = "overlay-gis check parcels.gpkg -o flaws.gpkg --gap-width 0.5"

def add_arguments(parser: ArgumentParser) -> None:
    parser.add_argument("a", metavar="A", type=options.text, help=options.LAYER)
    options.add_output(
        parser,
        (
            "a file with a row for each finding: its kind, the numbers of its features (first, second,"
            " and all of them), its area and width where it is an overlap or a gap, and the finding in words"
        ),
        required=False,
    )
    parser.add_argument("--json", action="store_true", help="prints all findings as one line of JSON, in place of a line for each")
    parser.add_argument(
        "--report",
        metavar="PAGE.html",
        type=options.given,
        help="a page of HTML with counts, areas, a map and a picture of each finding, which opens anywhere and can be printed",
    )
    options.add_sizes(parser)
    options.add_grid(parser)
    options.add_segments(parser)


@dataclass
class Checked:
    """What a pass over a layer tells, and each thing that is wrong."""

    survey: Survey
    findings: list[Finding] = field(default_factory=list)

    def find(self, kind: str, words: str, *ids: int) -> None:
        self.findings.append(Finding(kind, ids, words))

    @property
    def readable(self) -> bool:
        """Whether nothing keeps the layer from being brought to the grid."""
        return not self.survey.of(Kind.STRANGE) and not self.survey.of(Kind.UNBOUND)


Fault = tuple[str, str]  # a kind of finding, and words


def ring_faults(layer: Columns[Floats]) -> dict[int, list[Fault]]:
    """What is wrong with the rings of features, by the features' numbers."""
    found = defaultdict(list)
    ids, is_open = layer.ring_ids().tolist(), opened(layer)
    for k in (is_open | (layer.lengths < LEAST_RING)).nonzero()[0].tolist():
        last = layer.rings[k + 1] - 1
        found[ids[k]].append(
            (OPEN, f"a ring is open at {layer.x[last]:.12g} {layer.y[last]:.12g}")
            if is_open[k]
            else (SHORT, "a ring has less than four points")
        )
    return found


def shape_faults(words: str | None) -> list[Fault]:
    """What GEOS finds wrong with a shape, in its words."""
    return [(CROSSES if "Self-intersection" in words else INVALID, words)] if words else []


def look_through(source: Source) -> Checked:
    """Finds what is wrong with each feature alone."""
    # GEOS takes long to be there, and other verbs don't need it
    from .shapes import fault_of, features_of

    seen = Checked(source.survey())
    survey = seen.survey
    names, geometries, faults = iter(survey.names), features_of(survey.sound), ring_faults(survey.sound)
    features = zip(survey.numbers.tolist(), survey.kinds.tolist())
    for number, kind in followed(features, f"looking through {source.name}", survey.features):
        if kind == Kind.BARE:
            told = [(BARE, "no geometry")]
        elif kind == Kind.STRANGE:
            told = [(STRANGE, f"{next(names)} is no polygon")]
        elif kind == Kind.UNBOUND:
            told = [(UNBOUND, "a coordinate is no finite number")]
        else:
            geometry = next(geometries)
            told = faults.get(number) or shape_faults(fault_of(geometry))
        for fault in told:
            seen.find(*fault, number)
    return seen


@dataclass
class Covered:
    """A layer on the grid, which of its features cover what, its overlaps and its gaps."""

    grid: Gridded
    rows: Rows
    frame: Frame
    overlaps: Flaws
    gaps: Flaws

    def areas(self) -> tuple[float, float]:
        """The sum of the areas of all polygons, and the area that is covered where they are read by
        parity."""
        return self.frame.area(self.grid.twice_area()), self.frame.area(self.rows.within(self.rows.counts % 2 == 1))

    def findings(self, units: Units) -> Iterator[Finding]:
        """Each overlap and gap that isn't narrower than a grid unit."""
        for flaws in (self.overlaps, self.gaps):
            yield from map(units.finding, flaws.chosen(~flaws.thin).each())


    def drawn(self, alone: Sequence[Finding], units: Units) -> Iterator[tuple[Finding, list[GridPolygon]]]:
        """All findings, each with its polygons on the grid: those of its feature, or its own."""
        shapes = dict(zip(self.grid.layer.ids.tolist(), self.grid.layer.lists()))
        for finding in alone:
            yield finding, shapes.get(finding.ids[0], []) if finding.ids else []
        for flaws in (self.overlaps, self.gaps):
            told = flaws.chosen(~flaws.thin)
            yield from zip(map(units.finding, told.each()), told.shapes.lists())

    def table(self, alone: Sequence[Finding], units: Units) -> Table:
        """All that was found, with what is wrong with each feature alone, as a layer."""
        return table_of(alone, self.grid.layer, [self.overlaps, self.gaps], self.frame, units)


def covered(source: Source, seen: Checked, frame: Frame, sizes: Sizes, most: int) -> Covered | None:
    """What the features of a layer cover on the grid, if they have polygons there; a layer that is
    too large for a run is found."""
    grid = on_grid(seen.survey, frame)
    warn_of_losses(source, grid)
    if grid.segments > most:
        seen.find(LAYER, f"{grid.segments:,} segments, and the limit of all layers together is {most:,}")
    if not grid.polygons:
        return None
    with alone(source, seen.survey, grid, frame) as together:
        (layer,) = together.layers
        rows, overlaps, gaps = found_in(together, layer, sizes)
        return Covered(grid, rows, frame, overlaps, gaps)


def frame_of(source: Source, seen: Checked, system: osr.SpatialReference | None, arguments: Namespace) -> Frame | None:
    """The frame that a run would choose for this layer alone; what is off its limits is found."""
    asked = frames.asked_for(arguments.grid, arguments.origin)
    try:
        return frames.chosen(source.name, seen.survey.box(source.name), system, *asked)
    except Refusal as refusal:
        seen.find(LAYER, refusal.reason)
        return None


def main(arguments: Namespace) -> int:
    if not arguments.out:
        about = ("layer", "append") if arguments.report else ("layer", "append", "overwrite")
        options.refuse_beside(arguments, about, "there is no -o that it could be about")
    source = Source(arguments.a)
    page = target_of(arguments.report, arguments.overwrite, files_of([source])) if arguments.report else None
    place = destination(arguments, [source]) if arguments.out else None
    system = common_system([source], arguments.system)
    seen = look_through(source)
    look_at_columns(source)
    if not seen.survey.features:
        seen.find(LAYER, "the layer has no features")
    frame = frame_of(source, seen, system, arguments)
    units = Units(unit_name(system), area_name(system), options.sizes(arguments, usual_sizes(system)))
    held = covered(source, seen, frame, units.sizes, options.segments(arguments)) if frame and len(seen.survey.sound.ids) else None
    alone = list(seen.findings)
    seen.findings += held.findings(units) if held else ()
    if arguments.json:
        tell(as_json(source.name, seen.survey.features, seen.findings, areas(seen, held)))
    else:
        for finding in seen.findings:
            tell(f"{source.name}: {finding.line()}")
        tell(f"{source.name}: {', '.join(summary(seen, held, units.square))}")
    if page:
        lines = [*([frame.told(system)] if frame else []), *details(held, areas(seen, held), units.square)]
        drawn = list(held.drawn(alone, units)) if held else [(finding, []) for finding in alone]
        written(page, Report(source.name, seen.survey.features, lines, units.square, drawn, held.grid.layer if held else None).page())
    if place:
        place.write(system, held.table(alone, units) if held else table_without_shapes(alone))
    return FOUND if seen.findings else 0


def written(target: Target, text: str) -> None:
    """Puts a text in its place."""
    with draft(target) as folder:
        (folder / target.path.name).write_text(text, encoding="utf-8")


def areas(seen: Checked, held: Covered | None) -> dict[str, float]:
    """The areas of a layer of which all could be read."""
    return dict(zip(("sum", "parity"), held.areas())) if held and seen.readable else {}


def summary(seen: Checked, held: Covered | None, name: str) -> Iterator[str]:
    yield f"{seen.survey.features:,} features"
    yield f"{len(seen.findings):,} findings"
    yield from details(held, areas(seen, held), name)


def details(held: Covered | None, told: dict[str, float], name: str) -> Iterator[str]:
    """What is only counted, and the areas where they are known."""
    for flaws, kind in ((held.overlaps, "overlaps"), (held.gaps, "gaps")) if held else ():
        if thin := int(flaws.thin.sum()):
            yield f"{thin:,} {kind} narrower than a grid unit"
    if told:
        yield f"areas {told['sum']:,.10g} {name} in sum, {told['parity']:,.10g} by parity"
