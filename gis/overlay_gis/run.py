"""run: one set operation on two layers, from files to a file."""

from __future__ import annotations

from argparse import ArgumentParser, Namespace
from functools import reduce
from operator import and_, or_, xor
from typing import Callable, Sequence

from osgeo import ogr

from . import options, program, row_tables
from .changes import tell_change, tell_moves
from .columns import Columns, Mask, Numbers
from .common_grid import CommonGrid, brought_together
from .destination import destination
from .encodings import check_texts
from .fields import NAMES, check_fields, kept
from .frame import Frame
from .layers import Source
from .messages import say
from .output import POLYGONS, Table
from .wkb import encoded

EXAMPLE = "overlay-gis run intersection parcels.gpkg zones.gpkg -o common.gpkg"

# Which rows of faces an operation has, by whether each layer covers them.
CHOICES: dict[str, Callable[[Mask, Mask], Mask]] = {
    "union": or_,
    "intersection": and_,
    "difference": lambda first, second: first & ~second,
    "symdifference": xor,
}


def add_arguments(parser: ArgumentParser) -> None:
    parser.add_argument("operation", metavar="OP", choices=program.OPERATIONS, help=", ".join(program.OPERATIONS))
    options.add_layers(parser)
    options.add_output(
        parser, "the file for the result; its ending names its format, as .gpkg, .shp, .geojson"
    )
    options.add_reading(parser)
    options.add_polygons_only(parser)
    options.add_keep(
        parser,
        "; with it, or with --keep-b, the result is the rows of faces that the operation has",
    )
    options.add_grid(parser)
    options.add_segments(parser)
    options.add_engine(parser)


def table_of(result: Columns[Numbers], frame: Frame) -> Table:
    """The polygons of a result on the grid, each with its number and its area."""
    polygons = zip(encoded(frame.off_grid(result)), result.twice_areas())
    rows = ((polygon, (number, frame.area(twice))) for number, (polygon, twice) in enumerate(polygons, 1))
    return Table(POLYGONS, rows, ogr.wkbPolygon, frame.boxes(result), frame=frame)


def by_parity(both: CommonGrid, operation: str) -> Columns[Numbers]:
    """What the program answers of layers that are read by parity; and reports what became of each
    layer."""
    result, measures = both.questions.ask(operation, both.layers, program.AREAS).measured()
    for layer, told in zip(both.layers, measures):
        if layer.grid.polygons:
            tell_change(both, layer, told)
    return result


def by_cover(both: CommonGrid, operation: str) -> Columns[Numbers]:
    """What the program answers of layers that are read as all that their features cover; and reports
    what became of each layer."""
    alone = [(layer, both.questions.ask("union", [layer], program.COVERED)) for layer in both.layers if layer.grid.polygons]
    asked = both.questions.ask(operation, both.layers, program.COVERED)
    for layer, union in alone:
        tell_moves(both, layer, "in sum", sum(union.result().twice_areas()), "united")
    return asked.result()


def with_fields(both: CommonGrid, operation: str, asked: Sequence[Sequence[str]]) -> Table:
    """The rows of faces that an operation has, with the fields that are asked for of both
    layers."""
    question = both.questions.ask(program.FACES, both.layers)
    held = [kept(*of_one) for of_one in zip(both.layers, NAMES, asked)]
    for layer, taken in zip(both.layers, held):
        check_texts(layer, taken.fields, taken.values)
    faces = question.rows()
    covers = [members.counts > 0 for members in faces.members]
    for layer, covered in zip(both.layers, covers):
        if layer.grid.polygons:
            tell_moves(both, layer, "in sum", faces.within(covered), "united")
    return row_tables.table_of(faces.chosen(reduce(CHOICES[operation], covers)), held, both.frame)


def main(arguments: Namespace) -> int:
    if not arguments.engine:
        options.refuse_beside(arguments, options.OF_ENGINE, "goes with --engine dask")
    sources = [Source(name, arguments.polygons_only) for name in (arguments.a, arguments.b)]
    place = destination(arguments, sources)
    if arguments.engine:
        from . import by_strips  # which takes its time to be there

        count = by_strips.answer(by_strips.wanted(arguments, sources), place)
        say(f"{arguments.out}: {count:,} polygons")
        return 0
    if arguments.parity:
        options.refuse_beside(arguments, ("keep_a", "keep_b"), "takes features as they cover, and not by parity")
    asked = (arguments.keep_a, arguments.keep_b)
    for source, names in zip(sources, asked):
        check_fields(source, names)
    with brought_together(sources, arguments.grid, arguments.origin, arguments.system, options.segments(arguments)) as both:
        if any(asked):
            table = with_fields(both, arguments.operation, asked)
        else:
            answer = by_parity if arguments.parity else by_cover
            table = table_of(answer(both, arguments.operation), both.frame)
        (count,) = place.write(both.system, table)
    say(f"{arguments.out}: {count:,} {'rows' if any(asked) else 'polygons'}")
    return 0
