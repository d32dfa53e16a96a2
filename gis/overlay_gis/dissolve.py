"""dissolve: the features of a layer united, all of them or those of equal values.

All features are rounded together, once. Rows of faces tell which features cover what; those of one
value are united without moving anything (`merging.py`). Without fields the program itself unites
all.
"""

from __future__ import annotations

from argparse import ArgumentParser, Namespace
from dataclasses import dataclass, replace
from itertools import chain
from typing import Any, Sequence

import numpy as np
from osgeo import ogr

from . import options, row_tables
from .by_values import of_classes
from .changes import tell_moves
from .columns import Columns, Numbers
from .common_grid import CommonGrid, brought_together
from .destination import destination
from .encodings import check_texts
from .fields import by_fields, check_fields, column_of, fields_of, is_plain, told_apart, values_in
from .frame import Frame
from .layers import Source
from .merging import Groups, merged
from .messages import during, say
from .output import Column, Table
from .program import COVERED, FACES

EXAMPLE = "overlay-gis dissolve parcels.gpkg --by owner -o owners.gpkg"

# Fields beside those of the values, which go before them: their names have lines behind them where
# fields of the values have these.
FEATURES, AREA = "features", "area"


def add_arguments(parser: ArgumentParser) -> None:
    parser.add_argument("a", metavar="LAYER", type=options.text, help=options.LAYER)
    parser.add_argument(
        "--by",
        metavar="FIELD,..",
        type=options.fields,
        default=[],
        help=(
            "the fields: a feature for each of their values, with these, the number of features and"
            f" the area (default: one for all); {options.IN_QUOTES}"
        ),
    )
    options.add_output(parser, "the file for the united features")
    options.add_parts(parser)
    options.add_polygons_only(parser)
    options.add_grid(parser)
    options.add_segments(parser)


@dataclass(frozen=True)
class United:
    """What the features of each value cover, a feature for each value; these values; how many
    features have them; and twice the area."""

    shapes: Columns[Numbers]
    values: Sequence[tuple[Any, ...]]
    features: Sequence[int]
    twice: Sequence[int]


def all_of(together: CommonGrid) -> United:
    """All features of the layer as one."""
    (layer,) = together.layers
    found = together.questions.ask("union", [layer], COVERED).result()
    shapes = replace(found, features=np.array([0, len(found.polygons) - 1]), ids=np.zeros(1, np.int64))
    return United(shapes, [()], [len(layer.grid.layer.ids)], [sum(found.twice_areas())])


def by_values(together: CommonGrid, fields: Sequence[ogr.FieldDefn]) -> United:
    """The features of each value of some fields as one."""
    (layer,) = together.layers
    question = together.questions.ask(FACES, [layer])
    values = values_in(layer, fields)
    check_texts(layer, fields, values)
    classes, firsts = told_apart(values)
    rows = question.rows()
    held = of_classes(rows.members[0], classes)
    groups = Groups(held.owners(), held.places, len(firsts))
    with during("uniting features"):
        shapes = merged(rows.shapes, groups)
    return United(
        shapes,
        [values[k] for k in firsts],
        np.bincount(classes, minlength=len(firsts)).tolist(),
        groups.sums(rows.twice).tolist(),
    )


def table_of(united: United, fields: Sequence[ogr.FieldDefn], frame: Frame, by_parts: bool) -> Table:
    columns = [*map(column_of, fields, by_fields(fields, united.values)), Column(FEATURES, ogr.OFTInteger64), Column(AREA, ogr.OFTReal)]
    plain = all(map(is_plain, chain.from_iterable(united.values)))
    facts = list(zip(united.values, united.features))
    if by_parts:
        polygons = row_tables.parts(united.shapes, frame)
        made = ((shape, (*facts[k][0], facts[k][1], area)) for k, shape, area in polygons)
        return Table(columns, made, ogr.wkbPolygon, frame.boxes(united.shapes.apart()) if plain else None, frame=frame)
    wholes = zip(row_tables.shapes(united.shapes, frame), facts, united.twice)
    rows = ((shape if twice else None, (*values, count, frame.area(twice))) for shape, (values, count), twice in wholes)
    return Table(columns, rows, ogr.wkbMultiPolygon, frame.boxes(united.shapes) if plain else None, frame=frame)


def main(arguments: Namespace) -> int:
    source = Source(arguments.a, arguments.polygons_only)
    fields = fields_of(source, arguments.by)
    place = destination(arguments, [source])
    check_fields(source, arguments.by)
    with brought_together([source], arguments.grid, arguments.origin, arguments.system, options.segments(arguments)) as together:
        united = by_values(together, fields) if fields else all_of(together)
        (layer,) = together.layers
        if layer.grid.polygons:
            tell_moves(together, layer, "in sum", sum(united.twice), "united")
        (count,) = place.write(together.system, table_of(united, fields, together.frame, arguments.parts))
    say(f"{arguments.out}: {count:,} {'polygons' if arguments.parts else 'features'}")
    return 0
