"""faces: which features cover what."""

from __future__ import annotations

import os
from argparse import ArgumentParser, Namespace
from functools import partial
from itertools import chain
from pathlib import Path
from typing import NamedTuple, Sequence

from . import by_values, options, pairs, row_tables
from .common_grid import CommonGrid, brought_together
from .destination import PAIRS, Destination, destination
from .encodings import check_texts
from .faults import Refusal
from .fields import NAMES, Kept, check_fields, kept
from .layers import Source, files_of
from .messages import say
from .options import OfLayer
from .output import layer_target, refuse_without_rows, write_tables
from .program import FACES
from .rows import Rows
from .whole import drafts

EXAMPLE = (
    "overlay-gis faces parcels.gpkg zones.gpkg -o faces.gpkg --keep-a owner --keep-b name,rule"
)


def add_arguments(parser: ArgumentParser) -> None:
    parser.add_argument(
        "layers",
        metavar="LAYER",
        type=options.text,
        nargs="+",
        help=f"the layers, a first, one or more: {options.LAYER}",
    )
    options.add_output(
        parser,
        (
            "the file for the rows, with the fields a, b and so on (numbers of each layer's"
            " features that cover a row) and area"
        ),
    )
    options.add_parts(parser)
    options.add_polygons_only(parser)
    options.add_keep(parser)
    parser.add_argument(
        "--keep",
        metavar="NAME:FIELD,..",
        type=options.of_layer,
        action="append",
        default=[],
        help="fields of any layer, as c:owner,share; may be given several times",
    )
    add_by(parser)
    add_pairs(parser)
    options.add_grid(parser)
    options.add_segments(parser)


def add_by(parser: ArgumentParser) -> None:
    parser.add_argument(
        "--by",
        metavar="[NAME:]FIELD,..",
        type=options.of_first,
        action="append",
        default=[],
        help=(
            "a row for each set of values of these fields, rather than of features, of the first"
            f" layer or of that one, as b:rule; may be given several times; {options.IN_QUOTES}"
        ),
    )


def add_pairs(parser: ArgumentParser) -> None:
    parser.add_argument(
        "--pairs",
        metavar="TABLE",
        type=options.text,
        help=(
            "a table, as pairs.csv, of all pairs of a feature of the first layer and one of the"
            " second that have points in common, with twice the common area in grid units, the"
            " area, its shares of both features, and the fields that --keep and --by name; where TABLE"
            " is OUT, its table pairs, or NAME_pairs beside --layer NAME"
        ),
    )


def named(arguments: Namespace, option: str, given: Sequence[OfLayer]) -> list[list[str]]:
    """The fields of each layer that an option names."""
    asked: dict[str, list[str]] = {name: [] for name in NAMES[: len(arguments.layers)]}
    for one in given:
        if one.name not in asked:
            raise Refusal(
                f"{option} {one.told()}",
                f"there is no layer {one.name or 'without a name'}: they are {', '.join(asked)}",
            )
        asked[one.name] += one.fields
    return list(asked.values())


def fields_asked(arguments: Namespace) -> tuple[list[list[str]], list[list[str]]]:
    """For each layer the fields that are kept, and those whose values make the rows."""
    count = len(arguments.layers)
    if count > len(NAMES):
        raise Refusal("faces", f"takes {len(NAMES)} layers at most, and {count} are named")
    of_two = map(OfLayer, NAMES, (arguments.keep_a, arguments.keep_b))
    keep = named(arguments, "--keep", [*(one for one in of_two if one.fields), *arguments.keep])
    by = named(arguments, "--by", arguments.by)
    for name, both in zip(NAMES, zip(keep, by)):
        if all(both):
            raise Refusal(
                f"--by {OfLayer(name, both[1]).told()}",
                "its rows have values and no features, of which fields could be kept",
            )
    return keep, by


def pairs_place(arguments: Namespace, sources: Sequence[Source]) -> Destination | None:
    """Where the pairs go, if they are asked for and aren't part of the output itself."""
    if not arguments.pairs or same_place(arguments):
        return None
    target = layer_target(arguments.pairs, arguments.overwrite, files_of(sources))
    if target.shares(Path(os.path.realpath(arguments.out))):
        raise Refusal(arguments.pairs, f"would be a part of {arguments.out}")
    refuse_without_rows(target)
    return Destination([""], partial(write_tables, target))


def same_place(arguments: Namespace) -> bool:
    return bool(arguments.pairs) and os.path.realpath(arguments.pairs) == os.path.realpath(arguments.out)


class Found(NamedTuple):
    """The rows of features with the fields that are named of each layer, and the rows that are asked
    for, by values where `--by` names fields, with what is kept of each layer."""

    of_features: Rows
    fields: list[Kept]
    rows: Rows
    kept: list[Kept]


def rows_asked(together: CommonGrid, keep: Sequence[list[str]], by: Sequence[list[str]]) -> Found:
    question = together.questions.ask(FACES, together.layers)
    held = [kept(*of_one) for of_one in zip(together.layers, NAMES, keep)]
    values = [kept(layer, name, fields) if fields else None for layer, name, fields in zip(together.layers, NAMES, by)]
    for layer, *of_layer in zip(together.layers, held, values):
        for taken in filter(None, of_layer):
            check_texts(layer, taken.fields, taken.values)
    rows, fields = question.rows(), [of_layer or layer for of_layer, layer in zip(values, held)]
    if not any(values):
        return Found(rows, fields, rows, held)
    return Found(rows, fields, *by_values.united(rows, held, values))


def main(arguments: Namespace) -> int:
    keep, by = fields_asked(arguments)
    if arguments.pairs and len(arguments.layers) != 2:
        raise Refusal("--pairs", f"are those of two layers, and {len(arguments.layers)} are named")
    sources = [Source(name, arguments.polygons_only) for name in arguments.layers]
    place = destination(arguments, sources, beside=[PAIRS] if same_place(arguments) else [])
    apart = pairs_place(arguments, sources)
    for source, *names in zip(sources, keep, by):
        check_fields(source, list(chain.from_iterable(names)))
    with brought_together(sources, arguments.grid, arguments.origin, arguments.system, options.segments(arguments)) as together:
        found = rows_asked(together, keep, by)
        tables = [row_tables.table_of(found.rows, found.kept, together.frame, arguments.parts)]
        if arguments.pairs:
            first, second = (layer.grid.layer.ids for layer in together.layers)
            tables.append(pairs.table_of(found.of_features, (first, second), found.fields, together.frame))
        with drafts() as outputs:
            counts = place.draft(outputs, together.system, *tables)
            if apart:
                counts += apart.draft(outputs, None, tables[1])
    say(f"{arguments.out}: {counts[0]:,} {'polygons' if arguments.parts else 'rows'}")
    if arguments.pairs:
        say(f"{arguments.pairs}: {counts[1]:,} pairs")
    return 0
