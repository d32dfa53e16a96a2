"""Arguments that several verbs have in common."""

from __future__ import annotations

import csv
import re
from argparse import SUPPRESS, ArgumentParser, ArgumentTypeError, Namespace
from dataclasses import replace
from typing import NamedTuple, Sequence

from .faults import Refusal
from .flaws import Sizes
from .program import SEGMENTS

LAYER = (
    "a polygon layer that GDAL reads: a file, or a connection string as PG:dbname=town, "
    "with |layername=NAME where it has several"
)

# How a field is named whose name has a comma, or looks as if a layer were named before it.
IN_QUOTES = "a name that has a comma or a colon in quotes: '\"x,y\"'"

# A layer's name before the fields of it.
LAYER_NAME = re.compile(r'([^",:]*):')


def given(words: str) -> str:
    """Words of any bytes, as a file's name may have, but not none."""
    if not words:
        raise ArgumentTypeError("nothing is given")
    return words


def text(words: str) -> str:
    """Words that GDAL takes and a file can have; bytes that are no text reach Python as half signs."""
    try:
        given(words).encode()
    except UnicodeEncodeError as error:
        raise ArgumentTypeError(f"{words} is no text of UTF-8") from error
    return words


def add_layers(parser: ArgumentParser) -> None:
    parser.add_argument("a", metavar="A", type=text, help=f"the first layer: {LAYER}")
    parser.add_argument(
        "b", metavar="B", type=text, help="the second layer, in the same reference system"
    )


def add_output(parser: ArgumentParser, words: str, required: bool = True) -> None:
    parser.add_argument(
        "-o",
        "--out",
        metavar="OUT",
        type=text,
        required=required,
        help=f"{words}; or PG:.. for a table that --layer names",
    )
    parser.add_argument(
        "--layer",
        metavar="NAME",
        type=text,
        help="the name of the layer in a GeoPackage, or of the table, as schema.table",
    )
    parser.add_argument(
        "--append",
        action="store_true",
        help="puts the layer into the GeoPackage OUT, which keeps its others",
    )
    parser.add_argument(
        "--overwrite",
        action="store_true",
        help=(
            "replaces OUT where it is there already; with --layer or --append the layer of that"
            " name alone"
        ),
    )


def add_polygons_only(parser: ArgumentParser) -> None:
    parser.add_argument(
        "--polygons-only",
        action="store_true",
        help=(
            "leaves out features that are no polygons, and takes of collections their polygons; a"
            " warning names them (default: such a layer is refused)"
        ),
    )


def refuse_beside(arguments: Namespace, names: Sequence[str], reason: str) -> None:
    """Refuses options of these names that are given and would be passed over."""
    given = [f"--{name.replace('_', '-')}" for name in names if getattr(arguments, name)]
    if given:
        raise Refusal(" and ".join(given), reason)


def add_grid(parser: ArgumentParser) -> None:
    parser.add_argument(
        "--grid",
        metavar="UNIT",
        type=text,
        help=(
            "the grid's unit, in the system's own (default: 0.001, or 0.000001 degrees, or the"
            " finest above that has room)"
        ),
    )
    parser.add_argument(
        "--origin",
        metavar="X,Y",
        type=text,
        help="the point that becomes 0 0 (default: chosen from the layers' extent)",
    )
    parser.add_argument(
        "--system",
        metavar="SYSTEM",
        type=text,
        help="the reference system of layers that name none, as EPSG:25832",
    )


def count(text: str) -> int:
    """A number of segments as it was asked for."""
    if not text.isascii() or not text.isdigit() or not 1 <= int(text) < 1 << 32:
        raise ArgumentTypeError(f"{text} is no whole number from 1 to 4294967295")
    return int(text)


def add_segments(parser: ArgumentParser) -> None:
    parser.add_argument(
        "--segments",
        metavar="N",
        type=count,
        help=f"the most segments of all layers together (default: {SEGMENTS})",
    )


def segments(arguments: Namespace) -> int:
    """The most segments of all layers together that were asked for, or as many as usual."""
    return arguments.segments or SEGMENTS


# Bytes of each unit in which memory is told.
UNITS = {"B": 1, "KB": 10**3, "MB": 10**6, "GB": 10**9, "TB": 10**12}
MEMORY = re.compile(r"(\d+(?:\.\d+)?) *([KMGT]?B)", re.IGNORECASE)


def memory(text: str) -> int:
    """A number of bytes as it was asked for."""
    found = MEMORY.fullmatch(text)
    if not found or not int(float(found[1]) * UNITS[found[2].upper()]):
        raise ArgumentTypeError(f"{text} is no size of memory, as 2GB or 500MB")
    return int(float(found[1]) * UNITS[found[2].upper()])


# What --engine names, and the options that go with it alone.
ENGINE, OF_ENGINE = "dask", ("scheduler", "dir", "memory", "workers")


def add_engine(parser: ArgumentParser) -> None:
    parser.add_argument(
        "--engine",
        choices=[ENGINE],
        help=(
            "for maps that no process can hold: by strips of the map, of which workers of Dask do many at"
            " once; of two layers of GeoPackages, with --parity"
        ),
    )
    parser.add_argument(
        "--scheduler",
        metavar="ADDRESS",
        type=text,
        help="with --engine: Dask's scheduler, as tcp://host:8786 (default: one of this machine)",
    )
    parser.add_argument(
        "--dir",
        metavar="FOLDER",
        type=text,
        help=(
            "with --engine: a folder for what goes from one worker to another, which all of them see; the"
            " same command goes on from there if it was stopped (default: one beside OUT)"
        ),
    )
    parser.add_argument(
        "--memory",
        metavar="SIZE",
        type=memory,
        help="with --engine: how much memory a worker may take, as 2GB (default: what is free)",
    )
    parser.add_argument(
        "--workers",
        metavar="N",
        type=count,
        help="with --engine: how many workers of this machine there are (default: one for each processor)",
    )


def add_dissolve(parser: ArgumentParser) -> None:
    parser.add_argument(
        "--dissolve",
        action="store_true",
        help=(
            "takes a point to lie in a layer where one of its features at least covers it, so that"
            " overlaps don't cancel"
        ),
    )


def add_reading(parser: ArgumentParser) -> None:
    """How a layer is read; `--dissolve` asks for what is usual, as it did before it was."""
    reading = parser.add_mutually_exclusive_group()
    reading.add_argument(
        "--parity",
        action="store_true",
        help=(
            "takes a point to lie in a layer where an odd number of its features cover it, so that"
            " where two overlap is outside (default: where one of them at least covers it)"
        ),
    )
    reading.add_argument("--dissolve", action="store_true", help=SUPPRESS)


def add_parts(parser: ArgumentParser) -> None:
    parser.add_argument(
        "--parts",
        action="store_true",
        help=(
            "writes each polygon by itself, with its own area (default: what belongs together is"
            " one feature of several polygons)"
        ),
    )


def fields(text: str) -> list[str]:
    """The names of fields, as a line of CSV has them."""
    try:
        names = [name for line in csv.reader([text], skipinitialspace=True, strict=True) for name in line if name.strip()]
    except csv.Error as error:
        raise ArgumentTypeError(f"{text} is no list of fields as in CSV, with {IN_QUOTES}") from error
    if not names:
        raise ArgumentTypeError("names no field; FIELD,.. is wanted")
    return names


def named(text: str) -> tuple[str | None, str]:
    """A layer's name before a list of fields, if there is one, and the list."""
    found = LAYER_NAME.match(text)
    return (found[1], text[found.end() :]) if found else (None, text)


class OfLayer(NamedTuple):
    """A layer's name in the output, and names of its fields."""

    name: str
    fields: list[str]

    def told(self) -> str:
        return f"{self.name}:{','.join(self.fields)}"


def of_first(text: str) -> OfLayer:
    """The fields of a layer, which is the first one where none is named."""
    name, names = named(text)
    return OfLayer("a" if name is None else name, fields(names))


def of_layer(text: str) -> OfLayer:
    """The fields of a layer that is named before them."""
    if named(text)[0] is None:
        raise ArgumentTypeError(f"names no layer; NAME:FIELD,.. is wanted, as a:{text or 'owner'}")
    return of_first(text)


def add_keep(parser: ArgumentParser, words: str = "") -> None:
    parser.add_argument(
        "--keep-a",
        metavar="FIELD,..",
        type=fields,
        default=[],
        help=(
            "fields of the first layer that a row takes over, as a_FIELD; values of several"
            f" features are joined by commas{words}; {IN_QUOTES}"
        ),
    )
    parser.add_argument(
        "--keep-b",
        metavar="FIELD,..",
        type=fields,
        default=[],
        help="fields of the second layer, as b_FIELD",
    )


def size(text: str) -> float:
    """A width or an area as it was asked for."""
    try:
        found = float(text)
    except ValueError as error:
        raise ArgumentTypeError(f"{text} is no number") from error
    if not 0 <= found < float("inf"):
        raise ArgumentTypeError(f"a size is 0 or above, not {text}")
    return found


def add_sizes(parser: ArgumentParser) -> None:
    parser.add_argument(
        "--gap-width",
        metavar="W",
        type=size,
        help=(
            "a hole of all features together is a gap where it is narrower than this (default: 1,"
            " or 0.00001 degrees); a width is twice the area divided by the length of the border"
        ),
    )
    parser.add_argument(
        "--gap-area",
        metavar="AREA",
        type=size,
        help="or where it is smaller than this (default: the square of these)",
    )
    parser.add_argument(
        "--sliver-width",
        metavar="W",
        type=size,
        help="an overlap or a gap that is narrower is a sliver (default: a tenth of these)",
    )


def sizes(arguments: Namespace, usual: Sizes) -> Sizes:
    """The sizes that were asked for, and the usual ones where none were."""
    asked = {"gap_width": arguments.gap_width, "gap_area": arguments.gap_area, "sliver_width": arguments.sliver_width}
    return replace(usual, **{name: value for name, value in asked.items() if value is not None})
