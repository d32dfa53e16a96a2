"""from-grid: a text of the program as a layer, by the frame that its layers came with."""

from __future__ import annotations

import os
from argparse import ArgumentParser, Namespace
from typing import Iterator

import numpy as np
from osgeo import ogr

from . import frame as frames
from . import options, parsing, run
from .columns import Numbers
from .destination import destination
from .frame import Frame
from .messages import say
from .geopackage import Row
from .output import Column, Table
from .systems import system_from
from .texts import EDGES, kind_in, text_of
from .to_grid import FRAME
from .wkb import lines

EXAMPLE = "overlay-gis from-grid grid/common.wkt -o common.gpkg"

EDGE_COLUMNS = [Column("count_a", ogr.OFTInteger64), Column("count_b", ogr.OFTInteger64)]


def add_arguments(parser: ArgumentParser) -> None:
    parser.add_argument(
        "text",
        metavar="TEXT",
        type=options.given,
        help="a text on the grid: what overlay printed, or what to-grid wrote",
    )
    options.add_output(parser, "the file for the layer; its ending names its format")
    parser.add_argument(
        "--frame",
        metavar="FILE",
        type=options.given,
        help=f"the frame that to-grid wrote (default: {FRAME} beside TEXT)",
    )


def edge_rows(edges: Numbers, frame: Frame) -> Iterator[Row]:
    """The edges, each a line with how often either layer has it."""
    across, up = frame.axes
    ends = [axis.placed(edges[:, k]) for k, axis in enumerate((across, up, across, up))]
    yield from zip(lines(np.stack(ends, axis=1)), edges[:, 4:].tolist())


def main(arguments: Namespace) -> int:
    held = arguments.frame or os.path.join(os.path.dirname(arguments.text), FRAME)
    place = destination(arguments, [], [arguments.text, held])
    frame = frames.loaded(held)
    system = system_from(frame.system) if frame.system else None
    text = text_of(arguments.text)
    if kind_in(text, arguments.text) == EDGES:
        edges = parsing.edge_rows(text, arguments.text)
        table = Table(EDGE_COLUMNS, edge_rows(edges, frame), ogr.wkbLineString, frame=frame)
    else:
        result = parsing.polygons_in(text, arguments.text)
        table = run.table_of(result, frame)
    (count,) = place.write(system, table)
    say(f"{arguments.out}: {count:,} features")
    return 0
