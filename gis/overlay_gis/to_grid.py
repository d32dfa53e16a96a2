"""to-grid: layers as texts for the program, and the frame that leads back."""

from __future__ import annotations

import os
import re
from argparse import ArgumentParser, Namespace
from dataclasses import replace

import numpy as np

from . import options
from . import frame as frames
from .columns import Columns, Numbers
from .common_grid import alone, on_grid, warn_of_losses
from .faults import Fault, Refusal
from .frame import Frame
from .layers import Source, Survey, common_system, files_of
from .messages import say
from .program import COVERED
from .rings import Gridded, segments
from .surveys import box_of, names_of, surveyed
from .systems import system_from, system_name
from .texts import write_polygons
from .whole import draft, target_of

EXAMPLE = (
    "overlay-gis to-grid parcels.gpkg zones.gpkg -o grid    # grid/parcels.wkt, grid/zones.wkt,"
    " grid/frame.json"
)

FRAME = "frame.json"

# What a layer's name may have, and no file's name.
NO_PART = re.compile(r"[/\x00]")


def add_arguments(parser: ArgumentParser) -> None:
    parser.add_argument("layers", metavar="LAYER", type=options.text, nargs="+", help=options.LAYER)
    parser.add_argument(
        "-o",
        "--out",
        metavar="FOLDER",
        type=options.given,
        required=True,
        help="the folder for the texts and for frame.json, which holds grid, origin and system",
    )
    parser.add_argument(
        "--frame",
        metavar="FILE",
        type=options.given,
        help=(
            "a frame that is there already, for layers that come later, instead of a grid and an"
            " origin"
        ),
    )
    options.add_grid(parser)
    options.add_dissolve(parser)
    options.add_polygons_only(parser)


def frame_for(arguments: Namespace, sources: list[Source], surveys: list[Survey]) -> Frame:
    """The frame that was named, or one for all layers together."""
    common, box = common_system(sources, arguments.system), box_of(sources, surveys)
    if not arguments.frame:
        asked = frames.asked_for(arguments.grid, arguments.origin)
        frame = frames.chosen(names_of(sources), box, common, *asked)
    else:
        frame = frames.loaded(arguments.frame)
        held = system_from(frame.system) if frame.system else None
        if frames.code_of(common) != frames.code_of(held):
            raise Refusal(
                arguments.frame,
                (
                    f"is a frame of {system_name(held)}, and {sources[0].name} has"
                    f" {system_name(common)}"
                ),
            )
        if box and not frames.fits(box, frame.unit, frame.origin):
            raise Refusal(arguments.frame, "points of these layers lie off the limits of its grid")
    say(frame.told(common))
    return frame


def united(source: Source, seen: Survey, grid: Gridded, frame: Frame) -> Columns[Numbers]:
    """All that a layer covers on the grid, as one feature."""
    with alone(source, seen, grid, frame) as layer:
        polygons = layer.questions.ask("union", layer.layers, COVERED).result()
        return replace(polygons, features=np.array([0, len(polygons.polygons) - 1]), ids=np.ones(1, np.int64))


def file_name(source: Source) -> str:
    """The name of the file for a layer's text."""
    return f"{NO_PART.sub('_', source.stem)}.wkt"


def main(arguments: Namespace) -> int:
    if arguments.frame:
        options.refuse_beside(arguments, ("grid", "origin"), "the frame that --frame names has its own")
    sources = [Source(name, arguments.polygons_only) for name in arguments.layers]
    names = [file_name(source) for source in sources]
    if len(set(names)) < len(names):
        raise Refusal(names_of(sources), "would be written under one name")
    try:
        os.makedirs(arguments.out, exist_ok=True)
    except OSError as error:
        raise Fault(arguments.out, error.strerror) from error
    target = target_of(os.path.join(arguments.out, FRAME), True, files_of(sources))
    for name in names:
        target.check(target.path.with_name(name))
    surveys = [surveyed(source) for source in sources]
    frame = frame_for(arguments, sources, surveys)
    with draft(target) as folder:
        for source, seen, name in zip(sources, surveys, names):
            grid = on_grid(seen, frame)
            warn_of_losses(source, grid)
            layer = united(source, seen, grid, frame) if arguments.dissolve else grid.layer
            with open(folder / name, "wb") as file:
                write_polygons(file, layer)
            across, up = segments(layer)
            told = (
                f"{len(layer.polygons) - 1:,} polygons, {np.count_nonzero(across | up):,} segments"
            )
            say(f"{os.path.join(arguments.out, name)}: {told}")
        frame.saved(str(folder / FRAME))
    return 0
