"""Layers on one grid as texts, of which the program can be asked."""

from __future__ import annotations

from contextlib import contextmanager
from dataclasses import dataclass
from typing import Iterator, Sequence

from osgeo import osr

from . import frame as frames
from .columns import NOTHING
from .faults import Refusal
from .frame import Frame
from .layers import Kind, Source, Survey, common_system
from .messages import during, say, warn
from .program import SEGMENTS
from .questions import Layer, Questions, questions, text_of
from .rings import Gridded, gridded
from .surveys import box_of, names_of, numbers, surveyed
from .vanishing import vanished


@dataclass(frozen=True)
class CommonGrid:
    """Layers on the grid of one frame, of which the program can be asked."""

    frame: Frame
    system: osr.SpatialReference | None
    layers: list[Layer]
    questions: Questions


def on_grid(seen: Survey, frame: Frame) -> Gridded:
    """A layer on the grid, with all its features, also those without polygons."""
    return gridded(seen.sound.among(seen.numbers, seen.kinds == Kind.SOUND), seen.area(), frame)


@dataclass(frozen=True)
class Losses:
    """Features of rings that had to be closed or left out, and some of those that the grid leaves
    nothing of; how many these are, and how many features there are at all."""

    closed: Sequence[int]
    dropped: Sequence[int]
    gone: Sequence[int]
    count: int
    features: int


def warn_of_losses(source: Source, grid: Gridded) -> None:
    """Tells of rings that had to be closed or left out, and of features that the grid leaves nothing
    of."""
    gone = vanished(grid.layer)
    tell_losses(source.name, Losses(grid.closed, grid.dropped, gone, len(gone), len(grid.layer.ids)))


def tell_losses(name: str, losses: Losses) -> None:
    if losses.closed:
        warn(name, f"rings were open, and closed: {numbers(losses.closed)}")
    if losses.dropped:
        warn(name, f"rings of less than four points were left out: {numbers(losses.dropped)}")
    if losses.count:
        count = f"{losses.count:,} of {losses.features:,} features"
        warn(name, f"{count} cover nothing on this grid: {numbers(losses.gone)}")


def refuse_many(sources: Sequence[Source], grids: Sequence[Gridded], most: int) -> None:
    """Refuses layers of more segments than were asked for, before a text is written."""
    if sum(grid.segments for grid in grids) > most:
        raise Refusal(
            names_of(sources),
            (
                f"more than {most:,} segments, the limit of all layers together: clip them, and"
                " join the answers, or ask for more by --segments"
            ),
        )


@contextmanager
def brought_together(
    sources: Sequence[Source], unit: str | None, origin: str | None, system: str | None, most: int = SEGMENTS
) -> Iterator[CommonGrid]:
    """The layers on a common grid, whose frame is told; together they may have so many segments at
    most."""
    common = common_system(sources, system)
    surveys = [surveyed(source) for source in sources]
    frame = frames.chosen(names_of(sources), box_of(sources, surveys), common, *frames.asked_for(unit, origin))
    grids = []
    for source, seen in zip(sources, surveys):
        with during(f"rounding {source.name}"):
            grids.append(on_grid(seen, frame))
        seen.sound = NOTHING  # whose points would take room
        refuse_many(sources, grids, most)
    say(frame.told(common))
    with questions() as asked:
        layers = []
        for source, seen, grid in zip(sources, surveys, grids):
            warn_of_losses(source, grid)
            with during(f"writing {source.name} as text"):
                layers.append(Layer(source, seen, grid, text_of(source.name, grid.layer)))
        yield CommonGrid(frame, common, layers, asked)


@contextmanager
def alone(source: Source, seen: Survey, grid: Gridded, frame: Frame) -> Iterator[CommonGrid]:
    """One layer that is on the grid already."""
    with questions() as asked:
        yield CommonGrid(frame, None, [Layer(source, seen, grid, text_of(source.name, grid.layer))], asked)
