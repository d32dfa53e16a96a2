"""From layers to tiles: the zooms, the tiles of each block, and what is told of them."""

from __future__ import annotations

from dataclasses import dataclass
from functools import partial
from typing import Iterator, Mapping, NamedTuple, Sequence

import numpy as np

from ..columns import Columns, Floats, Mask, Numbers, chained, offsets
from ..faults import Refusal
from ..messages import bar, during, say, unheard
from ..rows import Members
from . import mvt
from .archives import Store
from .coarse import Detail, coarse, halved
from .crew import in_order
from .drawing import Drawn, Read
from .levels import Block, Level, Pieces, cut, made_of
from .shaping import thinned
from .world import GREATEST, Places, Tile, rounded

# For each zoom the tiles that are made, or nothing where all are.
Wanted = Mapping[int, Places | None]


class Plan(NamedTuple):
    """What zooms show: how far polygons go on beyond their tiles, what is left out below the zoom
    `full`, whether features have ids, and the most bytes of a tile, or 0 for any number."""

    zooms: range
    full: int
    buffer: int
    detail: Detail
    ids: bool
    limit: int

    def is_full(self, zoom: int) -> bool:
        """Whether a zoom shows all that it has room for."""
        return zoom >= self.full or not self.detail.leaves_out


@dataclass(frozen=True)
class Map:
    """The features of all layers one layer behind another; which features of the tiles each is a part
    of; the layers of the tiles; and where the features of each of these begin among all."""

    polygons: Columns[Floats]
    owners: Members
    layers: list[Drawn]
    firsts: Numbers

    @property
    def count(self) -> int:
        return int(self.firsts[-1])

    def level(self, zoom: int) -> Level:
        """All that a zoom has room for."""
        return made_of(zoom, thinned(rounded(self.polygons, zoom)), self.owners)

    def box(self) -> tuple[float, float, float, float]:
        """The least x and y, and the greatest x and y; 0 where there are no points."""
        x, y = (at if len(at) else np.zeros(1) for at in (self.polygons.x, self.polygons.y))
        return float(x.min()), float(y.min()), float(x.max()), float(y.max())


def map_of(layers: Sequence[Read]) -> Map:
    firsts = offsets(np.array([len(layer.drawn.ids) for layer in layers]))
    features = np.concatenate([layer.features + first for layer, first in zip(layers, firsts.tolist())])
    owners = Members(np.arange(len(features) + 1), features)
    return Map(chained([layer.polygons for layer in layers]), owners, [layer.drawn for layer in layers], firsts)


def levels(drawn: Map, plan: Plan, wanted: Wanted) -> Iterator[Level]:
    """The zooms of which tiles are wanted, the greatest one first. Those that aren't full are made one of
    the other."""
    before: Level | None = None
    asked = [zoom for zoom, places in wanted.items() if places is None or places]
    for zoom in reversed(range(min(asked, default=GREATEST + 1), plan.zooms[-1] + 1)):
        if plan.is_full(zoom):
            if zoom in asked:
                yield drawn.level(zoom)
            continue
        with during(f"simplifying zoom {zoom}"), unheard():
            before = coarse(halved(before) if before else drawn.level(zoom), plan.detail)
        if zoom in asked:
            yield before


class Task(NamedTuple):
    """The tiles of a block of a zoom, or those of them that are wanted."""

    level: Level
    block: Block
    wanted: Places | None


class Made(NamedTuple):
    """Tiles, how many pieces they have, and the features of these."""

    tiles: list[tuple[Tile, bytes]]
    pieces: int
    features: Numbers


def made(drawn: Map, plan: Plan, task: Task) -> Made:
    """Makes tiles; refuses one of too many bytes."""
    pieces = cut(task.level, task.block, plan.buffer, task.wanted)
    found = encoded(pieces, drawn, plan.ids)
    tiles = [(Tile(task.level.zoom, *place), mvt.packed(data)) for place, data in found]
    for tile, data in tiles:
        if plan.limit and len(data) > plan.limit:
            ways = "more of --simplify or --small, fewer fields, or --by make it smaller"
            raise Refusal(f"tile {tile}", f"has {len(data):,} bytes, above --tile-limit, which is {plan.limit:,}: {ways}")
    return Made(tiles, len(pieces.feature), np.unique(pieces.feature))


def encoded(pieces: Pieces, drawn: Map, with_ids: bool) -> Iterator[tuple[tuple[int, int], bytes]]:
    """The tiles that have a piece, by their columns and rows, and their bytes."""
    shapes = mvt.geometries(pieces.shapes)
    ends = np.searchsorted(pieces.tile, np.arange(len(pieces.tiles) + 1)).tolist()
    for place, at, end in zip(pieces.tiles, ends, ends[1:]):
        if at < end:
            yield place, b"".join(layers_of(drawn, pieces.feature[at:end], shapes[at:end], with_ids))


def layers_of(drawn: Map, features: Numbers, shapes: Sequence[bytes], with_ids: bool) -> Iterator[bytes]:
    """The layers of a tile, which has these features in order, each of that shape."""
    ends = np.searchsorted(features, drawn.firsts).tolist()
    for layer, first, at, end in zip(drawn.layers, drawn.firsts.tolist(), ends, ends[1:]):
        if at < end:
            places = (features[at:end] - first).tolist()
            ids = [layer.ids[k] if with_ids else None for k in places]
            yield mvt.layer(layer.name, layer.keys, zip(ids, [layer.values[k] for k in places], shapes[at:end]))


@dataclass
class Told:
    """What is told of a zoom: which features have a piece, how many tiles, pieces and bytes there are,
    and the greatest tile with its bytes."""

    seen: Mask
    tiles: int = 0
    pieces: int = 0
    bytes: int = 0
    greatest: tuple[int, Tile] | None = None

    def add(self, part: Made) -> None:
        self.seen[part.features] = True
        self.tiles += len(part.tiles)
        self.pieces += part.pieces
        sizes = [(len(data), tile) for tile, data in part.tiles]
        self.bytes += sum(size for size, _ in sizes)
        self.greatest = max([*filter(None, [self.greatest]), *sizes], default=None)

    def words(self, whole: bool) -> str:
        """A line of them; features without a piece are told where all tiles were made."""
        gone = f", {np.count_nonzero(~self.seen):,} of {len(self.seen):,} features vanished" if whole else ""
        most = f", {self.greatest[0]:,} at most ({self.greatest[1]})" if self.greatest else ""
        return f"{self.tiles:,} tiles, {self.pieces:,} pieces{gone}, {self.bytes:,} bytes{most}"


def make(drawn: Map, plan: Plan, wanted: Wanted, workers: int, store: Store) -> None:
    """Makes all tiles that are wanted, by so many processes, and tells of each zoom."""
    found = list(levels(drawn, plan, wanted))
    tasks = [Task(level, block, wanted[level.zoom]) for level in found for block in level.blocks(plan.buffer)]
    tasks = [task for task in tasks if task.wanted is None or any(map(task.block.has, task.wanted))]
    told = {level.zoom: Told(np.zeros(drawn.count, bool)) for level in found}
    answers = in_order(partial(made, drawn, plan), tasks, workers)
    try:
        for done, (part, task) in enumerate(zip(answers, tasks)):
            bar("cutting tiles", done, len(tasks))
            told[task.level.zoom].add(part)
            for tile, data in part.tiles:
                store.add(tile, data)
    finally:
        bar("", 0, 0)
    for zoom in sorted(told):
        say(f"zoom {zoom}: {told[zoom].words(wanted[zoom] is None)}")
