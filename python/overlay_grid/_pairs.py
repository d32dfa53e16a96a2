"""An operation on many pairs of geometries: on the first ones of two layers, the second ones, and so on."""

from __future__ import annotations

from typing import Any, Iterable, Sequence

from ._asking import Plan, answerer_of, frame_of, layers_of
from ._columns import pairs_of
from ._frames import series_of
from ._grid import Frame
from ._kinds import Answerer, Given, answer_of, has_system, kind_of, shapely_answer, wkb_answer
from ._shapes import Features, Paired, Piece, Repeated, Shapes


def pairs(call: int, a: Any, b: Any, plan: Plan) -> Any:
    """What an operation answers on each pair, of the first layer's kind; a layer that is one geometry has it in each of them."""
    layers = layers_of([a, b])
    shapes = list(map(shapes_in, layers))
    alone = [kind_of(value) is not None for value in (a, b)]
    count = count_of(shapes, alone)
    frame = frame_of(layers, plan)
    first, second = (side_of(held.features_on_grid(frame), one, count) for held, one in zip(shapes, alone))
    return told_of(pairs_of(call, first, second), answerer_of(layers), frame, b if alone[0] else a)


def shapes_in(layer: Given) -> Shapes:
    """The polygons of a layer that is no text."""
    if not isinstance(layer.held, Shapes):
        raise TypeError(f"{layer.held.layer}: pairs are of WKB, Shapely's geometries or arrays, and not of texts")
    return layer.held


def count_of(shapes: Sequence[Shapes], alone: Sequence[bool]) -> int:
    """How many pairs there are of two layers, each of which may be one geometry alone."""
    counts = [len(held.features) for held, one in zip(shapes, alone) if not one]
    if not counts:
        raise TypeError("A and B are one geometry each, and of pairs one of them is a list")
    if counts[0] != counts[-1]:
        raise ValueError(f"A has {counts[0]} geometries and B has {counts[-1]}, and pairs want as many of both")
    return counts[0]


def side_of(features: Features, alone: bool, count: int) -> Paired:
    """The features of a layer for so many pairs."""
    return Repeated(features, count) if alone else features


def told_of(found: Iterable[Piece], answer: Answerer, frame: Frame, many: Any) -> Any:
    """Answers in the order of a layer's geometries, and as a series where it is one."""
    if answer is shapely_answer and is_series(many):
        return series_of([answer_of(wkb_answer, piece, frame) for piece in found], many, many.index)
    return [answer_of(answer, piece, frame) for piece in found]


def is_series(layer: Any) -> bool:
    """Whether a layer is a series or a frame of GeoPandas."""
    return has_system(layer) and hasattr(layer, "index")
