"""What is asked of layers of any kind on a grid: they are brought to it, the library answers, and the answer is brought back."""

from __future__ import annotations

import sys
import warnings
from typing import Any, Callable, Dict, List, NamedTuple, Optional, Sequence, Set, Tuple, TypeVar

from ._calls import (
    CALLS,
    MOST_SEGMENTS,
    Operation,
    faces_of,
    layer_name,
    limit_of,
    longest_of,
    text_of,
)
from ._columns import lines_on, polygons_of
from ._faults import Refused
from ._grid import FINEST, FINEST_DEGREES, Frame, Origin, Unit, frame_at, frame_for, joined
from ._kinds import Answerer, Given, answer_of, arrays_answer, given, told_at
from ._library import Measures
from ._rows import Line, lines_of
from ._shapes import Polygons, Shapes
from ._reading import COVERED, is_covered
from ._texts import Text
from ._uniting import united

Result = TypeVar("Result")

# How many features a warning tells.
TOLD = 5

# Which rows an operation has, by whether each layer has their points.
CHOICES: Dict[int, Callable[[bool, bool], bool]] = {
    CALLS[Operation.UNION]: lambda a, b: a or b,
    CALLS[Operation.INTERSECTION]: lambda a, b: a and b,
    CALLS[Operation.DIFFERENCE]: lambda a, b: a and not b,
    CALLS[Operation.SYMDIFFERENCE]: lambda a, b: a != b,
}


class Plan(NamedTuple):
    """What is said of a run: the side of a tile, the most segments, the grid's unit and its origin, or nothing; and how layers are read."""

    side: Optional[int] = None
    segments: Optional[int] = None
    grid: Optional[Unit] = None
    origin: Optional[Origin] = None
    reading: str = COVERED

    @property
    def limit(self) -> int:
        """The most segments, of which there is no number where nothing is said of geometries."""
        return MOST_SEGMENTS if self.segments is None else limit_of(self.segments)


def warn(words: str) -> None:
    """Warns whoever called the package."""
    level, caller = 1, sys._getframe()
    while caller.f_back and caller.f_globals.get("__package__") == __package__:
        level, caller = level + 1, caller.f_back
    warnings.warn(words, UserWarning, stacklevel=level)


def unit_for(systems: Sequence[Any]) -> Unit:
    """The unit where none is said: by the first reference system that is told."""
    told = next((system for system in systems if system is not None), None)
    return FINEST_DEGREES if getattr(told, "is_geographic", False) else FINEST


def frame_of(layers: Sequence[Given], plan: Plan) -> Frame:
    """The frame for some layers; a point that has no room on it is refused, and reference systems that differ are warned of."""
    systems = [system for layer in layers for system in layer.systems]
    if any(system != systems[0] for system in systems):
        warn("the reference systems of the layers differ, and coordinates are taken as they are")
    unit = unit_for(systems) if plan.grid is None else plan.grid
    box = joined([layer.held.box() for layer in layers])
    frame = frame_for(unit, box) if plan.origin is None else frame_at(unit, plan.origin)
    if box is None or frame.fits(box):
        return frame
    forms = [layer.held.without_numbers() if isinstance(layer.held, Text) else b"" for layer in layers]
    asked(layers, lambda: faces_of(forms, None, MOST_SEGMENTS))
    if plan.origin is None:
        raise max(layers, key=lambda layer: layer.held.farthest()).held.no_room(box)
    raise next(filter(None, (layer.held.off_grid(frame) for layer in layers)))


def asked(layers: Sequence[Given], call: Callable[[], Result]) -> Result:
    """What a call answers; a refusal tells of the layers as they came."""
    try:
        return call()
    except Refused as error:
        raise told_at(error, layers) from None


def layers_of(values: Sequence[Any]) -> List[Given]:
    """Layers as they were given, called A, B and on."""
    return [given(value, layer_name(number)) for number, value in enumerate(values)]


def answerer_of(layers: Sequence[Given]) -> Answerer:
    """What makes answers of the first layer's kind, or of the next one's where that has no geometry."""
    return next((layer.answer for layer in layers if layer.answer), arrays_answer)


def cancel(layers: Sequence[Given], plan: Plan) -> bool:
    """Whether layers may be read by parity: where it is said so, or each has one feature."""
    return not is_covered(plan.reading) or not any(layer.held.has_several() for layer in layers)


def operation(call: int, a: Any, b: Any, plan: Plan) -> Any:
    """What an operation answers, of the first layer's kind."""
    layers = layers_of([a, b])
    frame = frame_of(layers, plan)
    return answer_of(answerer_of(layers), answered(call, layers, frame, plan), frame)


def answered(call: int, layers: Sequence[Given], frame: Frame, plan: Plan) -> Polygons:
    """The polygons that an operation answers on layers, as they are read."""
    if cancel(layers, plan):
        return by_parity(call, layers, frame, plan)
    texts = texts_of(layers, frame)
    if max(map(len, texts)) <= longest_of(plan.limit):
        return by_texts(call, layers, texts, plan, covered=True)
    rows = overlapping(layers, frame, plan)
    if rows is None:
        return by_parity(call, layers, frame, plan)
    return united(row.polygons for row in chosen_of(call, rows))


def by_parity(call: int, layers: Sequence[Given], frame: Frame, plan: Plan, measures: Optional[Measures] = None) -> Polygons:
    """What an operation answers on layers that are read by parity: as columns where neither is a text. `measures` gets what became of
    the layers."""
    first, second = (layer.held for layer in layers)
    if isinstance(first, Shapes) and isinstance(second, Shapes):
        return polygons_of(call, first.on_grid(frame), second.on_grid(frame), plan.side, plan.limit, measures)
    return by_texts(call, layers, texts_of(layers, frame), plan, measures=measures)


def texts_of(layers: Sequence[Given], frame: Frame) -> List[bytes]:
    """The texts of layers on a grid."""
    return [layer.held.text(frame) for layer in layers]


def by_texts(
    call: int, layers: Sequence[Given], texts: Sequence[bytes], plan: Plan, covered: bool = False, measures: Optional[Measures] = None
) -> str:
    """What an operation answers on the texts of layers, by parity or as they are covered."""
    return asked(layers, lambda: text_of(call, texts[0], texts[1], plan.side, plan.limit, covered, measures)).decode("ascii")


def overlapping(layers: Sequence[Given], frame: Frame, plan: Plan) -> Optional[List[Line]]:
    """The faces of layers; nothing where no features of a layer overlap, so that parity tells the same."""
    rows = faces_on(layers, frame, plan, numbered=False)
    return rows if overlap(rows) else None


def overlap(rows: Sequence[Line]) -> bool:
    """Whether features of a layer overlap, by the faces."""
    return any(len(ids) > 1 for row in rows for ids in row.ids)


def holders_of(row: Line) -> Tuple[bool, bool]:
    """Which of two layers cover the points of a row."""
    first, second = map(bool, row.ids)
    return first, second


def chosen_of(call: int, rows: Sequence[Line]) -> List[Line]:
    """The rows that an operation has."""
    choice = CHOICES[call]
    return [row for row in rows if choice(*holders_of(row))]


def faces_on(layers: Sequence[Given], frame: Frame, plan: Plan, numbered: bool = True) -> List[Line]:
    """The faces of layers on a grid: by columns where no layer is a text, and then with numbers of features where they are wanted."""
    shapes = [layer.held for layer in layers if isinstance(layer.held, Shapes)]
    if len(shapes) == len(layers):
        return lines_on([held.features_on_grid(frame) for held in shapes], plan.side, plan.limit, numbered)
    texts = texts_of(layers, frame)
    return lines_of(asked(layers, lambda: faces_of(texts, plan.side, plan.limit)))


def rows_of(layers: Sequence[Given], plan: Plan) -> Tuple[List[Line], Frame]:
    """The faces of layers, and the frame that leads back; features of which no face is left are warned of."""
    frame = frame_of(layers, plan)
    rows = faces_on(layers, frame, plan)
    for number, layer in enumerate(layers):
        if isinstance(layer.held, Shapes):
            warn_of_lost(layer.held, {feature for row in rows for feature in row.ids[number]})
    return rows, frame


def warn_of_lost(held: Shapes, left: Set[int]) -> None:
    """Warns of features that have polygons, and of which the grid leaves nothing."""
    lost = [number for number, polygons in enumerate(held.features, 1) if polygons and number not in left]
    if lost:
        more = ", .." if len(lost) > TOLD else ""
        warn(f"{held.layer}: the grid leaves nothing of {len(lost)} of {len(held.features)} features: {', '.join(map(str, lost[:TOLD]))}{more}")
