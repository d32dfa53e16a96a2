"""Operations that tell what became of both layers beside the result: their areas, and how many steps their borders have."""

from __future__ import annotations

from dataclasses import dataclass
from typing import Any, Callable, Generic, NamedTuple, Optional, Sequence, TypeVar, Union

from ._asking import Plan, answerer_of, by_parity, cancel, chosen_of, frame_of, layers_of, overlap, overlapping
from ._calls import bytes_of, faces_of, text_of
from ._drawing import html_of, named, svg_of
from ._kinds import answer_of
from ._library import Measures
from ._reading import is_covered
from ._rows import Line, lines_of
from ._texts import has_several
from ._uniting import united

Result = TypeVar("Result", covariant=True)


class LayerMeasures(NamedTuple):
    """What became of a layer that was rounded with another one: its area, in square units of the coordinates; how many steps the routes
    of its segments have, one where a segment is led through no grid point but its ends; and twice its area, in squares of the grid,
    exactly."""

    area: float
    steps: int
    twice_area: int


@dataclass(frozen=True)
class Measured(Generic[Result]):
    """The result of an operation, what became of each layer, and the result's area: in square units of the coordinates, and twice, in
    squares of the grid, exactly. Notebooks draw it."""

    result: Result
    a: LayerMeasures
    b: LayerMeasures
    area: float
    twice_area: int

    def _repr_svg_(self) -> Optional[str]:
        return svg_of(self.result)

    def _repr_html_(self) -> str:
        return html_of(self.result, f"area {self.area}", *named([f"area {layer.area}" for layer in (self.a, self.b)]))


def told(result: Any, measures: Measures, area: Callable[[int], float]) -> Measured[Any]:
    """What is told of a result, by what tells an area of twice so many squares of the grid."""
    a, b = (LayerMeasures(area(layer.twice_area), layer.steps, layer.twice_area) for layer in (measures.a, measures.b))
    return Measured(result, a, b, area(measures.twice_area), measures.twice_area)


def of_texts(call: int, a: Union[str, bytes], b: Union[str, bytes], plan: Plan) -> Measured[Any]:
    """What an operation answers on two texts with whole coordinates, whose unit is the grid's."""
    measures, texts = Measures(), [bytes_of(a), bytes_of(b)]
    text = text_of(call, texts[0], texts[1], plan.side, plan.segments, measures=measures)
    if is_covered(plan.reading) and any(map(has_several, texts)):
        rows = lines_of(faces_of(texts, plan.side, plan.segments))
        if overlap(rows):
            text = text_of(call, texts[0], texts[1], plan.side, plan.segments, covered=True)
            put_areas(measures, rows, chosen_of(call, rows))
    return told(text.decode("ascii") if isinstance(a, str) else text, measures, lambda twice: twice / 2)


def measured(call: int, a: Any, b: Any, plan: Plan) -> Measured[Any]:
    """What an operation answers on layers of any kind on a grid."""
    layers = layers_of([a, b])
    frame = frame_of(layers, plan)
    measures = Measures()
    polygons = by_parity(call, layers, frame, plan, measures)
    rows = None if cancel(layers, plan) else overlapping(layers, frame, plan)
    if rows is not None:
        chosen = chosen_of(call, rows)
        polygons = united(row.polygons for row in chosen)
        put_areas(measures, rows, chosen)
    return told(answer_of(answerer_of(layers), polygons, frame), measures, frame.area)


def put_areas(measures: Measures, rows: Sequence[Line], chosen: Sequence[Line]) -> None:
    """Puts the areas that layers cover whose features overlap, by their rows; the routes are those of layers that are read by parity."""
    for k, layer in enumerate((measures.a, measures.b)):
        layer.twice_area = sum(row.twice for row in rows if row.ids[k])
    measures.twice_area = sum(row.twice for row in chosen)
