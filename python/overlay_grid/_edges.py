"""Rounded edges, brought back from the grid."""

from __future__ import annotations

from typing import Any, Callable, Dict, List, NamedTuple

from ._asking import Plan, answerer_of, asked, frame_of, layers_of
from ._calls import CALLS, Operation, text_of
from ._grid import Frame
from ._kinds import Answerer, bytes_answer, text_answer


class Edge(NamedTuple):
    """An edge of both layers after rounding, from its lesser point to its greater one, and its count in either layer."""

    x1: float
    y1: float
    x2: float
    y2: float
    a: int
    b: int


def line_of(line: str, frame: Frame) -> str:
    """The line of an edge, in the reference system's units."""
    numbers = line.split()
    for k in range(4):
        numbers[k] = frame[k % 2].told(int(numbers[k]))
    return " ".join(numbers) + "\n"


def text_lines(text: str, frame: Frame) -> str:
    """The lines of all edges."""
    return "".join([line_of(line, frame) for line in text.splitlines()])


def byte_lines(text: str, frame: Frame) -> bytes:
    """The same as bytes."""
    return text_lines(text, frame).encode()


def tuples(text: str, frame: Frame) -> List[Edge]:
    """All edges."""
    numbers = list(map(int, text.split()))
    ends = [frame[k % 2].placed(numbers[k::6]) for k in range(4)]
    return list(map(Edge, *ends, numbers[4::6], numbers[5::6]))


# What makes the answer, by what makes one of polygons; edges of geometries are tuples.
KINDS: Dict[Answerer, Callable[[str, Frame], Any]] = {text_answer: text_lines, bytes_answer: byte_lines}


def edges(a: Any, b: Any, plan: Plan) -> Any:
    """The edges of two layers: lines where the first one is a text."""
    layers = layers_of([a, b])
    frame = frame_of(layers, plan)
    texts = [layer.held.text(frame) for layer in layers]
    text = asked(layers, lambda: text_of(CALLS[Operation.EDGES], texts[0], texts[1], plan.side, plan.limit)).decode("ascii")
    return KINDS.get(answerer_of(layers), tuples)(text, frame)
