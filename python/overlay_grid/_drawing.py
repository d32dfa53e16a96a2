"""Drawings of answers as notebooks show them: SVG, and HTML with words below it."""

from __future__ import annotations

import re
from itertools import chain, islice
from typing import Any, List, Optional, Sequence, Tuple

from ._calls import bytes_of, layer_name
from ._kinds import bytes_answer, kind_of, shapes_of, text_answer

# The longer side of a drawing, in pixels, and what share of it is left free on each side.
SIDE, MARGIN = 240, 0.04

# More points aren't drawn.
MOST = 20_000

RING = re.compile(r"\(([^()]+)\)")
Points = List[Tuple[float, float]]

DRAWING = (
    '<svg xmlns="http://www.w3.org/2000/svg" width="{:.0f}" height="{:.0f}" viewBox="{:.9g} {:.9g} {:.9g} {:.9g}"><path d="{}" '
    'fill="#9ecae1" fill-rule="evenodd" stroke="#08519c" stroke-width="1.5" vector-effect="non-scaling-stroke"/></svg>'
)


def rings_of(geometry: Any) -> List[Points]:
    """The rings of an answer of any kind: a text, WKB, a geometry of Shapely's, or a list of tuples of arrays."""
    if kind_of(geometry) in (text_answer, bytes_answer):
        rings = RING.findall(bytes_of(geometry).decode("ascii"))
        pairs = [[point.split() for point in ring.split(",")] for ring in rings]
        return [[(float(x), float(y)) for x, y in ring] for ring in pairs]
    held = shapes_of(geometry if isinstance(geometry, list) else [geometry], "")
    points = zip(held.x, held.y)
    return [list(islice(points, count)) for count in held.rings]


def svg_of(geometry: Any) -> Optional[str]:
    """The drawing of an answer, whose points are told from its upper left corner on; nothing where they are too many."""
    rings = rings_of(geometry)
    if sum(map(len, rings)) > MOST:
        return None
    x, y = zip(*chain.from_iterable(rings)) if rings else ((0.0, 1.0), (0.0, 1.0))
    left, high, wide, tall = min(x), max(y), max(x) - min(x), max(y) - min(y)
    free = MARGIN * max(wide, tall)
    box = (-free, -free, wide + 2 * free, tall + 2 * free)
    scale = SIDE / max(box[2:])
    paths = (" L".join(f"{u - left:.9g} {high - v:.9g}" for u, v in ring[:-1]) for ring in rings)
    return DRAWING.format(box[2] * scale, box[3] * scale, *box, " ".join(f"M{path} Z" for path in paths))


def html_of(geometry: Any, *words: str) -> str:
    """The drawing of an answer, and words below it."""
    drawn = svg_of(geometry) or f"more than {MOST:,} points"
    return f"<figure>{drawn}<figcaption>{'; '.join(words)}</figcaption></figure>"


def named(values: Sequence[object]) -> List[str]:
    """What is told of each layer, with its name."""
    return [f"{layer_name(number)}: {value}" for number, value in enumerate(values)]
