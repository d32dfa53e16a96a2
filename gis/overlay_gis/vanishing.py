"""Features of which nothing is left on the grid: their borders cancel out.

A feature is what an odd number of its rings have inside, so it covers nothing where each piece of its
borders is there an even number of times. The least point of all borders tells: a segment that has it
begins there, so an odd number of them in one direction don't cancel. Two in one direction do, up to
the nearer end, and what one of them has beyond that is left.
"""

from __future__ import annotations

from collections import defaultdict
from heapq import heapify, heappop, heappush
from itertools import chain, pairwise
from math import gcd
from typing import Iterable, Iterator

import numpy as np

from .columns import Columns, GridPoint, GridPolygon, Numbers, gathered

Ends = tuple[GridPoint, GridPoint]  # the lesser one first


def vanished(layer: Columns[Numbers]) -> list[int]:
    """The numbers of the features that have polygons, and cover nothing."""
    sizes = gathered(np.array(layer.twice_areas()) != 0, layer.features)
    flat = layer.of_features((np.diff(layer.features) > 0) & (sizes == 0))
    return [number for number, polygons in zip(flat.ids.tolist(), flat.lists()) if cancels(borders(polygons))]


def borders(polygons: Iterable[GridPolygon]) -> list[Ends]:
    """The segments of all rings that aren't points."""
    steps = chain.from_iterable(pairwise(ring) for ring in chain.from_iterable(polygons))
    return [(min(step), max(step)) for step in steps if step[0] != step[1]]


def cancels(segments: list[Ends]) -> bool:
    """Whether each piece of the segments is there an even number of times."""
    heapify(segments)
    while segments:
        ends = beginning(segments)
        if any(len(held) % 2 for held in ends):
            return False
        for rest in rests(ends):
            heappush(segments, rest)
    return True


def rests(ends: Iterable[list[GridPoint]]) -> Iterator[Ends]:
    """What is left of segments that begin in one point: of each two in one direction the way from the
    nearer end to the other one's."""
    two = chain.from_iterable(zip(held[::2], held[1::2]) for held in ends)
    return (step for step in two if step[0] != step[1])


def beginning(segments: list[Ends]) -> Iterable[list[GridPoint]]:
    """Takes away all segments that begin in the least point, and answers the ends of those of each
    direction in order."""
    x, y = segments[0][0]
    found = defaultdict(list)
    while segments and segments[0][0] == (x, y):
        end = heappop(segments)[1]
        across, up = end[0] - x, end[1] - y
        by = gcd(across, up)
        found[across // by, up // by].append(end)
    return found.values()
