"""The union of rows of faces, without rounding anything again.

All rows of one answer are made of the same rounded edges, so nothing has to be computed but which edges are left: a side of a polygon that
another one has in the other direction is no border of the union. What is left has the union on its left, and the library makes polygons
of it.
"""

from __future__ import annotations

from array import array
from itertools import chain, islice
from typing import Iterable, Set, Tuple

from ._columns import fault_in, found_in
from ._library import ANSWERED, library
from ._rooms import given_back, size_for, taken
from ._shapes import Found, Polygons
from ._shapes import found_in as found_in_text

Edge = Tuple[int, int, int, int]


def united(rows: Iterable[Polygons]) -> Found:
    """The union of rows' polygons, in the order in which the library writes a result."""
    edges = array("i", chain.from_iterable(sorted(border_of(rows))))
    count = len(edges) // 4
    room = taken(size_for(count + count // 3))  # a ring has three edges or more, and one point more than edges
    library.overlay_polygons(edges.buffer_info()[0] or room.place, count, *room.columns)
    if room.columns_answer.status != ANSWERED:
        raise fault_in(room.columns_answer)
    found = found_in(room)
    given_back(room)
    return found


def border_of(rows: Iterable[Polygons]) -> Set[Edge]:
    """The sides of all polygons but those that two of them share, from x and y to x and y."""
    edges: Set[Edge] = set()
    for row in rows:
        found = found_in_text(row) if isinstance(row, str) else row.found()
        points = zip(found.x, found.y)
        for count in found.rings:
            ring = list(islice(points, count))
            for (ax, ay), (bx, by) in zip(ring, ring[1:]):
                if (bx, by, ax, ay) in edges:
                    edges.remove((bx, by, ax, ay))
                else:
                    edges.add((ax, ay, bx, by))
    return edges
