"""Which tiles differ since a layer was another one."""

from __future__ import annotations

from hashlib import sha256
from itertools import chain

import numpy as np

from ..columns import Columns, Floats
from .drawing import Read
from .levels import MARGIN
from .shaping import boxes
from .world import EXTENT, Places, rounded


def marks(layer: Read) -> dict[int, bytes]:
    """For the number of each feature a mark of its polygons and values."""
    found = {}
    for k, number in enumerate(layer.polygons.ids.tolist()):
        one = layer.polygons.part(k, k + 1)
        parts = [part.tobytes() for part in (one.polygons, one.rings, one.x, one.y)]
        parts += layer.drawn.values[int(layer.features[k])]
        found[number] = sha256(b"".join(b"%d:%s" % (len(part), part) for part in parts)).digest()
    return found


def differing(new: Read, old: Read) -> tuple[set[int], bool]:
    """The numbers of the features that one of two layers hasn't as the other one has them; and whether
    the others are features of a number each, in the same order."""
    now, before = marks(new), marks(old)
    changed = {number for number in chain(now, before) if now.get(number) != before.get(number)}
    ordered = [number for number in now if number in before] == [number for number in before if number in now]
    alone = len(now) == len(new.polygons.ids) and len(before) == len(old.polygons.ids)
    return changed, ordered and alone and new.drawn.keys == old.drawn.keys


def reached(layers: tuple[Read, Read], numbers: set[int], zoom: int, buffer: int) -> Places:
    """The tiles of a zoom that show features of these numbers, of either layer, or may do so."""
    found: set[tuple[int, int]] = set()
    for layer in layers:
        chosen = layer.polygons.of_features(np.isin(layer.polygons.ids, sorted(numbers)))
        found.update(chain.from_iterable(touched(side, zoom, buffer) for side in sides(chosen, zoom)))
    return frozenset(found)


def sides(layer: Columns[Floats], zoom: int) -> list[tuple[int, int, int, int]]:
    """The boxes of features on the grid of a zoom."""
    held = rounded(layer, zoom)
    there = held.of_features(np.diff(held.feature_points()) > 0)
    return list(zip(*(side.tolist() for side in boxes(there))))


def touched(box: tuple[int, int, int, int], zoom: int, buffer: int) -> list[tuple[int, int]]:
    """The tiles whose frames a box reaches."""
    last, reach = (1 << zoom) - 1, buffer + MARGIN
    left, top, right, bottom = ((at + way) // EXTENT for at, way in zip(box, (-reach, -reach, reach, reach)))
    return [(x, y) for x in range(max(left, 0), min(right, last) + 1) for y in range(max(top, 0), min(bottom, last) + 1)]
