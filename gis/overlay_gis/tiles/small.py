"""Small pieces as parts of their neighbours."""

from __future__ import annotations

from collections import defaultdict
from heapq import heapify, heappop, heappush
from typing import Iterable

import numpy as np

from ..columns import Columns, Mask, Numbers
from ..merging import Groups, merged
from ..rows import Members
from .edges import edges_of, numbered, parts_of

NOBODY = -1

Lengths = dict[int, int]  # how long a piece's borders with others are


def without_small(owners: Members, shapes: Columns[Numbers], least: float) -> tuple[Members, Columns[Numbers]]:
    """Shapes and their owners. Pieces of shapes of which twice the area is below the least are parts of
    neighbours then, or left out; so are shapes of which nothing is left."""
    pieces = shapes.apart()
    heirs = Heirs(pieces, least).found()
    if (heirs == np.arange(len(heirs))).all():
        return owners, shapes
    there = np.flatnonzero(heirs != NOBODY)
    left, group = np.unique(parts_of(shapes.features)[heirs[there]], return_inverse=True)
    return owners.chosen(np.isin(np.arange(len(owners.counts)), left)), merged(pieces, Groups(there, group, len(left)))


class Heirs:
    """Which piece each piece becomes a part of. `sizes` is twice the area of each with all of its parts;
    `near` has the borders of the pieces that were small."""

    def __init__(self, pieces: Columns[Numbers], least: float):
        self.least = least
        self.sizes = pieces.twice_areas()
        self.owner = list(range(len(self.sizes)))
        self.near = borders(pieces, np.array(self.sizes) < least)
        self.islands: set[int] = set()

    def root(self, k: int) -> int:
        """The piece of which a piece is a part by now."""
        while self.owner[k] != k:
            self.owner[k] = self.owner[self.owner[k]]
            k = self.owner[k]
        return k

    def found(self) -> Numbers:
        """For each piece the one of which it becomes a part: itself where it isn't small, and NOBODY
        where it is left out."""
        heap = [(size, k) for k, size in enumerate(self.sizes) if size < self.least]
        heapify(heap)
        while heap:
            size, k = heappop(heap)
            if self.owner[k] == k and self.sizes[k] == size:  # else it is a part by now, or has others
                to = self.given(k)
                if self.sizes[to] < self.least and to != k:
                    heappush(heap, (self.sizes[to], to))
        roots = map(self.root, range(len(self.sizes)))
        return np.array([NOBODY if root in self.islands else root for root in roots], np.int64)

    def given(self, k: int) -> int:
        """Has a small piece become a part of the neighbour with the longest border, of several the
        first one, and answers that; one without neighbours is an island, and its own."""
        lengths = summed((self.root(other), length) for other, length in self.near.pop(k, {}).items())
        lengths.pop(k, None)
        if not lengths:
            self.islands.add(k)
            return k
        to = max(lengths, key=lambda other: (lengths[other], -other))
        if self.sizes[to] < self.least:
            self.near[to] = summed([*self.near.get(to, {}).items(), *lengths.items()])
        self.owner[k] = to
        self.sizes[to] += self.sizes[k]
        return to


def summed(lengths: Iterable[tuple[int, int]]) -> Lengths:
    sums: Lengths = defaultdict(int)
    for k, length in lengths:
        sums[k] += length
    return dict(sums)


def borders(pieces: Columns[Numbers], small: Mask) -> dict[int, Lengths]:
    """For each small piece the lengths of its borders with its neighbours. The length of an edge is the
    greater one of how far it goes across and down, a whole number."""
    edges = edges_of(pieces, numbered(pieces.x, pieces.y))
    order = np.argsort(edges.pairs, kind="stable")
    pairs = edges.pairs[order]
    twins = np.flatnonzero(pairs[1:] == pairs[:-1])
    one, other = edges.places[order[twins]], edges.places[order[twins + 1]]
    length = np.maximum(abs(pieces.x[one + 1] - pieces.x[one]), abs(pieces.y[one + 1] - pieces.y[one]))
    piece = parts_of(pieces.rings[pieces.polygons])
    near: dict[int, Lengths] = {}
    for first, second in ((piece[one], piece[other]), (piece[other], piece[one])):
        at = small[first] & (first != second)
        for k, to, sum_ in zip(first[at].tolist(), second[at].tolist(), length[at].tolist()):
            held = near.setdefault(k, {})
            held[to] = held.get(to, 0) + sum_
    return near
