"""The edges of rings by the numbers of their ends."""

from __future__ import annotations

from typing import NamedTuple

import numpy as np

from ..columns import Columns, Numbers

# A pair of numbers is one number, of which each has so many bits.
BITS = 32


class Edges(NamedTuple):
    """Edges: the place of the point that each begins with, and the numbers of its ends, the lesser one
    first."""

    places: Numbers
    low: Numbers
    high: Numbers

    @property
    def pairs(self) -> Numbers:
        """A number for each, the same for the same ends."""
        return (self.low << BITS) + self.high


def numbered(x: Numbers, y: Numbers) -> Numbers:
    """A number for each point, the same for the same points; those of points further to the right are
    greater, and of two below one another that of the lower one."""
    numbers: Numbers = np.unique((x << BITS) + y + (1 << BITS - 1), return_inverse=True)[1]
    return numbers


def edges_of(layer: Columns[Numbers], numbers: Numbers) -> Edges:
    """The edges of all rings, of whose points these are the numbers."""
    begins = np.ones(len(numbers), bool)
    begins[layer.rings[1:] - 1] = False  # each ring's first point is there again
    places = np.flatnonzero(begins)
    one, other = numbers[places], numbers[places + 1]
    return Edges(places, np.minimum(one, other), np.maximum(one, other))


def parts_of(starts: Numbers) -> Numbers:
    """For each of some things the part that has it, where the parts begin at these places."""
    return np.repeat(np.arange(len(starts) - 1), np.diff(starts))
