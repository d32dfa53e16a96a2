"""What all tasks of a map by strips have in common: which features are read together, which frame
they are brought to, at which columns strips begin; and how these are chosen."""

from __future__ import annotations

import json
from dataclasses import asdict, dataclass
from decimal import Decimal
from functools import cached_property, lru_cache
from typing import NamedTuple

import numpy as np

from . import __version__
from .columns import Floats, Numbers
from .frame import Frame
from .ranges import Input
from .sections import Folder, digest_of

# A form of the files of tasks; those of another one are refused.
FORM = 3

# How many bytes of features a part has.
PART = 8 << 20

# How many segments of each part are looked at when strips are chosen.
SAMPLE = 512

# Bytes that the tasks take, as measured: any of them; for each segment that reaches a strip; and what
# joins strips, for each edge that is open there.
BASE, LINE, EDGE = 120 << 20, 400, 115

# How many segments a strip has at least and at most, if there is room for them, and how many strips a
# map has between: fewer segments would be more work in all, more would leave some workers without any.
FEW, MANY, STRIPS = 100_000, 400_000, 24


class Part(NamedTuple):
    """Features of a layer, the first one or the second: those with numbers from `first` to `last`."""

    layer: int
    first: int
    last: int


@dataclass(frozen=True)
class Reading:
    """How the layers are read: the operation and the grid that were asked for go with it, so that
    another run has other files."""

    inputs: tuple[Input, Input]
    parts: tuple[Part, ...]
    asked: tuple[str, ...]
    form: int = FORM
    version: str = __version__

    @cached_property
    def number(self) -> str:
        """What tells this plan from others."""
        return digest_of(json.dumps(asdict(self)).encode()).hex()


@dataclass(frozen=True)
class Plan:
    """How the map is parted: the operation, the grid's unit and origin, the columns at which strips
    begin, and the number of the first segment of each part."""

    reading: Reading
    operation: str
    grid: tuple[str, str, str]
    cuts: tuple[int, ...]
    firsts: tuple[int, ...]

    @cached_property
    def number(self) -> str:
        told = (self.reading.number, self.operation, self.grid, self.cuts, self.firsts)
        return digest_of(json.dumps(told).encode()).hex()

    @cached_property
    def frame(self) -> Frame:
        unit, x, y = map(Decimal, self.grid)
        return Frame(unit, (x, y), None)

    @property
    def strips(self) -> int:
        return len(self.cuts) + 1


@dataclass(frozen=True)
class Work:
    """Where the tasks of a plan find what they need; before strips are chosen there is no plan."""

    folder: str
    reading: Reading
    plan: Plan | None = None

    @property
    def read(self) -> Folder:
        """The files of features."""
        return Folder(self.folder, self.reading.number)

    @property
    def held(self) -> Folder:
        """All other files."""
        assert self.plan is not None
        return Folder(self.folder, self.plan.number)


class Strips(NamedTuple):
    """The columns at which strips begin, and how many segments reach the strip that most do."""

    cuts: tuple[int, ...]
    most: int


class Span(NamedTuple):
    """Strips side by side, from the first one to before another one: a strip, or two spans, whose
    numbers are told."""

    first: int
    past: int
    halves: tuple[int, ...] = ()


@lru_cache(maxsize=8)
def spans_of(strips: int) -> tuple[Span, ...]:
    """A span for each strip, then those that join two, level by level: each stands behind its halves, and
    the last one has all strips."""
    found = [Span(strip, strip + 1) for strip in range(strips)]
    level = list(range(strips))
    while len(level) > 1:
        joined = []
        for one, other in zip(level[0::2], level[1::2]):
            joined.append(len(found))
            found.append(Span(found[one].first, found[other].past, (one, other)))
        level = joined + level[2 * len(joined) :]
    return tuple(found)


def grid_of(frame: Frame) -> tuple[str, str, str]:
    x, y = frame.origin
    return str(frame.unit), str(x), str(y)


def most_lines(memory: int, segments: int) -> int:
    """How many segments a strip may have, of so many in all, where a task may take so many bytes."""
    wanted = min(max(segments // STRIPS, FEW), MANY)
    return max(1, min(wanted, (memory - BASE) // LINE))


def chosen(begins: Numbers, ends: Numbers, weights: Floats, most: float) -> Strips:
    """Strips of at most so many segments, of a sample that has the columns at which a segment begins
    and ends, and for how many it stands.

    A strip ends where it has so many, and not before as many begin in it as came into it: so all
    strips together have at most about twice the segments, however long these are. A strip of long
    segments has more, then.
    """
    order, leaving = np.argsort(begins, kind="stable"), np.argsort(ends, kind="stable")
    begins, ends = begins[order], ends[leaving]
    begun, ended = (np.append(0.0, np.cumsum(weights[held])) for held in (order, leaving))
    cuts, counts = list[int](), list[float]()
    first, coming = 0, 0.0
    for k in (1 + np.flatnonzero(np.diff(begins))).tolist():
        inside = float(begun[k] - begun[first])
        if inside >= max(most - coming, coming):
            cuts.append(int(begins[k]))
            counts.append(coming + inside)
            first, coming = k, float(begun[k] - ended[np.searchsorted(ends, begins[k], "left")])
    counts.append(coming + float(begun[-1] - begun[first]))
    return Strips(tuple(cuts), round(max(counts)))


def sampled(x: Floats, rings: Numbers, number: int) -> Floats:
    """The x of both ends of some segments, by chance but the same ones each time; ring k has the
    points from rings[k] up to rings[k + 1]."""
    ends = np.delete(np.arange(len(x)), rings[:-1][np.diff(rings) > 0])
    if len(ends) > SAMPLE:
        ends = ends[np.random.default_rng(number).integers(0, len(ends), SAMPLE)]
    return np.stack((x[ends - 1], x[ends]), axis=1)
