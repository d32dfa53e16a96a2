"""Polygons as columns, in the layout of GeoArrow, and their rings or texts on the grid.

No point is an object of its own: `x` and `y` have the coordinates of all points, and the other lists say how many points each ring has,
how many rings each polygon, and how many polygons each feature.
"""

from __future__ import annotations

from array import array
from functools import lru_cache
from itertools import accumulate, islice
from math import isfinite
from operator import sub
from typing import Iterable, Iterator, List, NamedTuple, Optional, Sequence, Tuple, Union

from ._faults import GeometryError
from ._grid import OFF_THE_GRID, Box, Frame, no_room_for
from ._optional import numpy_for

# A ring of fewer points, the first one again at its end, is refused.
LEAST_RING = 4

# How many bytes a point has.
POINT = 16

# Forms of rings up to so many points are kept.
KEPT = 512


class Rings(NamedTuple):
    """Closed rings on the grid: x and y of all points by turns, and where each ring begins among the points, and the last one ends."""

    coordinates: "array[int]"
    offsets: "array[int]"


class Features(NamedTuple):
    """Features on the grid: x and y of all points by turns, and where each ring, each polygon and each feature begins, and the last one
    ends."""

    coordinates: "array[int]"
    rings: "array[int]"
    polygons: "array[int]"
    features: "array[int]"

    def starts(self) -> List[int]:
        """Where the points of each feature begin, and those of the last one end."""
        return [self.rings[self.polygons[polygon]] for polygon in self.features]

    def part(self, first: int, past: int) -> Features:
        """The features from one to before another."""
        polygons = self.polygons[self.features[first] : self.features[past] + 1]
        rings = self.rings[polygons[0] : polygons[-1] + 1]
        offsets = map(from_the_first, (rings, polygons, self.features[first : past + 1]))
        return Features(self.coordinates[2 * rings[0] : 2 * rings[-1]], *offsets)

    def repeated(self, times: int) -> Features:
        """All features so many times, one after another."""
        offsets = (offsets_of(counts_of(held) * times) for held in (self.rings, self.polygons, self.features))
        return Features(self.coordinates * times, *offsets)


class Repeated(NamedTuple):
    """One feature on the grid, so many times."""

    feature: Features
    times: int

    def starts(self) -> List[int]:
        """Where the points of each begin, and those of the last one end."""
        points = len(self.feature.coordinates) // 2
        return [points * number for number in range(self.times + 1)]

    def part(self, first: int, past: int) -> Features:
        """Those from one to before another."""
        return self.feature.repeated(past - first)


# The features of a layer, each of which belongs to the one of another layer with the same number.
Paired = Union[Features, Repeated]


def extent(values: "array[float]") -> Tuple[float, float]:
    """The least and the greatest of some numbers."""
    numpy = numpy_for(len(values))
    if numpy is None:
        return min(values), max(values)
    held = numpy.frombuffer(values)
    return float(held.min()), float(held.max())


class Shapes(NamedTuple):
    """Polygons in a reference system's units, and what their layer is called."""

    x: "array[float]"
    y: "array[float]"
    rings: List[int]
    polygons: List[int]
    features: List[int]
    layer: str

    def has_several(self) -> bool:
        """Whether the layer has several features."""
        return len(self.features) > 1

    def place(self, point: int) -> Tuple[int, int]:
        """The feature of a point, and which of its polygons it belongs to, both from 1."""
        rings, polygons = iter(self.rings), iter(self.polygons)
        for feature, count in enumerate(self.features, 1):
            for part in range(1, count + 1):
                point -= sum(islice(rings, next(polygons)))
                if point < 0:
                    return feature, part
        raise IndexError(point)

    def fault(self, reason: str, point: int) -> GeometryError:
        """The refusal of a point."""
        return GeometryError(reason, self.layer, *self.place(point))

    def box(self) -> Optional[Box]:
        """The box of all points; a point that has no place is refused."""
        if not self.x:
            return None
        if not isfinite(sum(self.x) + sum(self.y)):
            for k, point in enumerate(zip(self.x, self.y)):
                for value in point:
                    if not isfinite(value):
                        raise self.fault(f"a coordinate is no finite number: {value}", k)
        (left, right), (low, high) = extent(self.x), extent(self.y)
        return Box(left, low, right, high)

    def off_grid(self, frame: Frame) -> Optional[GeometryError]:
        """The refusal of the first point that lies off a grid; nothing where none does."""
        for k, (x, y) in enumerate(zip(self.x, self.y)):
            if frame.off(x, y):
                return self.fault(f"the point {x!r} {y!r} {OFF_THE_GRID}", k)
        return None

    def farthest(self) -> float:
        """The greatest absolute value of a coordinate."""
        return max(abs(end) for end in (*extent(self.x), *extent(self.y))) if self.x else 0.0

    def no_room(self, box: Box) -> GeometryError:
        """The refusal of the farthest point, where no grid of the unit has room for a box of all layers."""
        reach = self.farthest()
        k = next(k for k, (x, y) in enumerate(zip(self.x, self.y)) if reach in (abs(x), abs(y)))
        return self.fault(no_room_for(reach, box), k)

    def coordinates(self, frame: Frame) -> "array[int]":
        """x and y of all points on the grid, by turns."""
        coordinates = array("i", bytes(8 * len(self.x)))
        coordinates[0::2], coordinates[1::2] = frame.across.column(self.x), frame.up.column(self.y)
        return coordinates

    def on_grid(self, frame: Frame) -> Rings:
        """All rings on the grid."""
        return Rings(self.coordinates(frame), offsets_of(self.rings))

    def features_on_grid(self, frame: Frame) -> Features:
        """All features on the grid."""
        return Features(self.coordinates(frame), offsets_of(self.rings), offsets_of(self.polygons), offsets_of(self.features))

    def text(self, frame: Frame) -> bytes:
        """The layer's text on the grid, a line for each feature."""
        numbers = [0] * (2 * len(self.x))
        numbers[0::2], numbers[1::2] = frame.across.rounded(self.x), frame.up.rounded(self.y)
        return (form_of(self.rings, self.polygons, self.features) % tuple(numbers)).encode()


def offsets_of(counts: Iterable[int]) -> "array[int]":
    """Where lists of these lengths begin behind one another, and where the last one ends."""
    return array("I", accumulate(counts, initial=0))


def from_the_first(offsets: "array[int]") -> "array[int]":
    """The same offsets where the first list begins at 0."""
    first = offsets[0]
    return array("I", [offset - first for offset in offsets])


def counts_of(offsets: "array[int]") -> List[int]:
    """How long the lists are that offsets cut."""
    return list(map(sub, offsets[1:], offsets))


def ring_form(points: int) -> str:
    """The form of a ring's text."""
    return form_kept(points) if points <= KEPT else form_made(points)


def form_made(points: int) -> str:
    """The same, made anew."""
    return f"({'%d %d, ' * (points - 1)}%d %d)"


# The same for the next calls.
form_kept = lru_cache(maxsize=None)(form_made)


def form_of(rings: Iterable[int], polygons: Iterable[int], features: Iterable[int]) -> str:
    """The form of a layer's text, with a place for each number."""
    each = polygon_forms(rings, polygons)
    return "\n".join([feature_form(list(islice(each, count))) for count in features])


def polygon_forms(rings: Iterable[int], polygons: Iterable[int]) -> Iterator[str]:
    """The forms of polygons' texts."""
    each = map(ring_form, rings)
    return (f"({', '.join(islice(each, count))})" for count in polygons)


def feature_form(polygons: List[str]) -> str:
    """The form of a feature's text."""
    if len(polygons) == 1:
        return f"POLYGON {polygons[0]}"
    return f"MULTIPOLYGON ({', '.join(polygons)})" if polygons else "POLYGON EMPTY"


def is_closed(points: bytes) -> bool:
    """Whether a ring's last point is its first."""
    first, last = points[:POINT], points[-POINT:]
    return first == last or array("d", first) == array("d", last)


class Builder:
    """Shapes in the making, of features that are added one by one."""

    def __init__(self, layer: str) -> None:
        self.layer = layer
        self.chunks: List[bytes] = []
        self.rings: List[int] = []
        self.polygons: List[int] = []
        self.features: List[int] = []

    def refused(self, reason: str, part: Optional[int] = None) -> GeometryError:
        """The refusal of the feature that comes next."""
        return GeometryError(reason, self.layer, len(self.features) + 1, part)

    def ring(self, points: bytes, part: int) -> None:
        """Adds a ring of points, the first one again at its end, to the polygon that comes next."""
        count = len(points) // POINT
        if not is_closed(points):
            raise self.refused("a ring's last point isn't its first", part)
        if count < LEAST_RING:
            raise self.refused(f"a ring has {count} points, the first one again at its end, and at least {LEAST_RING} are wanted", part)
        self.chunks.append(points)
        self.rings.append(count)

    def feature(self, polygons: List[int]) -> None:
        """Adds a feature of polygons of so many rings, which are there."""
        held = [count for count in polygons if count]
        self.polygons += held
        self.features.append(len(held))

    def shapes(self) -> Shapes:
        """All that was added."""
        points = array("d")
        points.frombytes(b"".join(self.chunks))
        return Shapes(points[0::2], points[1::2], self.rings, self.polygons, self.features, self.layer)


class Placed(NamedTuple):
    """Polygons in a reference system's units: x and y of all points by turns, how many points each ring has, and how many rings each
    polygon."""

    points: "array[float]"
    rings: List[int]
    polygons: List[int]


class Found(NamedTuple):
    """Polygons of the grid that the library answered."""

    x: Sequence[int]
    y: Sequence[int]
    rings: List[int]
    polygons: List[int]

    def found(self) -> Found:
        """These polygons."""
        return self

    def placed(self, frame: Frame) -> Placed:
        """The same in the reference system's units."""
        return Placed(points_of(self.x, self.y, frame), self.rings, self.polygons)


class Whole:
    """Polygons of the grid as columns, with offsets of rings and of polygons, of which rows have some."""

    __slots__ = ("coordinates", "rings", "polygons", "points", "frame")

    def __init__(self, coordinates: "array[int]", rings: "array[int]", polygons: "array[int]") -> None:
        self.coordinates, self.rings, self.polygons = coordinates, rings, polygons
        self.frame: Optional[Frame] = None
        self.points = array("d")

    def points_in(self, frame: Frame) -> "array[float]":
        """x and y of all points by turns, in the reference system's units, which are told once for all rows."""
        if self.frame is not frame:
            self.points, self.frame = points_of(self.coordinates[0::2], self.coordinates[1::2], frame), frame
        return self.points


class Piece(NamedTuple):
    """Polygons of a whole, from one to before another."""

    whole: Whole
    first: int
    past: int

    def found(self) -> Found:
        """These polygons alone."""
        low, high, rings, polygons = self.parts()
        x_and_y = self.whole.coordinates[low:high]
        return Found(x_and_y[0::2], x_and_y[1::2], rings, polygons)

    def placed(self, frame: Frame) -> Placed:
        """The same in the reference system's units."""
        low, high, rings, polygons = self.parts()
        return Placed(self.whole.points_in(frame)[low:high], rings, polygons)

    def parts(self) -> Tuple[int, int, List[int], List[int]]:
        """Where their coordinates begin and end, how many points each ring has, and how many rings each polygon."""
        polygons = self.whole.polygons[self.first : self.past + 1]
        rings = self.whole.rings[polygons[0] : polygons[-1] + 1]
        return 2 * rings[0], 2 * rings[-1], counts_of(rings), counts_of(polygons)


# Polygons of the grid: a result's text, or columns.
Polygons = Union[str, Found, Piece]


def points_of(x: Sequence[int], y: Sequence[int], frame: Frame) -> "array[float]":
    """Points of the grid in the reference system's units, x and y by turns."""
    points = array("d", bytes(16 * len(x)))
    points[0::2], points[1::2] = frame.across.placed(x), frame.up.placed(y)
    return points


BRACKETS = str.maketrans("(),", "   ")


def found_in(text: str) -> Found:
    """The polygons of a result's text."""
    body = text.strip()[len("MULTIPOLYGON ") :]
    if body == "EMPTY":
        return Found([], [], [], [])
    numbers = list(map(int, body.translate(BRACKETS).split()))
    polygons = [polygon.split("), (") for polygon in body[3:-3].split(")), ((")]
    rings = [ring.count(",") + 1 for polygon in polygons for ring in polygon]
    return Found(numbers[0::2], numbers[1::2], rings, list(map(len, polygons)))


def text_of(found: Found) -> str:
    """Polygons as the library writes a result."""
    if not found.polygons:
        return "MULTIPOLYGON EMPTY\n"
    numbers = [0] * (2 * len(found.x))
    numbers[0::2], numbers[1::2] = found.x, found.y
    return f"MULTIPOLYGON ({', '.join(polygon_forms(found.rings, found.polygons))})\n" % tuple(numbers)
