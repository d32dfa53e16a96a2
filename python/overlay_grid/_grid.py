"""The grid: its unit, the point that becomes (0, 0), and which point of it stands for which coordinates.

A coordinate goes to the nearest grid point, halves upward and to the right, as the library's own pixels do, exactly. With ε = 2^-53,
the unit u and the origin o, the wanted number is floor(S) for S = (v - o) / u + 1/2.

1. o is held as the floating-point number h next to it and l next to o - h, and 1 / u as i next to it.
2. s = ((v - h) - l) · i + 1/2 is off from S by less than 8 ε (W + 1), where W = (|v - h| + |l|) / u. Where the grid has room for v,
   S is at most 2^28 + 1, and so W is at most 2^28 + 2 + 2 |l| / u.
3. Where no whole number is as near to s as that, floor(s) is floor(S). The others go by whole numbers.

Units and origins are finite decimals, so all of them are whole numbers over one power of ten.
"""

from __future__ import annotations

import sys
from array import array
from decimal import Decimal, InvalidOperation
from fractions import Fraction
from functools import lru_cache
from itertools import count
from math import floor
from operator import sub
from typing import Any, Callable, Hashable, List, NamedTuple, Optional, Sequence, Tuple, Union

from ._optional import numpy_for

# The library's limit of coordinates, in absolute value.
LIMIT = 1 << 28

# The unit where none is said: a millimetre where coordinates are metres.
FINEST = Decimal("0.001")

# And where coordinates are degrees: about a decimetre.
FINEST_DEGREES = Decimal("0.000001")

# An origin that is chosen is a multiple of so many units where that leaves room.
ROUND_ORIGIN = 1000

# What is wrong with a point for which a grid of a given origin has no room.
OFF_THE_GRID = "lies off the grid, which has 2^28 units each way from its origin"

# How many digits a number may have, before its point and in all.
DIGITS = 400

# 8 ε, and the least number that is held to ε.
SHARE = 2.0**-50
LEAST_NORMAL = sys.float_info.min

# Up to this, floating-point numbers have all whole numbers.
WHOLE = 1 << 53

# The greatest whole number that isn't above a number.
WHOLE_BELOW: Callable[[float], int] = floor

Unit = Union[int, float, str, Decimal]
Origin = Tuple[Unit, Unit]


class Box(NamedTuple):
    """The least and the greatest coordinates."""

    left: float
    low: float
    right: float
    high: float


def joined(boxes: Sequence[Optional[Box]]) -> Optional[Box]:
    """The box of all that is in some boxes; nothing where that is nothing."""
    there = [box for box in boxes if box]
    if len(there) < 2:
        return there[0] if there else None
    left, low, right, high = zip(*there)
    return Box(min(left), min(low), max(right), max(high))


def decimal(number: Unit, name: str) -> Decimal:
    """A finite number as it is written: 0.1 is a tenth."""
    if isinstance(number, bool):
        raise TypeError(f"{name} is a number")
    try:
        held = Decimal(float.__repr__(number) if isinstance(number, float) else str(number))
    except InvalidOperation as error:
        raise ValueError(f"{name}: {number!r} is no decimal number") from error
    if not held.is_finite() or abs(held.adjusted()) > DIGITS or len(held.as_tuple().digits) > DIGITS:
        raise ValueError(f"{name}: {number!r} is no decimal number")
    return held


def unit_of(unit: Unit) -> Tuple[int, int]:
    """A unit as a whole number, and the number of decimal places by which that is to be divided."""
    if not isinstance(unit, Hashable):
        raise TypeError("grid is a number")
    return unit_kept(unit)


@lru_cache(maxsize=64, typed=True)
def unit_kept(unit: Unit) -> Tuple[int, int]:
    """The same, kept for the next calls."""
    held = decimal(unit, "grid")
    if held <= 0:
        raise ValueError(f"grid: a unit is above 0, not {unit}")
    return shifted(held, places_of(held)), places_of(held)


def places_of(number: Decimal) -> int:
    """How many decimal places a number has."""
    exponent = number.as_tuple().exponent
    assert isinstance(exponent, int)
    return max(0, -exponent)


def shifted(number: Decimal, places: int) -> int:
    """A number times a power of ten that makes it whole."""
    return int(Fraction(number) * 10**places)


class Axis:
    """One axis of a grid: the coordinate that becomes 0 and the unit, both over one power of ten."""

    def __init__(self, origin: int, unit: int, places: int) -> None:
        self.origin, self.unit, self.places = origin, unit, places
        self.scale: int = 10**places
        try:
            self.high = origin / self.scale
            p, q = self.high.as_integer_ratio()
            self.low = (origin * q - p * self.scale) / (self.scale * q)
            self.inverse = self.scale / unit
        except OverflowError:
            self.high = self.low = self.inverse = 0.0
        # more than 8 ε (W + 1) wherever the grid has room
        self.bound = SHARE * (LIMIT + 3 + 2 * abs(self.low) * self.inverse)

    def exact(self, value: float) -> int:
        """The whole number next to a number, by whole numbers alone."""
        a, b = value.as_integer_ratio()
        unit = self.unit * b
        return (2 * (a * self.scale - self.origin * b) + unit) // (2 * unit)

    def rounded(self, values: Sequence[float]) -> List[int]:
        """The whole numbers next to some numbers that the grid has room for."""
        numpy = numpy_for(len(values))
        if numpy is None:
            return self._few(values)
        found: List[int] = self._many(numpy, values).tolist()
        return found

    def column(self, values: Sequence[float]) -> "array[int]":
        """The same as a column of 32-bit numbers."""
        numpy = numpy_for(len(values))
        return array("i", self._few(values) if numpy is None else self._many(numpy, values).astype(numpy.int32).tobytes())

    def _few(self, values: Sequence[float]) -> List[int]:
        if self.inverse < LEAST_NORMAL:
            return list(map(self.exact, values))
        high, low, inverse, bound = self.high, self.low, self.inverse, self.bound
        guesses = [(value - high - low) * inverse + 0.5 for value in values]
        found = list(map(WHOLE_BELOW, guesses))
        parts = list(map(sub, guesses, found))
        if parts and not (bound < min(parts) and max(parts) < 1 - bound):
            for k, part in enumerate(parts):
                if not bound < part < 1 - bound:
                    found[k] = self.exact(values[k])
        return found

    def _many(self, numpy: Any, values: Sequence[float]) -> Any:
        if self.inverse < LEAST_NORMAL:
            return numpy.array(list(map(self.exact, values)), numpy.int64)
        guess = numpy.frombuffer(values, numpy.float64) - self.high
        guess -= self.low
        guess *= self.inverse
        guess += 0.5
        found = numpy.floor(guess).astype(numpy.int64)
        for k in numpy.flatnonzero(~(abs(numpy.rint(guess) - guess) > self.bound)).tolist():
            found[k] = self.exact(values[k])
        return found

    def placed(self, numbers: Sequence[int]) -> "array[float]":
        """The floating-point numbers next to the exact coordinates of grid points."""
        unit, origin, scale = self.unit, self.origin, self.scale
        if LIMIT * unit + abs(origin) <= WHOLE and scale <= WHOLE:
            numpy = numpy_for(len(numbers))
            if numpy is not None:
                return array("d", ((numpy.array(numbers, numpy.int64) * unit + origin) / scale).tobytes())
        return array("d", [(number * unit + origin) / scale for number in numbers])

    def told(self, number: int) -> str:
        """The exact coordinate of a grid point, in decimals."""
        held = number * self.unit + self.origin
        if not self.places:
            return str(held)
        whole, part = divmod(abs(held), self.scale)
        text = f"{'-' if held < 0 else ''}{whole}.{part:0{self.places}d}"
        return text.rstrip("0").rstrip(".")


class Frame(NamedTuple):
    """Which grid point stands for which point."""

    across: Axis
    up: Axis

    def fits(self, box: Box) -> bool:
        """Whether the grid has room for a box."""
        corners = (self.across.exact(box.left), self.across.exact(box.right), self.up.exact(box.low), self.up.exact(box.high))
        return all(-LIMIT <= corner <= LIMIT for corner in corners)

    def off(self, x: float, y: float) -> bool:
        """Whether a point lies off the grid."""
        return not self.fits(Box(x, y, x, y))

    def area(self, twice: int) -> float:
        """The area of twice so many squares of the grid."""
        unit, scale = self.across.unit, self.across.scale
        return twice * unit * unit / (2 * scale * scale)


def frame_at(unit: Unit, origin: Origin) -> Frame:
    """The frame of a unit and an origin that are given."""
    number, places = unit_of(unit)
    try:
        x, y = origin
    except (TypeError, ValueError) as error:
        raise TypeError("the origin is a pair of numbers") from error
    held = [decimal(x, "origin"), decimal(y, "origin")]
    most = max(places, *map(places_of, held))
    scaled = number * 10 ** (most - places)
    across, up = (Axis(shifted(at, most), scaled, most) for at in held)
    return Frame(across, up)


def frame_for(unit: Unit, box: Optional[Box]) -> Frame:
    """The frame of a unit whose origin is a multiple of it, round the box's lower left corner, or its middle where only that leaves
    room. It may have no room all the same."""
    number, places = unit_of(unit)
    if box is None:
        return Frame(Axis(0, number, places), Axis(0, number, places))
    spans = ((box.left, box.right), (box.low, box.high))
    wide = any(far(span, number, places) for span in spans)
    corners = [middle_of(*span) if wide else span[0].as_integer_ratio() for span in spans]
    for step in (ROUND_ORIGIN * number, number):
        across, up = (Axis(a * 10**places // (b * step) * step, number, places) for a, b in corners)
        if Frame(across, up).fits(box):
            break
    return Frame(across, up)


def far(span: Tuple[float, float], unit: int, places: int) -> bool:
    """Whether an axis has no room for a span that begins near its origin."""
    (a, b), (c, d) = (end.as_integer_ratio() for end in span)
    scale: int = 10**places
    return (c * b - a * d) * scale > (LIMIT - ROUND_ORIGIN) * unit * b * d


def middle_of(least: float, greatest: float) -> Tuple[int, int]:
    """The middle of two numbers, as a fraction."""
    return ((Fraction(least) + Fraction(greatest)) / 2).as_integer_ratio()


def no_room_for(reach: float, box: Box) -> str:
    """Why no grid of the unit has room for a box, by the farthest coordinate."""
    return f"reaches {reach:.6g}, and the finest grid with room for all layers is {float(finest_for(box)):g}"


def finest_for(box: Box) -> Decimal:
    """The least of 1, 2 and 5 times a power of ten whose grid has room for a box."""
    extent = max(Fraction(box.right) - Fraction(box.left), Fraction(box.high) - Fraction(box.low))
    units = (Decimal(f"{factor}e{power}") for power in count(-DIGITS) for factor in (1, 2, 5))
    return next(unit for unit in units if extent <= (2 * LIMIT - 2) * Fraction(unit))
