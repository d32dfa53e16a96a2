"""Which point of the integer grid stands for which point of a reference system.

A frame is the grid's unit, the point that becomes (0, 0), and the system. A coordinate goes to the
nearest grid point, halves upward and to the right, as the program's own pixels do. That is exact;
`rounding` says how.
"""

from __future__ import annotations

import json
import re
from dataclasses import dataclass
from decimal import Decimal, InvalidOperation
from fractions import Fraction
from functools import cached_property
from math import inf

import numpy as np
from osgeo import osr

from .columns import Columns, Floats, GridPoint, Numbers, extents
from .faults import Fault, Refusal
from .layers import Box
from .rounding import Axis
from .systems import same, system_from, unit_name

Point = tuple[float, float]

# The program's limit of coordinates, in absolute value.
LIMIT = 1 << 28

# How far a corner may move, in grid units: half the diagonal of a pixel, told upward.
REACH = Decimal("0.71")

# The unit where none is asked for: a millimetre or its like, and about a decimetre in degrees.
FINEST = Decimal("0.001")
FINEST_DEGREES = Decimal("0.000001")

# How many times the default a unit may be that is chosen. A coarser one is for what is no place on
# earth, and has to be asked for.
COARSEST = 1000

# How many digits a number may have, before its point and in all.
DIGITS = 400

# The texts of systems that a frame may hold: an authority's number, or a definition. Others would
# name a file or an address.
SYSTEM = re.compile(r"\w+:\w+|\w+\[.*\]", re.DOTALL)

# An origin is a multiple of so many units where that leaves room, so that it is short to write.
ROUND_ORIGIN = 1000


def plain(number: Decimal) -> str:
    """Without zeros at the end, and without an exponent where that isn't a large one."""
    if number and abs(number.adjusted()) > 20:
        return f"{number.normalize()}".lower()
    text = f"{number:f}"
    return text.rstrip("0").rstrip(".") if "." in text else text


@dataclass(frozen=True)
class Frame:
    unit: Decimal
    origin: tuple[Decimal, Decimal]
    system: str | None

    @cached_property
    def axes(self) -> tuple[Axis, Axis]:
        x, y = (Axis(Fraction(at), Fraction(self.unit)) for at in self.origin)
        return x, y

    def rounded(self, x: float, y: float) -> GridPoint:
        """The grid point of a point."""
        across, up = self.axes
        return across.exact(x), up.exact(y)

    def placed(self, x: int, y: int) -> Point:
        """The point of a grid point: the floating-point numbers next to its exact coordinates."""
        across, up = self.axes
        return across.place(x), up.place(y)

    def on_grid(self, layer: Columns[Floats]) -> Columns[Numbers]:
        """Polygons in the system's coordinates, in grid units."""
        across, up = self.axes
        return layer.at(across.rounded(layer.x), up.rounded(layer.y))

    def off_grid(self, layer: Columns[Numbers]) -> Columns[Floats]:
        """Polygons in grid units, in the system's coordinates."""
        across, up = self.axes
        return layer.at(across.placed(layer.x), up.placed(layer.y))

    def boxes(self, layer: Columns[Numbers]) -> Floats:
        """The box round each feature that has polygons, in the system's coordinates: its least and
        greatest x, and its least and greatest y."""
        points = layer.feature_points()
        starts = points[:-1][np.diff(points) > 0]
        sides = [
            axis.placed(side)
            for axis, at in zip(self.axes, (layer.x, layer.y))
            for side in extents(at, starts)
        ]
        return np.stack(sides, axis=1)

    def room(self) -> tuple[float, float, float, float]:
        """Bounds round all of the grid, 10^9 units apart: least x and y, greatest x and y."""
        half = 500_000_000 * self.unit
        (x, y) = self.origin
        return float(x - half), float(y - half), float(x + half), float(y + half)

    def digits(self) -> int:
        """How many digits behind the point the coordinates of the grid's points have at most."""
        return max(0, *(-int(number.normalize().as_tuple().exponent) for number in (self.unit, *self.origin)))

    @cached_property
    def square(self) -> tuple[int, int]:
        """Half a square unit of the grid, in square units of the system, as a fraction."""
        return (Fraction(self.unit) ** 2 / 2).as_integer_ratio()

    def area(self, twice: int) -> float:
        """The area, in square units of the system, of twice so many square units of the grid; inf
        where it is too large for a floating-point number."""
        p, q = self.square
        try:
            return twice * p / q
        except OverflowError:
            return inf if twice > 0 else -inf

    def told(self, system: osr.SpatialReference | None) -> str:
        """The frame, and what rounding means in it, in one line."""
        name, reach = unit_name(system), REACH * self.unit
        at = ", ".join(map(plain, self.origin))
        return (
            f"grid {plain(self.unit)} {name}, origin {at}: a corner moves by at most"
            f" {plain(reach)} {name} (0.71 grid units), a border between two corners by at most"
            f" {plain(2 * reach)}"
        )

    def saved(self, path: str) -> None:
        text = json.dumps(
            {"grid": plain(self.unit), "origin": list(map(plain, self.origin)), "system": self.system}, indent=2
        )
        try:
            with open(path, "w", encoding="utf-8") as file:
                file.write(text + "\n")
        except OSError as error:
            raise Fault(path, error.strerror) from error


def loaded(path: str) -> Frame:
    """The frame that a file holds."""
    try:
        with open(path, encoding="utf-8-sig") as file:
            held = json.load(file)
        x, y = (decimal(str(at)) for at in held["origin"])
        system = held["system"]
        if system is not None and not SYSTEM.fullmatch(system):
            raise ValueError(system)
        return Frame(number(str(held["grid"]), path), (x, y), system)
    except OSError as error:
        raise Fault(path, error.strerror) from error
    except (ValueError, KeyError, TypeError, RecursionError) as error:
        raise Refusal(path, "holds no grid, origin and system") from error


def decimal(text: str) -> Decimal:
    """A finite number as it was written, which exact sums have room for."""
    try:
        number = Decimal(text)
    except InvalidOperation as error:
        raise ValueError(text) from error
    if not number.is_finite() or abs(number.adjusted()) > DIGITS or len(number.as_tuple().digits) > DIGITS:
        raise ValueError(text)
    return number


def number(text: str, name: str = "--grid") -> Decimal:
    """A grid unit as it was asked for."""
    try:
        unit = decimal(text)
    except ValueError as error:
        raise Refusal(name, f"{text} is no decimal number") from error
    if unit <= 0:
        raise Refusal(name, f"a grid unit is above 0, not {text}")
    return unit


def point(text: str) -> tuple[Decimal, Decimal]:
    """An origin as it was asked for, X,Y."""
    try:
        x, y = map(decimal, text.split(","))
    except ValueError as error:
        raise Refusal("--origin", f"{text} is no X,Y of two decimal numbers") from error
    return x, y


def asked_for(unit: str | None, origin: str | None) -> tuple[Decimal | None, tuple[Decimal, Decimal] | None]:
    """A grid unit and an origin, where the command line names them."""
    return number(unit) if unit else None, point(origin) if origin else None


def finest_for(box: Box) -> Decimal:
    """The least of 1, 2 and 5 times a power of ten whose grid has room for the box."""
    extent = max(Fraction(box.right) - Fraction(box.left), Fraction(box.high) - Fraction(box.low))
    least = Decimal("1e-9")
    while True:
        for factor in (1, 2, 5):
            if extent <= (2 * LIMIT - 2) * Fraction(factor * least):
                return factor * least
        least *= 10


def origin_for(box: Box, unit: Decimal) -> tuple[Decimal, Decimal]:
    """The lower left corner, or the middle where only that leaves room: a multiple of the unit, a
    round one if it may be."""
    middle = (Fraction(box.right) - Fraction(box.left) > (LIMIT - ROUND_ORIGIN) * Fraction(unit)) or (
        Fraction(box.high) - Fraction(box.low) > (LIMIT - ROUND_ORIGIN) * Fraction(unit)
    )
    if middle:
        x, y = (Fraction(box.left) + Fraction(box.right)) / 2, (Fraction(box.low) + Fraction(box.high)) / 2
    else:
        x, y = Fraction(box.left), Fraction(box.low)
    for step in (ROUND_ORIGIN * unit, unit):
        origin = (x // Fraction(step) * step, y // Fraction(step) * step)
        if fits(box, unit, origin):
            return origin
    return origin


def fits(box: Box, unit: Decimal, origin: tuple[Decimal, Decimal]) -> bool:
    place = Frame(unit, origin, None).rounded
    corners = place(box.left, box.low) + place(box.right, box.high)
    return all(-LIMIT <= at <= LIMIT for at in corners)


def chosen(
    name: str,
    box: Box | None,
    system: osr.SpatialReference | None,
    unit: Decimal | None,
    origin: tuple[Decimal, Decimal] | None,
) -> Frame:
    """The frame for a box: the unit and the origin that were asked for, or fitting ones. Refuses a
    unit that doesn't fit."""
    held = code_of(system)
    default = FINEST_DEGREES if system is not None and system.IsGeographic() else FINEST
    if box is None:
        return Frame(unit or default, origin or (Decimal(0), Decimal(0)), held)
    finest = finest_for(box)
    if unit is None and finest > COARSEST * default and box.farthest:
        layer, feature = box.farthest
        raise Refusal(
            layer,
            (
                f"feature {feature} reaches {box.reach:.6g}, and the finest grid with room for it"
                f" has {plain(finest)} {unit_name(system)}: mend or remove it, or ask for that by"
                " --grid"
            ),
        )
    asked = unit or max(default, finest)
    at = origin or origin_for(box, asked)
    if not fits(box, asked, at):
        raise no_room(name, box, asked, origin is not None, finest)
    return Frame(asked, at, held)


def no_room(name: str, box: Box, asked: Decimal, has_origin: bool, finest: Decimal) -> Refusal:
    """The refusal of a unit, or of an origin that was asked for, where the grid has no room for a
    box."""
    if has_origin and fits(box, asked, origin_for(box, asked)):
        return Refusal(
            name,
            (
                "points lie off the limits of the grid, 2^28 units from the origin: without"
                " --origin, one that fits is chosen"
            ),
        )
    return Refusal(
        name,
        f"the grid {plain(asked)} has no room for all layers, which is 2^29 units each way: "
        f"the finest that fits is --grid {plain(finest)}",
    )


def code_of(system: osr.SpatialReference | None) -> str | None:
    """The system's number where that says all of it, else its text."""
    if system is None:
        return None
    code = system.GetAuthorityCode(None)
    name = f"{system.GetAuthorityName(None)}:{code}"
    if code and same(system, system_from(name)):
        return name
    return str(system.ExportToWkt(["FORMAT=WKT2_2019", "MULTILINE=NO"]))
