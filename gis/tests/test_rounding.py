"""Rounding on whole arrays is that of the exact numbers, each time, on all grids; and fractions are
seldom needed."""

import random
from fractions import Fraction
from math import floor, inf, nextafter

import numpy as np
import pytest

from overlay_gis.rounding import Axis

UNITS = "0.001 0.0001 0.01 0.000001 1 0.5 0.25 0.002 0.3 2 10 0.007 1e-9 123456.789 1e-300 1e-330 1e300 7e290".split()
ORIGINS = "412000 0 -17.5 5654224.067 9.1 -0.0000005".split()
LIMIT = 1 << 28


def exact(value, axis):
    """The nearest grid point, halves upward, by fractions."""
    return floor((Fraction(value) - axis.origin) / axis.unit + Fraction(1, 2))


def near(axis, place):
    """The floating-point numbers round a place of the axis that is told in grid units."""
    try:
        middle = float(axis.origin + axis.unit * place)
    except OverflowError:
        return []
    return [middle, nextafter(middle, inf), nextafter(middle, -inf)]


def numbers_on(axis, rng):
    """Floating-point numbers that the axis has room for: anywhere, with few decimals, and next to
    halves and grid points."""
    drawn = [Fraction(rng.randint(-LIMIT, LIMIT)) for _ in range(100)]
    drawn += [Fraction(rng.randint(-LIMIT, LIMIT) * 2 + 1, 2) for _ in range(250)]
    drawn += [Fraction(rng.randint(-99, 99) * 2 + 1, 2) for _ in range(50)]
    held = [value for place in drawn for value in near(axis, place)]
    span = min(float(axis.unit) * LIMIT, 1e300)
    held += [rng.uniform(-span, span) + float(axis.origin) for _ in range(200)]
    held += [round(rng.uniform(-span, span) + float(axis.origin), digits) for digits in range(8) for _ in range(50)]
    return [value for value in held if abs(exact(value, axis)) <= LIMIT]


@pytest.mark.parametrize("unit", UNITS)
def test_all_numbers_are_rounded_as_the_exact_ones(unit):
    rng, judged = random.Random(unit), 0
    for origin, thirds in zip(ORIGINS, (0, 1, 0, 3000, 1, 0)):
        axis = Axis(Fraction(origin) + Fraction(unit) * thirds / 3, Fraction(unit))
        values = numbers_on(axis, rng)
        assert axis.rounded(np.array(values)).tolist() == [exact(value, axis) for value in values]
        judged += len(values)
    # of the finest, only what lies at 0 has room
    assert judged > (5000 if Fraction(unit) > Fraction(1, 10**20) else 1000)


@pytest.mark.parametrize("unit", UNITS)
def test_all_grid_points_are_placed_as_the_exact_ones(unit):
    rng = random.Random(unit)
    for origin in ORIGINS:
        axis = Axis(Fraction(origin), Fraction(unit))
        numbers = [rng.randint(-LIMIT, LIMIT) for _ in range(300)] + [0, LIMIT, -LIMIT]
        numbers = [number for number in numbers if abs(axis.origin + axis.unit * number) < Fraction(1e308)]
        assert axis.placed(np.array(numbers)).tolist() == [float(axis.origin + axis.unit * k) for k in numbers]


@pytest.mark.parametrize("unit, origin", [("0.001", "412000"), ("0.000001", "8.5"), ("0.3", "5654224.067"), ("0.25", "-3")])
def test_fractions_are_seldom_needed(unit, origin):
    axis = Axis(Fraction(origin), Fraction(unit))
    rng = random.Random(unit)
    values = np.array([float(axis.origin) + rng.uniform(-1, 1) * LIMIT * float(axis.unit) for _ in range(20_000)])
    _, sure = axis.estimate(values)
    assert sure.sum() >= 19_980
    on_grid = axis.placed(np.array([rng.randint(-LIMIT, LIMIT) for _ in range(20_000)]))
    assert axis.estimate(on_grid)[1].all()


def test_what_is_sure_is_right_where_nothing_is_near_the_origin():
    """Coordinates far from the origin, in which floating-point numbers are wider apart than the
    grid's points."""
    axis = Axis(Fraction(10**17) + Fraction(1, 3), Fraction("0.001"))
    values = np.array([1e17, nextafter(1e17, inf), nextafter(1e17, -inf)])
    assert axis.rounded(values).tolist() == [exact(value, axis) for value in values.tolist()]


@pytest.mark.parametrize("count", [0, 1])
def test_few_numbers(count):
    axis = Axis(Fraction(0), Fraction(1))
    assert axis.rounded(np.full(count, 0.5)).tolist() == [1] * count
    assert axis.placed(np.full(count, 7)).tolist() == [7.0] * count
