"""Rounding onto the grid and back, against fractions."""

import random
import struct
from array import array
from decimal import Decimal
from fractions import Fraction
from math import floor

import pytest
from overlay_grid import _grid, _optional

UNITS = ["0.001", "0.0001", "0.01", "0.000001", "1", "0.5", "0.25", "0.002", "0.3", "2", "10", "0.007", "1e-9", "1e-300", "1e200"]
ORIGINS = ["0", "412000", "-17.5", "5654224.067", "9.1", "-0.0000001"]


def numbers(unit, origin):
    """Numbers about an origin: any, short decimals, halves between grid points, and the neighbours of these."""
    draw = random.Random(f"{unit} {origin}")
    span = min(2.0**27 * float(unit), 1e6)
    any_at_all = [float(origin) + draw.uniform(-span, span) for _ in range(100)]
    short = [round(float(origin) + draw.uniform(-span, span), digits) for digits in range(8) for _ in range(30)]
    halves = [float(Fraction(origin) + Fraction(unit) * Fraction(draw.randrange(-(10**6), 10**6), 2)) for _ in range(150)]
    near = [step(value) for value in halves[:100] for step in (after, before)]
    return array("d", any_at_all + short + halves + near)


def after(value):
    """The floating-point number that is next in size."""
    return struct.unpack("<d", struct.pack("<q", struct.unpack("<q", struct.pack("<d", value))[0] + 1))[0]


def before(value):
    return after(value) if value == 0 else struct.unpack("<d", struct.pack("<q", struct.unpack("<q", struct.pack("<d", value))[0] - 1))[0]


def wanted(value, unit, origin):
    return floor((Fraction(value) - Fraction(origin)) / Fraction(unit) + Fraction(1, 2))


def axis(unit, origin):
    return _grid.frame_at(unit, (origin, origin)).across


@pytest.mark.parametrize("origin", ORIGINS)
@pytest.mark.parametrize("unit", UNITS)
def test_rounding(unit, origin, monkeypatch):
    values = numbers(unit, origin)
    room = array("d", [value for value in values if abs(wanted(value, unit, origin)) <= _grid.LIMIT])
    want = [wanted(value, unit, origin) for value in room]
    monkeypatch.setattr(_optional, "IMPORTED", 1)
    for many in (1, 10**9):
        monkeypatch.setattr(_optional, "MANY", many)
        assert axis(unit, origin).rounded(room) == want
    assert [axis(unit, origin).exact(value) for value in room] == want


@pytest.mark.parametrize("origin", ORIGINS)
@pytest.mark.parametrize("unit", UNITS)
def test_back(unit, origin, monkeypatch):
    draw = random.Random(f"{unit} {origin} back")
    held = [draw.randint(-_grid.LIMIT, _grid.LIMIT) for _ in range(300)] + [-1, 0, 1, _grid.LIMIT, -_grid.LIMIT]
    exact = [Fraction(origin) + number * Fraction(unit) for number in held]
    monkeypatch.setattr(_optional, "IMPORTED", 1)
    for many in (1, 10**9):
        monkeypatch.setattr(_optional, "MANY", many)
        assert list(axis(unit, origin).placed(held)) == list(map(float, exact))
    texts = [axis(unit, origin).told(number) for number in held]
    assert list(map(Fraction, texts)) == exact
    assert not any("e" in text.lower() or text.endswith(".") for text in texts)


def test_told():
    assert [axis("0.01", "0").told(number) for number in (0, 1, -1, 100, -250, 12345)] == ["0", "0.01", "-0.01", "1", "-2.5", "123.45"]
    assert axis("10", "-5").told(3) == "25"


BOXES = [(0.0, 0.0, 1.0, 1.0), (412345.678, 5654224.067, 500000.5, 5700000.25), (-268435.0, -1.0, 268435.0, 1.0), (-0.3, -0.3, -0.1, -0.1)]


@pytest.mark.parametrize("box", BOXES)
@pytest.mark.parametrize("unit", ["0.001", "0.01", "0.3"])
def test_chosen_origins(box, unit):
    frame = _grid.frame_for(unit, _grid.Box(*box))
    assert frame.fits(_grid.Box(*box))
    origin = [Fraction(axis.told(0)) for axis in frame]
    assert all((at / Fraction(unit)).denominator == 1 for at in origin)


def test_limits():
    """A span of 2^29 - 2 units has room everywhere, and 2^29 + 1 nowhere."""
    for left in (0.0, 0.25, -1000.75):
        assert _grid.frame_for(1, _grid.Box(left, 0.0, left + 2.0**29 - 2, 1.0)).fits(_grid.Box(left, 0.0, left + 2.0**29 - 2, 1.0))
        assert not _grid.frame_for(1, _grid.Box(left, 0.0, left + 2.0**29 + 1, 1.0)).fits(_grid.Box(left, 0.0, left + 2.0**29 + 1, 1.0))
    assert str(_grid.finest_for(_grid.Box(0.0, 0.0, 536870.0, 1.0))) == "0.001"
    assert str(_grid.finest_for(_grid.Box(0.0, 0.0, 536871.0, 1.0))) == "0.002"
    assert _grid.finest_for(_grid.Box(0.0, 0.0, 0.02, 0.01)) == Decimal("5e-11")
    assert _grid.finest_for(_grid.Box(0.0, 0.0, 1e-300, 0.0)) == Decimal("2e-309")
    assert _grid.finest_for(_grid.Box(-1.7e308, 0.0, 1.7e308, 0.0)) == Decimal("1e300")


def test_units():
    assert _grid.unit_of(0.001) == _grid.unit_of("0.001") == _grid.unit_of(Decimal("1e-3")) == (1, 3)
    assert _grid.unit_of(20) == (20, 0) and _grid.unit_of(2.5) == (25, 1)
    for wrong in (0, -1, "nan", "inf", "a metre", "1e-500"):
        with pytest.raises(ValueError, match="^grid: "):
            _grid.unit_of(wrong)
    for wrong in (True, [1], {}):
        with pytest.raises(TypeError, match="^grid is a number"):
            _grid.unit_of(wrong)
    with pytest.raises(TypeError, match="origin"):
        _grid.frame_at(1, 5)
    with pytest.raises(ValueError, match="^origin: "):
        _grid.frame_at(1, (0, "here"))
