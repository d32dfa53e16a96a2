"""The grid: exact rounding and back, and the choice of unit and origin."""

from decimal import Decimal
from fractions import Fraction
from math import floor

import pytest
from shapely.geometry import box

from conftest import UTM, system, write
from overlay_gis import frame
from overlay_gis.faults import Refusal
from overlay_gis.layers import Box


def of(unit, x="0", y="0"):
    return frame.Frame(Decimal(unit), (Decimal(x), Decimal(y)), None)


@pytest.mark.parametrize(
    "x, wanted", [(0.5, 1), (1.5, 2), (-0.5, 0), (-1.5, -1), (0.25, 0), (-0.75, -1), (2.0, 2), (0.49999999999999994, 0)]
)
def test_halves_go_upward(x, wanted):
    assert of("1").rounded(x, x) == (wanted, wanted)


def test_rounding_is_that_of_the_exact_number():
    place, unit = of("0.001", "412000", "5654000.5").rounded, Fraction(1, 1000)
    for k in range(2000):
        x, y = 412000 + k * 0.0005, 5654000 + k * 0.31415
        assert place(x, y) == (
            floor((Fraction(x) - 412000) / unit + Fraction(1, 2)),
            floor((Fraction(y) - Fraction("5654000.5")) / unit + Fraction(1, 2)),
        )


def test_decimals_of_the_grid_come_back_as_they_were():
    held = of("0.001", "411991", "5653990")
    place, back = held.rounded, held.placed
    for k in range(0, 1_000_000, 997):
        x, y = float(f"412{k:06d}e-3"), float(f"5654{k:06d}e-3")
        assert back(*place(x, y)) == (x, y)


def test_no_corner_moves_further_than_told():
    held = of("0.01", "400000", "5600000")
    place, back = held.rounded, held.placed
    for k in range(2000):
        x, y = 412000 + k * 0.0137, 5654000 - k * 0.00731
        a, b = back(*place(x, y))
        assert ((a - x) ** 2 + (b - y) ** 2) ** 0.5 <= 0.71 * 0.01


def test_an_origin_is_a_round_point_below_the_layers():
    held = frame.chosen("a", Box(412000.1, 5654000.7, 412900, 5654800), system(UTM), None, None)
    assert (held.unit, held.origin, held.system) == (Decimal("0.001"), (412000, 5654000), UTM)


def test_degrees_have_a_default_of_their_own():
    held = frame.chosen("a", Box(-180, -90, 180, 90), system("EPSG:4326"), None, None)
    assert held.unit == Decimal("0.000001")
    assert frame.fits(Box(-180, -90, 180, 90), held.unit, held.origin)


def test_the_whole_range_is_used():
    extent = (2 * frame.LIMIT - 2) * 0.001
    box = Box(0.0, 0.0, extent, extent)
    held = frame.chosen("a", box, None, Decimal("0.001"), None)
    place = held.rounded
    assert max(map(abs, place(0.0, 0.0) + place(extent, extent))) <= 1 << 28


def test_the_finest_that_fits_is_offered_or_taken():
    box = Box(0.0, 0.0, 700_000.0, 10.0)
    with pytest.raises(Refusal, match="finest that fits is --grid 0.002"):
        frame.chosen("a", box, None, Decimal("0.001"), None)
    assert frame.chosen("a", box, None, None, None).unit == Decimal("0.002")


def test_an_origin_that_is_too_far_away_is_refused():
    with pytest.raises(Refusal, match="off the limits"):
        frame.chosen(
            "a", Box(412000.0, 5654000.0, 412100.0, 5654100.0), None, Decimal("0.001"), (Decimal(0), Decimal(0))
        )


@pytest.mark.parametrize("text", ["0", "-1", "x", "nan", "inf"])
def test_units_that_are_none(text):
    with pytest.raises(Refusal):
        frame.number(text)


def test_a_frame_is_kept_in_a_file(tmp_path):
    path = str(tmp_path / "frame.json")
    held = frame.Frame(Decimal("0.005"), (Decimal("411991.5"), Decimal("-3")), UTM)
    held.saved(path)
    assert frame.loaded(path) == held


@pytest.mark.parametrize("words", [("--origin", "-100,-4.5"), ("--origin=-100,-4.5",), ("--orig", "-100,-4.5")])
def test_an_origin_of_negative_numbers(gis, tmp_path, words):
    a = write(tmp_path / "a.gpkg", [box(-99, -4, -98, -3)], "EPSG:4326")
    answer = gis("dissolve", a, *words, "-o", "out.gpkg")
    assert answer.status == 0 and "origin -100, -4.5: " in answer.err
    answer = gis("dissolve", a, "--origin", "--parts", "-o", "out2.gpkg")
    assert answer.status == 2 and "argument --origin: expected one argument" in answer.err
