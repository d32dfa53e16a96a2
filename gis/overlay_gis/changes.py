"""What bringing layers to the grid changed: the corners that moved, and the areas before and
after."""

from __future__ import annotations

from osgeo import osr

from .common_grid import CommonGrid
from .frame import Frame
from .messages import say, warn
from .questions import Layer, Measures
from .rings import Gridded, Moves, longest
from .systems import area_name, unit_name


def is_explained(grid: Gridded, bends: int, twice: int) -> bool:
    """Whether rounding may have changed twice the area of a layer by so much, where routes have so
    many bends in all.

    A route's points lie at most 0.71 from its segment, in their order along it. So the area between
    them is at most 0.71 times the segment's length, and half of that where there is one bend alone:
    two bends at least for each whole length. Of segments that two polygons share nothing is told by
    parity, before and after; to find these is dear, and needless where all together are too few.
    """
    return all(explains(longest(lengths(), longest_of(bends)), twice) for lengths in (grid.lengths, grid.border_lengths))


def longest_of(bends: int) -> int:
    """How many segments of a layer, the longest ones, explain most where there are so many bends."""
    return (bends + 1) // 2


def explains(length: float, twice: int) -> bool:
    """Whether twice an area may lie between segments of that length together and their routes."""
    return twice <= 2 * 0.71 * length


def tell_change(together: CommonGrid, layer: Layer, measures: Measures) -> None:
    """Tells what moved, and warns where more area than rounding can explain is lost, since a layer
    is read by parity."""
    grid, name, twice = layer.grid, layer.source.name, measures.twice
    before = grid.twice_area()
    bends = measures.steps - grid.segments
    if before != twice and not is_explained(grid, bends, abs(before - twice)):
        warn_of_parity(together.frame, together.system, name, before, twice)
    tell_moves(together, layer, "before", twice, "after")


def warn_of_parity(frame: Frame, system: osr.SpatialReference | None, name: str, before: int, after: int) -> None:
    """Warns that a layer has less by parity than in sum, twice these areas on the grid."""
    square = area_name(system)
    warn(
        name,
        (
            f"its polygons have {frame.area(before):,.10g} {square} in sum, and"
            f" {frame.area(after):,.10g} by parity, which is how they are read: polygons overlap or"
            " cross themselves (overlay-gis check finds them; without --parity they are united)"
        ),
    )


def tell_moves(together: CommonGrid, layer: Layer, before: str, twice: int, after: str) -> None:
    """Tells what moved, and two areas: the sum of all polygons' as they came, and what is twice
    another one on the grid."""
    square = area_name(together.system)
    areas = f"area {layer.grid.area:,.10g} {square} {before}, and {together.frame.area(twice):,.10g} {after}"
    say(f"{layer.source.name}: {moves_told(layer.grid.moves, together.system)}; {areas}")


def moves_told(moves: Moves, system: osr.SpatialReference | None) -> str:
    told = f"{moves.moved:,} of {moves.vertices:,} vertices moved"
    if not moves.moved:
        return told
    return f"{told}, by {moves.mean:.3g} {unit_name(system)} on average and {moves.greatest:.3g} at most"
