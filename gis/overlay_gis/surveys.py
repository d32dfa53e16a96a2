"""The pass over each layer that a verb begins with: what all of them tell together, and what is
warned of or refused."""

from __future__ import annotations

from dataclasses import dataclass
from functools import reduce
from typing import Sequence

from osgeo import ogr

from .database import systems_in
from .faults import Refusal
from .inexact import refuse_confused
from .layers import Box, Kind, Source, Survey
from .messages import warn

# How many feature numbers a warning names.
NAMED = 5


def names_of(sources: Sequence[Source]) -> str:
    return " and ".join(source.name for source in sources)


def numbers(ids: Sequence[int]) -> str:
    """feature 3, or features 3, 7, 8, .."""
    told = ", ".join(map(str, ids[:NAMED])) + (", .." if len(ids) > NAMED else "")
    return f"feature {told}" if len(ids) == 1 else f"features {told}"


def box_of(sources: Sequence[Source], surveys: Sequence[Survey]) -> Box | None:
    """The box of all layers, where one has a polygon."""
    boxes = [seen.box(source.name) for source, seen in zip(sources, surveys)]
    there = [box for box in boxes if box]
    return reduce(Box.joined, there) if there else None


@dataclass(frozen=True)
class Found:
    """What is told of a layer: how many features it has; those that are no place, no polygon, or
    without a geometry; what the first one is that is no polygon; and whether a point has more than x
    and y."""

    features: int
    unbound: Sequence[int]
    strange: Sequence[int]
    bare: Sequence[int]
    names: Sequence[str]
    deep: bool


def surveyed(source: Source) -> Survey:
    """A pass over a layer that warns of what is left out, and refuses what is no polygon or no
    place."""
    seen = source.survey()
    unbound, strange, bare = (seen.of(kind) for kind in (Kind.UNBOUND, Kind.STRANGE, Kind.BARE))
    tell_found(source, Found(seen.features, unbound, strange, bare, seen.names, seen.deep))
    return seen


def tell_found(source: Source, seen: Found) -> None:
    """Warns of what is left out of a layer, and refuses what is no polygon or no place."""
    if seen.unbound:
        raise Refusal(
            source.name,
            (
                f"feature {seen.unbound[0]} has a coordinate that is no finite number: mend or remove"
                " the feature"
            ),
        )
    if seen.strange and not source.polygons_only:
        is_one = len(seen.strange) == 1
        raise Refusal(
            source.name,
            (
                f"{numbers(seen.strange)} {'is no polygon' if is_one else 'are no polygons'} but {seen.names[0]};"
                f" --polygons-only leaves {'it' if is_one else 'them'} out, and overlay-gis check lists all such"
            ),
        )
    if not seen.features:
        warn(source.name, "the layer has no features")
    elif seen.bare:
        warn(source.name, f"no geometry, left out: {numbers(seen.bare)}")
    if seen.strange:
        warn(source.name, f"no polygon, left out: {numbers(seen.strange)}")
    if source.mixed:
        warn(source.name, f"a collection, of which the polygons are taken: {numbers(source.mixed)}")
    look_at_columns(source)
    further = coordinates_left_out(source, seen.deep)
    if further:
        warn(source.name, f"has {further} coordinates, which are left out")


def look_at_columns(source: Source) -> None:
    """Refuses geometries of several reference systems in one column, and tells of columns of
    geometries beside the first one, which is taken."""
    systems = systems_in(source)
    if len(systems) > 1:
        told = ", ".join(systems)
        raise Refusal(source.name, f"has geometries of several reference systems ({told}): ST_Transform brings them into one")
    defined = source.layer.GetLayerDefn()
    taken, *others = [defined.GetGeomFieldDefn(k).GetName() for k in range(defined.GetGeomFieldCount())] or [""]
    refuse_confused(source, taken)
    if others:
        way = f": tables={source.layer.GetName()}({others[0]}) names another one" if source.is_postgis else ""
        warn(
            source.name,
            f"has several columns of geometries, of which {taken} is taken, and not {', '.join(others)}{way}",
        )


def coordinates_left_out(source: Source, deep: bool) -> str:
    """The names of the coordinates beside x and y that the layer says to have, or that its points may
    have; nothing where there are none."""
    kind = source.layer.GetGeomType()
    declared = [name for name, has in (("Z", ogr.GT_HasZ), ("M", ogr.GT_HasM)) if has(kind)]
    return " and ".join(declared) or ("Z or M" if deep else "")
