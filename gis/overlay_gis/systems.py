"""Reference systems: as layers, users and frames name them."""

from __future__ import annotations

from osgeo import osr

from .faults import Refusal
from .gdal_errors import told_as

# What GDAL calls the system of a layer whose GeoPackage says that it has none.
UNDEFINED = ("undefined cartesian srs", "undefined geographic srs", "undefined srs")


def known(system: osr.SpatialReference | None) -> osr.SpatialReference | None:
    """A layer's system with x first; nothing where it has none, or says that it has none."""
    if system is None or system.GetName().lower() in UNDEFINED:
        return None
    return in_map_order(system.Clone())


def in_map_order(system: osr.SpatialReference) -> osr.SpatialReference:
    """The same system with x, easting or longitude, first, as layers hold their coordinates."""
    system.SetAxisMappingStrategy(osr.OAMS_TRADITIONAL_GIS_ORDER)
    return system


def system_from(text: str) -> osr.SpatialReference:
    system = osr.SpatialReference()
    with told_as(lambda words: Refusal(text, f"is no reference system: {words}")):
        system.SetFromUserInput(text)
    return in_map_order(system)


def system_name(system: osr.SpatialReference | None) -> str:
    """EPSG:25832 where there is a number, else the system's own name."""
    if system is None:
        return "no reference system"
    code = system.GetAuthorityCode(None)
    return (
        f"{system.GetAuthorityName(None)}:{code}"
        if code
        else system.GetName() or "a system without a name"
    )


def names_apart(one: osr.SpatialReference | None, other: osr.SpatialReference | None) -> tuple[str, str]:
    """The names of two systems that aren't the same, though they may be called so."""
    names = system_name(one), system_name(other)
    return (f"another definition of {names[1]}", names[1]) if names[0] == names[1] else names


def unit_name(system: osr.SpatialReference | None) -> str:
    if system is None:
        return "units"
    if system.IsGeographic():
        return "degrees" if system.GetAngularUnitsName() == "degree" else str(system.GetAngularUnitsName())
    return "m" if system.GetLinearUnits() == 1.0 else str(system.GetLinearUnitsName())


def area_name(system: osr.SpatialReference | None) -> str:
    unit = unit_name(system)
    return f"{unit}\u00b2" if unit == "m" else f"square {unit}"


def same(one: osr.SpatialReference | None, other: osr.SpatialReference | None) -> bool:
    if one is None or other is None:
        return one is other
    return bool(one.IsSame(other, ["IGNORE_DATA_AXIS_TO_SRS_AXIS_MAPPING=YES"]))


def is_another(found: osr.SpatialReference | None, wanted: osr.SpatialReference | None) -> bool:
    """Whether a file's system isn't the one that was wanted; where none was, a local one is as good
    as none."""
    if wanted is None and found is not None:
        return not found.IsLocal()
    return not same(found, wanted)
