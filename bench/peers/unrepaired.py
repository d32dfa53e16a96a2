#!/usr/bin/python3
"""A job of bench/run unrepaired by Shapely or GeoPandas: unrepaired.py TOOL pairs|cover PARCELS ZONES

`pairs` intersects each parcel with each zone, and `cover` unites all parcels. Prints the number of pairs that overlap, and the area.
`unrepaired.py TOOL --version` prints the versions."""
from __future__ import annotations

import json
import logging
import sys

import shapely
from shapely.geometry import shape
from shapely.geometry.base import BaseGeometry
from shapely.ops import unary_union

logging.basicConfig(format="%(message)s")


def read(path: str) -> list[BaseGeometry]:
    with open(path, encoding="utf-8") as file:
        return [shape(feature["geometry"]) for feature in json.load(file)["features"]]


def by_shapely(job: str, parcels: str, zones: str) -> list[float]:
    """The areas of all pairs that overlap, or of what all parcels cover."""
    if job == "cover":
        return [unary_union(read(parcels)).area]
    others = read(zones)
    return [area for parcel in read(parcels) for zone in others if (area := parcel.intersection(zone).area) > 0]


def by_geopandas(job: str, parcels: str, zones: str) -> list[float]:
    import geopandas

    first, second = (geopandas.read_file(path) for path in (parcels, zones))
    found = first.dissolve() if job == "cover" else geopandas.overlay(first, second, how="intersection")
    return [area for area in found.area if area > 0]


def version(tool: str) -> str:
    if tool == "geopandas":
        import geopandas

        return "GeoPandas %s" % geopandas.__version__
    from shapely.geos import geos_version

    return "Shapely %s, GEOS %s" % (shapely.__version__, ".".join(map(str, geos_version)))


def main() -> None:
    tool, job, *files = sys.argv[1:]
    if job == "--version":
        print(version(tool))
        return
    areas = (by_geopandas if tool == "geopandas" else by_shapely)(job, *files)
    print(len(areas), "%.3f" % sum(areas))


main()
