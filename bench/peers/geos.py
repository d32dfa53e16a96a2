#!/usr/bin/python3
"""A job of bench/run peers by GEOS, as Shapely calls it: geos.py dissolve|common A B [GRID [made-valid|coverage]]

Prints each polygon of the answer as WKB in hexadecimal digits, and at last on standard error the processor seconds of the operation alone,
and those from text to text, without the interpreter's start. With a grid above 0 GEOS rounds onto it: by Shapely's own words since version
2, before that by the calls of the C library. `coverage` unites by `coverage_union_all`, which takes a layer to have no overlaps."""
from __future__ import annotations

import ctypes
import logging
import sys
import time
from collections.abc import Sequence

import shapely
from shapely import wkb, wkt
from shapely.geometry import GeometryCollection
from shapely.geometry.base import BaseGeometry
from shapely.ops import unary_union
from shapely.validation import make_valid

logging.basicConfig(format="%(message)s")


def read(path: str) -> list[BaseGeometry]:
    with open(path, encoding="ascii") as file:
        return [wkt.loads(line) for line in file]


def on_grid_before_2(name: str, grid: float, *geometries: BaseGeometry) -> BaseGeometry:
    from shapely.geometry.base import geom_factory
    from shapely.geos import lgeos

    call = lgeos._lgeos[name]
    call.restype, call.argtypes = ctypes.c_void_p, [ctypes.c_void_p] * (1 + len(geometries)) + [ctypes.c_double]
    found = call(lgeos.geos_handle, *(geometry._geom for geometry in geometries), grid)
    if not found:
        raise ValueError("no answer of %s" % name)
    return geom_factory(found)


def union(geometries: Sequence[BaseGeometry], grid: float, is_coverage: bool = False) -> BaseGeometry:
    if is_coverage:
        return shapely.coverage_union_all(geometries)
    if not grid:
        return unary_union(geometries)
    if hasattr(shapely, "union_all"):
        return shapely.union_all(geometries, grid_size=grid)
    return on_grid_before_2("GEOSUnaryUnionPrec_r", grid, GeometryCollection(geometries))


def common(first: BaseGeometry, second: BaseGeometry, grid: float) -> BaseGeometry:
    if not grid:
        return first.intersection(second)
    if hasattr(shapely, "union_all"):
        return shapely.intersection(first, second, grid_size=grid)
    return on_grid_before_2("GEOSIntersectionPrec_r", grid, first, second)


def main() -> None:
    job, *files = sys.argv[1:4]
    grid = float(sys.argv[4]) if len(sys.argv) > 4 else 0.0
    is_coverage = sys.argv[5:] == ["coverage"]
    begun = time.process_time()
    layers = [read(path) for path in files]
    start = time.process_time()
    try:
        if sys.argv[5:] == ["made-valid"]:
            layers = [[polygon if polygon.is_valid else make_valid(polygon) for polygon in layer] for layer in layers]
        found = union(layers[0], grid, is_coverage)
        if job == "common":
            found = common(found, union(layers[1], grid, is_coverage), grid)
    except Exception as error:
        sys.exit("%s: %s" % (type(error).__name__, error))
    seconds = time.process_time() - start
    text = wkt.dumps(found, rounding_precision=-1)
    whole = time.process_time() - begun
    for part in getattr(found, "geoms", [found]):
        print(wkb.dumps(part, hex=True))
    print("processor %.6f\nwhole %.6f\n%d bytes of text" % (seconds, whole, len(text)), file=sys.stderr)


if sys.argv[1:] == ["--version"]:
    from shapely.geos import geos_version

    print("Shapely %s, GEOS %s" % (shapely.__version__, ".".join(map(str, geos_version))))
else:
    main()
