#!/usr/bin/python3
"""A job of bench/run bridge by Shapely or geopandas, from GeoPackage to GeoPackage: bridge.py TOOL JOB A B OUT

  dissolve  what some feature of A covers       common  what some feature of A and some feature of B both cover
  faces     each pair of features of A and B    check   each pair of features of A, with what both cover

`bridge.py valid A OUT` writes a layer with each feature made valid, `bridge.py lines A` prints one as WKB in hexadecimal digits."""
from __future__ import annotations

import sys
import warnings
from collections.abc import Iterable, Iterator, Sequence

from osgeo import ogr, osr
from shapely import wkb
from shapely.geometry import MultiPolygon
from shapely.geometry.base import BaseGeometry
from shapely.ops import unary_union
from shapely.strtree import STRtree
from shapely.validation import make_valid

warnings.simplefilter("ignore")
ogr.UseExceptions()


def read(path: str) -> list[BaseGeometry]:
    source = ogr.Open(path)
    return [wkb.loads(bytes(feature.GetGeometryRef().ExportToWkb())) for feature in source.GetLayer(0)]


def write(path: str, geometries: Iterable[BaseGeometry]) -> None:
    system = osr.SpatialReference()
    system.ImportFromEPSG(25832)
    target = ogr.GetDriverByName("GPKG").CreateDataSource(path)
    layer = target.CreateLayer("layer", system, ogr.wkbUnknown)
    target.StartTransaction()
    for geometry in geometries:
        feature = ogr.Feature(layer.GetLayerDefn())
        feature.SetGeometry(ogr.CreateGeometryFromWkb(wkb.dumps(geometry)))
        layer.CreateFeature(feature)
    target.CommitTransaction()


def polygons(geometry: BaseGeometry) -> list[BaseGeometry]:
    """What a geometry has of polygons."""
    return [part for part in getattr(geometry, "geoms", [geometry]) if part.geom_type == "Polygon" and not part.is_empty]


def valid(geometries: Iterable[BaseGeometry]) -> list[BaseGeometry]:
    return [geometry if geometry.is_valid else MultiPolygon(polygons(make_valid(geometry))) for geometry in geometries]


def near(tree: STRtree, geometry: BaseGeometry) -> Iterable[int]:
    """The numbers of what may touch a geometry: by another call before version 2."""
    return tree.query_items(geometry) if hasattr(tree, "query_items") else tree.query(geometry)


def pairs(first: Sequence[BaseGeometry], second: Sequence[BaseGeometry]) -> Iterator[BaseGeometry]:
    """What features of both layers cover, pair by pair; of one layer itself each pair once."""
    tree = STRtree(first)
    for number, other in enumerate(second):
        for k in near(tree, other):
            if first is second and k >= number or not first[k].intersects(other):
                continue
            common = first[k].intersection(other)
            if common.area > 0:
                yield common


def by_shapely(job: str, first: Sequence[BaseGeometry], second: Sequence[BaseGeometry]) -> list[BaseGeometry]:
    if job == "dissolve":
        return polygons(unary_union(first))
    if job == "common":
        return polygons(unary_union(first).intersection(unary_union(second)))
    # a layer is made valid for its check, since pairs of others can't be asked for
    checked = valid(first) if job == "check" else first
    return list(pairs(checked, checked if job == "check" else second))


def by_geopandas(job: str, first: Sequence[BaseGeometry], second: Sequence[BaseGeometry]) -> list[BaseGeometry]:
    import geopandas

    one, two = (geopandas.GeoDataFrame(geometry=layer, crs="EPSG:25832") for layer in (first, second))
    if job == "dissolve":
        return list(one.dissolve().explode(index_parts=False).geometry)
    if job == "common":
        return list(geopandas.overlay(one.dissolve(), two.dissolve(), how="intersection").explode(index_parts=False).geometry)
    return list(geopandas.overlay(one, two, how="intersection").geometry)


def main() -> None:
    tool, job, *paths = sys.argv[1:]
    if tool == "valid":
        write(paths[0], valid(read(job)))
        return
    if tool == "lines":
        sys.stdout.writelines("%s\n" % wkb.dumps(geometry, hex=True) for geometry in read(job))
        return
    try:
        found = (by_shapely if tool == "shapely" else by_geopandas)(job, read(paths[0]), read(paths[1]))
    except Exception as error:
        sys.exit("%s: %s" % (type(error).__name__, error))
    write(paths[2], found)
    print("area %r" % sum(geometry.area for geometry in found))


def versions() -> None:
    import geopandas
    import shapely
    from osgeo import gdal
    from shapely.geos import geos_version

    geos = ".".join(map(str, geos_version))
    print("Shapely %s, GEOS %s, geopandas %s, GDAL %s" % (shapely.__version__, geos, geopandas.__version__, gdal.__version__))


versions() if sys.argv[1:] == ["--version"] else main()
