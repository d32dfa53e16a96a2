"""Overlay and dissolving of GeoPandas' data frames, by faces.

1. The geometries of one frame, or of both, are the features of layers, and all of them are rounded together.
2. A row of the answer has all points that its features cover: they are the faces whose sets have these features. Where these are
   several, as only features that overlap others of their frame have them, the faces are united, without rounding anything again.
3. The columns are joined by pandas in the way that GeoPandas does, so that names, order and types of columns are the same.
"""

from __future__ import annotations

from math import isnan
from typing import Any, Dict, Iterable, List, Optional, Sequence, Tuple

from ._asking import Plan, rows_of, warn
from ._faults import GeometryError
from ._grid import Frame, Origin, Unit
from ._kinds import Given, answer_of, shapes_of, systems_of, wkb_answer
from ._optional import module
from ._rows import Line
from ._shapes import Polygons
from ._uniting import united

HOWS = ("intersection", "union", "identity", "symmetric_difference", "difference")
SUFFIXES = ("_1", "_2")

# Columns that join the parts of an answer, as GeoPandas names them.
KEYS = ["__idx1", "__idx2"]

# The name that GeoPandas gives to the geometries of a new frame.
GEOMETRY = "geometry"


class Parts:
    """Geometries of rows, each of some faces."""

    def __init__(self, frame: Frame) -> None:
        self.frame = frame
        self.faces: Dict[Any, List[Polygons]] = {}

    def add(self, key: Any, face: Polygons) -> None:
        """Adds a face to a row."""
        self.faces.setdefault(key, []).append(face)

    def keys(self) -> List[Any]:
        """The rows' keys, ascending."""
        return sorted(self.faces)

    def made(self) -> List[bytes]:
        """The rows' geometries, in the order of the keys."""
        return list(map(self.wkb, self.keys()))

    def wkb(self, key: Any) -> bytes:
        """The geometry of a row, which is empty where it has no face."""
        faces = self.faces.get(key, [])
        made: bytes = answer_of(wkb_answer, faces[0] if len(faces) == 1 else united(faces), self.frame)
        return made


def series_of(made: Sequence[bytes], like: Any, index: Any = None) -> Any:
    """Geometries in the reference system of a frame or a series, numbered from 0 where no index is said."""
    return module("geopandas").GeoSeries.from_wkb(list(made), index=index, crs=like.crs)


def features_of(df: Any, name: str) -> Given:
    """A frame's geometries as a layer."""
    return Given(shapes_of(df.geometry.to_wkb().tolist(), name), wkb_answer, systems_of(df))


def faces_on(frames: Sequence[Tuple[Any, str]], grid: Optional[Unit], origin: Optional[Origin]) -> Tuple[List[Line], Frame]:
    """The faces of frames' features, and how they came to the grid."""
    return rows_of([features_of(df, name) for df, name in frames], Plan(grid=grid, origin=origin))


def overlay(
    df1: Any,
    df2: Any,
    how: str = "intersection",
    keep_geom_type: Optional[bool] = None,
    make_valid: bool = True,
    *,
    grid: Optional[Unit] = None,
    origin: Optional[Origin] = None,
) -> Any:
    """See overlay_grid.overlay."""
    if how not in HOWS:
        raise ValueError(f"`how` was '{how}' but is expected to be in {list(HOWS)}")
    for df, name in ((df1, "df1"), (df2, "df2")):
        check_frame(df, name)
        if not make_valid:
            check_valid(df, name)
        if how != "difference":
            check_columns(df, name)
        if how in ("union", "identity"):
            check_unique(df, name)
    if how != "difference":
        check_suffixes(df1, df2)
    lines, frame = faces_on(((df1, "df1"), (df2, "df2")), grid, origin)
    pairs, firsts, seconds = parts_of(lines, frame)
    if how == "difference":
        return difference(df1, firsts).reset_index(drop=True)
    if how == "intersection":
        result = intersection(df1, df2, pairs)
    elif how == "symmetric_difference":
        result = symmetric_difference(df1, df2, firsts, seconds)
    else:
        result = union(df1, df2, pairs, firsts, seconds)
    if how == "identity":
        result = result[result[KEYS[0]].notnull()]
    return result.drop(columns=KEYS).reset_index(drop=True)


def check_frame(df: Any, name: str) -> None:
    """Refuses what is no frame with geometries."""
    if not (hasattr(df, "columns") and hasattr(df, "to_crs")):
        raise TypeError(f"{name}: a {type(df).__name__} is no GeoDataFrame")
    if not hasattr(df, "geometry"):
        raise TypeError(f"{name}: a GeoDataFrame without a column of geometries, which set_geometry names")


def check_valid(df: Any, name: str) -> None:
    """Refuses a geometry that isn't valid."""
    valid = (df.geometry.is_valid.to_numpy() | df.geometry.isna().to_numpy()).tolist()
    if not all(valid):
        raise GeometryError("isn't valid, and make_valid is False", name, valid.index(False) + 1)


def check_columns(df: Any, name: str) -> None:
    """Refuses columns that are called as those that join the parts of an answer, and warns of one that gives way to its geometries."""
    for key in KEYS:
        if key in df.columns:
            raise ValueError(f"{name}: a column is called {key!r}, as one that joins the rows of both frames")
    if GEOMETRY in df.columns and df.geometry.name != GEOMETRY:
        warn(f"{name}: the column {GEOMETRY!r} is left out, as the answer's geometries are called so")


def check_unique(df: Any, name: str) -> None:
    """Refuses two columns of one name, by which pandas puts no rows behind one another."""
    twice = df.columns[df.columns.duplicated()]
    if len(twice):
        words = f"two columns are called {twice[0]!r}, and rows are joined by names"
        raise ValueError(f"{name}: {words}")


def check_suffixes(df1: Any, df2: Any) -> None:
    """Refuses columns of which two would have one name, by the suffixes of those that both frames have."""
    first, second = (set(df.columns) - {df.geometry.name} for df in (df1, df2))
    suffixed = {f"{name}{suffix}": name for name in first & second for suffix in SUFFIXES}
    for name in first ^ second:
        if name in suffixed:
            raise ValueError(f"df1 and df2 have columns {suffixed[name]!r}, and one has {name!r}, so that two would be called {name!r}")


def parts_of(lines: Iterable[Line], frame: Frame) -> Tuple[Parts, Parts, Parts]:
    """The faces of each pair of features, and of those features of either frame that meet none of the other's."""
    pairs, firsts, seconds = (Parts(frame) for _ in range(3))
    for line in lines:
        ours, theirs = line.ids
        for a in ours:
            for b in theirs:
                pairs.add((a - 1, b - 1), line.polygons)
            if not theirs:
                firsts.add(a - 1, line.polygons)
        if not ours:
            for b in theirs:
                seconds.add(b - 1, line.polygons)
    return pairs, firsts, seconds


def without_geometry(df: Any) -> Any:
    """A frame's other columns, with rows numbered from 0."""
    return module("pandas").DataFrame(df.drop(columns=df.geometry.name)).reset_index(drop=True)


def intersection(df1: Any, df2: Any, pairs: Parts) -> Any:
    """A row for each pair, with the columns of both frames."""
    keys = pairs.keys()
    if not keys:
        return no_pairs(df1, df2)
    held = module("pandas").DataFrame({name: [key[side] for key in keys] for side, name in enumerate(KEYS)})
    held = held.merge(without_geometry(df1), left_on=KEYS[0], right_index=True)
    held = held.merge(without_geometry(df2), left_on=KEYS[1], right_index=True, suffixes=SUFFIXES).reset_index(drop=True)
    made = list(map(pairs.wkb, zip(*(held[key] for key in KEYS))))
    return module("geopandas").GeoDataFrame(held, geometry=series_of(made, df1))


def no_pairs(df1: Any, df2: Any) -> Any:
    """The same columns without a row; the geometries have the first frame's name for them, where
    no other column has it."""
    first, second = (without_geometry(df.iloc[:0]) for df in (df1, df2))
    held = first.merge(second, left_index=True, right_index=True, suffixes=SUFFIXES)
    held[KEYS[0]] = held[KEYS[1]] = None
    name = GEOMETRY if df1.geometry.name in held.columns else df1.geometry.name
    held = held.drop(columns=name, errors="ignore")
    held[name] = series_of([], df1)
    return module("geopandas").GeoDataFrame(held, geometry=name)


def difference(df: Any, own: Parts) -> Any:
    """A row for each feature that has points which no feature of the other frame has."""
    held = df.iloc[own.keys()].copy()
    held[df.geometry.name] = series_of(own.made(), df).values
    return held


def named(df: Any) -> Any:
    """The same frame, whose geometries have the usual name."""
    name = df.geometry.name
    if name == GEOMETRY:
        return df
    if GEOMETRY in df.columns:
        df = df.drop(columns=GEOMETRY)
    return df.rename(columns={name: GEOMETRY}).set_geometry(GEOMETRY)


def symmetric_difference(df1: Any, df2: Any, firsts: Parts, seconds: Parts) -> Any:
    """The rows of both differences, with the columns of both frames."""
    sides = []
    for own, other, df, parts in zip(KEYS, reversed(KEYS), (df1, df2), (firsts, seconds)):
        side = without_geometry(named(df)).iloc[parts.keys()]
        sides.append(side.assign(**{own: range(len(side)), other: float("nan")}))
    held = sides[0].merge(sides[1], on=KEYS, how="outer", suffixes=SUFFIXES).reset_index(drop=True)
    first, second = firsts.made(), seconds.made()
    made = [second[int(b)] if isnan(a) else first[int(a)] for a, b in zip(*(held[key] for key in KEYS))]
    return module("geopandas").GeoDataFrame(held, geometry=series_of(made, df1))


def union(df1: Any, df2: Any, pairs: Parts, firsts: Parts, seconds: Parts) -> Any:
    """The rows of the intersection and of both differences, the geometries last."""
    both = [named(intersection(df1, df2, pairs)), symmetric_difference(df1, df2, firsts, seconds)]
    held = module("pandas").concat(both, ignore_index=True, sort=False)
    return held[[*held.columns.drop(GEOMETRY), GEOMETRY]]


def dissolve(df: Any, said: Dict[str, Any], grid: Optional[Unit], origin: Optional[Origin]) -> Any:
    """See overlay_grid.dissolve. GeoPandas makes the groups and their values, as it is said, of points that tell the numbers of features."""
    geopandas = module("geopandas")
    check_frame(df, "df")
    said = without_union(said)
    lines, frame = faces_on(((df, "df"),), grid, origin)
    name, count = df.geometry.name, len(df)
    marked = df.copy()
    marked[name] = geopandas.GeoSeries(geopandas.points_from_xy(range(count), [0] * count), index=df.index, crs=df.crs)
    dissolved = marked.dissolve(**said)
    groups: Dict[int, int] = {}
    for group, marks in enumerate(dissolved.geometry):
        groups.update((feature, group) for feature in numbers_in(marks))
    parts = Parts(frame)
    for line in lines:
        for group in {groups[feature - 1] for feature in line.ids[0] if feature - 1 in groups}:
            parts.add(group, line.polygons)
    dissolved[name] = series_of(list(map(parts.wkb, range(len(dissolved)))), df).values
    return dissolved


def without_union(said: Dict[str, Any]) -> Dict[str, Any]:
    """What is said but of GeoPandas' own union, which would round the points that tell numbers."""
    if said.get("grid_size") is not None:
        raise TypeError("grid_size: features are united on the grid, whose unit `grid` says")
    return {name: value for name, value in said.items() if name not in ("method", "grid_size")}


def numbers_in(marks: Any) -> List[int]:
    """The numbers of features that points tell."""
    if marks is None or marks.is_empty:
        return []
    return [int(point.x) for point in getattr(marks, "geoms", [marks])]
