"""Calls as mypy sees them: that the answer is of the first layer's type, and what an exception has. It is checked and not run."""

from __future__ import annotations

from decimal import Decimal
from typing import Optional

from overlay_grid import (
    Edge,
    Face,
    GeometryError,
    LayerMeasures,
    Measured,
    Operation,
    Refusal,
    Refused,
    Row,
    dissolve,
    edges,
    faces,
    faces_text,
    measured,
    overlay,
    pairs,
    union,
)

line: str = union("", b"")
same: bytes = union(b"", "", side=16, segments=10_000_000)
rows: str = edges("", "")
lines: bytes = faces_text(b"", "", b"", side=16)
one_layer: str = faces_text("")
found: list[Row] = faces("", "", "", segments=7)
of_bytes: list[Row] = faces("", b"", segments=7)
of_wkb: list[Face] = faces(b"", b"")
ends_of_wkb: list[Edge] = edges(b"", b"")
areas: list[int] = [row.twice_area for row in found]
ids: list[tuple[tuple[int, ...], ...]] = [row.ids for row in found]
wkt: list[str] = [row.wkt for row in found]
any_of_them: bytes = overlay(Operation.DIFFERENCE, bytearray(), memoryview(b""))
by_parity: bytes = union(b"", "", reading="parity")
covering: str = overlay(Operation.UNION, "", b"", reading="covered")
on_a_grid: str = union("", "", grid=0.1, origin=("412000", Decimal(0)))
told_of_texts: Measured[str] = measured("union", "", b"", segments=7)
told_of_bytes: bytes = measured(Operation.UNION, b"", "", 16).result
of_a_layer: tuple[float, int, int] = told_of_texts.a
steps: int = told_of_texts.b.steps
exactly: int = told_of_texts.twice_area + LayerMeasures(0.5, 3, 1).twice_area
areas_on_it: list[float] = [face.area for face in faces("", b"", grid=0.5)]


class Square:
    """A geometry as Shapely has them."""

    geom_type = "Polygon"
    wkb = b""


class Frame:
    """A data frame as GeoPandas has them."""

    columns = ["geometry"]
    geometry = [Square()]


of_a_geometry = union(Square(), Square(), grid="0.001")
of_geometries = union([Square(), None], b"")
faces_of_geometries = faces([Square()], Square())
told_of_geometries: float = measured("difference", Square(), [Square()], grid=1).area
clipped: list[bytes] = pairs(Operation.INTERSECTION, [b"", b""], b"", grid="0.1", origin=(0, 0))
against_each: list[bytes] = pairs("difference", b"", [Square(), None])
of_pairs = pairs("union", [Square(), None], (Square(), b""), grid=1)
table: Frame = overlay(Frame(), Frame(), how="union", grid=1)
dissolved: Frame = dissolve(table, by="zone", grid=1)


def at(error: GeometryError) -> tuple[str, str, int, Optional[int]]:
    return error.reason, error.layer, error.feature, error.part


def told(refused: Refused) -> tuple[Refusal, Optional[str], Optional[int], Optional[int], Optional[int]]:
    return refused.number, refused.layer, refused.feature, refused.offset, refused.count


not_bytes: bytes = union("", "")  # type: ignore[assignment]
no_operation = overlay("union", "", "")  # type: ignore[call-overload]
no_reading = union("", "", reading="even-odd")  # type: ignore[call-overload]
unread: float = measured("union", "", "", reading="parity").area
edges_unread = edges("", "", reading="parity")  # type: ignore[call-overload]
no_layer = union("", None)  # type: ignore[call-overload]
not_a_str: str = faces_text(b"")  # type: ignore[assignment]
none_of_them = faces()  # type: ignore[call-overload]
not_faces: list[Face] = faces("", "")  # type: ignore[assignment]
no_edges: list[Edge] = edges("", b"")  # type: ignore[assignment]
not_told: bytes = measured("union", "", "").result  # type: ignore[assignment]
not_one: bytes = pairs("union", [b""], b"")  # type: ignore[assignment]
no_pairs = pairs(1, [b""], [b""])  # type: ignore[call-overload]
no_unit = union("", "", grid=[1])  # type: ignore[call-overload]
