"""Overlay of polygon layers, by the proved library, which rounds them exactly to the integer grid.

Layers are texts of POLYGON and MULTIPOLYGON geometries with whole coordinates, as str or bytes:

>>> parcels = "POLYGON ((0 0, 4 0, 4 4, 0 4, 0 0))"
>>> zones = "POLYGON ((2 2, 6 2, 6 6, 2 6, 2 2))"
>>> intersection(parcels, zones)
'MULTIPOLYGON (((2 2, 4 2, 4 4, 2 4, 2 2)))\\n'

Where features of a layer overlap, the layer has what any of them covers; by `reading="parity"` it has what an odd number of them covers:

>>> union("POLYGON ((0 0, 4 0, 4 4, 0 4, 0 0)) POLYGON ((1 1, 2 1, 2 2, 1 1))", "")
'MULTIPOLYGON (((0 0, 4 0, 4 4, 0 4, 0 0)))\\n'
>>> union("POLYGON ((0 0, 4 0, 4 4, 0 4, 0 0)) POLYGON ((1 1, 2 1, 2 2, 1 1))", "", reading="parity")
'MULTIPOLYGON (((0 0, 4 0, 4 4, 0 4, 0 0), (1 1, 2 2, 2 1, 1 1)))\\n'

One geometry is read by the even-odd rule always. The answer is of the first layer's type. A call runs on the calling thread, and the interpreter's lock is released meanwhile. The
side of a tile, in grid units, has no influence on the answer; where none is given, one is taken that fits the layers. Both layers
together may have as many segments as is said, 1,048,576 where nothing is; ten million of parcels take some 1 GB of memory.

Coordinates that aren't whole are brought to a grid whose unit is said, and the answer is brought back:

>>> intersection("POLYGON ((0 0, 0.4 0, 0.4 0.4, 0 0.4, 0 0))", "POLYGON ((0.2 0.2, 0.6 0.2, 0.6 0.6, 0.2 0.6, 0.2 0.2))", grid=0.1)
'MULTIPOLYGON (((0.2 0.2, 0.4 0.2, 0.4 0.4, 0.2 0.4, 0.2 0.2)))\\n'

A coordinate goes to the nearest multiple of the unit, halves upward and to the right, exactly. So are layers of other kinds: geometries
of Shapely, WKB as bytes, and coordinates as numpy arrays of shape (n, 2), each a ring, or a tuple of such rings. A list of geometries
is a layer whose features these are. Where no unit is said of these it is 0.001, or 0.000001 of
frames and series in degrees. The answer is of the first layer's kind. A grid has room for 2^29 units each way; an `origin` that is said
is the point of which no coordinate may lie further than 2^28 units, and else one is taken that fits the layers.

Which features cover what is told by `faces`, of one layer or of several. A feature is a geometry of a layer; in each layer they are
numbered from 1:

>>> for row in faces(parcels, zones):
...     print(row.twice_area, row.ids, row.wkt)
24 ((1,), ()) MULTIPOLYGON (((0 0, 4 0, 4 2, 2 2, 2 4, 0 4, 0 0)))
8 ((1,), (1,)) MULTIPOLYGON (((2 2, 4 2, 4 4, 2 4, 2 2)))
24 ((), (1,)) MULTIPOLYGON (((2 4, 4 4, 4 2, 6 2, 6 6, 2 6, 2 4)))

An operation on many pairs of geometries is one call, `pairs`. `measured` tells areas beside an answer.

What can't be read is refused: a text by `Refused`, a geometry by `GeometryError`, both of which are ValueErrors and tell the place.

Data frames of GeoPandas are overlaid by `overlay` and dissolved by `dissolve`.
"""

from __future__ import annotations

from typing import Any, Optional, Union

from . import _asking, _calls, _edges, _frames, _kinds, _measuring, _pairs, _rows, _wkb
from ._answers import Face, Row
from ._asking import Plan
from ._calls import CALLS, Operation
from ._edges import Edge
from ._faults import GeometryError, OutOfMemory, Refusal, Refused
from ._grid import Origin, Unit
from ._library import PROVED
from ._measuring import LayerMeasures, Measured
from ._reading import COVERED, Reading, is_covered
from ._signatures import AnyText, Frame, OnLayers, Text, measuring, on_edges, on_faces, on_pairs, overlaying
from ._texts import has_several

__all__ = [
    "Edge",
    "Face",
    "GeometryError",
    "LayerMeasures",
    "Measured",
    "Operation",
    "OutOfMemory",
    "Refusal",
    "Refused",
    "Row",
    "covered_text",
    "difference",
    "dissolve",
    "edges",
    "faces",
    "faces_text",
    "intersection",
    "measured",
    "overlay",
    "pairs",
    "symdifference",
    "union",
]

__version__ = "2.0.0"

# False in a wheel of `python/build --unproved` alone.
__proved__ = PROVED

# Exceptions are pickled and told of by the names that users import.
for _public in (Edge, Face, GeometryError, LayerMeasures, Measured, Operation, OutOfMemory, Refusal, Refused, Row):
    _public.__module__ = __name__


def _is_text(layer: Any) -> bool:
    if type(layer) is bytes:
        return not _wkb.begins(layer)
    return isinstance(layer, str) or _kinds.kind_of(layer) is _kinds.bytes_answer


def _of_texts(word: Operation, a: Any, b: Any, plan: Plan) -> Any:
    texts = _calls.bytes_of(a), _calls.bytes_of(b)
    covered = is_covered(plan.reading) and word is not Operation.EDGES and any(map(has_several, texts))
    text = _calls.text_of(CALLS[word], *texts, plan.side, plan.segments, covered)
    return text.decode("ascii") if isinstance(a, str) else text


def _asked(word: Operation, a: Any, b: Any, plan: Plan) -> Any:
    if not is_covered(plan.reading) and word is Operation.EDGES:
        raise ValueError("edges have no reading: they are those of all features")
    if plan.grid is None and plan.origin is None and _is_text(a) and _is_text(b):
        return _of_texts(word, a, b, plan)
    return _edges.edges(a, b, plan) if word is Operation.EDGES else _asking.operation(CALLS[word], a, b, plan)


def _only_areas(operation: Union[Operation, str], why: str) -> Operation:
    if Operation(operation) is Operation.EDGES:
        raise ValueError(f"{why}: the operation is one of union, intersection, difference and symdifference")
    return Operation(operation)


def _operation(word: Operation, told: str) -> OnLayers:
    def call(
        a: Any,
        b: Any,
        side: Optional[int] = None,
        segments: Optional[int] = None,
        *,
        grid: Optional[Unit] = None,
        origin: Optional[Origin] = None,
        reading: Reading = COVERED,
    ) -> Any:
        return _asked(word, a, b, Plan(side, segments, grid, origin, reading))

    call.__name__ = call.__qualname__ = word.value
    call.__doc__ = told
    return call


union = _operation(
    Operation.UNION,
    """The points of either layer, as one MULTIPOLYGON line or of the first layer's kind.

    >>> union("POLYGON ((0 0, 4 0, 4 4, 0 4, 0 0))", "POLYGON ((4 0, 6 0, 6 4, 4 4, 4 0))")
    'MULTIPOLYGON (((0 0, 4 0, 6 0, 6 4, 4 4, 0 4, 0 0)))\\n'
    >>> union(b"POLYGON ((0 0, .5 0, .5 .5, 0 0))", "POLYGON ((.51 0, 1 0, 1 1, .51 0))", grid="0.1")
    b'MULTIPOLYGON (((0 0, 0.5 0, 0.5 0.5, 0 0)), ((0.5 0, 1 0, 1 1, 0.5 0)))\\n'
    """,
)

intersection = _operation(
    Operation.INTERSECTION,
    """The points of both layers, as one MULTIPOLYGON line or of the first layer's kind.

    >>> intersection("POLYGON ((0 0, 4 0, 4 4, 0 4, 0 0))", "POLYGON ((7 0, 9 0, 9 2, 7 0))")
    'MULTIPOLYGON EMPTY\\n'
    """,
)

difference = _operation(
    Operation.DIFFERENCE,
    """The points of the first layer and not of the second, as one MULTIPOLYGON line or of the first layer's kind.

    >>> difference("POLYGON ((0 0, 9 0, 9 9, 0 9, 0 0))", "POLYGON ((3 3, 6 3, 6 6, 3 6, 3 3))")
    'MULTIPOLYGON (((0 0, 9 0, 9 9, 0 9, 0 0), (3 3, 3 6, 6 6, 6 3, 3 3)))\\n'
    """,
)

symdifference = _operation(
    Operation.SYMDIFFERENCE,
    """The points of just one of the layers, as one MULTIPOLYGON line or of the first layer's kind.

    >>> square = "POLYGON ((0 0, 4 0, 4 4, 0 4, 0 0))"
    >>> symdifference(square, square)
    'MULTIPOLYGON EMPTY\\n'
    """,
)


@overlaying
def overlay(*given: Any, **named: Any) -> Any:
    """What an operation answers on two layers, `overlay(operation, a, b, side=None, segments=None, grid=.., origin=.., reading="covered")`; or
    what geopandas.overlay answers on two data frames, `overlay(df1, df2, how="intersection", keep_geom_type=None, make_valid=True, grid=..,
    origin=..)`.

    >>> overlay(Operation.UNION, b"POLYGON ((0 0, 1 0, 0 1, 0 0))", "polygon empty")
    b'MULTIPOLYGON (((0 0, 1 0, 0 1, 0 0)))\\n'

    `how` is "intersection", "union", "identity", "symmetric_difference" or "difference". The answer has the same rows and columns as
    GeoPandas gives, on the grid: a row for each feature of `df1`, of `df2` or pair of both that has an area of its own, and all borders
    that two rows share are the same points. The unit is 0.001 where none is said, or 0.000001 where coordinates are degrees. Only areas
    are told, also where `keep_geom_type` is False. A feature is read by parity; `make_valid=False` refuses those that aren't valid.
    """
    first = given[0] if given else named.get("operation", named.get("df1"))
    if isinstance(first, (Operation, str)):
        return _overlay_layers(*given, **named)
    return _frames.overlay(*given, **named)


def _overlay_layers(
    operation: Operation,
    a: Any,
    b: Any,
    side: Optional[int] = None,
    segments: Optional[int] = None,
    *,
    grid: Optional[Unit] = None,
    origin: Optional[Origin] = None,
    reading: Reading = COVERED,
) -> Any:
    return _asked(Operation(operation), a, b, Plan(side, segments, grid, origin, reading))


@on_edges
def edges(
    a: Any,
    b: Any,
    side: Optional[int] = None,
    segments: Optional[int] = None,
    *,
    grid: Optional[Unit] = None,
    origin: Optional[Origin] = None,
) -> Any:
    """A line `x1 y1 x2 y2 a b` for each edge of both layers after rounding, with its count in either layer; or a list of `Edge`s where
    the first layer isn't a text.

    >>> print(edges("POLYGON ((0 0, 1 1, 0 1, 1 0, 0 0))", ""), end="")
    0 0 1 0 1 0
    0 0 1 1 1 0
    0 1 1 1 2 0
    1 0 1 1 1 0
    """
    return _asked(Operation.EDGES, a, b, Plan(side, segments, grid, origin))


@measuring
def measured(
    operation: Union[Operation, str],
    a: Any,
    b: Any,
    side: Optional[int] = None,
    segments: Optional[int] = None,
    *,
    grid: Optional[Unit] = None,
    origin: Optional[Origin] = None,
    reading: Reading = COVERED,
) -> Measured[Any]:
    """What an operation answers, with the areas of the result and of both layers after rounding, and how many steps the routes of each
    layer's segments have.

    >>> squares = "POLYGON ((0 0, 4 0, 4 4, 0 4, 0 0)) POLYGON ((2 0, 6 0, 6 4, 2 4, 2 0))"
    >>> told = measured("difference", squares, "POLYGON ((0 1, 1 1, 1 2, 0 2, 0 1))")
    >>> told.result
    'MULTIPOLYGON (((0 0, 2 0, 4 0, 6 0, 6 4, 4 4, 2 4, 0 4, 0 2, 1 2, 1 1, 0 1, 0 0)))\\n'
    >>> told.area, told.a.area, told.b.area
    (23.0, 24.0, 1.0)
    >>> told.a.steps, told.b.steps
    (14, 4)

    Areas are in square units of the coordinates, as numbers next to the exact ones; `twice_area` has them in squares of the grid, exactly.
    A layer's area is that of the points that it covers, for which the faces are computed where features overlap. By parity overlaps cancel:
    what the polygons have in sum beyond the area lies under several of them, but for what rounding took or gave. A segment has one step, and
    one more for each grid point that it is led through on its way, where it meets another border or is bent.

    >>> measured("union", squares, "", reading="parity").area
    16.0
    """
    call, plan = CALLS[_only_areas(operation, "edges have no areas")], Plan(side, segments, grid, origin, reading)
    if grid is None and origin is None and _is_text(a) and _is_text(b):
        return _measuring.of_texts(call, a, b, plan)
    return _measuring.measured(call, a, b, plan)


def covered_text(operation: Operation, a: Text, b: AnyText, side: Optional[int] = None, segments: Optional[int] = None) -> Text:
    """What `overlay` answers on two layers that are texts with whole coordinates, read as covered, and never WKB.

    >>> squares = "POLYGON ((0 0, 4 0, 4 4, 0 4, 0 0)) POLYGON ((2 0, 6 0, 6 4, 2 4, 2 0))"
    >>> covered_text(Operation.UNION, squares, "")
    'MULTIPOLYGON (((0 0, 2 0, 4 0, 6 0, 6 4, 4 4, 2 4, 0 4, 0 0)))\\n'
    """
    text: Text = _of_texts(_only_areas(operation, "edges have no reading"), a, b, Plan(side, segments))
    return text


def faces_text(a: Text, *more: AnyText, side: Optional[int] = None, segments: Optional[int] = None) -> Text:
    """Which features cover what, as the program writes it: a line for each set of features that covers some points together, with
    twice the area, each layer's features, and the points, with tabs between. The layers are texts with whole coordinates.

    >>> faces_text("POLYGON ((0 0, 4 0, 4 4, 0 4, 0 0)) POLYGON EMPTY", "POLYGON ((0 0, 4 0, 4 4, 0 4, 0 0))")
    '32\\t1\\t1\\tMULTIPOLYGON (((0 0, 4 0, 4 4, 0 4, 0 0)))\\n'
    >>> faces_text(b"POLYGON EMPTY")
    b''
    """
    text = _calls.faces_of([_calls.bytes_of(layer) for layer in (a, *more)], side, segments)
    return text.decode("ascii") if isinstance(a, str) else text


@on_faces
def faces(
    a: Any,
    *more: Any,
    side: Optional[int] = None,
    segments: Optional[int] = None,
    grid: Optional[Unit] = None,
    origin: Optional[Origin] = None,
) -> Any:
    """Which features cover what: a row for each set of features, of up to 64 layers, that covers some points together, in the order of
    these sets. Features of one layer that overlap don't cancel one another. Rows of texts with whole coordinates are `Row`s, and of all
    else `Face`s. Geometries, lists and frames of them go to the library as arrays.

    >>> for row in faces("POLYGON ((0 0, 4 0, 4 4, 0 4, 0 0)) POLYGON ((2 0, 6 0, 6 4, 2 4, 2 0))"):
    ...     print(row.twice_area, row.ids, row.wkt)
    16 ((1,),) MULTIPOLYGON (((0 0, 2 0, 2 4, 0 4, 0 0)))
    16 ((1, 2),) MULTIPOLYGON (((2 0, 4 0, 4 4, 2 4, 2 0)))
    16 ((2,),) MULTIPOLYGON (((4 0, 6 0, 6 4, 4 4, 4 0)))
    >>> for face in faces("POLYGON ((0 0, 0.5 0, 0.5 0.5, 0 0))", grid=0.5):
    ...     print(face.area, face.ids, face.geometry)
    0.125 ((1,),) MULTIPOLYGON (((0 0, 0.5 0, 0.5 0.5, 0 0)))
    >>> from struct import pack
    >>> square = pack("<BIII10d", 1, 3, 1, 5, 0, 0, 2, 0, 2, 2, 0, 2, 0, 0)
    >>> [(face.area, face.ids, face.geometry == square) for face in faces([square, square], square)]
    [(4.0, ((1, 2), (1,)), True)]
    """
    layers = (a, *more)
    if grid is None and origin is None and all(map(_is_text, layers)):
        text = _calls.faces_of(list(map(_calls.bytes_of, layers)), side, segments)
        return list(map(Row._make, _rows.lines_of(text)))
    held = _asking.layers_of(layers)
    lines, frame = _asking.rows_of(held, Plan(side, segments, grid, origin))
    answer = _asking.answerer_of(held)
    return [Face(frame.area(line.twice), line.ids, _kinds.answer_of(answer, line.polygons, frame)) for line in lines]


@on_pairs
def pairs(
    operation: Union[Operation, str],
    a: Any,
    b: Any,
    *,
    grid: Optional[Unit] = None,
    origin: Optional[Origin] = None,
) -> Any:
    """What an operation answers on each pair of geometries: on the first ones of both layers, the second ones, and so on. Where one of
    the layers is a geometry and no list, that stands against each of the other's.

    >>> from struct import pack
    >>> def box(left, right):
    ...     return pack("<BIII10d", 1, 3, 1, 5, left, 0, right, 0, right, 1, left, 1, left, 0)
    >>> pairs("intersection", [box(0, 4), box(3, 9)], box(2, 5)) == [box(2, 4), box(3, 5)]
    True

    The answer is a list with a geometry of the first layer's kind for each pair, an empty one where nothing is left; or of a series or a
    frame of Shapely's geometries a series with its index and reference system. Pairs go by order, whatever indexes series have. All are
    on one grid, and each is rounded alone: its answer is that of `intersection` on the two. So answers that share a border needn't have
    the same points there, as those of `overlay` have. Layers are of WKB, of Shapely's geometries or of arrays, and not of texts.
    """
    return _pairs.pairs(CALLS[_only_areas(operation, "pairs have no edges")], a, b, Plan(grid=grid, origin=origin))


def dissolve(
    df: Frame,
    by: Any = None,
    aggfunc: Any = "first",
    as_index: bool = True,
    level: Any = None,
    sort: bool = True,
    observed: bool = False,
    dropna: bool = True,
    *,
    grid: Optional[Unit] = None,
    origin: Optional[Origin] = None,
    **kwargs: Any,
) -> Frame:
    """What GeoDataFrame.dissolve answers, on the grid: a row for each group, whose geometry is what any feature of the group covers.
    Borders that two groups share are the same points. The unit is as of `overlay`.
    """
    said = {"by": by, "aggfunc": aggfunc, "as_index": as_index, "level": level, "sort": sort, "observed": observed, "dropna": dropna}
    dissolved: Frame = _frames.dissolve(df, {**said, **kwargs}, grid, origin)
    return dissolved
