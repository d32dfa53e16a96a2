"""What calls take and answer, by the kinds of their layers: as type checkers see them."""

from __future__ import annotations

from typing import Any, Callable, Iterable, List, Optional, Protocol, Sequence, TypeVar, Union, overload

from ._answers import Face, Row
from ._calls import Operation
from ._grid import Origin, Unit
from ._measuring import Measured
from ._reading import Reading

# A layer's text, and the answer's: str, or bytes and what has a buffer of bytes. Bytes may be WKB,
# too, whose edges and faces are others than those of texts, so that their types tell of str alone.
Text = TypeVar("Text", str, bytes)
AnyText = Union[str, bytes]

Side = Optional[int]
Segments = Optional[int]
Grid = Optional[Unit]
At = Optional[Origin]


class Geometry(Protocol):
    """A geometry of Shapely's."""

    @property
    def geom_type(self) -> str: ...

    @property
    def wkb(self) -> bytes: ...


# A layer of any kind: a text or WKB, a geometry, an array of coordinates, or several geometries.
Layer = Union[str, bytes, Geometry, Iterable[Any]]


class AnyFrame(Protocol):
    """A data frame of GeoPandas."""

    @property
    def columns(self) -> Any: ...

    @property
    def geometry(self) -> Any: ...


Frame = TypeVar("Frame", bound=AnyFrame)


class OnLayers(Protocol):
    """An operation on two layers."""

    __name__: str

    @overload
    def __call__(
        self, a: Text, b: AnyText, side: Side = None, segments: Segments = None, *, grid: Grid = None, origin: At = None, reading: Reading = ...
    ) -> Text: ...

    @overload
    def __call__(
        self, a: Layer, b: Layer, side: Side = None, segments: Segments = None, *, grid: Grid = None, origin: At = None, reading: Reading = ...
    ) -> Any: ...


class Overlaying(Protocol):
    """An operation that is named, on two layers, or one on two frames."""

    @overload
    def __call__(
        self,
        operation: Operation,
        a: Text,
        b: AnyText,
        side: Side = None,
        segments: Segments = None,
        *,
        grid: Grid = None,
        origin: At = None,
        reading: Reading = ...,
    ) -> Text: ...

    @overload
    def __call__(
        self,
        operation: Operation,
        a: Layer,
        b: Layer,
        side: Side = None,
        segments: Segments = None,
        *,
        grid: Grid = None,
        origin: At = None,
        reading: Reading = ...,
    ) -> Any: ...

    @overload
    def __call__(
        self,
        df1: Frame,
        df2: AnyFrame,
        how: str = "intersection",
        keep_geom_type: Optional[bool] = None,
        make_valid: bool = True,
        *,
        grid: Grid = None,
        origin: At = None,
    ) -> Frame: ...


class OnEdges(Protocol):
    """The edges of two layers."""

    @overload
    def __call__(self, a: str, b: AnyText, side: Side = None, segments: Segments = None, *, grid: Grid = None, origin: At = None) -> str: ...

    @overload
    def __call__(self, a: Layer, b: Layer, side: Side = None, segments: Segments = None, *, grid: Grid = None, origin: At = None) -> Any: ...


class Measuring(Protocol):
    """An operation that is named, with areas."""

    @overload
    def __call__(
        self,
        operation: Union[Operation, str],
        a: Text,
        b: AnyText,
        side: Side = None,
        segments: Segments = None,
        *,
        grid: Grid = None,
        origin: At = None,
        reading: Reading = ...,
    ) -> Measured[Text]: ...

    @overload
    def __call__(
        self,
        operation: Union[Operation, str],
        a: Layer,
        b: Layer,
        side: Side = None,
        segments: Segments = None,
        *,
        grid: Grid = None,
        origin: At = None,
        reading: Reading = ...,
    ) -> Measured[Any]: ...


class OnFaces(Protocol):
    """The faces of layers."""

    @overload
    def __call__(self, a: str, *more: str, side: Side = None, segments: Segments = None) -> List[Row]: ...

    @overload
    def __call__(self, a: Layer, *more: Layer, side: Side = None, segments: Segments = None, grid: Unit, origin: At = None) -> List[Face]: ...

    @overload
    def __call__(self, a: Layer, *more: Layer, side: Side = None, segments: Segments = None, grid: Grid = None, origin: At = None) -> List[Any]: ...


class OnPairs(Protocol):
    """An operation that is named, on pairs of geometries."""

    @overload
    def __call__(
        self, operation: Union[Operation, str], a: Union[bytes, Sequence[bytes]], b: Layer, *, grid: Grid = None, origin: At = None
    ) -> List[bytes]: ...

    @overload
    def __call__(self, operation: Union[Operation, str], a: Layer, b: Layer, *, grid: Grid = None, origin: At = None) -> Any: ...


def overlaying(call: Callable[..., Any]) -> Overlaying:
    """The call, whose types are these, as below."""
    return call


def on_edges(call: Callable[..., Any]) -> OnEdges:
    return call


def measuring(call: Callable[..., Any]) -> Measuring:
    return call


def on_faces(call: Callable[..., Any]) -> OnFaces:
    return call


def on_pairs(call: Callable[..., Any]) -> OnPairs:
    return call
