"""The kinds of values that a layer may be, and answers of these kinds.

A layer is a text, or one geometry, or a list of geometries, which are its features. A geometry is WKB, one of Shapely's, or
coordinates: an array of points, which is a ring, or a tuple of such arrays, which are all rings of the geometry.
"""

from __future__ import annotations

import re
import sys
from itertools import accumulate, islice
from typing import Any, Callable, Dict, Iterable, List, Mapping, NamedTuple, Optional, Sequence, Tuple, Union

from . import _wkb
from ._calls import bytes_of
from ._faults import GeometryError, Refused
from ._grid import WHOLE, Frame
from ._optional import loaded, module
from ._shapes import POINT, Builder, Placed, Polygons, Shapes, found_in, is_closed, text_of
from ._texts import Text, placed

Answerer = Callable[[str, Frame], Any]

# The text of one geometry, as far as that tells it from none and from several.
ONE_GEOMETRY = re.compile(rb"\s*(?:multi)?polygon\b(?!.*polygon)", re.IGNORECASE | re.DOTALL)


def text_answer(text: str, frame: Frame) -> str:
    """An answer's text in the reference system's units."""
    return placed(text, frame)


def bytes_answer(text: str, frame: Frame) -> bytes:
    """The same as bytes."""
    return placed(text, frame).encode()


def wkb_of(placed: Placed) -> bytes:
    """Polygons as WKB."""
    return _wkb.encoded(*placed)


def wkb_answer(text: str, frame: Frame) -> bytes:
    """An answer as WKB."""
    return wkb_of(found_in(text).placed(frame))


def shapely_of(placed: Placed) -> Any:
    """Polygons as Shapely's geometry."""
    return module("shapely.wkb").loads(wkb_of(placed))


def shapely_answer(text: str, frame: Frame) -> Any:
    """An answer as Shapely's geometry."""
    return shapely_of(found_in(text).placed(frame))


def arrays_of(placed: Placed) -> List[Tuple[Any, ...]]:
    """Polygons as a list, each a tuple of arrays, the shell first."""
    if not placed.polygons:
        return []
    points = module("numpy").frombuffer(placed.points).reshape(-1, 2)
    at, rings = 0, []
    for count in placed.rings:
        rings.append(points[at : at + count].copy())
        at += count
    each = iter(rings)
    return [tuple(islice(each, count)) for count in placed.polygons]


def arrays_answer(text: str, frame: Frame) -> List[Tuple[Any, ...]]:
    """An answer as such a list."""
    return arrays_of(found_in(text).placed(frame))


# What makes an answer of polygons, by what makes one of their text.
OF_POLYGONS: Dict[Answerer, Callable[[Placed], Any]] = {wkb_answer: wkb_of, shapely_answer: shapely_of, arrays_answer: arrays_of}


def answer_of(answer: Answerer, polygons: Polygons, frame: Frame) -> Any:
    """An answer of polygons of the grid, whether these are a text or columns."""
    if isinstance(polygons, str):
        return answer(polygons, frame)
    made = OF_POLYGONS.get(answer)
    return made(polygons.placed(frame)) if made else answer(text_of(polygons.found()), frame)


class Given(NamedTuple):
    """A layer that was given: what it holds, what makes an answer of its kind, which a list without geometries doesn't tell, and its
    reference system: of a frame or a series one, or None."""

    held: Union[Shapes, Text]
    answer: Optional[Answerer]
    systems: Tuple[Any, ...] = ()


def is_geometry(value: Any) -> bool:
    """Whether a value is one of Shapely's geometries; where nobody imported Shapely there are none."""
    base = loaded("shapely.geometry.base", "BaseGeometry")
    return base is not None and isinstance(value, base)


def is_array(value: Any) -> bool:
    """Whether a value is an array of numpy's, or like one."""
    array = loaded("numpy", "ndarray")
    if array is not None and isinstance(value, array):
        return True
    return hasattr(value, "__array_interface__") and hasattr(value, "dtype")


def is_masked(array: Any) -> bool:
    """Whether numbers of an array are masked, so that they have no value."""
    masked = loaded("numpy", "ma")
    return masked is not None and bool(masked.is_masked(array))


def has_points(value: Any) -> bool:
    """Whether a value is an array of pairs."""
    return is_array(value) and value.ndim == 2 and value.shape[1] == 2


def told_of(value: Any) -> str:
    """What a value is that is no ring."""
    if not is_array(value):
        return f"a {type(value).__name__}"
    return f"an array of type {value.dtype}" if has_points(value) else f"an array of shape {value.shape}"


def is_bytes(value: Any) -> bool:
    """Whether a value has a buffer of bytes."""
    try:
        view = memoryview(value)
    except (TypeError, ValueError, BufferError):
        return False
    return view.itemsize == 1 and view.ndim == 1


def kind_of(value: Any) -> Optional[Answerer]:
    """What makes answers of the kind of a geometry; nothing where it is none."""
    if isinstance(value, str):
        return text_answer
    if is_bytes(value):
        return wkb_answer if _wkb.begins(bytes(memoryview(value)[: _wkb.BEGINNING])) else bytes_answer
    if is_geometry(value):
        return shapely_answer
    if is_array(value) and value.dtype.kind in "fiu":
        return arrays_answer
    is_rings = isinstance(value, tuple) and value and all(map(is_array, value))
    return arrays_answer if is_rings else None


def given(layer: Any, name: str) -> Given:
    """A layer as it was given."""
    answer = kind_of(layer)
    if answer in (text_answer, bytes_answer):
        return Given(Text(bytes_of(layer), name), answer)
    if answer is not None:
        return Given(shapes_of([layer], name), answer)
    features = list_of(layer, name)
    answer = kind_of(next((feature for feature in features if feature is not None), None))
    if answer in (text_answer, bytes_answer):
        return Given(joined_texts(features, name), answer)
    systems = systems_of(layer)
    return Given(shapes_of(features, name), answer or (shapely_answer if systems else None), systems)


def systems_of(layer: Any) -> Tuple[Any, ...]:
    """The reference system of a frame or a series, which is None where it has none; nothing of
    other lists. A table or a series of pandas may have geometries whose array has a system."""
    held = layer if has_system(layer) else getattr(getattr(layer, "geometry", layer), "array", None)
    return (held.crs,) if has_system(held) else ()


def has_system(layer: Any) -> bool:
    """Whether a layer is GeoPandas', and no table with a column that is called crs."""
    return hasattr(layer, "crs") and hasattr(layer, "to_crs")


def list_of(layer: Any, name: str) -> List[Any]:
    """The features of a layer that is a list, an array, a series or a frame of geometries."""
    if hasattr(layer, "columns"):
        if not hasattr(layer, "geometry"):
            raise TypeError(f"{name}: a {type(layer).__name__} without a column of geometries is no layer")
        layer = layer.geometry
    if is_array(layer) and (layer.ndim != 1 or layer.dtype.kind not in "OSU"):
        raise TypeError(f"{name}: an array of shape {layer.shape} and type {layer.dtype} is no layer")
    if isinstance(layer, Iterable) and not isinstance(layer, Mapping):
        return list(layer)
    raise TypeError(f"{name}: a {type(layer).__name__} is no layer")


def joined_texts(features: Iterable[Any], name: str) -> Text:
    """Texts as one layer, one after another, so that their numbers are those of the layer's geometries."""
    texts = []
    for number, feature in enumerate(features, 1):
        if feature is not None and kind_of(feature) not in (text_answer, bytes_answer):
            raise GeometryError("is no text, as the first one is", name, number)
        text = b"" if feature is None else bytes_of(feature)
        texts.append(text if text.strip() else b"POLYGON EMPTY")
        if not ONE_GEOMETRY.match(texts[-1]):
            raise GeometryError("is no text of one polygon or multipolygon", name, number)
    starts = accumulate((len(text) + 1 for text in texts[:-1]), initial=0)
    return Text(b"\n".join(texts), name, list(starts))


def shapes_of(features: Sequence[Any], name: str) -> Shapes:
    """The polygons of some geometries."""
    builder = Builder(name)
    for feature in as_wkb(features):
        if feature is None or is_bytes(feature):
            _wkb.add(None if feature is None else bytes(feature), builder)
        elif is_geometry(feature):
            _wkb.add(feature.wkb, builder)
        else:
            add_rings(feature, builder)
    return builder.shapes()


def as_wkb(features: Sequence[Any]) -> Sequence[Any]:
    """The same, all in WKB at once where all are of Shapely 2."""
    shapely: Any = sys.modules.get("shapely")
    if len(features) > 1 and hasattr(shapely, "to_wkb") and all(one is None or is_geometry(one) for one in features):
        made: List[Any] = shapely.to_wkb(features, output_dimension=2, byte_order=1).tolist()
        return made
    return features


def add_rings(feature: Any, builder: Builder) -> None:
    """Adds a geometry that is an array of points, or a tuple of such arrays; a ring that is open is closed."""
    rings = feature if isinstance(feature, tuple) else (feature,)
    for ring in rings:
        if not has_points(ring) or ring.dtype.kind not in "fiu":
            raise builder.refused(f"{told_of(ring)} is no polygon: a ring is an array of shape (n, 2), of numbers")
        if is_masked(ring):
            raise builder.refused("an array has masked numbers", 1)
        numbers = ring.astype("<f8", copy=False)
        if ring.dtype.kind in "iu" and (abs(numbers) >= WHOLE).any():
            raise builder.refused("has whole numbers from 2^53 on, of which floating-point numbers have not all", 1)
        points = numbers.tobytes()
        builder.ring(points if is_closed(points) else points + points[:POINT], 1)
    builder.feature([len(rings)])


def told_at(error: Refused, layers: Sequence[Given]) -> Refused:
    """A refusal of a layer's text on the grid, told of the text as it came."""
    for layer in layers:
        if isinstance(layer.held, Text) and layer.held.layer == error.layer and error.offset is not None:
            words = str(error).partition(": ")[2].rpartition(" at ")[0]
            return layer.held.refused(words, error.number, layer.held.place(error.offset))
    return error
