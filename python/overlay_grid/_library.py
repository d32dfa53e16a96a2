"""The library by ctypes: its calls, their answers and the numbers of their statuses, as include/overlay.h has them."""

from __future__ import annotations

import ctypes
import os

ANSWERED, NO_MEMORY, NO_CALL, REFUSED, SMALL = range(5)

# The version of the calls that this package makes.
CALLS = 10


class Answer(ctypes.Structure):
    """What a call answers. Fields that don't belong to the status are 0."""

    length: int
    detail: int
    status: int
    number: int
    part: int
    _fields_ = [
        ("length", ctypes.c_uint64),
        ("detail", ctypes.c_uint64),
        ("status", ctypes.c_uint32),
        ("number", ctypes.c_uint32),
        ("part", ctypes.c_uint32),
    ]


class Layer(ctypes.Structure):
    """A layer's text and its length."""

    _fields_ = [("bytes", ctypes.c_char_p), ("length", ctypes.c_size_t)]


class ColumnsAnswer(ctypes.Structure):
    """What a call on columns answers. Fields that don't belong to the status are 0."""

    coordinates: int
    rings: int
    polygons: int
    detail: int
    status: int
    number: int
    part: int
    _fields_ = [
        *((name, ctypes.c_uint64) for name in ("coordinates", "rings", "polygons", "detail")),
        *((name, ctypes.c_uint32) for name in ("status", "number", "part")),
    ]


class LayerMeasures(ctypes.Structure):
    """What became of a layer that was rounded with another one."""

    twice_area: int
    steps: int
    _fields_ = [("twice_area", ctypes.c_int64), ("steps", ctypes.c_uint64)]


class Measures(ctypes.Structure):
    """What became of both layers, and twice the area of the result. Where there is no result all is 0."""

    a: LayerMeasures
    b: LayerMeasures
    twice_area: int
    _fields_ = [("a", LayerMeasures), ("b", LayerMeasures), ("twice_area", ctypes.c_int64)]


class FacesAnswer(ctypes.Structure):
    """What a call on faces of columns answers. Fields that don't belong to the status are 0."""

    detail: int
    status: int
    number: int
    part: int
    _fields_ = [
        *((name, ctypes.c_uint64) for name in ("coordinates", "rings", "polygons", "rows", "twice_areas", "ids", "lists", "detail")),
        *((name, ctypes.c_uint32) for name in ("status", "number", "part")),
    ]


class StripAnswer(ctypes.Structure):
    """What a call on a strip answers. Fields that don't belong to the status are 0."""

    first: int
    second: int
    third: int
    detail: int
    status: int
    number: int
    part: int
    _fields_ = [
        *((name, ctypes.c_uint64) for name in ("first", "second", "third", "detail")),
        *((name, ctypes.c_uint32) for name in ("status", "number", "part")),
    ]


class Columns(ctypes.Structure):
    """A layer as columns: where each of them stands, and how many numbers it has."""

    _fields_ = [
        field
        for name in ("coordinates", "rings", "polygons", "features")
        for field in ((name, ctypes.c_void_p), (f"{name}_length", ctypes.c_size_t))
    ]


_number, _size, _place = ctypes.c_uint32, ctypes.c_size_t, ctypes.c_void_p
_text, _list = (ctypes.c_char_p, _size), (_place, _size)
_layers, _columns = (ctypes.POINTER(Layer), _size), ctypes.POINTER(Columns)
_limits = (_number, _number, ctypes.c_uint64)
_texts_filled = (*[_number] * 3, *_text * 2, *_list, _place)
_columns_filled = (*[_number] * 3, _columns, _columns, *_list * 3, _place)

# What each call takes, and what those return that return something.
_TAKEN = {
    "overlay_fill_within": _texts_filled,
    "overlay_covered_fill": _texts_filled,
    "overlay_measured_fill": (*_texts_filled, _place),
    "overlay_words": (ctypes.POINTER(Answer), *_text),
    "overlay_side": _text * 2,
    "overlay_faces_fill": (*_limits, *_layers, *_list, _place),
    "overlay_faces_side": _layers,
    "overlay_columns_fill": _columns_filled,
    "overlay_measured_columns_fill": (*_columns_filled, _place),
    "overlay_pairs_fill": (_number, _number, _columns, _columns, *_list * 4, _place),
    "overlay_columns_side": (_columns, _columns),
    "overlay_faces_columns_fill": (*_limits, _columns, _size, _place, _place),
    "overlay_faces_columns_side": (_columns, _size),
    "overlay_strip_scatter": (*_list, _number, _number, _columns, *_list * 2, _place),
    "overlay_strip_round": (*_list, _size, *_list * 4, _place),
    "overlay_strip_bridge": (*_list * 5, _place),
    "overlay_strip_edges": (*_list * 3, _place),
    "overlay_strip_labels": (_number, *_list * 3, _place),
    "overlay_strip_going_on": (*_list, _size, *_list * 3, _place),
    "overlay_strip_closed": (*_list, _size, _size, *_list * 3, _place),
    "overlay_polygons": (*_list * 4, _place),
    "overlay_strip_write": (*_list * 6, _place),
}
_RETURNED = {
    "overlay_words": _size,
    "overlay_side": _number,
    "overlay_faces_side": _number,
    "overlay_columns_side": _number,
    "overlay_faces_columns_side": _number,
}


def _opened() -> ctypes.CDLL:
    path = os.path.join(os.path.dirname(os.path.abspath(__file__)), "liboverlay.so")
    try:
        opened = ctypes.CDLL(path)
        opened.overlay_version.argtypes = []
        opened.overlay_version.restype = _number
        version = opened.overlay_version()
    except (OSError, AttributeError) as error:
        raise ImportError(f"{error} (a wheel is for x86-64 Linux; from the sources python/build makes the library)", path=path) from error
    if version != CALLS:
        raise ImportError(f"{path} has version {version} of the calls, and {CALLS} is wanted", path=path)
    for name, taken in _TAKEN.items():
        call = getattr(opened, name)
        call.argtypes, call.restype = taken, _RETURNED.get(name)
    return opened


library = _opened()

# Whether it is the proved library; the other one, of python/build --unproved, has a call that says so.
PROVED = not hasattr(library, "overlay_unproved")
