"""How GDAL behaves while a verb is at work. Another program that imports this package, or calls a
verb, keeps what it has set."""

from __future__ import annotations

from contextlib import contextmanager
from threading import Lock
from types import ModuleType
from typing import Iterator, Mapping

from osgeo import gdal, ogr, osr

from .messages import say

OPTIONS = {
    # Ways of some drivers beside GDAL's own to hand features over in batches: that of GeoPackage
    # takes what it can't read for no geometry, and that of FlatGeobuf doesn't end on an empty
    # layer.
    "OGR_GPKG_STREAM_BASE_IMPL": "YES",
    "OGR_FLATGEOBUF_STREAM_BASE_IMPL": "YES",
    # What is written is synced as a whole before it is put in place, so SQLite needn't wait for the
    # disk at each step.
    "OGR_SQLITE_SYNCHRONOUS": "OFF",
}

# While a file is written and read back: the encoding that is named for layers which are read isn't
# that of the file; and no text is taken for a date.
WRITING = {"SHAPE_ENCODING": "UTF-8", "OGR_GEOJSON_DATE_AS_STRING": "YES"}

_lock = Lock()
_at_work = 0  # how many verbs are, each in a thread of its own
_switched: list[ModuleType] = []  # the bindings that raise nothing where no verb is at work


@contextmanager
def raising() -> Iterator[None]:
    """Within, GDAL raises what fails. All threads have this in common, so the last one that leaves
    puts it back."""
    global _at_work
    with _lock:
        if not _at_work:
            _switched.extend(module for module in (gdal, ogr, osr) if not module.GetUseExceptions())
            for module in _switched:
                module.UseExceptions()
        _at_work += 1
    try:
        yield
    finally:
        with _lock:
            _at_work -= 1
            while not _at_work and _switched:
                _switched.pop().DontUseExceptions()  # the last one first, as GDAL 3.6 wants it


def heard(kind: int, number: int, words: str) -> None:
    """What GDAL says beside what it raises is not told, but for what CPL_DEBUG asks for."""
    if kind == gdal.CE_Debug:
        say(words)


@contextmanager
def of_a_verb() -> Iterator[None]:
    """GDAL as a verb wants it, in this thread."""
    with raising(), options(OPTIONS):
        gdal.PushErrorHandler(heard)
        try:
            yield
        finally:
            gdal.PopErrorHandler()


@contextmanager
def options(wanted: Mapping[str, str]) -> Iterator[None]:
    """Within, these options of GDAL have these values in this thread."""
    held = {name: gdal.GetThreadLocalConfigOption(name) for name in wanted}
    try:
        for name, value in wanted.items():
            gdal.SetThreadLocalConfigOption(name, value)
        yield
    finally:
        for name, value in held.items():
            gdal.SetThreadLocalConfigOption(name, value)
