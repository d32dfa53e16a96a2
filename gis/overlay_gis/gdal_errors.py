"""What GDAL raises is told as a fault; what anything else raises while GDAL is at work is not taken
for GDAL's."""

from __future__ import annotations

from contextlib import contextmanager
from typing import Callable, Iterator

from .faults import Fault


def is_gdals(error: RuntimeError) -> bool:
    """Whether a call of GDAL's bindings raised it, which are the package `osgeo`."""
    trace = error.__traceback__
    while trace is not None and trace.tb_next is not None:
        trace = trace.tb_next
    return trace is not None and str(trace.tb_frame.f_globals.get("__name__")).startswith("osgeo.")


@contextmanager
def told_as(fault: Callable[[str], Fault]) -> Iterator[None]:
    """What GDAL raises within is the fault that is made of its words."""
    try:
        yield
    except RuntimeError as error:
        if not is_gdals(error):
            raise
        raise fault(str(error)) from error


@contextmanager
def blamed_on(name: str, path: str) -> Iterator[None]:
    """What GDAL raises within is a fault of that name, in its words without the path that stands
    before them."""
    with told_as(lambda words: Fault(name, without_path(words, path))):
        yield


def without_path(words: str, path: str) -> str:
    words = words.strip() or "GDAL can't read it, and doesn't say why"
    for quoted in (f"`{path}' ", f"'{path}' ", f"{path}: "):
        if words.startswith(quoted):
            return words[len(quoted) :]
    return words
