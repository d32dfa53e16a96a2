"""The proved calls of strips, from arrays to arrays: `overlay_grid.strips`."""

from __future__ import annotations

import importlib
import sys
from functools import lru_cache
from types import ModuleType
from typing import Any

from .faults import Fault
from .program import TOP

PACKAGE, NAME = "overlay_grid", "overlay_grid.strips"


@lru_cache(maxsize=None)
def strips() -> ModuleType:
    """The calls, of an installed package or of the one beside this package."""
    beside = str(TOP / "python")
    sys.path.append(beside)
    try:
        return importlib.import_module(NAME)
    except (ImportError, OSError) as error:
        raise Fault(PACKAGE, f"can't be imported, and --engine dask stands on it: {error}") from error
    finally:
        sys.path.remove(beside)


def operation(name: str) -> Any:
    """An operation, as the calls take it."""
    strips()
    return importlib.import_module(PACKAGE).Operation(name)
