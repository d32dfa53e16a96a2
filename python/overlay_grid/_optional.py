"""Packages that a call wants where their values come, and that needn't be there else."""

from __future__ import annotations

import importlib
import sys
from functools import lru_cache
from typing import Any

# From so many numbers on, work on whole arrays is faster than one by one; and from so many on also where numpy has to be imported.
MANY = 96
IMPORTED = 1 << 16


def module(name: str) -> Any:
    """A package, which is there; where another thread is importing it, that is waited for."""
    return importlib.import_module(name)


def loaded(name: str, word: str) -> Any:
    """What an imported package has by a name; nothing where nobody imported it, or another thread
    is doing so and hasn't come that far."""
    return getattr(sys.modules.get(name), word, None)


@lru_cache(maxsize=None)
def numpy() -> Any:
    """numpy, or nothing."""
    try:
        return module("numpy")
    except ImportError:
        return None


def numpy_for(count: int) -> Any:
    """numpy for work on so many numbers, or nothing where these are few or it isn't there."""
    if count < MANY:
        return None
    return numpy() if count >= IMPORTED or "numpy" in sys.modules else None
