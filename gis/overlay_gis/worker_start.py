"""What a worker of this machine's own begins with, as Dask has it do."""

from __future__ import annotations

import importlib
import os
import sys
from typing import Any

NEEDLESS = "pandas"


def told_packages() -> list[Any]:
    """The packages that Dask imports to tell their versions, where it does so."""
    found: list[Any] = getattr(importlib.import_module("distributed.versions"), "optional_packages", [])
    return found


def leave_out_needless() -> None:
    """Has Dask not tell of a package that no task needs, and whose import takes tens of megabytes."""
    told = told_packages()
    told[:] = [package for package in told if NEEDLESS not in package]


def dask_setup(worker: Any) -> None:
    """What Dask says when a worker is ended is nobody's: what is told of tasks comes as their outcomes."""
    leave_out_needless()
    nobody = os.open(os.devnull, os.O_WRONLY)
    os.dup2(nobody, sys.__stderr__.fileno() if sys.__stderr__ else 2)
    os.close(nobody)
